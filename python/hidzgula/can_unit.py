"""A simulated unit on a live bus of python-can (the extra `hidzgula[can]`)."""

import threading
import time
from typing import Any, Optional

import can

from .refusals import Refused
from .simulated import SimulatedUnit

_LOOKS = 20_000


class CanUnit(SimulatedUnit):
    """A simulated unit that a thread of its own puts on a bus of python-can, from its making to its close.

        with can.Bus("can0", interface="socketcan") as bus, CanUnit(bus, name=0x1000000001419907, address=128) as unit:
            unit.set(110, 0)
            time.sleep(10)

    The thread reads the bus, so that it is handed to nobody else: a program that listens too opens the bus a second time. What is set is looked at
    within 20 ms.
    """

    def __init__(self, bus: can.BusABC, name: int, address: int, **settings: Any) -> None:
        """bus: on which it is. name, address, settings: as `SimulatedUnit` has them, and raises."""
        if not callable(getattr(bus, "send", None)) or not callable(getattr(bus, "recv", None)):
            raise TypeError(f"bus is a bus of python-can, and not {bus!r}")
        super().__init__(name, address, **settings)
        self.error: Optional[BaseException] = None
        """What ended its thread, as an error of the bus."""
        self.unheard = 0
        """Frames that it did not hear, since as much waited as there is room for."""
        self._bus = bus
        self._ended = threading.Event()
        self._thread = threading.Thread(target=self._run, name=f"unit {name:016X}", daemon=True)
        self._thread.start()

    def close(self) -> None:
        """Ends its thread, and closes the unit; the bus stays open. Closing twice does nothing."""
        self._ended.set()
        if self._thread is not threading.current_thread():
            self._thread.join()
        super().close()

    def __exit__(self, kind: object = None, *_: object) -> None:
        """Closes it. Raises what ended its thread, unless something was raised already."""
        self.close()
        if self.error is not None and kind is None:
            raise self.error

    def _run(self) -> None:
        try:
            while not self._ended.is_set():
                self._take_turn()
        except BaseException as error:  # it is raised where the unit is left
            self.error = error

    def _take_turn(self) -> None:
        """Writes what goes now, and reads until something may be due."""
        now = time.monotonic_ns() // 1000
        while (frame := self.next(now)) is not None:
            self._bus.send(can.Message(arbitration_id=frame.id, data=frame.data, is_extended_id=True))
        at = self.when(now)
        msg = self._bus.recv(min(_LOOKS, _LOOKS if at is None else at - now) / 1_000_000)
        if msg is None or not msg.is_extended_id or msg.is_remote_frame or msg.is_error_frame or msg.is_fd:
            return
        try:
            self.hear(msg.arbitration_id, bytes(msg.data), time.monotonic_ns() // 1000)
        except Refused as refused:
            if refused.name != "QUEUE_FULL":
                raise
            self.unheard += 1
