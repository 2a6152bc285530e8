"""A tester on a live bus of python-can (the extra `hidzgula[can]`): it asks, clears and commands, and answers what came of it."""

import threading
import time
from typing import Any, Optional

from .candump import is_overflow
from .live import LiveStation
from .records import Delivery, Sent, Verdict
from .refusals import Refused
from .saving import Saved, read
from .station import Octets

_LOOKS = 20_000


class Tester(LiveStation):
    """A station that a thread of its own puts on a bus of python-can, from its making to its close; each order is waited for.

        with can.Bus("can0", interface="socketcan") as bus, Tester(bus, name=0x10000000000000FA, address=249) as tester:
            verdict = tester.ask(0x1000000001419907, DM2)
            print(verdict.finding.name, verdict.message)

    The thread reads the bus, so that it is handed to nobody else: a program that listens too opens the bus a second time. Orders of several threads go one
    after the other.
    """

    def __init__(self, bus: Any, name: int, address: int, *, _saved: Optional[Saved] = None, **settings: Any) -> None:
        """bus: on which it is. name, address, settings: as `LiveStation` has them, and raises."""
        import can

        if not callable(getattr(bus, "send", None)) or not callable(getattr(bus, "recv", None)):
            raise TypeError(f"bus is a bus of python-can, and not {bus!r}")
        super().__init__(name, address, **settings)
        if _saved is not None:
            self._hear_saved(_saved.frames, _now())
        self.error: Optional[BaseException] = None
        """What ended its thread, as an error of the bus."""
        self.unheard = 0
        """Frames that it did not hear, since as much waited as there is room for."""
        self._can = can
        self._bus = bus
        self._ended = threading.Event()
        self._ordering, self._sending = threading.Lock(), threading.Lock()
        self._told = threading.Condition()
        self._thread = threading.Thread(target=self._run, name=f"tester {name:016X}", daemon=True)
        self._thread.start()

    @classmethod
    def restore(cls, bus: Any, saved: Octets, **settings: Any) -> "Tester":  # type: ignore[override]
        """Puts one on a bus that knows what another one saved, as `LiveStation.restore` has it, and raises."""
        it = read(True, saved)
        return cls(bus, it.name, it.address, keep=it.keep, _saved=it, **settings)

    def close(self) -> None:
        """Ends its thread, and closes the station; an order that another thread waits for is cut off. The bus stays open. Closing twice does nothing."""
        self._ended.set()
        if self._thread is not threading.current_thread():
            self._thread.join()
        super().close()

    def __exit__(self, kind: object = None, *_: object) -> None:
        """Closes it. Raises what ended its thread, unless something was raised already."""
        self.close()
        if self.error is not None and kind is None:
            raise self.error

    def ask(self, name: int, what: int) -> Verdict:  # type: ignore[override]
        """Asks the unit of a NAME for a message, DM1, DM2 or DM6, or for its claim, PGN_ADDRESS_CLAIMED, and answers what came of it: after 4 s at most
        where nothing comes, and 60 s an answer at most.

        Raises Refused NO_GROUP for any other group, NO_STATION; and what the bus raised.
        """
        return self._waited(super().ask, name, what)

    def ask_all(self, what: int) -> Verdict:  # type: ignore[override]
        """Asks all units for it.

        Raises Refused NO_GROUP, NO_STATION; and what the bus raised.
        """
        return self._waited(super().ask_all, what)

    def clear(self, name: int, pgn: int) -> Verdict:  # type: ignore[override]
        """Has the unit of a NAME clear, by PGN_DM3 or PGN_DM11, and asks it what is left.

        Raises Refused NO_GROUP for any other group, NO_STATION; and what the bus raised.
        """
        return self._waited(super().clear, name, pgn)

    def command(self, name: int, address: int) -> Verdict:  # type: ignore[override]
        """Commands the unit of a NAME to hold an address, 0 to 253.

        Raises Refused NO_STATION, NOT_AN_ADDRESS; and what the bus raised.
        """
        return self._waited(super().command, name, address)

    def send(self, to: Optional[int] = None, pgn: Any = None, data: Octets = b"", *, name: Optional[int] = None) -> Sent:
        """Sends a message of a group that is shared, to an address, to all (255), or to the unit of a NAME, and answers what came of it: after the
        receiver's last word, or 1.25 s behind the one before. Where the tester is closed meanwhile it was cut off.

        Raises what `LiveStation.send` does, but for SESSION_OPEN while another message is; and what the bus raised.
        """
        with self._sending:
            super().send(to, pgn, data, name=name)
            with self._told:
                self._told.wait_for(lambda: self._ended.is_set() or self.error is not None or self._came() is not None)
            if self.error is not None:
                raise self.error
            return self._came() or Sent(Delivery.CUT_OFF)

    def _came(self) -> Optional[Sent]:
        """What came of the newest message; None while it is under way, and where the station is closed."""
        try:
            sent = self.sent
        except Refused:
            return None
        return sent if sent.delivery != Delivery.OPEN else None

    def _waited(self, order: Any, *words: int) -> Verdict:
        """Gives an order, and waits for its verdict."""
        with self._ordering:
            order(*words)
            with self._told:
                self._told.wait_for(lambda: not self.is_open or not self._thread.is_alive())
            if self.error is not None:
                raise self.error
            if self.is_open:
                self.end(_now())
            verdict = self.verdict
        assert verdict is not None
        return verdict

    def _run(self) -> None:
        try:
            while not self._ended.is_set():
                self._take_turn()
            self.end(_now())
        except BaseException as error:  # it is raised where the tester is left
            self.error = error
        finally:
            with self._told:
                self._told.notify_all()

    def _take_turn(self) -> None:
        """Writes what goes now, and reads until something may go."""
        now = _now()
        while (frame := self.next(now)) is not None:
            self._bus.send(self._can.Message(arbitration_id=frame.id, data=frame.data, is_extended_id=True))
        at = self.when(now)
        self._read(min(_LOOKS, _LOOKS if at is None else at - now) / 1_000_000)
        with self._told:
            self._told.notify_all()

    def _read(self, seconds: float) -> None:
        """Reads a message, if one comes within a time."""
        msg = self._bus.recv(seconds)
        if msg is None or msg.is_remote_frame or msg.is_fd:
            return
        if msg.is_error_frame:
            if is_overflow(msg.arbitration_id, bytes(msg.data)):
                self.missed(1, _now())
            return
        if not msg.is_extended_id:
            return
        try:
            self.hear(msg.arbitration_id, bytes(msg.data), _now())
        except Refused as refused:
            if refused.name != "QUEUE_FULL":
                raise
            self.unheard += 1


def _now() -> int:
    return time.monotonic_ns() // 1000
