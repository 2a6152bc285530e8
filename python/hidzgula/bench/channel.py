"""The program under test on a bench's bus: a bus as python-can's BusABC has it; where python-can is installed one of its own kind."""

import collections
from typing import TYPE_CHECKING, Any, Callable, Deque, List, Optional, Sequence, Type, Union

from .members import BusFrame, Member, checked

if TYPE_CHECKING:
    from .bus import Bench, Timer

OnMessage = Callable[[Any], object]


class Message:
    """A message with the names that python-can's has, for where that is not installed."""

    def __init__(
        self, timestamp: float = 0.0, arbitration_id: int = 0, is_extended_id: bool = True, is_remote_frame: bool = False, is_error_frame: bool = False,
        channel: Optional[str] = None, dlc: Optional[int] = None, data: Sequence[int] = b"", is_fd: bool = False, is_rx: bool = True
    ) -> None:  # fmt: skip
        """timestamp: seconds. arbitration_id: 29 bits, or 11 without `is_extended_id`. data: 0 to 8 bytes."""
        self.timestamp, self.arbitration_id, self.data = timestamp, arbitration_id, bytearray(data)
        self.is_extended_id, self.is_remote_frame, self.is_error_frame = is_extended_id, is_remote_frame, is_error_frame
        self.channel, self.dlc, self.is_fd, self.is_rx = channel, len(self.data) if dlc is None else dlc, is_fd, is_rx

    def __repr__(self) -> str:
        return f"<Message {self.timestamp:.6f} {self.arbitration_id:X}#{self.data.hex().upper()}>"


class Cyclic:
    """Messages that a channel sends again and again, by the bench's clock: the task of python-can's `send_periodic`."""

    def __init__(
        self, channel: "Channel", messages: Sequence[Any], period: float, duration: Optional[float], modify: Optional[OnMessage] = None
    ) -> None:
        """period, duration: seconds of the bench. modify: is called with each message before it is sent."""
        self.messages = list(messages)
        self.period = period
        self._channel, self._duration, self._modify, self._place = channel, duration, modify, 0
        self._timer: Optional["Timer"] = None

    def start(self) -> None:
        """Sends the first one now, and starts anew."""
        self.stop()
        bench = self._channel.bench
        self._until = None if self._duration is None else bench.now + round(self._duration * 1_000_000)
        self._timer = bench.every(self.period, self._send, first=0.0)

    def stop(self, *_: object) -> None:
        """Sends no more."""
        if self._timer is not None:
            self._timer.cancel()

    def modify_data(self, messages: Union[Any, Sequence[Any]]) -> None:
        """Sends these from now on."""
        self.messages = list(messages) if isinstance(messages, Sequence) else [messages]

    def _send(self) -> None:
        if self._until is not None and self._channel.bench.now > self._until:
            self.stop()
            return
        msg = self.messages[self._place % len(self.messages)]
        self._place += 1
        if self._modify is not None:
            self._modify(msg)
        self._channel.send(msg)


class Channel(Member):
    """A bus for the program under test: `send`, `recv`, `send_periodic`, `shutdown` as python-can's BusABC has them, by the bench's clock.

    In the test's thread `recv` runs the bench until a message comes or its timeout passes. A program that was started by `Bench.start` waits there
    meanwhile. Any other thread, as that of a Notifier, waits so too, for its timeout in seconds of the real clock at most; the bench goes on when it has
    come back for the next message. `add_listener` has a function called at the moment of each message instead.
    """

    message_class: Type[Any] = Message

    def __init__(self, bench: "Bench", called: str, receive_own_messages: bool = False) -> None:
        self.bench = bench
        self.called = self.channel_info = called
        self.receive_own_messages = receive_own_messages
        self._received: Deque[Any] = collections.deque()
        self._waiting: Deque[BusFrame] = collections.deque()
        self._listeners: List[OnMessage] = []
        self._cyclic: List[Cyclic] = []
        self._is_shut = False

    # ---- the program's side

    def send(self, msg: Any, timeout: Optional[float] = None) -> None:
        """Sends a message: it goes into arbitration from now on, behind those that wait already.

        Raises a ValueError for remote, error and FD frames, more than 8 bytes, an identifier beyond its bits, and a channel that was shut down.
        """
        if self._is_shut:
            raise ValueError(f"{self.called} was shut down")
        if msg.is_remote_frame or msg.is_error_frame or msg.is_fd:
            raise ValueError("a bench carries data frames of CAN 2.0: no remote, error or FD frames")
        self._waiting.append(checked(msg.arbitration_id, msg.data, bool(msg.is_extended_id)))

    def recv(self, timeout: Optional[float] = None) -> Optional[Any]:
        """The next message, or None where none came in `timeout` seconds of the bench; without a timeout one is waited for.

        Raises a RuntimeError where time stands: in a function that the bench calls, with a timeout; or where nothing is due any more, without one.
        """
        if not self._received and timeout != 0:
            self.bench.wait_on(self._received, timeout)
        return self._received.popleft() if self._received else None

    def _recv_internal(self, timeout: Optional[float]) -> Any:
        return self.recv(timeout), True

    def send_periodic(self, msgs: Any, period: float, duration: Optional[float] = None, store_task: bool = True, *more: Any, **named: Any) -> Any:
        """Sends a message, or several by turns, each `period` seconds of the bench, for `duration` seconds or until its task is stopped."""
        return self._send_periodic_internal(msgs if isinstance(msgs, Sequence) else [msgs], period, duration, *more, **named)

    def _send_periodic_internal(
        self, msgs: Any, period: float, duration: Optional[float] = None, autostart: bool = True, modifier_callback: Optional[OnMessage] = None
    ) -> Any:
        cyclic = Cyclic(self, msgs, period, duration, modifier_callback)
        self._cyclic.append(cyclic)
        if autostart:
            cyclic.start()
        return cyclic

    def add_listener(self, listener: OnMessage) -> None:
        """Has a function, or a Listener of python-can, called with each message at its moment, in the thread that runs the bench."""
        if not callable(listener):
            raise TypeError(f"a listener is a function, or a Listener of python-can, and not {listener!r}")
        self._listeners.append(listener)

    def flush_tx_buffer(self) -> None:
        """Withdraws what waits to be sent."""
        self._waiting.clear()

    def shutdown(self) -> None:
        """Ends cyclic messages; nothing is sent or received any more."""
        self._is_shut = True
        for cyclic in self._cyclic:
            cyclic.stop()
        self._waiting.clear()

    def __enter__(self) -> Any:
        return self

    def __exit__(self, *_: object) -> None:
        self.shutdown()

    # ---- the bus's side

    def offered(self, now: int) -> Optional[BusFrame]:
        return self._waiting[0] if self._waiting else None

    def written(self, now: int) -> None:
        self._waiting.popleft()

    def ended(self, frame: BusFrame, now: int) -> None:
        if self.receive_own_messages:
            self._take(frame, now, False)

    def heard(self, frame: BusFrame, now: int) -> None:
        if not self._is_shut:
            self._take(frame, now, True)

    def close(self) -> None:
        self.shutdown()

    def _take(self, frame: BusFrame, now: int, is_rx: bool) -> None:
        msg = self.message_class(
            timestamp=now / 1_000_000, arbitration_id=frame.id, is_extended_id=frame.is_extended, data=frame.data, is_rx=is_rx, channel=self.called
        )
        if not self._is_wanted(msg):
            return
        if not self._listeners:
            self._received.append(msg)
        for listener in self._listeners:
            listener(msg)

    def _is_wanted(self, msg: Any) -> bool:
        return True


def channel_class() -> Type[Channel]:
    """The kind of a channel: a BusABC of python-can where that is installed."""
    try:
        from .over_can import CanChannel
    except ImportError:
        return Channel
    return CanChannel
