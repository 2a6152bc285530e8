"""A device under test that is a function: of the frame that it hears, and of the time."""

import collections
import collections.abc
from typing import TYPE_CHECKING, Callable, Deque, Iterable, Optional, Tuple, Union

from ..records import Frame
from .members import BusFrame, Member, checked, frame_of_text

if TYPE_CHECKING:
    from .bus import Bench, Timer

Sent = Union[str, Frame, BusFrame, Tuple[int, bytes]]
"""A frame: in candump's words, or its identifier (29 bits) and its bytes."""
Heard = Callable[[Optional[BusFrame], float], Optional[Iterable[Sent]]]
"""What a device sends at a frame that it hears, or without one, and the seconds of the bench."""

_WANTED = "none: wanted is a list of frames, each as 18FECA80#04FF or (0x18FECA80, bytes)"


class Device(Member):
    """A device on a bench's bus; `Bench.device` makes it."""

    def __init__(self, bench: "Bench", heard: Heard, called: str) -> None:
        self.called = called
        self._bench, self._heard = bench, heard
        self._waiting: Deque[BusFrame] = collections.deque()
        self.turns: Optional["Timer"] = None
        """Its calls without a frame."""

    def send(self, *frames: Sent) -> None:
        """Sends frames of its own accord: they go into arbitration from now on, behind those that wait already.

        Raises a ValueError for what is no frame.
        """
        self._waiting.extend(map(_frame_of, frames))

    def turn(self) -> None:
        """Calls it without a frame."""
        self._answer(None, self._bench.time())

    def _answer(self, frame: Optional[BusFrame], time: float) -> None:
        answer = self._heard(frame, time)
        if answer is not None:
            self.send(*_several(answer))

    # ---- the bus's side

    def offered(self, now: int) -> Optional[BusFrame]:
        return self._waiting[0] if self._waiting else None

    def written(self, now: int) -> None:
        self._waiting.popleft()

    def heard(self, frame: BusFrame, now: int) -> None:
        self._answer(frame, now / 1_000_000)

    def close(self) -> None:
        if self.turns is not None:
            self.turns.cancel()
        self._waiting.clear()


def _several(answer: Iterable[Sent]) -> Iterable[Sent]:
    if isinstance(answer, str) or not isinstance(answer, collections.abc.Iterable):
        raise ValueError(f"a device answers {answer!r}, which is {_WANTED}")
    return answer


def _frame_of(frame: Sent) -> BusFrame:
    if isinstance(frame, str):
        return frame_of_text(frame)
    try:
        return checked(*frame)
    except TypeError:
        raise ValueError(f"a device answers {frame!r} among its frames, which is {_WANTED}") from None
