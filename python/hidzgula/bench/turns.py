"""Threads that take turns with a bench: of them and the bench one runs at a time, so that a run is the same each time."""

import threading
import time
from typing import Any, Callable, List, Optional, Sized

PATIENCE = 10.0
"""Seconds of the real clock that a thread may take over one turn."""
_GLANCE = 0.05


class BenchClosed(BaseException):
    """Raised where a program waits on a bench that is closed; it ends the program's thread."""


class Sleeper:
    """A thread that waits for a moment of the bench, or for what comes to a queue."""

    def __init__(self, thread: threading.Thread, is_program: bool) -> None:
        self.thread = thread
        self.is_program = is_program
        """Whether the bench started it; else it is a thread of the user's, as that of a Notifier."""
        self.until: Optional[int] = None
        self.queue: Optional[Sized] = None
        self.is_asleep = False
        self.error: Optional[BaseException] = None

    def due(self, now: int) -> Optional[int]:
        """The moment at which it goes on, if one is known."""
        if not self.is_asleep:
            return None
        return now if self.queue else self.until


class Turns:
    """The threads that wait for one bench."""

    def __init__(self, patience: float = PATIENCE) -> None:
        """patience: seconds of the real clock that a thread may take over one turn."""
        self.patience = patience
        self._changed = threading.Condition()
        self._sleepers: List[Sleeper] = []
        self._is_closed = False

    def start(self, call: Callable[..., object], words: Any, now: int) -> threading.Thread:
        """Starts a program in a thread of its own, which has its first turn at `now`."""

        def run() -> None:
            try:
                self.wait(now, None, None)
                call(*words)
            except BenchClosed:
                pass
            except BaseException as error:  # the bench raises it where the test stands
                sleeper.error = error

        thread = threading.Thread(target=run, name=getattr(call, "__qualname__", str(call)), daemon=True)
        sleeper = Sleeper(thread, True)
        sleeper.until, sleeper.is_asleep = now, True
        self._sleepers.append(sleeper)
        thread.start()
        return thread

    def wait(self, until: Optional[int], queue: Optional[Sized], real: Optional[float]) -> None:
        """Waits in the thread that calls, which is not the bench's, for a moment or for what comes to a queue; None for no moment.

        real: of a thread that the bench did not start, the most seconds of the real clock.
        """
        with self._changed:
            sleeper = self._sleeper_here()
            if self._is_closed:
                if sleeper.is_program:
                    raise BenchClosed
                self._changed.wait(_GLANCE)
                return
            sleeper.until, sleeper.queue, sleeper.is_asleep = until, queue, True
            self._changed.notify_all()
            self._changed.wait_for(lambda: not sleeper.is_asleep or self._is_closed, None if sleeper.is_program else real)
            sleeper.is_asleep = False
            if self._is_closed and sleeper.is_program:
                raise BenchClosed

    def moment(self, now: int) -> Optional[int]:
        """The next moment at which one of them goes on."""
        return min((at for at in (sleeper.due(now) for sleeper in self._sleepers) if at is not None), default=None)

    def give(self, now: int) -> bool:
        """Gives a turn to the first one that is due, and waits until it waits again or has ended. Tells whether one was.

        Raises what its program raised; a RuntimeError for a program that does not come back within `patience`.
        """
        for sleeper in self._sleepers:
            at = sleeper.due(now)
            if at is not None and at <= now:
                self._give(sleeper)
                return True
        return False

    def close(self) -> None:
        """Ends all programs."""
        with self._changed:
            self._is_closed = True
            self._changed.notify_all()
        for sleeper in self._sleepers:
            if sleeper.is_program:
                sleeper.thread.join(1.0)
        self._sleepers.clear()

    def _give(self, sleeper: Sleeper) -> None:
        with self._changed:
            sleeper.is_asleep = False
            self._changed.notify_all()
            latest = time.monotonic() + self.patience
            while not sleeper.is_asleep and sleeper.thread.is_alive() and time.monotonic() < latest:
                self._changed.wait(_GLANCE)
        if not sleeper.thread.is_alive():
            self._sleepers.remove(sleeper)
        if sleeper.error is not None:
            raise sleeper.error
        if sleeper.is_program and not sleeper.is_asleep and sleeper.thread.is_alive():
            raise RuntimeError(
                f"{sleeper.thread.name} took more than {self.patience:g} s of the real clock over a turn: it waits by recv with a timeout, or by the sleep "
                "of the bench, and by no other clock"
            )

    def _sleeper_here(self) -> Sleeper:
        """That of the thread that calls."""
        here = threading.current_thread()
        for sleeper in self._sleepers:
            if sleeper.thread is here:
                return sleeper
        sleeper = Sleeper(here, False)
        if not self._is_closed:
            self._sleepers.append(sleeper)
        return sleeper
