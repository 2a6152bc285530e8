"""A bus in one process, whose time is handed in."""

import collections
import heapq
import itertools
import math
import threading
from typing import Any, Callable, Deque, Dict, Iterator, List, NamedTuple, Optional, Sized, Tuple, TypeVar, Union

from .. import PGN_ADDRESS_CLAIMED
from ..listener import Listener, Whose
from ..records import Frame, Kind, Message, What, Who
from ..station import number_of
from .channel import Channel, channel_class
from .device import Device, Heard
from .members import BenchStation, BenchUnit, BusFrame, Hand, Member, checked, frame_of_text, is_packet
from .since import Since, again, noted
from .turns import PATIENCE, Turns

MOST_AT_ONE_MOMENT = 10_000
"""The most frames, calls and turns at one moment: more are members that answer each other without end."""
LONGEST_WAIT = 3600.0
"""Seconds of the bench that a `recv` without a timeout waits in the test's thread."""
M = TypeVar("M", bound=Member)


class Put(NamedTuple):
    """A frame that was put on a bench's bus."""

    time: int
    """Microseconds."""
    frame: BusFrame
    by: str
    """Who put it, in words."""

    def __str__(self) -> str:
        return f"({self.time // 1_000_000:010}.{self.time % 1_000_000:06}) bench {self.frame}"


class Timer:
    """A call that the bench owes."""

    def __init__(self, at: int, period: Optional[int], call: Callable[[], object]) -> None:
        self.at, self.period, self.call = at, period, call
        self.is_cancelled = False

    def cancel(self) -> None:
        """It is called no more."""
        self.is_cancelled = True


class Bench:
    """A bus of SAE J1939 in one process: simulated units, stations, a listener, and channels for programs under test. It has no clock and never sleeps:
    `run` hands its members the moments at which something is due, one after the other, so an hour takes what its frames take.

    Frames are put in the order of their moments, at one moment those with the lowest identifier first (arbitration of CAN 2.0), of equal ones that of
    the member who came first. A frame takes no time, or with a bit rate that of its bits without stuff bits, at whose end it is heard. There is no error
    on the wire.

        with Bench() as bench:
            unit, station = bench.unit(name=0x1000000001419907, address=128), bench.station()
            unit.set(110, 0)
            bench.run(seconds=1)
            print(station.newest(unit.name, DM1))
    """

    def __init__(
        self, *, bitrate: Optional[int] = None, now: int = 0, keep: Optional[int] = None, frames: int = 1000, patience: float = PATIENCE
    ) -> None:
        """bitrate: bits a second, 1,000 to 1,000,000, as 250,000 (SAE J1939-11); None where a frame takes no time.
        now: its first moment in microseconds, 0 to 2^62.
        keep: of each list of its listener the newest so many messages are kept, 0 to 2^32 - 1; None for all.
        frames: so many of the frames that were put last are kept, from 1 on.
        patience: seconds of the real clock that a program under test may take over one turn.
        """
        if bitrate is not None and not 1_000 <= bitrate <= 1_000_000:
            raise ValueError(f"bitrate is {bitrate}, and may be 1,000 to 1,000,000 bits a second")
        self._now = number_of("now", now, 2**62)
        self._bitrate = bitrate
        self._under_way: Optional[Tuple[int, BusFrame, Member]] = None
        self.listener = Listener(keep=keep)
        """Who hears all, between any two addresses."""
        self.frames: Deque[Put] = collections.deque(maxlen=max(1, number_of("frames", frames, 2**31)))
        """The frames that were put last, the oldest first."""
        self.count = 0
        """How many frames were put."""
        self._hand = Hand()
        self._members: List[Member] = [self._hand]
        self._since: Dict[Tuple[Who, Kind], Since] = {}
        # the frame that was a unit's newest message of a kind
        self._told: Dict[Tuple[Who, Kind], Optional[BusFrame]] = {}
        self._timers: List[Tuple[int, int, Timer]] = []
        self._order = itertools.count()
        self._turns = Turns(patience)
        self._thread = threading.current_thread()
        self._is_running = self._is_closed = False

    def __enter__(self) -> "Bench":
        return self

    def __exit__(self, *_: object) -> None:
        self.close()

    def __repr__(self) -> str:
        return f"<hidzgula.bench.Bench at {self.time():.6f} s, {len(self._members) - 1} members, {self.count} frames>"

    def close(self) -> None:
        """Ends programs, and closes units, stations, channels and the listener. Closing twice does nothing."""
        if self._is_closed:
            return
        self._is_closed = True
        self._turns.close()
        for member in self._members:
            member.close()
        self.listener.close()

    # ---- who takes part

    def unit(self, name: Optional[int] = None, address: Optional[int] = None, **settings: Any) -> BenchUnit:
        """Adds a simulated unit, which claims its address now.

        name: its NAME, 64 bits, which no other member has; address: 0 to 253, which another one may have: the lower NAME gets it.
        settings: as `SimulatedUnit` has them: gap, settle, always, guarded.

        Raises a ValueError for a unit without NAME or address, and for a NAME that is taken; and what `SimulatedUnit` raises.
        """
        return self._added(BenchUnit(self, *self._place("unit", name, address), **settings))

    def station(self, name: int = 1, address: int = 249, **settings: Any) -> BenchStation:
        """Adds a station, which claims its address now, and asks all units for theirs.

        name: its NAME, 64 bits, which no other member has; address: 0 to 253. settings: as `Station` has them: grant, keep.

        Raises a ValueError for a NAME that is taken; and what `Station` raises.
        """
        station = self._added(BenchStation(self, *self._place("station", name, address), **settings))
        station.start(PGN_ADDRESS_CLAIMED)
        return station

    def channel(self, called: Optional[str] = None, receive_own_messages: bool = False) -> Any:
        """Adds a bus for a program under test, as `can.Bus(..)` of python-can makes it: a BusABC where that is installed, else one with the same calls.

        called: what the bench calls it. receive_own_messages: whether it also receives what was sent by it, with `is_rx` False.
        """
        self._look_open()
        number = sum(isinstance(member, Channel) for member in self._members) + 1
        return self._added(channel_class()(self, called or f"channel {number}", receive_own_messages))

    def device(self, heard: Heard, each: Optional[float] = None, called: Optional[str] = None) -> Device:
        """Adds a device under test that is a function: `heard(frame, time)` is called with each frame of the bus, at its moment, and answers the frames that
        it sends, each as `18FECA80#04FF` or as its identifier and bytes.

        each: then it is also called without a frame, with None, when the bench runs next, and from then on each so many seconds. called: what the bench
        calls it.

        Raises a ValueError for a period of nothing. What `heard` raises, `run` raises, and a ValueError where it answers what is no frame.
        """
        self._look_open()
        number = sum(isinstance(member, Device) for member in self._members) + 1
        device = Device(self, heard, called or f"device {number}")
        if each is not None:
            device.turns = self.every(each, device.turn, first=0.0)
        return self._added(device)

    def unplug(self, member: Member) -> None:
        """Takes a unit, a station, a channel or a device off the bus, without a word. Raises a ValueError for one that is not on it."""
        if member not in self._members or member is self._hand:
            raise ValueError(f"{member!r} is not on this bus")
        self._members.remove(member)
        member.close()

    def _place(self, what: str, name: Optional[int], address: Optional[int]) -> Tuple[int, int]:
        self._look_open()
        if name is None:
            raise ValueError(f"a {what} needs a NAME of 64 bits: {what}(name=0x1000000001419907, address=128)")
        name = number_of("name", name, 2**64 - 1)
        if address is None:
            raise ValueError(f"a {what} needs an address, 0 to 253: {what}(name=0x{name:016X}, address=128)")
        for member in self._members:
            if getattr(member, "name", None) == name:
                raise ValueError(f"the NAME {name:016X} is taken, by {member!r}: no two units of a bus have one NAME (SAE J1939-81)")
        return name, address

    def _added(self, member: M) -> M:
        self._members.append(member)
        return member

    # ---- its time

    @property
    def now(self) -> int:
        """Its moment, in microseconds."""
        return self._now

    def time(self) -> float:
        """Its moment in seconds, in place of `time.monotonic` of a program under test."""
        return self._now / 1_000_000

    def sleep(self, seconds: float) -> None:
        """Waits so many seconds of the bench, in place of `time.sleep` of a program under test; in the test's thread it runs the bench."""
        if threading.current_thread() is self._thread:
            self.run(seconds=seconds)
        else:
            self._turns.wait(self._now + micros_of(seconds), None, seconds)

    def run(self, seconds: Optional[float] = None, *, until: Optional[float] = None) -> None:
        """Runs the bus for so many seconds, or until that second of the bench; what is due at the last moment is done. With `seconds=0` what is due now.

        Raises a ValueError for a time that runs back; what a program under test raised; a RuntimeError where members answer each other without end, in
        a call from within a run, and from another thread.
        """
        __tracebackhide__ = True
        if (seconds is None) == (until is None):
            raise ValueError("run takes seconds, or until")
        end = self._now + micros_of(seconds) if seconds is not None else micros_of(until)  # type: ignore[arg-type]
        if end < self._now:
            raise ValueError(f"time runs back: it is {self.time():.6f} s, and to be run until {until} s")
        self._run(end, None)

    def run_until(self, condition: Callable[[], object], seconds: float) -> bool:
        """Runs the bus until a condition holds, which is looked at after each frame, call and turn, for so many seconds at most. Tells whether it holds.

        Raises what `run` raises.
        """
        return self._run(self._now + micros_of(seconds), condition)

    def wait_for(self, name: Union[Whose, BenchUnit], kind: int, seconds: float) -> Message:
        """Runs the bus until a message of a kind comes from a unit, and tells it.

        name: a NAME, a `Who`, or the unit. kind: `DM1`, `DM2` or `DM6`. seconds: at most.

        Raises a TimeoutError where none came, with the last frames; and what `run` raises.
        """
        who = name.name if isinstance(name, BenchUnit) else name
        before = self.listener.count(who, kind)
        if not self.run_until(lambda: self.listener.count(who, kind) > before, seconds):
            said = f"{who:016X}" if isinstance(who, int) else who
            raise TimeoutError(f"no {Kind(kind).name} of {said} within {seconds:g} s\n{self.log(20)}")
        return self.listener.message(who, kind, before)

    def after(self, seconds: float, call: Callable[..., object], *words: Any) -> Timer:
        """Calls a function so many seconds from now, while the bench runs."""
        return self._owe(Timer(self._now + micros_of(seconds), None, lambda: call(*words)))

    def every(self, seconds: float, call: Callable[..., object], *words: Any, first: Optional[float] = None) -> Timer:
        """Calls a function each so many seconds, while the bench runs, the first time in `first` seconds, or as many."""
        period = micros_of(seconds)
        if not period:
            raise ValueError("a period has one microsecond at least")
        at = self._now + (period if first is None else micros_of(first))
        return self._owe(Timer(at, period, lambda: call(*words)))

    def start(self, program: Callable[..., object], *words: Any) -> threading.Thread:
        """Starts a program under test in a thread of its own, from the next `run` on. It takes turns with the bench: it runs until it waits, by `recv` of a
        channel or `sleep` of the bench, or ends; so it has no time of its own, and a run is the same each time. What it raises, `run` raises.
        """
        self._look_open()
        return self._turns.start(program, words, self._now)

    # ---- its frames

    def send(self, frame: Union[str, Frame, BusFrame]) -> None:
        """Has the test itself put a frame, in candump's words or as a `Frame`: all members hear it. It goes when the bench runs.

        Raises a ValueError for what is no frame.
        """
        self._look_open()
        self._hand.waiting.append(frame_of_text(frame) if isinstance(frame, str) else checked(*frame))

    def log(self, last: Optional[int] = None) -> str:
        """The frames that were put last and are kept, or so many of them, as `candump -L` writes them."""
        kept = list(self.frames)
        return "".join(f"{put}\n" for put in (kept if last is None else kept[max(0, len(kept) - last) :]))

    def since(self, name: Whose, kind: int) -> Optional[Since]:
        """Since when a unit tells what its newest message of a kind tells; None where none came."""
        return self._since.get((name if isinstance(name, Who) else Who(name), Kind(kind)))

    # ---- how it runs

    def wait_on(self, queue: Sized, seconds: Optional[float]) -> None:
        """Waits until a queue has something, for so many seconds of the bench, or None. For `recv` of a channel."""
        if threading.current_thread() is not self._thread:
            self._turns.wait(None if seconds is None else self._now + micros_of(seconds), queue, seconds)
        elif self._is_running:
            raise RuntimeError("recv in a function that the bench calls: time stands meanwhile; use recv(timeout=0), or start the program by Bench.start")
        elif not self._run(self._now + micros_of(LONGEST_WAIT if seconds is None else seconds), lambda: queue) and seconds is None:
            raise RuntimeError(f"recv without a timeout, and nothing came in {LONGEST_WAIT:g} s of the bench")

    def _run(self, end: int, condition: Optional[Callable[[], object]]) -> bool:
        """Runs up to a moment, or until a condition holds: whether it does."""
        __tracebackhide__ = True
        self._look_open()
        if self._is_running or threading.current_thread() is not self._thread:
            raise RuntimeError("a bench is run by the thread that made it, and not from within a run")
        self._is_running = True
        try:
            for _ in self._moments(end):
                if condition is not None and condition():
                    return True
            return False
        finally:
            self._is_running = False

    def _moments(self, end: int) -> Iterator[None]:
        """Does what is due up to a moment, and stops behind each thing that it did."""
        __tracebackhide__ = True
        yield
        while True:
            done = 0
            while self._ring() or self._turns.give(self._now) or self._put_next():
                done += 1
                if done > MOST_AT_ONE_MOMENT:
                    raise RuntimeError(f"more than {MOST_AT_ONE_MOMENT} frames and calls at {self.time():.6f} s: who answers whom?\n{self.log(20)}")
                yield
            at = self._next_moment()
            if at is None or at > end:
                self._now = end
                yield
                return
            self._now = max(at, self._now)

    def _next_moment(self) -> Optional[int]:
        moments = [self._turns.moment(self._now), self._timers[0][0] if self._timers else None]
        if self._under_way is None:
            moments += [member.due() for member in self._members]
        else:
            moments.append(self._under_way[0])
        return min((at for at in moments if at is not None), default=None)

    def _ring(self) -> bool:
        """Makes one call that is owed now. Tells whether there was one."""
        while self._timers and self._timers[0][0] <= self._now:
            _, _, timer = heapq.heappop(self._timers)
            if timer.is_cancelled:
                continue
            if timer.period is not None:
                timer.at += timer.period
                self._owe(timer)
            timer.call()
            return True
        return False

    def _owe(self, timer: Timer) -> Timer:
        heapq.heappush(self._timers, (timer.at, next(self._order), timer))
        return timer

    def _put_next(self) -> bool:
        """Puts the frame that wins arbitration now, or ends the one that is under way. Tells whether there was one."""
        if self._under_way is None:
            best: Optional[Tuple[BusFrame, Member]] = None
            for member in self._members:
                frame = member.offered(self._now)
                if frame is not None and (best is None or frame.rank < best[0].rank):
                    best = frame, member
            if best is None:
                return False
            best[1].written(self._now)
            self._under_way = (self._now + (best[0].bits * 1_000_000 // self._bitrate if self._bitrate else 0), *best)
        end, frame, sender = self._under_way
        if end > self._now:
            return False
        self._under_way = None
        self.count += 1
        self.frames.append(Put(self._now, frame, sender.called))
        self._hear(frame)
        sender.ended(frame, self._now)
        for member in list(self._members):
            if member is not sender:
                member.heard(frame, self._now)
        return True

    def _hear(self, frame: BusFrame) -> None:
        """Has the listener hear a frame, and notes since when a unit tells what it tells."""
        if not frame.is_extended:
            return
        heard = self.listener.take(frame.id, frame.data, self._now)
        if heard.what is not What.LISTED or heard.who is None or heard.kind is None:
            return
        key = heard.who, heard.kind
        before = self._since.get(key)
        if before is not None and self._told.get(key) == frame:
            self._since[key] = again(before, self._now)
            return
        newest = self.listener.newest(*key)
        if newest is not None:
            self._since[key] = noted(before, newest, self._now)
            # (a packet says nothing of the others of its message)
            self._told[key] = None if is_packet(frame) else frame

    def _look_open(self) -> None:
        if self._is_closed:
            raise ValueError("the bench is closed")


def micros_of(seconds: float) -> int:
    """Microseconds, 0 to 2^62. Raises a ValueError for what is beyond, and for a time that runs back."""
    if not math.isfinite(seconds) or seconds < 0 or seconds >= 2**42:
        raise ValueError(f"{seconds} seconds: time does not run back, and has an end")
    return round(seconds * 1_000_000)
