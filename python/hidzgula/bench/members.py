"""Who takes part in a bench's bus: a simulated unit, a station, and the program under test by its channel."""

import collections
from typing import TYPE_CHECKING, Any, Deque, List, NamedTuple, Optional, Tuple, Union

from ..records import Change, Frame, Reply
from ..refusals import Refused
from ..simulated import SimulatedUnit
from ..station import Octets, Station

if TYPE_CHECKING:
    from .bus import Bench

_NULL_ADDRESS = 254
_CLAIM_FORMAT = 0xEE
_PACKET_FORMAT = 0xEB
_ASKED_AGAIN = 1000  # (microseconds: a unit whose lanes are full says that it is due, and may not go on yet)
COMMAND_GAP = 0.05
"""Seconds between the frames of a command, a broadcast (SAE J1939-21: 50 to 200 ms)."""


class BusFrame(NamedTuple):
    """A data frame of CAN 2.0 on a bench's bus."""

    id: int
    """The identifier: 29 bits, or 11."""
    data: bytes
    """0 to 8 bytes."""
    is_extended: bool = True
    """Whether the identifier has 29 bits."""

    @property
    def rank(self) -> Tuple[int, int, int]:
        """What arbitration compares: the lowest wins."""
        return (self.id >> 18, 1, self.id & 0x3FFFF) if self.is_extended else (self.id, 0, 0)

    @property
    def bits(self) -> int:
        """How many bits it has with the space behind it, stuff bits aside (ISO 11898-1)."""
        return (67 if self.is_extended else 47) + 8 * len(self.data)

    def __str__(self) -> str:
        return f"{self.id:0{8 if self.is_extended else 3}X}#{self.data.hex().upper()}"


class Member:
    """One who takes part in the bus."""

    called: str = "?"
    """Who it is, in words."""

    def offered(self, now: int) -> Optional[BusFrame]:
        """The frame with which it goes into arbitration now; it stays until it was written, or is withdrawn."""
        raise NotImplementedError

    def written(self, now: int) -> None:
        """The frame that it offered is being written, and cannot be taken back."""
        raise NotImplementedError

    def ended(self, frame: BusFrame, now: int) -> None:
        """Its frame has ended, and all others hear it now."""

    def heard(self, frame: BusFrame, now: int) -> None:
        """It hears a frame of another."""
        raise NotImplementedError

    def due(self) -> Optional[int]:
        """When it may offer a frame by itself."""
        return None

    def close(self) -> None:
        """It leaves the bus."""


class BenchUnit(SimulatedUnit, Member):
    """A simulated unit on a bench's bus, with the calls of `SimulatedUnit`; `Bench.unit` makes it. The bench calls `hear`, `next` and `when`."""

    def __init__(self, bench: "Bench", name: int, address: int, **settings: Any) -> None:
        super().__init__(name, address, **settings)
        self.called = f"unit {name:016X}"
        self.unheard = 0
        """Frames that it did not hear, since as much waited as there is room for."""
        self._bench = bench
        # what it gave and was not written yet: one frame, but for a claim that came before it
        self._offered: Deque[BusFrame] = collections.deque()
        self._due: Optional[int] = bench.now

    @property
    def name(self) -> int:
        """Its NAME, 64 bits."""
        return self._name

    def lamps(self, states: int, flashes: int = 0xFF) -> None:
        super().lamps(states, flashes)
        self._due = self._bench.now

    def begin(self, kind: int) -> None:
        super().begin(kind)
        self._due = self._bench.now

    def _changed(self, call: Any, spn: int, fmi: int) -> None:
        super()._changed(call, spn, fmi)
        self._due = self._bench.now

    def offered(self, now: int) -> Optional[BusFrame]:
        if not self._offered and self._due is not None and self._due <= now:
            at = self.when(now)
            frame = self.next(now) if at is not None and at <= now else None
            if frame is not None:
                self._offered.append(BusFrame(*frame))
            elif at is None or at > now:
                self._due = at
            else:
                at = self.when(now)
                self._due = None if at is None else at if at > now else now + _ASKED_AGAIN
        return self._offered[0] if self._offered else None

    def written(self, now: int) -> None:
        self._offered.popleft()
        self._due = now

    def heard(self, frame: BusFrame, now: int) -> None:
        if not frame.is_extended:
            return
        try:
            self.hear(frame.id, frame.data, now)
        except Refused as refused:
            if refused.name != "QUEUE_FULL":
                raise
            self.unheard += 1
        self._due = now
        if self._offered:
            self._contend(_is_claim(frame), now)

    def _contend(self, hears_claim: bool, now: int) -> None:
        """Looks after what lost arbitration, which the unit counts as written: it does not go from an address that the unit lost meanwhile, and a claim
        with which the unit answers another's goes before it, as it does before all that waits."""
        held = self.address
        self._offered = collections.deque(frame for frame in self._offered if frame.id & 0xFF in (_NULL_ADDRESS, held))
        frame = self.next(now) if hears_claim else None
        if frame is not None:
            self._offered.insert(0 if _is_claim(frame) else len(self._offered), BusFrame(*frame))

    def due(self) -> Optional[int]:
        return self._due


class BenchStation(Station, Member):
    """A station on a bench's bus, with the calls of `Station`; `Bench.station` makes it. `ask`, `ask_all` and `command` also put their frames on the bus, as
    it replies to what it hears; the packets of a command go 50 ms apart."""

    def __init__(self, bench: "Bench", name: int, address: int, **settings: Any) -> None:
        super().__init__(name, address, **settings)
        self.called = f"station {name:016X}"
        self.bench = bench
        self.changes: List[Tuple[int, Change]] = []
        """What the bus changed for it, each with its microseconds."""
        self._waiting: Deque[Frame] = collections.deque()
        self._turn = 0

    @property
    def name(self) -> int:
        """Its NAME, 64 bits."""
        return self._name

    def start(self, pgn_claim: int) -> None:
        """Puts its claim, and asks all units for theirs."""
        self._waiting.append(self.claim())
        self.ask_all(pgn_claim)

    def ask(self, name: int, pgn: int) -> Reply:
        return self._put(super().ask(name, pgn))

    def ask_all(self, pgn: int) -> Reply:
        return self._put(super().ask_all(pgn))

    def command(self, name: int, address: int) -> Reply:
        reply = super().command(name, address)
        self._put(Reply(reply.withdraw, reply.frames[:1]))
        turn = self._turn
        for place, frame in enumerate(reply.frames[1:], 1):
            self.bench.after(place * COMMAND_GAP, self._put_later, frame, turn)
        return reply

    def offered(self, now: int) -> Optional[BusFrame]:
        return BusFrame(*self._waiting[0]) if self._waiting else None

    def written(self, now: int) -> None:
        self._waiting.popleft()

    def heard(self, frame: BusFrame, now: int) -> None:
        if not frame.is_extended:
            return
        reply, change = self.take(frame.id, frame.data)
        self._put(reply)
        if change.what:
            self.changes.append((now, change))

    def _put(self, reply: Reply) -> Reply:
        if reply.withdraw:
            self._waiting.clear()
            self._turn += 1
        self._waiting.extend(reply.frames)
        return reply

    def _put_later(self, frame: Frame, turn: int) -> None:
        if turn == self._turn:
            self._waiting.append(frame)


class Hand(Member):
    """Frames that the test itself puts."""

    called = "the test"

    def __init__(self) -> None:
        self.waiting: Deque[BusFrame] = collections.deque()

    def offered(self, now: int) -> Optional[BusFrame]:
        return self.waiting[0] if self.waiting else None

    def written(self, now: int) -> None:
        self.waiting.popleft()

    def heard(self, frame: BusFrame, now: int) -> None:
        pass


def _is_claim(frame: Union[Frame, BusFrame]) -> bool:
    return frame.id >> 16 & 0xFF == _CLAIM_FORMAT


def is_packet(frame: BusFrame) -> bool:
    """Whether a frame is a packet of a longer message (SAE J1939-21)."""
    return frame.id >> 16 & 0xFF == _PACKET_FORMAT


def frame_of_text(text: str) -> BusFrame:
    """A frame in candump's words, as 18FECA80#04FF6E000001FFFF: 8 digits of identifier, or 3.

    Raises a ValueError for what is none.
    """
    id, mark, data = text.partition("#")
    try:
        octets = bytes.fromhex(data)
        number = int(id, 16)
    except ValueError:
        octets, number, mark = b"", 0, ""
    if not mark or len(id) not in (3, 8):
        raise ValueError(f"{text!r} is no frame: 8 or 3 digits of identifier, # and the bytes, as 18FECA80#04FF6E000001FFFF")
    return checked(number, octets, len(id) == 8)


def checked(id: int, data: Octets, is_extended: bool = True) -> BusFrame:
    """A frame whose identifier and length CAN 2.0 has. Else a ValueError is raised."""
    if not 0 <= id < (1 << 29 if is_extended else 1 << 11):
        raise ValueError(f"an identifier of {id:X}: {'29' if is_extended else '11'} bits are wanted")
    if len(data) > 8:
        raise ValueError(f"{len(data)} bytes in a frame, which has 8 at most")
    return BusFrame(id, bytes(data), is_extended)
