"""What a station or a listener takes, tells and answers, as values that never change."""

import enum
from typing import List, NamedTuple, Optional, Tuple, Union


class Kind(enum.IntEnum):
    """A kind of diagnostic message (SAE J1939-73), numbered as the message is."""

    DM1 = 1
    """Lamps and active trouble codes."""
    DM2 = 2
    """Lamps and previously active trouble codes."""
    DM6 = 6
    """Lamps and pending trouble codes."""


class What(enum.IntEnum):
    """What a frame or a gap changed of what a station or a listener shows."""

    NOTHING = 0
    """Nothing."""
    CLAIMED = 1
    """`name` has `address`, and had not before."""
    GAVE_UP = 2
    """`name` has no address: it cannot claim one."""
    ACKNOWLEDGED = 3
    """`name` acknowledged the group `pgn` to the station, with `control`."""
    LISTED = 4
    """A message of `name` from `address` is the newest of its list of `kind`."""
    UNREADABLE = 5
    """A message of `name` and of `kind` from `address` could not be read."""
    UNOWNED = 6
    """A message of `kind` to all began at `address`, which no NAME has claimed in what was read: it is not listed."""
    MISSED = 7
    """`count` frames were missed: no address has an owner until NAMEs claim again."""
    BROKEN = 8
    """Of a listener: a message of several packets broke; it was half read, and is neither that nor whole now."""
    STRANGER = 9
    """Of a live station: somebody else sends from the station's own address."""


class Frame(NamedTuple):
    """A data frame of CAN 2.0B."""

    id: int
    """The identifier, 29 bits."""
    data: bytes
    """0 to 8 bytes."""

    def __str__(self) -> str:
        return f"{self.id:08X}#{self.data.hex().upper()}"


class Reply(NamedTuple):
    """What the station has to say: first frames of earlier replies that were not sent yet are dropped, where `withdraw` says so, and then
    `frames` are sent in their order."""

    withdraw: bool
    frames: Tuple[Frame, ...]
    """0 to 3 of them."""


SILENT = Reply(False, ())
"""Nothing is withdrawn, and nothing is to be sent."""


class Change(NamedTuple):
    """What a frame or a gap changed; a field that `what` does not name is None, False or 0."""

    what: What
    name: Optional[int] = None
    """The NAME, 64 bits: of CLAIMED, GAVE_UP, ACKNOWLEDGED, LISTED and UNREADABLE."""
    address: Optional[int] = None
    """0 to 253: of CLAIMED, LISTED, UNREADABLE and UNOWNED."""
    kind: Optional[Kind] = None
    """Of LISTED, UNREADABLE and UNOWNED."""
    displaced: Optional[int] = None
    """Of CLAIMED: the NAME that claimed this address before, if another one did."""
    lost: bool = False
    """Of CLAIMED: whether it was the address of `displaced` until now, so that it has none any more."""
    control: Optional[int] = None
    """Of ACKNOWLEDGED: 0 positive, 1 negative, 2 access denied, 3 cannot respond now, or another number up to 255."""
    pgn: Optional[int] = None
    """Of ACKNOWLEDGED: the parameter group, 24 bits."""
    again: bool = False
    """Of ACKNOWLEDGED: whether the last acknowledgment of that NAME was the same."""
    count: int = 0
    """Of MISSED: how many frames, 32 bits."""


class Why(enum.IntEnum):
    """Why a message cannot be read, or not whole."""

    LENGTH = 15
    """Not even its two bytes of lamps are there."""
    IN_PART = 18
    """It is listed, as far as it can be read: `Message.not_read` tells what cannot."""


class BrokenBy(enum.IntEnum):
    """Why a message of several packets broke (SAE J1939-21, 5.10)."""

    LATE = 1
    """A frame of it came too late."""
    PACKET = 2
    """The packet `number` came, which is not the next one."""
    LENGTH = 3
    """The next packet, `number`, has not 8 bytes."""
    DIFFERS = 4
    """The packet `number` came again, as it was asked for, with other bytes."""
    ABORT = 5
    """The unit at `by` aborted it, for `reason`."""
    ANEW = 6
    """Another message was announced between the same two."""
    CLAIM = 7
    """Another NAME claimed the address that it came from."""


class Who(NamedTuple):
    """Whose a message is, for a listener: a NAME's, or that of an address which no NAME had claimed since the last gap."""

    name: Optional[int]
    """The NAME that had claimed its source address last, 64 bits."""
    address: Optional[int] = None
    """The source address, where `name` is None."""
    gaps: int = 0
    """How many gaps came before, where `name` is None: after a gap the address may be another unit's."""

    def __str__(self) -> str:
        if self.name is not None:
            return f"{self.name:016X}"
        return f"address {self.address}, no claim seen{f' since gap {self.gaps}' if self.gaps else ''}"


class Heard(NamedTuple):
    """What a frame or a gap changed of what a listener shows; a field that `what` does not name is None, False or 0."""

    what: What
    who: Optional[Who] = None
    """Whose address or row it is, or whose message: of all but UNOWNED and MISSED."""
    source: Optional[int] = None
    """The address that was claimed, or from which it came."""
    to: Optional[int] = None
    """The address that a message or an acknowledgment went to, 255 for all."""
    kind: Optional[Kind] = None
    """Of LISTED, UNREADABLE, UNOWNED and BROKEN."""
    why: Optional[Union[Why, BrokenBy]] = None
    """Of UNREADABLE a `Why`, of LISTED `Why.IN_PART` where it could not be read whole, of BROKEN a `BrokenBy`."""
    displaced: Optional[int] = None
    """Of CLAIMED: the NAME that claimed this address before, if another one did."""
    lost: bool = False
    """Of CLAIMED: whether it was the address of `displaced` until now, so that it has none any more."""
    control: Optional[int] = None
    """Of ACKNOWLEDGED: 0 positive, 1 negative, 2 access denied, 3 cannot respond now, or another number up to 255."""
    requester: Optional[int] = None
    """Of ACKNOWLEDGED: the address that it names as the one that asked."""
    pgn: Optional[int] = None
    """Of ACKNOWLEDGED: the parameter group, 24 bits."""
    again: bool = False
    """Of ACKNOWLEDGED: whether the last acknowledgment of that NAME was the same."""
    count: int = 0
    """Of MISSED: how many frames, 32 bits."""
    read: int = 0
    """Of BROKEN: how many of its packets were read."""
    of: int = 0
    """Of BROKEN: how many packets it has."""
    number: int = 0
    """Of BROKEN by PACKET, LENGTH and DIFFERS: the number of the packet."""
    reason: int = 0
    """Of BROKEN by ABORT: its reason (SAE J1939-21, 5.10)."""
    by: Optional[int] = None
    """Of BROKEN by ABORT: the address that sent it."""
    broken: int = 0
    """How many messages the frame broke, up to 255; `Listener.broken` has each."""


class HeardFrames(NamedTuple):
    """What a row of frames came to at a listener."""

    count: int
    """How many were taken."""
    heard: List[Tuple[int, Heard]]
    """The place of each frame that changed or broke something, in the row that was handed over, and what it changed; and then, with the same
    place, each message that it broke and that is not told yet."""


class Taken(NamedTuple):
    """What a frame or a gap came to."""

    reply: Reply
    change: Change


class TakenFrames(NamedTuple):
    """What a row of frames came to."""

    count: int
    """How many were taken."""
    changes: List[Tuple[int, Change]]
    """The place of each frame that changed something, in the row that was handed over, and what it changed."""
    reply: Reply
    """The reply to the last one; none of the others was replied to."""


class Code(NamedTuple):
    """A trouble code (SAE J1939-73)."""

    spn: int
    """The suspect parameter number, 0 to 524,287."""
    fmi: int
    """The failure mode identifier, 0 to 31."""
    count: int
    """The occurrence count, 0 to 126; 127 stands for not available."""

    def __str__(self) -> str:
        return f"{self.spn}/{self.fmi}/{self.count}"


class Lamps(NamedTuple):
    """The first two bytes of a DM1, DM2 or DM6 (SAE J1939-73)."""

    states: int
    """Two bits a lamp, from the highest: malfunction indicator, red stop, amber warning, protect. 0 off, 1 on, 3 not available."""
    flashes: int
    """How they flash, two bits a lamp in the same order: 0 slowly (1 Hz), 1 fast (2 Hz), 3 not at all, or not available."""

    @property
    def mil(self) -> bool:
        """Whether the malfunction indicator lamp is on."""
        return self.states >> 6 & 3 == 1

    @property
    def stop(self) -> bool:
        """Whether the red stop lamp is on."""
        return self.states >> 4 & 3 == 1

    @property
    def amber(self) -> bool:
        """Whether the amber warning lamp is on."""
        return self.states >> 2 & 3 == 1

    @property
    def protect(self) -> bool:
        """Whether the protect lamp is on."""
        return self.states & 3 == 1

    def __str__(self) -> str:
        on = [lamp for lamp in ("mil", "stop", "amber", "protect") if getattr(self, lamp)]
        return ", ".join(on) or "no lamp"


class NotRead(NamedTuple):
    """What of a message could not be read that is not as SAE J1939-73 has it. All may be 0: more than 445 codes."""

    padding: int
    """Groups of four bytes FF, among several."""
    zeros: int
    """Groups of four bytes 00, among several."""
    older: int
    """Codes in an older layout of the SPN."""
    bytes_behind: int
    """Bytes behind the last group."""
    bytes_missing: int
    """Bytes missing to 8, the least that a message has."""


class Message(NamedTuple):
    """A diagnostic message that stands in a list."""

    place: int
    """Its place among all messages of its list that came, from 0."""
    lamps: Lamps
    codes: Tuple[Code, ...]
    to: Optional[int] = None
    """Of a listener: the address that it went to, 255 for all."""
    not_read: Optional[NotRead] = None
    """Of a listener: what of it could not be read, where it was read in part; `codes` are those that could."""

    def __str__(self) -> str:
        return f"{self.lamps}; {' '.join(map(str, self.codes)) or '-'}{' in part' if self.not_read else ''}"


class Acknowledgment(NamedTuple):
    """What a unit acknowledged to the station."""

    control: int
    """0 positive, 1 negative, 2 access denied, 3 cannot respond now, or another number up to 255."""
    pgn: int
    """The parameter group, 24 bits."""


class Unit(NamedTuple):
    """What is known of a NAME."""

    name: int
    """The NAME, 64 bits (SAE J1939-81)."""
    address: Optional[int]
    """Its address, 0 to 253, where it is known to have one."""
    acknowledgment: Optional[Acknowledgment]
    """Its last acknowledgment to the station."""

    def __str__(self) -> str:
        return f"{self.name:016X} {'has no address' if self.address is None else f'at {self.address}'}"


class Counts(NamedTuple):
    """What a station or a listener could not read; each count stops at 2^64 - 1."""

    missed: int
    """Frames that it was told of as missed."""
    unread: int
    """Messages that ended and could not be read whole, those that a listener lists in part among them."""


class UnitCounts(NamedTuple):
    """What became of the frames that a simulated unit put: `put` is the sum of the other three."""

    put: int
    written: int
    """Those that it was asked for and gave."""
    withdrawn: int
    waiting: int


class Logged(NamedTuple):
    """Where in a log something stood."""

    line: int
    """The number of the line, from 1."""
    time: Optional[int]
    """Its time in microseconds, below 10^16, as it is written there: of a log of candump -L since 1970. None where it has none."""


class BadLine(NamedTuple):
    """A line that begins as one of a log of candump, and is none."""

    line: int
    """The number of the line, from 1."""
    why: str
    """Why it is none, in the words of `watch`."""

    def __str__(self) -> str:
        return f"line {self.line}: {self.why}"


class LogCounts(NamedTuple):
    """What a log was read as."""

    lines: int
    frames: int
    """Frames that the listener took."""
    missed: int
    """Frames that it was told of as missed, one for each bad line among them, unless bad lines were passed over."""
    bad: int
    """Lines that begin as one of a log, and are none."""


class Finding(enum.IntEnum):
    """What came of an order of a live station."""

    ANSWERED = 2
    """A message that began after the request ended, or a claim came."""
    UNREAD = 3
    """A message that began after the request ended, and cannot be read."""
    POSITIVE = 4
    """The unit says that it cleared."""
    REFUSED = 5
    """The unit refused, with `control`."""
    BUSY = 6
    """The unit could not answer now, three times."""
    OBEYED = 7
    """The NAME holds the address that it was commanded to hold."""
    NO_SUCH_UNIT = 8
    """No address of the NAME is known, though claims were asked for."""
    SILENT = 9
    """Nothing came."""
    IN_DOUBT = 10
    """A clear was written, and nobody knows whether it was done, for `doubt`."""
    LOST_ADDRESS = 11
    """The station holds no address."""
    CUT_OFF = 12
    """It was ended first."""


class Doubt(enum.IntEnum):
    """Why nobody knows whether a clear was done."""

    UNIT = 1
    """The NAME moved, gave up, or another NAME claimed its address."""
    MISSED = 2
    """Frames were missed."""
    ADDRESS = 3
    """Another NAME claimed the station's own address."""
    STRANGER = 4
    """Somebody else sends from the station's own address."""


class SharedMessage(NamedTuple):
    """A message of a group that a program shares with a live station."""

    pgn: int
    source: int
    """The address that sent it."""
    name: Optional[int]
    """The NAME that held that address from its first to its last frame; None where no claim of it was heard since the first group was shared."""
    data: bytes
    """Up to 1,785 bytes."""


class Delivery(enum.IntEnum):
    """What came of a message that a live station was given to send."""

    NONE = 0
    """None was given."""
    OPEN = 1
    """It is under way."""
    WRITTEN = 2
    """Its one frame, or all of a broadcast, was written."""
    ACKNOWLEDGED = 3
    """Its receiver acknowledged all of it."""
    ABORTED = 4
    """Its receiver aborted it."""
    SILENT = 5
    """Its receiver said nothing in time: it was aborted, for reason 3."""
    ASKED_TOO_OFTEN = 6
    """Its receiver asked for the same packet a third time: it was aborted, for reason 5."""
    CUT_OFF = 7
    """Another NAME claimed the address that it goes to, or the station left its own."""


class Sent(NamedTuple):
    """What came of the newest message that a live station was given to send."""

    delivery: Delivery
    reason: Optional[int] = None
    """Of ABORTED: for which reason."""


class Verdict(NamedTuple):
    """What came of an order of a live station."""

    finding: Finding
    name: Optional[int]
    """The NAME of its unit; None where all were asked."""
    pgn: int
    """The parameter group that was asked for; of a command 65240."""
    tries: int
    """How often it was written, 0 to 3."""
    address: Optional[int] = None
    """The address to which it was written, where it was, and to one."""
    after: Optional[int] = None
    """Microseconds since it was written, the last time."""
    control: Optional[int] = None
    """Of REFUSED: 1 negative, 2 access denied, or another number."""
    doubt: Optional[Doubt] = None
    """Of IN_DOUBT."""
    was_sent: Optional[bool] = None
    """Of CUT_OFF: whether it was written."""
    commanded: Optional[int] = None
    """Of a command: the address."""
    left: Optional[Finding] = None
    """Of a clear that was written: what came of asking what is left."""
    message: Optional[Message] = None
    """The message that answered one unit's order, or shows what a clear left, where it is kept."""

    @property
    def is_cleared(self) -> bool:
        """Whether the unit says that it cleared, and a message that began after that has no code."""
        return self.finding == Finding.POSITIVE and self.left == Finding.ANSWERED and self.message is not None and not self.message.codes
