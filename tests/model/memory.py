"""Fault memories, and what a DM1, DM2 or DM6 says of them (J1939-73, 5.7.1, 5.7.2, 5.7.3, 5.7.6, 5.7.11)."""

from .frames import DM1, DM2, DM6

MOST_CODES = 445  # what a message of 1,785 bytes has room for
LAST_SPN, LAST_FMI = 524287, 31  # 19 bits and 5 bits
LAST_COUNT = 126  # 127 stands for "not available"
OFF = b"\x00\xff"  # no lamp on; flash codes all "not available"


class Refused(Exception):
    """A call that was refused: it changed nothing. `of` says what it was tried on, where that is a case of its own."""

    def __init__(self, refusal, of=None):
        super().__init__(refusal)
        self.refusal, self.of = refusal, of


class Code:
    """A trouble code: suspect parameter, failure mode, occurrence count."""

    __slots__ = ("spn", "fmi", "count")

    def __init__(self, spn, fmi, count):
        self.spn, self.fmi, self.count = spn, fmi, count

    def data(self):
        """Four bytes: SPN bits 0 to 7, 8 to 15, then 16 to 18 above the FMI; the count, its top bit 0."""
        return bytes([self.spn & 255, self.spn >> 8 & 255, self.spn >> 16 << 5 | self.fmi, self.count])

    def text(self):
        return f"{self.spn}/{self.fmi}/{self.count}"


class Memory:
    """Two lamp bytes, the active codes, the codes that were active before, and the pending ones: seen, and not yet found to be
    active. No pair of SPN and FMI stands twice over the three lists."""

    def __init__(self):
        self.lamps, self.active, self.previous, self.pending = OFF, [], [], []

    @staticmethod
    def find(codes, spn, fmi):
        return next((code for code in codes if code.spn == spn and code.fmi == fmi), None)

    @staticmethod
    def check(spn, fmi):
        if spn > LAST_SPN:
            raise Refused("SpnTooLarge")
        if fmi > LAST_FMI:
            raise Refused("FmiTooLarge")

    def list_of(self, spn, fmi):
        """The name of the list in which a code stands; None where it stands in none."""
        lists = {"active": self.active, "previous": self.previous, "pending": self.pending}
        return next((name for name, codes in lists.items() if self.find(codes, spn, fmi)), None)

    def is_full(self):
        return len(self.active) + len(self.previous) + len(self.pending) == MOST_CODES

    def new(self, spn, fmi):
        """A code that stands in no list yet: it has occurred once."""
        if self.is_full():
            raise Refused("Full")
        return Code(spn, fmi, 1)

    def set(self, spn, fmi):
        """A fault is there: a code that was active before comes back, counted once more; a pending one has its count already;
        a new one has count 1."""
        self.check(spn, fmi)
        if self.find(self.active, spn, fmi):
            return "active already"
        code = self.find(self.previous, spn, fmi)
        if code:
            self.previous.remove(code)
            self.active.append(Code(spn, fmi, min(code.count + 1, LAST_COUNT)))
            return "back at the greatest count" if code.count == LAST_COUNT else "back"
        code = self.find(self.pending, spn, fmi)
        if code:
            full = self.is_full()
            self.pending.remove(code)
            self.active.append(code)
            return "pending before, with no room for another" if full else "pending before"
        self.active.append(self.new(spn, fmi))
        return "new"

    def heal(self, spn, fmi):
        """A fault is gone: its code goes to the end of the previous ones, its count as it was."""
        self.check(spn, fmi)
        code = self.find(self.active, spn, fmi)
        if not code:
            raise Refused("NotActive", self.list_of(spn, fmi) or "unknown")
        self.active.remove(code)
        self.previous.append(code)

    def pend(self, spn, fmi):
        """A fault may be there: a code that stands in no list becomes pending, with count 1. Any other stays where it is."""
        self.check(spn, fmi)
        known = self.list_of(spn, fmi)
        if known:
            return f"{known} already" + (", with no room for another" if self.is_full() else "")
        self.pending.append(self.new(spn, fmi))
        return "new"

    def unpend(self, spn, fmi):
        """A fault is not there after all: its pending code goes away. Codes of the other lists are no pending ones."""
        self.check(spn, fmi)
        code = self.find(self.pending, spn, fmi)
        if not code:
            raise Refused("NotPending", self.list_of(spn, fmi) or "unknown")
        self.pending.remove(code)

    def clear_active(self):
        """What DM11 asks for: no active and no pending codes, all lamps off. Nothing becomes a previous code."""
        self.lamps, self.active, self.pending = OFF, [], []

    def clear_previous(self):
        """What DM3 asks for. The lamps and all other codes stay."""
        self.previous = []

    def payload(self, kind):
        """The bytes of a message of that kind: lamps, then active codes (DM1), previous ones (DM2) or pending ones (DM6).

        Up to one code there are always 8 bytes: no code is four zeros, the rest is filled with FF.
        """
        codes = {DM1: self.active, DM2: self.previous, DM6: self.pending}[kind]
        data = self.lamps + b"".join(code.data() for code in codes)
        if not codes:
            data += bytes(4)
        return data + b"\xff" * (8 - len(data))


def read_message(payload):
    """What a payload shows: lamps and codes; None where it can't be read.

    8 bytes hold no code (bytes 3 to 6 all 00 or all FF) or one; 2 + 4n bytes hold n codes, from 2 on. A group with the
    old conversion method (top bit of its last byte) can't be read, nor can four zeros among several groups.
    """
    if len(payload) == 8:
        groups = [] if payload[2:6] in (bytes(4), b"\xff" * 4) else [payload[2:6]]
    elif 10 <= len(payload) <= 2 + 4 * MOST_CODES and len(payload) % 4 == 2:
        groups = [payload[at : at + 4] for at in range(2, len(payload), 4)]
    else:
        return None
    if any(group[3] > 127 or group == bytes(4) for group in groups):
        return None
    return payload[:2], [Code(g[0] | g[1] << 8 | g[2] >> 5 << 16, g[2] & 31, g[3]) for g in groups]


class Part(tuple):
    """What can be read of a payload that is not as the standard has it: the lamps, and the readable codes. `groups` has each whole group of four
    bytes behind the lamps, `behind` how many bytes are left, `method` by which conversion method older codes are read, if that is known."""

    groups, behind, method = (), 0, None

    def by(self, method):
        """The same, with older codes read by a method."""
        part = Part((self[0], [code for group in self.groups if (code := code_of_group(group, method)) is not None]))
        part.groups, part.behind, part.method = self.groups, self.behind, method
        return part

    def trouble(self):
        """How much of each sort is amiss. A lone group may be of padding or of zeros, and has two bytes behind it."""
        lone = len(self.groups) == 1
        older = [group for group in self.groups if is_older(group)]
        converted = sum(code_of_group(group, self.method) is not None for group in older)
        return {"padding": 0 if lone else sum(group == b"\xff" * 4 for group in self.groups), "zeros": 0 if lone else sum(group == bytes(4) for group in self.groups),
                "older": len(older) - converted, "converted": converted, "bytes_behind": max(0, self.behind - 2) if lone else self.behind,
                "bytes_missing": max(0, 8 - 2 - 4 * len(self.groups) - self.behind)}


def is_older(group):
    """A code in an older layout: the top bit of its last byte is 1, and it is not padding."""
    return group[3] > 127 and group != b"\xff" * 4


def code_of_group(group, method):
    """Methods 1 and 2 have the SPN's highest 16 bits in the first two bytes, the highest byte first or second, and its lowest 3 bits beside the FMI;
    method 3 is today's (J1939-73, from memory). None where nothing can be read."""
    if group in (bytes(4), b"\xff" * 4):
        return None
    if not is_older(group):
        return Code(group[0] | group[1] << 8 | group[2] >> 5 << 16, group[2] & 31, group[3])
    if method is None:
        return None
    high = {1: group[0] << 8 | group[1], 2: group[1] << 8 | group[0]}.get(method)
    spn = group[0] | group[1] << 8 | group[2] >> 5 << 16 if high is None else high << 3 | group[2] >> 5
    return Code(spn, group[2] & 31, group[3] & 127) if spn or group[2] & 31 or group[3] & 127 else None


def read_in_part(payload):
    """What can be read of a payload, group by group; None where its lamps are not whole."""
    if len(payload) < 2:
        return None
    whole = len(payload) - (len(payload) - 2) % 4
    part = Part((payload[:2], []))
    part.groups, part.behind = [payload[at : at + 4] for at in range(2, whole, 4)], len(payload) - whole
    return part.by(None)


def read_at_all(payload):
    """What a payload shows, or else what can be read of it."""
    shown = read_message(payload)
    return read_in_part(payload) if shown is None else shown


def entry_text(shown):
    lamps, codes = shown
    return lamps.hex().upper() + "".join(" " + code.text() for code in codes) + ("" if codes else " -")
