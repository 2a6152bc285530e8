"""A message that a program sends from a station's address (J1939-21, 5.10): its frames, when they go, and what comes of it. Times are microseconds."""

from . import frames
from .frames import ABORT, CTS, END_OF_MESSAGE, GLOBAL, NULL

T3, T4 = 1_250_000, 1_050_000
OUT_OF_TIME, TOO_OFTEN = 3, 5  # reasons of an abort


def refusal(held, groups, pgn, to, size, is_busy):
    """Why a message is not sent; None where it is."""
    goes_to_all = pgn >> 8 & 255 >= 240
    if pgn not in groups or pgn >= 1 << 18 or not goes_to_all and pgn & 255:
        return "NO_GROUP"
    if held is None:
        return "NOT_HELD"
    if size > frames.LARGEST:
        return "TOO_LONG"
    if to != GLOBAL and (to in (NULL, held) or goes_to_all and size < frames.SMALLEST):
        return "NOT_AN_ADDRESS"
    return "SESSION_OPEN" if is_busy else None


class Sent:
    """One message to an address that a NAME held then, or to all: parts are numbered from 0, the request to send, the announcement or the one frame."""

    def __init__(self, own, gap, pgn, to, data, name):
        self.own, self.gap, self.pgn, self.to, self.data, self.name = own, gap, pgn, to, data, name
        self.count = frames.packets_of(len(data)) if len(data) >= frames.SMALLEST else 0
        self.is_session = bool(self.count) and to != GLOBAL
        self.to_go = [0] if self.is_session else list(range(self.count + 1))
        self.gone = []  # (part, when it went)
        self.asked = []  # the first packet of each clear to send that asks for packets again
        self.waits = None  # since when its receiver is waited for; none from a word of it until the next look
        self.patience = T3
        self.state, self.reason = "OPEN", None

    def is_open(self):
        return self.state == "OPEN"

    def end(self, state, reason=None):
        self.state, self.reason, self.to_go = state, reason, []

    def is_asked_too_often(self):
        """A packet, or one behind it, is asked for a third time: counted from the last clear to send that asked farther than all before it."""
        farthest = [place for place, first in enumerate(self.asked) if all(first > other for other in self.asked[:place])]
        return bool(farthest) and len(self.asked) - farthest[-1] > 2

    # ---- what is heard

    def hear(self, frame):
        claimed = frames.claimed_name(frame)
        if claimed is not None:
            if frame.source == self.to and claimed != self.name and self.is_open():
                self.end("CUT_OFF")
            return
        said = frames.control_of(frame)
        begun = self.is_open() and self.is_session and self.gone and not self.is_asked_too_often()
        if not begun or said is None or (frame.source, frame.dest, frames.control_pgn(frame)) != (self.to, self.own, self.pgn):
            return
        if said == CTS:
            self.clear(frame.data[1], frame.data[2])
        elif said == END_OF_MESSAGE and len(self.packets()) == self.count and frames.control_size(frame) == len(self.data):
            self.end("ACKNOWLEDGED")
        elif said == ABORT:
            self.end("ABORTED", frame.data[1])

    def packets(self):
        return {part for part, _ in self.gone if part}

    def clear(self, granted, first):
        if granted and first in self.packets():
            self.asked.append(first)
        elif granted and (first != len(self.packets()) + 1 or first > self.count):
            return
        self.to_go = list(range(first, min(first + granted - 1, self.count) + 1)) if granted else []
        self.patience = T3 if granted else T4
        self.waits = None

    def move(self):
        """The station left its address."""
        if self.is_open():
            self.end("CUT_OFF")

    # ---- what goes

    def next(self, now):
        """The frame that goes now."""
        if not self.is_open() or self.when(now) > now:
            return None
        if self.is_asked_too_often():
            self.end("ASKED_TOO_OFTEN")
            return frames.abort(self.pgn, self.to, self.own, TOO_OFTEN)
        if self.to_go:
            return self.part(self.to_go.pop(0), now)
        if self.waits is None:
            self.waits = now
            return None
        self.end("SILENT")
        return frames.abort(self.pgn, self.to, self.own, OUT_OF_TIME)

    def part(self, part, now):
        self.gone.append((part, now))
        self.waits = now
        if not self.is_session and not self.to_go:
            self.end("WRITTEN")
        if part:
            return frames.packet(self.data, part, self.to, self.own)
        if not self.count:
            return frames.to_all(6, self.pgn, self.own, self.data) if self.pgn >> 8 & 255 >= 240 else frames.to_one(6, self.pgn, self.to, self.own, self.data)
        return frames.rts(len(self.data), self.pgn, self.to, self.own) if self.is_session else frames.bam(len(self.data), self.pgn, self.own)

    def when(self, now):
        """When it does something; None where it is over."""
        if not self.is_open():
            return None
        if self.is_asked_too_often() or self.to_go and (self.is_session or not self.gone) or not self.to_go and self.waits is None:
            return now
        return max(now, self.gone[-1][1] + self.gap if self.to_go else self.waits + self.patience)
