"""What is told on standard error of the lines of a log, beside what is written of them: bad lines, times that do not count, an input without frames, or
without frames of what is asked for."""

import re

from .log_cases import reach
from .log_line import ERROR, FD, REMOTE, SHORT, Line
from .words import seen, time_text

TOLD = 10  # bad lines of one kind that are told each
ENOUGH = 10  # relative times that are looked at
KINDS = ["longer than 4096 bytes", "no text", "no time (SECONDS.MICROSECONDS)", "no bus behind the time", "no frame behind the bus", "no # behind the identifier",
         "8 digits of identifier wanted", "identifier above 1FFFFFFF", "more than 8 bytes", "other bytes than told of", "odd number of digits", "no hexadecimal digit",
         "words behind the data"]
RELATIVE = re.compile(rb" ?\(0[0-9][0-9]\.")
ABSOLUTE = "candump -L has times that count"


def kind_of(reason):
    """What a reason says, but for its numbers and characters."""
    return next((kind for kind in KINDS if reason.startswith(kind)), "other bytes than told of")


class BadLines:
    """Of each kind the first ten are told, and at the end how many more there were."""

    def __init__(self):
        self.counts = dict.fromkeys(KINDS, 0)

    def told(self, number, line):
        if line.kind != "bad":
            return ""
        kind = kind_of(line.what)
        self.counts[kind] += 1
        if self.counts[kind] > TOLD:
            reach("a bad line that is counted alone")
        return f"line {number}: {seen(line.what)}\n" if self.counts[kind] <= TOLD else ""

    def rest(self):
        more = {kind: count - TOLD for kind, count in self.counts.items() if count > TOLD}
        return f"and {sum(more.values())} more bad lines: " + ", ".join(f"{count} {kind}" for kind, count in more.items()) + "\n" if more else ""


class Clock:
    """Whether the times of a log count. Relative times (candump -tz, -td) do where of the first ten none is less than the one before it, and the
    tenth is above the second: then they are since the first line."""

    def __init__(self):
        self.times, self.relative, self.untimed = [], False, False

    def state(self):
        first = self.times[:ENOUGH]
        if not self.relative:
            return "count" if first else "unseen"
        if any(one > other for one, other in zip(first, first[1:])) or len(first) == ENOUGH and first[-1] <= first[1]:
            return "passed"
        return "count" if len(first) == ENOUGH else "undecided"

    def heard(self, number, line):
        """The line as it is heard, with its time where that counts, else without; and what is told."""
        before = self.state()
        if line.kind not in ("frame", "overflow") or line.time is None:
            self.untimed |= line.kind == "frame" and before == "unseen"
            return line, ""
        if before == "unseen":
            self.relative = RELATIVE.match(line.text) is not None
        self.times.append(line.time)
        after = self.state()
        if after == "count":
            if before == "undecided":
                reach("relative times count")
            return line, ""
        untimed = Line(line.kind, line.what, None, line.bus)
        if after != "passed" or before == "passed":
            return untimed, ""
        reach("times since the line before")
        return untimed, f"line {number}: times since the line before (candump -td) count for nothing: no packet is late by them, no entry contested; {ABSOLUTE}\n"

    def rest(self):
        if self.state() == "undecided":
            reach("relative times, too few")
            return f"relative times (candump -tz, -td), too few to tell since when, count for nothing: no packet is late by them, no entry contested; {ABSOLUTE}\n"
        if self.state() == "unseen" and self.untimed:
            reach("no line has a time")
            return "no line has a time: no packet is late, no entry contested; candump -L has times\n"
        return ""


# What files begin with that no text does: what they are, and the command that writes what is in them.
PACKED = [(b"\x1f\x8b", "compressed (gzip)", "zcat"), (b"\xfd7zXZ", "compressed (xz)", "xzcat"), (b"\x28\xb5\x2f\xfd", "compressed (zstd)", "zstdcat"),
          (b"PK\x03\x04", "compressed (zip)", "unzip -p"), (b"BZh", "compressed (bzip2)", "bzcat"), (b"\xff\xfe", "UTF-16", "iconv -f UTF-16 -t UTF-8"),
          (b"\xfe\xff", "UTF-16", "iconv -f UTF-16 -t UTF-8")]


def looks_of(text):
    """What an input looks like by a line of it, and what is told of it; None where the line says nothing."""
    for mark, what, command in PACKED:
        if text.startswith(mark):
            return what, f"this is {what}: {command} FILE | j1939bench watch"
    if b"\0" in text and not text.startswith(b"LOGG"):
        return "binary", "this is not a text log"
    log = other_log(text)
    return log and (log[0], f"this looks like {log[0]}, which is read once it is converted: {log[1]}")


def other_log(text):
    """What a line of another program's log looks like, and what converts it."""
    if text.startswith(b"LOGG"):
        return "Vector's binary form (.blf)", "can_logconvert IN.blf OUT.log"
    if text.startswith(b";"):
        return "PEAK's text (.trc)", "can_logconvert IN.trc OUT.log"
    if text.startswith((b"date ", b"base ")):
        return "Vector's text (.asc)", "asc2log -I IN.asc -O OUT.log"
    if text.count(b",") >= 3 or text.count(b";") >= 3:
        return "a table (.csv)", "can_logconvert IN.csv OUT.log"
    return None


def without_frames(lines):
    """What is told of an input in which no line tells of a frame."""
    if not lines or any(line.kind not in ("note", "bad") for line in lines):
        return ""
    looks = next(filter(None, (looks_of(line.text) for line in lines)), None)
    reach("an input without frames that looks like " + (looks[0] if looks else "no log"))
    words = looks[1] if looks else "this looks like no log of candump (candump -L can0 > OUT.log)"
    return f"no frame in {len(lines)} lines: {words}\n"


NAMES_TOLD, NAMES_KEPT = 8, 64
FOREIGN = {SHORT: ("frame with an 11-bit identifier", "frames with 11-bit identifiers"), REMOTE: ("remote frame", "remote frames"),
           FD: ("CAN FD frame", "CAN FD frames"), ERROR: ("error frame", "error frames")}


def joined(items):
    """One after the other, with `and` before the last."""
    return " and ".join(filter(None, [", ".join(items[:-1]), *items[-1:]]))


class Absence:
    """What was there where it is told of no frame. The fate of a frame is `told`, `bus` where it is of another bus than is asked for, or the time of
    which it is not told."""

    def __init__(self):
        self.told, self.lines, self.passed, self.names, self.first, self.foreign, self.drops = False, 0, [], {}, None, dict.fromkeys(FOREIGN, 0), False

    def take(self, line, fate):
        self.lines += 1
        if line.kind == "frame":
            self.told |= fate == "told"
            if fate == "bus":
                self.names[line.bus] = True
            elif fate != "told":
                self.passed.append(fate)
        elif line.kind == "foreign":
            self.foreign[line.what] += 1
        self.drops |= line.kind in ("dropped", "overflow")
        if line.kind in ("foreign", "overflow") and self.first is None:
            self.first = line.bus

    def rest(self, wanted=None, first=None, last=None):
        """What is told at the end of a whole input: of the bus that is wanted, None for each, "" for the first that a line names, from the first time to the last."""
        if self.told:
            return ""
        if not self.lines:
            reach("no line was read")
            return "no line was read\n"
        if self.passed:
            reach("frames of other times alone")
            first, last = (None if it is None else time_text(it) for it in (first, last))
            when = f"from {first} on" if last is None else f"until {last}" if first is None else f"between {first} and {last}"
            return f"frames from {time_text(min(self.passed))} to {time_text(max(self.passed))} were read; none {when}\n"
        if self.names:
            return self.of_buses(wanted)
        kinds = [(count, words) for kind, words in FOREIGN.items() if (count := self.foreign[kind])]
        if kinds:
            total = sum(count for count, _ in kinds)
            reach("frames of no group alone")
            told = joined([f"{count} {words[count > 1]}" for count, words in kinds])
            return f"{told} {'was' if total == 1 else 'were'} read, {'none' if total == self.foreign[SHORT] else 'no data frame'} with 29 bits\n"
        if self.drops:
            reach("dropped frames alone")
            return "frames were dropped, and none was read\n"
        return ""

    def of_buses(self, wanted):
        reach("frames of other buses alone")
        names = [name for name in self.names if name is not None]
        more = max(0, min(len(names), NAMES_KEPT) - NAMES_TOLD)
        told = names[:NAMES_TOLD] + [f"{'at least ' if len(names) >= NAMES_KEPT else ''}{more} more"] * (more > 0)
        other = wanted or (f"{self.first}, which is named first (--bus)" if wanted == "" and self.first else "a bus that is watched")
        return seen(("frames of " + joined(told) if told else "frames that name no bus") + f" were read; none of {other}") + "\n"
