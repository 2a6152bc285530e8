"""What one line of a log is: a frame of J1939 with its time and its bus, another frame, frames that were dropped, a note, or bad.

The forms: what `candump -L` and `candump -l` write, `(TIME) BUS ID#BYTES`, with R or T behind where a direction is told; plain
candump, with a time in front or without, and log2long, `BUS ID [COUNT] BYTE BYTE ..` with remarks behind, and before the identifier the direction and two
flags, `RX - -`, where it was asked for; what cansend takes,
`ID#BYTES`, with points between bytes or not; and a frame as a script shows it, `ID BYTE BYTE ..`. An identifier has three digits
(11 bits) or eight (29 bits). Words stand apart by white space of ASCII.

A line that begins with a parenthesis, or is plain candump with a bracketed count, is meant as one of a log: where it is none, it is bad
and has a reason. Any other text is a note.
"""

import datetime
import re

from .frames import Frame
from .log_cases import reach

MOST_BYTES = 4096  # of a line without its end
WORD = re.compile(r"[^ \t\n\f\r]+")
WHITE = " \t\n\f\r"
FRACTION = r"\.([0-9]{3}|[0-9]{6}|[0-9]{9})"
TIME = re.compile(r"([0-9]{1,10})" + FRACTION)
DATE = re.compile(r"([0-9]{4})-([0-9]{2})-([0-9]{2}) ([0-9]{2}):([0-9]{2}):([0-9]{2})" + FRACTION)
NO_DIGIT = re.compile("[^0-9A-Fa-f]")
EXTENDED, BEYOND = 1 << 29, 1 << 30  # 29 bits of identifier; candump marks an error frame by the next bit
CONTROLLER, OVERFLOW = 0x00000004, 0x01  # the class of errors of the controller; in its second byte: it lost a frame

SHORT, REMOTE, FD, ERROR = "11-bit identifier", "remote frame", "CAN FD frame", "error frame"


class Bad(Exception):
    """The line is meant as one of a log, and is none. Its reason is the exception's text."""


class Line:
    """What a line is: `frame`, `dropped`, `overflow`, `foreign`, `note` or `bad`. The time is in microseconds. `what` is the Frame, how many
    were dropped, which frame it is that is none of J1939, or the reason."""

    __slots__ = ("kind", "what", "time", "bus", "text")

    def __init__(self, kind, what=None, time=None, bus=None):
        self.kind, self.what, self.time, self.bus, self.text = kind, what, time, bus, b""


def read_lines(data):
    """The lines of an input, each with its text. Each ends with LF, which the last one may lack."""
    lines = []
    for text in re.findall(rb"[^\n]*\n|[^\n]+", data):
        lines.append(read_line(text))
        lines[-1].text = text
    return lines


def read_line(line):
    """A line with its end, LF or CR LF, or without."""
    line = line[:-2] if line.endswith(b"\r\n") else line[:-1] if line.endswith(b"\n") else line
    if len(line) > MOST_BYTES:
        return bad("longer than 4096 bytes")
    try:
        text = line.decode()
    except UnicodeDecodeError:
        return bad("no text") if line.lstrip(WHITE.encode()).startswith(b"(") else note("a note that is no text")
    text = text.removeprefix("\ufeff").strip(WHITE)
    if not text:
        return note("an empty line")
    if text[0] == "#":
        return note("a comment")
    if text.startswith("DROPCOUNT:"):
        return dropped(WORD.findall(text[len("DROPCOUNT:") :]))
    try:
        return timed(text) if text[0] == "(" else untimed(text)
    except Bad as reason:
        return bad(str(reason))


def bad(reason):
    reach("bad: " + re.sub(r"(?s)(?<=digit: ).*|\d+(?= found)|^\d+(?= bytes,)|\d+(?= told)", "..", reason))
    return Line("bad", reason)


def note(case):
    reach(case)
    return Line("note")


def dropped(words):
    """`DROPCOUNT: dropped 7 CAN frames on 'can0' socket ..`, as candump -d says. Where it is cut short: one frame, of any bus. candump counts in 32
    bits."""
    count = min(int(words[1]), 2**32 - 1) if len(words) > 1 and re.fullmatch("[0-9]+", words[1]) else 1
    bus = words[5][1:-1] if len(words) > 5 and re.fullmatch("'.*'", words[5]) else None
    reach("frames were dropped" + ("" if bus is not None else ", of whatever bus"))
    return Line("dropped", count, bus=bus)


def micros_of(text):
    """The microseconds of a time: seconds, or a date and a time of day (taken for UTC), with three, six or nine digits behind the point, of which
    those below a microsecond are cut."""
    seconds, date = TIME.fullmatch(text), DATE.fullmatch(text)
    if seconds:
        return int(seconds[1]) * 1_000_000 + int(seconds[2][:6].ljust(6, "0"))
    if not date:
        return None
    year, month, day, hours, minutes, second = map(int, date.groups()[:6])
    try:
        days = (datetime.date(year, month, day) - datetime.date(1970, 1, 1)).days
    except ValueError:
        return None
    if year < 1970 or hours > 23 or minutes > 59 or second > 60:
        return None
    return (((days * 24 + hours) * 60 + minutes) * 60 + second) * 1_000_000 + int(date[7][:6].ljust(6, "0"))


def timed(text):
    """A time in parentheses, a bus, and a frame."""
    within, parenthesis, rest = text[1:].partition(")")
    time = micros_of(within)
    if not parenthesis or time is None:
        raise Bad("no time (SECONDS.MICROSECONDS)")
    words = WORD.findall(rest)
    if not words:
        raise Bad("no bus behind the time")
    words = words[:1] + behind_direction(words[1:])
    if len(words) == 1:
        raise Bad("no frame behind the bus")
    if "#" in words[1]:
        return said(joined_frame(words[1:]), time, words[0], "a log's")
    if len(words) < 3 or words[2][0] != "[":
        raise Bad("no # behind the identifier")
    return said(apart_frame(words[1], words[2], words[3:]), time, words[0], "plain candump's with a time")


def untimed(text):
    """A line without a time is bad only where it is plain candump."""
    words = WORD.findall(text)
    if "#" in words[0]:
        try:
            return said(joined_frame(words), None, None, "cansend's")
        except Bad:
            return note("what would be cansend's")
    told = words[:1] + behind_direction(words[1:])
    if len(told) > 2 and told[2][0] == "[":
        return said(apart_frame(told[1], told[2], told[3:]), None, told[0], "plain candump's without a time")
    if re.fullmatch("[01][0-9A-Fa-f]{7}", words[0]) and len(words) <= 9 and all(re.fullmatch("[0-9A-Fa-f]{2}", word) for word in words[1:]):
        return said(Frame(int(words[0], 16), bytes.fromhex("".join(words[1:]))), None, None, "a script's")
    return note("other text")


def behind_direction(words):
    """The words behind a bus from the identifier on: `candump -x` has the direction before it, and two flags."""
    if words[:1] not in (["RX"], ["TX"]):
        return words
    reach("a direction before the identifier")
    return words[3:]


def said(frame, time, bus, form):
    """A frame of J1939, of another kind, or one that tells of lost frames."""
    if isinstance(frame, Frame):
        reach(f"a frame in {form} form")
        return Line("frame", frame, time, bus)
    if frame == OVERFLOW:
        reach("an overflow")
        return Line("overflow", None, time, bus)
    reach(f"not J1939: {frame}")
    return Line("foreign", frame, time, bus)


def joined_frame(words):
    """`ID#BYTES`, and R or T. `##` begins a CAN FD frame's flags and bytes, `#R` a remote frame."""
    digits, _, data = words[0].partition("#")
    if len(words) > 2 or len(words) == 2 and words[1] not in ("R", "T"):
        raise Bad("words behind the data")
    identifier = identifier_of(digits)
    if data.startswith("#"):
        return FD
    if data[:1] in ("R", "r"):
        return REMOTE
    whole = b""
    for part in data.split("."):
        whole += bytes_of(part, 8 - len(whole))
    return frame_with(identifier, whole)


def apart_frame(digits, told, words):
    """`ID [COUNT] BYTE BYTE ..`. A count of two digits is a CAN FD frame's. Behind stand `remote request`, ERRORFRAME, or the bytes as text in
    quotes."""
    identifier = identifier_of(digits)
    if re.fullmatch(r"\[[0-9]{2}\]", told):
        return FD
    if not re.fullmatch(r"\[[0-8]\]", told):
        raise Bad("no # behind the identifier")
    count, whole = int(told[1]), b""
    for found in range(count + 1):
        word = words[found] if found < len(words) else ""
        if word == "remote":
            return REMOTE
        if found == count:
            break
        if len(word.encode()) != 2:
            raise Bad(f"{found} bytes, and {count} told of")
        whole += bytes_of(word, 8)
    if word and word != "ERRORFRAME" and word[0] != "'":
        raise Bad("words behind the data")
    return frame_with(identifier, whole)


def only_digits(word):
    """Where a word has another character than a hexadecimal digit, the first one is the reason."""
    other = NO_DIGIT.search(word)
    if other:
        raise Bad("no hexadecimal digit: " + (f"U+{ord(other[0]):04X}" if ord(other[0]) < 32 or ord(other[0]) == 127 else other[0]))


def identifier_of(word):
    """None for one of 11 bits, else its number: up to 1FFFFFFF, or an error frame's."""
    only_digits(word)
    if len(word) == 3:
        return None
    if len(word) != 8:
        raise Bad(f"8 digits of identifier wanted, {len(word)} found")
    if int(word, 16) >= BEYOND:
        raise Bad("identifier above 1FFFFFFF")
    return int(word, 16)


def bytes_of(word, room):
    """The bytes of a word of digits, two for each."""
    only_digits(word)
    if len(word) % 2:
        raise Bad("odd number of digits")
    if len(word) // 2 > room:
        raise Bad("more than 8 bytes")
    return bytes.fromhex(word)


def frame_with(identifier, data):
    """A controller's error with the bit for an overflow says that a frame was lost, at least; any other error says nothing to a reader."""
    if identifier is None:
        return SHORT
    if identifier < EXTENDED:
        return Frame(identifier, data)
    if identifier & CONTROLLER and data[1:2] and data[1] & OVERFLOW:
        return OVERFLOW
    return ERROR
