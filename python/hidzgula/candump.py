"""Logs of candump, read for a listener."""

import ctypes
import itertools
from typing import BinaryIO, Callable, Iterable, Iterator, List, NamedTuple, Optional, TextIO, Union

from ._library import FrameRecord, LoggedRecord, ReadRecord, library
from .listener import Listener
from .records import BadLine, Frame, Heard, LogCounts, Logged
from .station import FRAME, instance_of

_CONTROLLER_ERROR = 0x00000004
_RECEIVE_OVERFLOW = 0x01

# How many frames are read at once, and how many bytes.
_AT_ONCE = 4096
_CHUNK = 262144
# More bytes than a line may have with its end: what is longer is bad, however long it is.
_TOO_LONG = 4099
_NO_TIME = 2**64 - 1
_MISSED, _BAD = 1, 2
# The reasons why a line is bad, by their numbers, in the words of `watch`.
REASONS = (
    "",
    "longer than 4096 bytes",
    "no text",
    "no time (SECONDS.MICROSECONDS)",
    "no bus behind the time",
    "no frame behind the bus",
    "no # behind the identifier",
    "8 digits of identifier wanted",
    "identifier above 1FFFFFFF",
    "more than 8 bytes",
    "other bytes than told of",
    "odd number of digits",
    "no hexadecimal digit",
    "words behind the data",
)

Log = Union[bytes, bytearray, memoryview, BinaryIO, TextIO, Iterable[str], Iterable[bytes]]


class Missed(NamedTuple):
    """So many frames of the bus were missed, as the log tells."""

    count: int


OnBad = Optional[Callable[[BadLine], None]]


def read_log(log: Log, bus: Optional[str] = None, on_bad: OnBad = None, skip_bad: bool = False) -> Iterator[Union[Frame, Missed]]:
    """The frames of SAE J1939 in a log of candump, and where it tells that frames were missed, in their order. Lines are read as `watch` reads
    them: those of `candump -L`, of plain candump with a time or without, of log2long and of cansend. A line DROPCOUNT (`candump -d`) tells
    how many frames were missed, and an error frame of a controller that overflowed of one.

    log: a file that is open for reading, its bytes, or its lines. A live stream is open in binary (`sys.stdin.buffer`), so that what has come
    is read at once.
    bus: as `can0`, to pass over what another bus says, and lines that name none; else they are of one bus. All other lines are passed over: 11-bit, remote, FD and other error frames, and notes.
    on_bad: is called with each line that begins as one of a log, and is none.
    skip_bad: whether such lines are passed over; else each is one frame missed, as for `watch`.
    """
    reader = LogReader(log, bus)
    while reader.read_part():
        for id, length, data in FRAME.iter_unpack(ctypes.string_at(reader.frames, reader.part.frames * FRAME.size)):
            yield Frame(id, data[:length])
        missed = reader.missed(on_bad, skip_bad)
        if missed is not None:
            yield Missed(missed)


def is_overflow(id: int, data: bytes) -> bool:
    """Whether an error frame, by its class and its bytes, tells that the controller lost a frame."""
    return bool(id & _CONTROLLER_ERROR) and len(data) > 1 and bool(data[1] & _RECEIVE_OVERFLOW)


def take_log(
    listener: Listener,
    log: Log,
    bus: Optional[str] = None,
    on_change: Optional[Callable[[Heard, Logged], None]] = None,
    on_bad: OnBad = None,
    skip_bad: bool = False,
    times: bool = True,
) -> LogCounts:
    """Hands a log to a listener, to its end, with the times of its lines, and tells what it was read as. `read_log` says what a log is, and the
    rest. The lists are those of the program's `watch`.

    on_change: is called with what was heard, in its order, and where in the log it was made; frames are handed over some thousand at a time,
    so the listener may have taken later ones by then.

    times: whether a packet may be late by them; False for those of `candump -td`, each of which is the time since the line before.

    Raises a TypeError for a station, whose replies nobody would send, and what `Listener.take_frames` raises.
    """
    instance_of("listener", listener, Listener)
    reader = LogReader(log, bus)
    moments = reader.logged if times else (LoggedRecord * _AT_ONCE)(*[(_NO_TIME, 0)] * _AT_ONCE)
    frames = missed = 0
    while reader.read_part():
        count = reader.part.frames
        if count:
            heard = listener.take_records(reader.frames, moments, count).heard
            if on_change:
                for place, told in heard:
                    on_change(told, reader.logged_at(place))
            frames += count
        gap = reader.missed(on_bad, skip_bad)
        if gap is not None:
            told = listener.missed(gap)
            if on_change:
                on_change(told, Logged(reader.lines, None))
            missed += gap
    return LogCounts(reader.lines, frames, missed, reader.bad)


class LogReader:
    """Reads a log part by part into the library's structs."""

    def __init__(self, log: Log, bus: Optional[str] = None) -> None:
        self.frames = (FrameRecord * _AT_ONCE)()
        """The frames of the part that was read last."""
        self.part = ReadRecord()
        """How many those are, and what its last line told beside."""
        self.lines = 0
        """How many lines were read, those of that part too."""
        self.bad = 0
        """How many of them were bad."""
        self.logged = (LoggedRecord * _AT_ONCE)()
        """When each of them was seen."""
        instance_of("bus", bus or "", str)
        self._bus = (bus or "").encode()
        self._chunks = _chunks_of(log)
        self._text = b""
        self._at = 0
        self._before = 0

    def read_part(self) -> bool:
        """Reads lines until there are frames enough, one tells something else, or none is left of what has come. Tells whether there was one."""
        self._before = self.lines
        while True:
            first = ctypes.cast(self._text, ctypes.c_void_p).value + self._at if self._text else ctypes.addressof(self.frames)
            library.hidzgula_read_log(
                first, len(self._text) - self._at, self._bus, len(self._bus),
                self.frames, _AT_ONCE, self.logged, _AT_ONCE, self.part,
            )  # fmt: skip
            if self.part.lines:
                self._at += self.part.bytes
                self.lines += self.part.lines
                self.bad += self.part.what == _BAD
                return True
            if not self._add_chunk():
                return False

    def logged_at(self, place: int) -> Logged:
        """Where the frame at a place of the part stood."""
        logged = self.logged[place]
        return Logged(self._before + logged.line, None if logged.time == _NO_TIME else logged.time)

    def missed(self, on_bad: OnBad, skip_bad: bool) -> Optional[int]:
        """How many frames were missed where the part ends, if some were. Tells of the line at which it ends, where that is bad."""
        if self.part.what == _BAD:
            if on_bad:
                on_bad(BadLine(self.lines, REASONS[self.part.why]))
            return None if skip_bad else 1
        return self.part.missed if self.part.what == _MISSED else None

    def _add_chunk(self) -> bool:
        """Puts what comes next behind what is left, in which no line ends. Tells whether there was something."""
        rest = self._text[self._at :]
        chunk = next(self._chunks, None)
        if chunk is None:
            chunk = b"\n" if rest else b""
        self._text, self._at = rest[:_TOO_LONG] + chunk, 0
        return bool(chunk)


def _chunks_of(log: Log) -> Iterator[bytes]:
    """The bytes of a log, none of them empty."""
    if isinstance(log, (bytes, bytearray, memoryview)):
        view = memoryview(log).cast("B")
        return (bytes(view[at : at + _CHUNK]) for at in range(0, len(view), _CHUNK))
    if isinstance(log, str):
        raise TypeError("a log is a file, its bytes or its lines, and no text: open the file")
    read = getattr(log, "read1", None) or getattr(log, "read", None)
    if read:
        return map(_octets_of, iter(lambda: read(_CHUNK) or None, None))
    if not hasattr(log, "__iter__"):
        raise TypeError(f"a log is a file, its bytes or its lines, and not {log!r}")
    return _chunks_of_lines(iter(log))


def _chunks_of_lines(lines: Iterator[Union[str, bytes]]) -> Iterator[bytes]:
    """Lines with their ends or without, some thousand at once."""
    while True:
        some: List[bytes] = [_octets_of(line) for line in itertools.islice(lines, _AT_ONCE)]
        if not some:
            return
        yield b"".join(line if line.endswith(b"\n") else line + b"\n" for line in some)


def _octets_of(text: Union[str, bytes]) -> bytes:
    return text.encode(errors="surrogateescape") if isinstance(text, str) else bytes(text)
