"""What is saved of a station, as a text: a first line that tells whose it is, and a frame in each further line, as `cansend` has it."""

import re
import zlib
from typing import Any, NamedTuple, Sequence

from ._library import FrameRecord

VERSION = 1

_FIRST = re.compile(rb"# hidzgula (live |)station (\d{1,9}) ([0-9A-F]{8})(?: name ([0-9A-F]{16}) address (\d{1,3}) keep (\d{1,10})\n)?")
_LINE = re.compile(rb"([0-9A-F]{8})#((?:[0-9A-F]{2}){0,8})\n")


class Saved(NamedTuple):
    """A station's NAME, its address, how many messages of each list it keeps, and the frames, as records of the library."""

    name: int
    address: int
    keep: int
    frames: Sequence[FrameRecord]


def written(is_live: bool, saved: Saved) -> bytes:
    """The text. The eight digits of its first line are the CRC-32 of all that stands behind them."""
    lines = [f" name {saved.name:016X} address {saved.address} keep {saved.keep}\n"]
    lines += [f"{frame.id:08X}#{bytes(frame.bytes[: frame.length]).hex().upper()}\n" for frame in saved.frames]
    text = "".join(lines).encode()
    return f"# hidzgula {'live ' if is_live else ''}station {VERSION} {zlib.crc32(text):08X}".encode() + text


def read(is_live: bool, text: Any) -> Saved:
    """What was written. Raises ValueError for what no station saved, or one of the other kind did, or another version, or what was cut or changed."""
    try:
        text = bytes(memoryview(text))
    except TypeError:
        raise TypeError(f"what was saved is bytes, and not {text!r}") from None
    first = _FIRST.match(text)
    if not first:
        raise ValueError("no station saved this: its first line begins otherwise, or is cut")
    live, version, crc, name, address, keep = first.groups()
    if int(version) != VERSION:
        raise ValueError(f"this was saved as version {int(version)}, and what is read here is version {VERSION}")
    if name is None or zlib.crc32(text[first.end(3) :]) != int(crc, 16):
        raise ValueError("what was saved was cut or changed: its CRC-32 is another one")
    if bool(live) != is_live:
        raise ValueError(f"this was saved of a {'live ' if live else ''}station, and is restored as one")
    frames = [_frame_in(line) for line in text[first.end() :].splitlines(keepends=True)]
    return Saved(int(name, 16), int(address), int(keep), frames)


def _frame_in(line: bytes) -> FrameRecord:
    found = _LINE.fullmatch(line)
    if not found:
        raise ValueError(f"a line of what was saved is no frame: {line[:80]!r}")
    data = bytes.fromhex(found[2].decode())
    return FrameRecord(int(found[1], 16), len(data), (*data, *bytes(8 - len(data))))
