"""Where the proved program is, and what is done to a log before it reads it and to a text before it is shown.

Private; `hidzgula.fleet` and `hidzgula.serve` stand on it.
"""

import io
import pathlib
import re
import shutil
import subprocess
import zlib
from typing import Iterator, List, Optional

NAME = "j1939bench_lines"
"""The program that has `watch`."""
CHUNK = 1 << 20
_GZIP = b"\x1f\x8b"
# What acts unseen: control characters, and marks that turn the direction of text or part lines; and what is no character.
_UNSEEN = re.compile("[\x00-\x1f\x7f-\x9f\u200e\u200f\u2028-\u202e\u2066-\u2069\ud800-\udfff\ufffe\uffff]")


class NoProgram(Exception):
    """The program is not there, or does not answer; the text tells what was looked for."""


class CutOff(Exception):
    """A compressed log that breaks off, or is damaged; what stands before was read."""


def find_program(given: Optional[str] = None) -> str:
    """The path of the program: the one given, or the one beside the package, of the checkout that has the package, or installed on the PATH.

    Raises NoProgram where none is there.
    """
    if given is not None:
        found = shutil.which(given)
        if found is None:
            raise NoProgram(f"there is no program {plain(given)}")
        return str(pathlib.Path(found).absolute())
    here = pathlib.Path(__file__).resolve().parent
    command = shutil.which("j1939bench")
    places = [here / NAME, here.parents[1] / "crates" / NAME / "out" / NAME]
    if command:
        places.append(pathlib.Path(command).resolve().parents[1] / "libexec/j1939bench" / NAME)
    for place in [*places, shutil.which(NAME), command]:
        if place and shutil.which(str(place)):
            return str(place)
    raise NoProgram("there is no j1939bench here: install the package hidzgula, or name the program (--program PATH)")


def version_of(program: str) -> str:
    """What the program tells of its version, as `j1939bench 2.4.0`. Raises NoProgram where it does not answer."""
    try:
        ran = subprocess.run([program, "--version"], stdin=subprocess.DEVNULL, stdout=subprocess.PIPE, stderr=subprocess.DEVNULL, timeout=60)
    except (OSError, subprocess.TimeoutExpired) as error:
        raise NoProgram(f"{plain(program)} cannot be run: {error}") from error
    first = ran.stdout.decode(errors="replace").split("\n", 1)[0]
    if ran.returncode or not first.startswith("j1939bench "):
        raise NoProgram(f"{plain(program)} is no j1939bench: it tells no version")
    return plain(first)


def is_compressed(start: bytes) -> bool:
    """Whether a file that begins so was compressed by gzip."""
    return start.startswith(_GZIP)


def unpacked(pieces: Iterator[bytes]) -> Iterator[bytes]:
    """What gzip made these bytes of, in pieces of at most `CHUNK` bytes. Raises CutOff behind the last one that can be had."""
    inflate = None
    for piece in pieces:
        while piece:
            if inflate is None:
                # (zeros may fill up what stands behind a compressed file)
                piece = piece.lstrip(b"\0")
                if not piece:
                    break
                inflate = zlib.decompressobj(wbits=31)
            try:
                some = inflate.decompress(piece, CHUNK)
            except zlib.error as error:
                raise CutOff("the compressed log is damaged: what stands before was read") from error
            if some:
                yield some
            if inflate.eof:
                piece, inflate = inflate.unused_data, None
            else:
                piece = inflate.unconsumed_tail
    if inflate is not None:
        rest = inflate.flush()
        if rest:
            yield rest
        raise CutOff("the compressed log breaks off: what stands before was read")


def pieces_of(log: io.FileIO) -> Iterator[bytes]:
    """The bytes of an open log from its beginning, unpacked where gzip compressed it."""
    log.seek(0)
    start = log.read(len(_GZIP))
    log.seek(0)
    # (of a damaged log what was unpacked of a piece is lost: so those are short)
    if is_compressed(start):
        return unpacked(iter(lambda: log.read(CHUNK >> 6), b""))
    return iter(lambda: log.read(CHUNK), b"")


def plain(text: str) -> str:
    """A text from outside, harmless for a terminal and a page: what acts unseen stands as `\\x1B` or `\\u202E`."""
    return _UNSEEN.sub(_visible, text)


def _visible(found: "re.Match[str]") -> str:
    number = ord(found.group())
    # (a byte of a file's name that is no text)
    number = number - 0xDC00 if 0xDC80 <= number <= 0xDCFF else number
    return f"\\x{number:02X}" if number < 0x100 else f"\\u{number:04X}"


def first_lines(text: bytes, most: int = 12) -> List[str]:
    """The first lines that a program told on standard error, harmless and bounded."""
    lines = text[:8192].decode(errors="replace").splitlines()
    return [plain(line)[:300] for line in lines if line.strip()][:most]
