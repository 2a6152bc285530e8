"""Runs of the proved program for a page: one that reads a log to its end, and words that every run gets."""

import subprocess
import threading
from typing import Iterator, List, NamedTuple, Sequence

from ..program import first_lines, unpacked

CEILING = ("--most", "4096", "--keep", "100000")
"""How much the program keeps at once: so it stays within 32 MB."""
MOST_PAGE = 16 << 20
"""The most bytes of a page; `watch` writes fewer than 5 MB."""


class TooLong(Exception):
    """A log that has too many bytes once it was unpacked, or took too long; the text tells which."""


class Watched(NamedTuple):
    """What came of a run."""

    status: int
    page: bytes
    remarks: List[str]
    """What the program told beside the page."""


def log_of(pieces: Iterator[bytes]) -> Iterator[bytes]:
    """The bytes of a log in pieces, unpacked where it is compressed by gzip."""
    start = b""
    for piece in pieces:
        start += piece
        if len(start) > 1:
            break

    def all_pieces() -> Iterator[bytes]:
        yield start
        yield from pieces

    return unpacked(all_pieces()) if start.startswith(b"\x1f\x8b") else all_pieces()


def watched(program: str, words: Sequence[str], pieces: Iterator[bytes], most: int, seconds: float) -> Watched:
    """The page of a log. The program ends with this call, whatever comes of it.

    Raises TooLong where the log has more than `most` bytes, or all of it takes more seconds; and what reading the pieces raises.
    """
    running = subprocess.Popen([program, "watch", "--format", "html", *CEILING, *words, "-"], stdin=subprocess.PIPE, stdout=subprocess.PIPE, stderr=subprocess.PIPE)
    said: List[bytes] = []
    late = threading.Event()
    timer = threading.Timer(seconds, lambda: (late.set(), running.kill()))
    timer.daemon = True
    listening = threading.Thread(target=lambda: said.append(_start_of(running.stderr)), daemon=True)
    with running:
        try:
            timer.start()
            listening.start()
            _hand_over(running, pieces, most)
            page = running.stdout.read(MOST_PAGE) if running.stdout else b""
            listening.join()
            status = running.wait()
        finally:
            timer.cancel()
            running.kill()
            # (so that nobody reads what is closed now)
            if listening.is_alive():
                listening.join()
    if late.is_set():
        raise TooLong(f"the log took more than {seconds:.0f} s")
    return Watched(status, page, first_lines(b"".join(said)))


def _hand_over(running: "subprocess.Popen[bytes]", pieces: Iterator[bytes], most: int) -> None:
    """Hands the log to the program, which reads all of it before it writes its page."""
    assert running.stdin is not None
    size = 0
    try:
        for piece in pieces:
            size += len(piece)
            if size > most:
                raise TooLong(f"the log has more than {most >> 20} MB")
            running.stdin.write(piece)
        running.stdin.close()
    except BrokenPipeError:
        pass


def _start_of(stream: "subprocess.IO[bytes]") -> bytes:
    """The first bytes of a stream that is read to its end."""
    start = stream.read(8192)
    while stream.read(1 << 16):
        pass
    return start
