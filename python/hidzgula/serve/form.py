"""The file in a form that a browser sends (multipart/form-data, RFC 7578), taken as it comes: nothing is kept."""

import re
from typing import BinaryIO, Iterator, Optional, Tuple

CHUNK = 1 << 16
MOST_HEAD = 8192
"""The most bytes before a part's content."""


class BadForm(Exception):
    """What was sent is no form with one file; the text tells what is wrong."""


def boundary_of(content_type: Optional[str]) -> bytes:
    """What parts the form. Raises BadForm for another content than a form's."""
    found = re.fullmatch(r'multipart/form-data\s*;\s*boundary="?([0-9A-Za-z\'()+_,./:=? -]{1,70})"?\s*', content_type or "", re.I)
    if found is None:
        raise BadForm("a form with a file is wanted")
    return found[1].encode()


def file_of(body: BinaryIO, length: int, boundary: bytes) -> Tuple[str, Iterator[bytes]]:
    """The name of the form's first file, and its bytes in pieces. Raises BadForm where there is none, and where it breaks off."""
    form = _Form(body, length, b"\r\n--" + boundary)
    head = form.head()
    name = re.search(rb'filename="([^"\r\n]*)"', head)
    if name is None:
        raise BadForm("no file was sent")
    return name[1].decode(errors="replace"), form.content()


class _Form:
    """A form as it comes: what was read of it, and is not used yet."""

    def __init__(self, body: BinaryIO, length: int, end: bytes) -> None:
        self._body, self._left, self._end = body, length, end
        # (before the first part no line ends; so one is put there, and all parts begin alike)
        self._kept = b"\r\n"

    def _read(self) -> None:
        some = self._body.read(min(CHUNK, self._left))
        self._left -= len(some)
        self._kept += some
        if not some:
            raise BadForm("the form breaks off")

    def head(self) -> bytes:
        """What stands before the content of the first part."""
        while self._end not in self._kept:
            self._kept = self._kept[-len(self._end) :]
            self._read()
        self._kept = self._kept.partition(self._end)[2]
        while b"\r\n\r\n" not in self._kept:
            if len(self._kept) > MOST_HEAD:
                raise BadForm("what stands before the file is too long")
            self._read()
        head, _, self._kept = self._kept.partition(b"\r\n\r\n")
        return head

    def content(self) -> Iterator[bytes]:
        """The bytes of the part, in pieces."""
        while self._end not in self._kept:
            if len(self._kept) > len(self._end):
                yield self._kept[: -len(self._end)]
                self._kept = self._kept[-len(self._end) :]
            self._read()
        yield self._kept.partition(self._end)[0]
