"""What is kept of a log, by the sum of its bytes: what it told, and its rows, ready to be written where its vehicle has no other log."""

import contextlib
import gc
import gzip
import json
import os
import zlib
from typing import Iterator, List, NamedTuple, Optional, Sequence, Tuple

from .facts import Json, read_log
from .tables import MESSAGES, UNITS, Lines, Rows, cell_of, joined, lines_of, message_rows, replacing, unit_rows

HEAD = ("format", "by", "state", "why", "lines", "missed", "unread", "first", "last", "vins", "bytes")
"""What a part tells of its log as a whole."""
# (neither JSON nor the tables have it in their texts)
_BETWEEN = b"\0"

Log = Tuple[str, Optional[str]]
"""Its path, and its sum when it was read before."""


class Made(NamedTuple):
    """The rows of a vehicle."""

    messages: Lines
    units: Lines
    lost: List[str]
    """The logs of which nothing is there."""


def path_of(folder: str, digest: str) -> str:
    """Where the log of this sum is kept."""
    return os.path.join(folder, f"parts/{digest}.gz")


def pack_log(path: str, program: str, made_by: str, known: Optional[str] = None) -> Json:
    """What a log tells, as `read_log` has it, ready to be kept: `head` is what the part tells of its log as a whole, `packed` what is kept of it.
    So whoever reads logs packs them, and whoever keeps them needs not look into each."""
    part = read_log(path, program, made_by, known)
    if "format" not in part:
        return part
    told = {"state": part["state"], "file_why": part.pop("file_why"), "sha256": part["sha256"], "head": {key: part[key] for key in HEAD}}
    with _without_collections():
        rows = Rows(part)
        lines = lines_of(MESSAGES[1:], message_rows("", rows), False), lines_of(UNITS[1:], unit_rows("", rows), False)
        content = _BETWEEN.join((json.dumps(part, separators=(",", ":")).encode(), *(it.text.encode() for it in lines)))
    return {**told, "packed": gzip.compress(content, 6, mtime=0)}


def pack_logs(logs: Sequence[Log], program: str, made_by: str) -> List[Json]:
    """What each of these logs tells, as `pack_log` has it."""
    return [pack_log(path, program, made_by, known) for path, known in logs]


def keep(folder: str, digest: str, packed: bytes) -> None:
    """Keeps what was packed of a log."""
    with replacing(path_of(folder, digest)) as new, open(new, "wb") as file:
        file.write(packed)


def kept_of(folder: str, digest: str) -> Optional[List[bytes]]:
    """What is kept of the log of this sum: its part, and the lines of its messages and units without their vehicle; None where that is not there, or
    damaged."""
    try:
        with gzip.open(path_of(folder, digest), "rb") as file:
            kept = file.read().split(_BETWEEN)
    except (OSError, EOFError, zlib.error):
        return None
    return kept if len(kept) == 3 else None


def part_of(folder: str, digest: str) -> Optional[Json]:
    """What the log of this sum told; none where that is not there."""
    kept = kept_of(folder, digest)
    return None if kept is None else dict(json.loads(kept[0]))


def made_of(folder: str, vehicle: str, digests: Sequence[str], keeps_values: bool) -> Made:
    """Makes the rows of a vehicle with these logs."""
    return _alone(folder, vehicle, digests[0]) if len(digests) == 1 and not keeps_values else _together(folder, vehicle, digests, keeps_values)


def _alone(folder: str, vehicle: str, digest: str) -> Made:
    """The rows of a vehicle with one log, which are made already, but for the vehicle."""
    kept = kept_of(folder, digest)
    first = f"{cell_of(vehicle)},"
    # (no text of a row has a line's end in it)
    texts = (it.decode()[:-1].replace("\n", f"\n{first}") for it in kept[1:]) if kept else ("", "")
    messages, units = (Lines(f"{first}{text}\n" if text else "", []) for text in texts)
    return Made(messages, units, [] if kept else [digest])


def _together(folder: str, vehicle: str, digests: Sequence[str], keeps_values: bool) -> Made:
    """The rows of a vehicle, whose logs are joined."""
    lost: List[str] = []

    def parts() -> Iterator[Json]:
        for digest in sorted(digests):
            part = part_of(folder, digest)
            if part is None:
                lost.append(digest)
            else:
                yield part

    with _without_collections():
        rows = joined(parts())
        return Made(lines_of(MESSAGES, message_rows(vehicle, rows), keeps_values), lines_of(UNITS, unit_rows(vehicle, rows), keeps_values), lost)


@contextlib.contextmanager
def _without_collections() -> Iterator[None]:
    """Rows hold no cycles: to look for some among so many takes a third of the time."""
    was_on = gc.isenabled()
    gc.disable()
    try:
        yield
    finally:
        if was_on:
            gc.enable()
