"""What one log tells: it is handed to the proved program, and its report is taken as facts of units and of codes.

A fact of a code is of a unit, a kind of message and a code: when the first and the last message came that has it, how many did, how many of these
were read in part, and how often it came, which is that a message has it and the one before has not. Times are microseconds as the log has them.
"""

import functools
import hashlib
import io
import json
import os
import stat
import subprocess
import tempfile
import threading
from typing import Any, Dict, FrozenSet, Iterable, List, Optional, Sequence, Tuple

from ..program import CutOff, first_lines, is_compressed, pieces_of, plain

KINDS = ("dm1", "dm2", "dm6")
LAMPS = ("stop", "amber", "mil", "protect")
"""The lamps of a message, the worst first."""
_PLACES = {"mil": 6, "stop": 4, "amber": 2, "protect": 0}
# (J1939-73, 5.7.1: of a lamp's two bits 01 is on)
_ON = 1

FORMAT = 4
"""What a part says: one of another format is made again."""
MOST_BYTES = 64 << 30
"""The most bytes of a log, unpacked."""
MOST_SECONDS = 3600
"""The most seconds that the program may take for a log."""
MOST_FACTS = 100_000
"""The most facts that are kept of a log."""
CEILING = ("--most", "1024", "--keep", "20000")
"""How much the program keeps at once: so its memory has a bound, and so has a line that it writes."""

Json = Dict[str, Any]
Code = Tuple[Optional[int], Optional[int]]
"""SPN and FMI; of a message without a readable code neither."""
NO_CODE: Code = (None, None)


class Failed(Exception):
    """A log that could not be read; the text tells why."""


def read_log(path: str, program: str, made_by: str, known: Optional[str] = None) -> Json:
    """What a log tells, as a part: values of JSON. A log that cannot be read is a part that says why.

    path: a file, as it is or compressed by gzip.
    program, made_by: the program's path, and what is noted as the one that made the part.
    known: the sum (SHA-256) of the log's bytes when it was read before; where it is still that one, the part says so alone.
    """
    try:
        # (without a buffer: the program reads by the same descriptor)
        with open(path, "rb", buffering=0, opener=_without_waiting) as log:
            before = os.fstat(log.fileno())
            if not stat.S_ISREG(before.st_mode):
                raise Failed("it is no file")
            digest, size, why = _sum_of(log)
            if digest == known:
                return {"state": "known", "sha256": digest, "file_why": why}
            told = _told_of(log, program)
            after = os.fstat(log.fileno())
            if (before.st_size, before.st_mtime_ns) != (after.st_size, after.st_mtime_ns):
                raise Failed("it changed while it was read; the next run reads it again")
    except OSError as error:
        return not_read(f"{error.strerror}" if error.filename in (None, path) else f"{error.filename}: {error.strerror}")
    except Failed as error:
        return not_read(str(error))
    return {"format": FORMAT, "by": made_by, "sha256": digest, "bytes": size, "file_why": why, **told}


def not_read(why: str) -> Json:
    """The part of a log that could not be read."""
    return {"state": "not read", "file_why": [plain(why)[:300]]}


def _without_waiting(path: str, flags: int) -> int:
    """Opens a file; a named pipe that nobody writes is nothing to wait for."""
    return os.open(path, flags | os.O_NONBLOCK)


def _sum_of(log: io.FileIO) -> Tuple[str, int, List[str]]:
    """The sum of a log's bytes, unpacked; how many there are; and what is wrong with how they are compressed."""
    digest, size, why = hashlib.sha256(), 0, []
    try:
        for piece in pieces_of(log):
            digest.update(piece)
            size += len(piece)
            if size > MOST_BYTES:
                raise Failed(f"it has more than {MOST_BYTES >> 30} GB")
    except CutOff as error:
        why.append(str(error))
    return digest.hexdigest(), size, why


def _told_of(log: io.FileIO, program: str) -> Json:
    """What the program tells of all buses of a log. Raises Failed where it fails, or takes too long."""
    log.seek(0)
    packed = is_compressed(log.read(2))
    log.seek(0)
    facts, late = Facts(), threading.Event()
    with tempfile.TemporaryFile() as said:
        command = [program, "watch", "--format", "json", "--bus", "all", *CEILING, "-"]
        running = subprocess.Popen(command, stdin=subprocess.PIPE if packed else log, stdout=subprocess.PIPE, stderr=said)
        timer = threading.Timer(MOST_SECONDS, lambda: (late.set(), running.kill()))
        timer.daemon = True
        timer.start()
        try:
            if packed:
                threading.Thread(target=_feed, args=(log, running), daemon=True).start()
            facts.take(running.stdout or ())
        except (ValueError, KeyError, TypeError, AttributeError) as error:
            running.kill()
            raise Failed(f"what the program wrote is no report: {error!r}") from error
        except BaseException:
            # (who ends the run does not wait for the program)
            running.kill()
            raise
        finally:
            status = running.wait()
            timer.cancel()
            if running.stdout:
                running.stdout.close()
        said.seek(0)
        lines = first_lines(said.read(8192))
    if late.is_set():
        raise Failed(f"the program took more than {MOST_SECONDS} s")
    if status not in (0, 3) or not facts.is_whole:
        raise Failed("; ".join([f"the program ended with status {status}", *lines]))
    return facts.told(lines)


def _feed(log: io.FileIO, running: "subprocess.Popen[bytes]") -> None:
    """Hands the unpacked bytes of a log to the program, as far as they can be had and are taken."""
    assert running.stdin is not None
    try:
        for piece in pieces_of(log):
            running.stdin.write(piece)
    except (CutOff, OSError):
        pass
    finally:
        try:
            running.stdin.close()
        except OSError:
            pass


def micros(text: Optional[str]) -> Optional[int]:
    """A time of the program's report, as `1792915201.500000`."""
    if text is None:
        return None
    seconds, _, fraction = text.partition(".")
    return int(seconds) * 1_000_000 + int(fraction.ljust(6, "0")[:6])


def least(one: Optional[int], other: Optional[int]) -> Optional[int]:
    """The lesser of two, of which each may be missing."""
    return one if other is None else other if one is None else min(one, other)


def greatest(one: Optional[int], other: Optional[int]) -> Optional[int]:
    """The greater of two, of which each may be missing."""
    return one if other is None else other if one is None else max(one, other)


Lamps = Tuple[str, ...]


@functools.lru_cache(256)
def lit(states: str) -> Lamps:
    """The lamps that are on, the worst first, of the hexadecimal digits of which the first two say which."""
    return tuple(lamp for lamp in LAMPS if int(states[:2], 16) >> _PLACES[lamp] & 3 == _ON)


@functools.lru_cache(256)
def both(one: Lamps, other: Lamps) -> Lamps:
    """The lamps of either, the worst first."""
    return tuple(lamp for lamp in LAMPS if lamp in one or lamp in other)


class Facts:
    """What the program's lines tell: claims, and the lists of its report, or of several where it began anew in between."""

    def __init__(self) -> None:
        self.is_whole = False
        """Whether the report was there."""
        self._units: Dict[Tuple[str, str, str], Json] = {}
        self._codes: Dict[Tuple[Tuple[str, str, str], str, Code], Json] = {}
        self._before: Dict[Tuple[Tuple[str, str, str], str], FrozenSet[Code]] = {}
        self._begun_anew = 0
        self._left_out = 0
        self._report: Json = {}

    def take(self, lines: Iterable[bytes]) -> None:
        """Takes what the program writes, to its end."""
        for line in lines:
            # (of messages the report tells; the quotes of a text inside would be \\")
            if b'"event":"dm' in line:
                continue
            event = json.loads(line)
            if event["event"] == "unit":
                unit = self._unit_of(event, event["name"])
                if unit is not None:
                    unit["address"] = event["address"]
                    self._hear(unit, micros(event["time"]), micros(event["time"]))
            elif event["event"] in ("over", "report"):
                self._take_report(event)

    def told(self, lines: List[str]) -> Json:
        """What was told, and these lines of the program's."""
        frames = self._report["lines"].get("frame", 0)
        # (the last line tells what was there instead)
        lines = lines if frames else lines[-1:]
        if self._left_out:
            lines = [f"{self._left_out} of its units and codes are left out: more than {MOST_FACTS}", *lines]
        times = [unit[key] for unit in self._units.values() for key in ("first", "heard") if unit[key] is not None]
        return {
            "state": "read" if frames else "no frame",
            "why": lines,
            "lines": self._report["lines"],
            "missed": self._report.get("missed", 0),
            "unread": self._report.get("unread", 0),
            "first": min(times, default=None),
            "last": max(times, default=None),
            "vins": sorted({unit["vin"] for unit in self._units.values() if unit["vin"]}),
            "units": list(self._units.values()),
            "codes": list(self._codes.values()),
        }

    def _take_report(self, report: Json) -> None:
        is_last = report["event"] == "report"
        if is_last:
            # (of a unit without a row here nothing was heard any more)
            for unit in self._units.values():
                unit["now"]["dm1"] = unit["now"]["dm1"] and {**unit["now"]["dm1"], "gone": True}
        for row in report["rows"]:
            unit = self._unit_of(row, row["name"])
            if unit is None:
                continue
            unit["address"] = row["address"]
            if isinstance(row.get("vin"), str):
                unit["vin"] = row["vin"][:200]
            for kind in KINDS:
                self._take_runs(unit, kind, row.get(kind, ()))
            if is_last and unit["now"]["dm1"] and (row["dm1"] or "ever" in row):
                unit["now"]["dm1"].pop("gone", None)
                unit["silent"] = row.get("ever", {}).get("dm1", {}).get("silent")
        self._begun_anew += not is_last
        self._report, self.is_whole = report, is_last

    def _unit_of(self, told: Json, name: Optional[str]) -> Optional[Json]:
        """The facts of a unit, new where it was not told of; none where there are too many."""
        bus = told.get("bus") or ""
        unclaimed = ""
        if name is None:
            # (gaps are counted anew in each report)
            unclaimed = f"address {told['address']}" + (f" since gap {told['gaps']}" if told.get("gaps") else "")
            unclaimed += f" of report {self._begun_anew + 1}" if self._begun_anew else ""
        key = (name or "", bus, unclaimed)
        unit = self._units.get(key)
        if unit is None and self._has_room():
            unit = self._units[key] = {
                "name": name or "", "bus": bus, "unclaimed": unclaimed, "address": None, "vin": None, "first": None, "heard": None, "silent": None,
                "counts": dict.fromkeys(KINDS, 0), "lamps": (), "now": dict.fromkeys(KINDS),
            }  # fmt: skip
        if unit is not None:
            unit.update({key: told[key] for key in ("function", "instance", "manufacturer", "identity") if key in told})
        return unit

    def _has_room(self) -> bool:
        """Whether one more fact may be kept; it is counted where not."""
        has_room = len(self._units) + len(self._codes) < MOST_FACTS
        self._left_out += not has_room
        return has_room

    @staticmethod
    def _hear(fact: Json, first: Optional[int], last: Optional[int], newest: str = "heard") -> None:
        if first is not None and (fact["first"] is None or first < fact["first"]):
            fact["first"] = first
        if last is not None and (fact[newest] is None or last > fact[newest]):
            fact[newest] = last

    def _take_runs(self, unit: Json, kind: str, runs: Sequence[Json]) -> None:
        """Takes the runs of equal messages of a unit and kind, which follow those that were taken before."""
        key = (unit["name"], unit["bus"], unit["unclaimed"])
        before = self._before.get((key, kind), frozenset())
        for run in runs:
            told = {(code["spn"], code["fmi"]): code for code in run["codes"]} or {NO_CODE: {}}
            lamps, first, last = lit(run["lamps"]), micros(run["first"]), micros(run["last"])
            times, is_in_part = run["times"], "not_read" in run
            for code, words in told.items():
                fact = self._codes.get((key, kind, code)) or self._new_fact(key, kind, code)
                if fact is None:
                    continue
                fact["messages"] += times
                fact["contested"] += times if run["contested"] else 0
                fact["partly"] += times if is_in_part else 0
                fact["times"] += code not in before
                fact["count"] = greatest(fact["count"], words.get("count"))
                fact["fmi_text"] = words.get("fmi_text") or fact["fmi_text"]
                fact["lamps"] = both(fact["lamps"], lamps)
                self._hear(fact, first, last, "last")
            before = frozenset(told)
            self._hear(unit, first, last)
            unit["counts"][kind] += times
            if kind == "dm1":
                unit["lamps"] = both(unit["lamps"], lamps)
            unit["now"][kind] = {"lamps": lamps, "codes": told, "contested": run["contested"], "partly": is_in_part}
        if runs:
            unit["now"][kind]["codes"] = [list(code) for code in sorted(told) if code != NO_CODE]
            self._before[key, kind] = before

    def _new_fact(self, key: Tuple[str, str, str], kind: str, code: Code) -> Optional[Json]:
        """The fact of a unit's code that was not told of; none where there are too many."""
        if not self._has_room():
            return None
        fact = self._codes[key, kind, code] = {
            "name": key[0], "bus": key[1], "unclaimed": key[2], "kind": kind, "spn": code[0], "fmi": code[1], "fmi_text": "", "first": None, "last": None,
            "messages": 0, "times": 0, "contested": 0, "partly": 0, "count": None, "lamps": (),
        }  # fmt: skip
        return fact
