"""A bus as it is now: what the proved program tells of it, kept as a table, of which a picture is taken each second."""

import json
import os
import re
import subprocess
import threading
import time
from typing import Any, Callable, Dict, Iterable, Iterator, Optional, Sequence, Tuple

from ..fleet.facts import KINDS, LAMPS, Json, lit
from ..program import plain

CEILING = ("--most", "512", "--keep", "5000")
"""How much the program keeps at once: where it is more it begins anew, and so does the table."""
MOST_ROWS = 200
"""The most units of a picture."""
MOST_CODES = 20
"""The most codes of a message in a picture."""
MOST_SOURCES = 16 * 256
"""Of how many addresses of buses is noted when they sent a DM1."""
SILENT_AFTER = 5.0
"""Seconds after which a DM1 with a lamp or a code is missing: it is sent each second (SAE J1939-73, from memory)."""

# A DM1 begins behind the name of a bus: in one frame, or with an announcement to all; as candump -L writes it, and as candump does.
_DM1 = re.compile(rb" [01][048C](?:FECA([0-9A-F]{2})[# ]|ECFF([0-9A-F]{2})(?:#20.{8}CAFE00| +\[8\] +20 .. .. .. .. CA FE 00))")
_MOST_LINE = 4096

Key = Tuple[str, str, int, int]
"""The bus and the NAME; or the bus, the address that nobody claimed, and how many gaps were before."""


class Table:
    """The units of a bus, by what the program's lines tell."""

    def __init__(self, clock: Callable[[], float] = time.monotonic) -> None:
        self.rows: Dict[Key, Json] = {}
        self.missed = self.unread = 0
        self.ended: Optional[str] = None
        """Why the bus is followed no more."""
        self._clock = clock
        self._ended_at: Optional[float] = None
        self._heard: Dict[Tuple[str, int], float] = {}
        self._rest = b""
        self._lines = 0
        self._last = clock()
        self._lock = threading.Lock()

    def hear(self, lines: bytes) -> None:
        """Notes which addresses began a DM1, in the next bytes of what the program is handed."""
        now, text = self._clock(), self._rest + lines
        whole, end, rest = text.rpartition(b"\n")
        with self._lock:
            self._rest = rest[-_MOST_LINE:]
            self._lines += lines.count(b"\n")
            self._last = now
            if end:
                for found in _DM1.finditer(whole):
                    before = whole[max(found.start() - _MOST_LINE, 0) : found.start()].rsplit(None, 1)
                    source = plain(before[-1].decode(errors="replace")) if before else "", int(found[1] or found[2], 16)
                    # (a hostile input may name any number of buses)
                    if source in self._heard or len(self._heard) < MOST_SOURCES:
                        self._heard[source] = now

    def take(self, event: Json) -> None:
        """Takes a line of the program."""
        what = event["event"]
        with self._lock:
            if what == "unit":
                self._row_of(event)["address"] = event["address"]
            elif what in KINDS:
                self._take_message(self._row_of(event), what, event)
            elif what == "missed":
                self.missed += event["count"]
                # (who holds an address is not known until units claim again)
                for row in self.rows.values():
                    if row["name"] and row["bus"] == plain(event.get("bus") or ""):
                        row["address"] = None
            elif what == "unread":
                self.unread += event["count"]

    def end(self, why: str) -> None:
        """Notes why the bus is followed no more: from now on no time passes."""
        with self._lock:
            self.ended, self._ended_at = why, self._ended_at or self._clock()

    def begin_anew(self) -> None:
        """Keeps the units that hold an address alone: the program has begun anew with them."""
        with self._lock:
            self.rows = {key: row for key, row in self.rows.items() if row["name"] and row["address"] is not None}

    def _row_of(self, event: Json) -> Json:
        bus, name = plain(event.get("bus") or ""), event["name"]
        key = (bus, name, 0, 0) if name else (bus, "", event["address"], event.get("gaps", 0))
        row = self.rows.get(key)
        if row is None:
            row = self.rows[key] = {"bus": bus, "name": name or "", "address": event["address"], "gaps": event.get("gaps", 0), **dict.fromkeys(KINDS)}
        row.update({what: event[what] for what in ("function", "instance", "manufacturer", "identity") if what in event})
        if event["event"] == "unit" and "text" in event:
            row["text"] = plain(event["text"])[:200]
        return row

    def _take_message(self, row: Json, kind: str, event: Json) -> None:
        before = {(code["spn"], code["fmi"]): code["since"] for code in row[kind]["codes"]} if row[kind] else {}
        codes = [
            {"spn": code["spn"], "fmi": code["fmi"], "count": code.get("count"), "text": plain(code.get("text") or code.get("fmi_text") or "")[:200],
             "since": before.get((code["spn"], code["fmi"]), event["time"])}
            for code in event["codes"][:MOST_CODES]
        ]  # fmt: skip
        row[kind] = {
            "lamps": lit(event["lamps"]), "codes": codes, "more": max(len(event["codes"]) - MOST_CODES, 0), "contested": event["contested"],
            "partly": "not_read" in event,
            "time": event["time"], "taken": self._clock(),
        }  # fmt: skip

    def picture(self) -> Json:
        """The table as a page shows it, the worst unit first."""
        with self._lock:
            now = self._ended_at or self._clock()
            rows = sorted((self._shown(row, now) for row in self.rows.values()), key=_rank)
            return {"ended": self.ended, "missed": self.missed, "unread": self.unread, "lines": self._lines, "quiet": int(now - self._last),
                    "rows": rows[:MOST_ROWS], "more": max(len(rows) - MOST_ROWS, 0)}  # fmt: skip

    def _shown(self, row: Json, now: float) -> Json:
        shown = dict(row)
        for kind in KINDS:
            shown[kind] = row[kind] and {what: value for what, value in row[kind].items() if what != "taken"}
        dm1 = row["dm1"]
        if dm1 and (dm1["lamps"] or dm1["codes"]):
            heard = max(self._heard.get((row["bus"], row["address"]), 0.0), dm1["taken"])
            if now - heard > SILENT_AFTER:
                shown["silent"] = int(now - heard)
        return shown


def _rank(row: Json) -> Tuple[Any, ...]:
    dm1 = row["dm1"] or {"lamps": [], "codes": [], "partly": False}
    worst = min((LAMPS.index(lamp) for lamp in dm1["lamps"]), default=len(LAMPS))
    state = 1 if "silent" in row else 0 if dm1["lamps"] or dm1["codes"] or dm1["partly"] else 2
    return state, worst, -len(dm1["codes"]), row["bus"], row["name"] or "~", row["address"] or 0, row["gaps"]


class Live:
    """Follows a bus by the program, and tells each second how it stands to whoever waits for it."""

    def __init__(self, program: str, words: Sequence[str], source: Iterable[bytes], each: float = 1.0) -> None:
        """source: the lines of candump in pieces, as they come."""
        self.table = Table()
        self.text = b""
        """The newest picture, as JSON."""
        self.number = 0
        """Which picture that is."""
        self._changed = threading.Condition()
        self._each = each
        command = [program, "watch", "--format", "json", *CEILING, *words, "-"]
        self._running = subprocess.Popen(command, stdin=subprocess.PIPE, stdout=subprocess.PIPE, stderr=subprocess.DEVNULL)
        for work in (lambda: self._feed(source), self._read, self._tick):
            threading.Thread(target=work, daemon=True).start()

    def wait(self, number: int, seconds: float) -> int:
        """Waits until there is another picture than the one of this number. The number of the newest."""
        with self._changed:
            self._changed.wait_for(lambda: self.number != number, seconds)
            return self.number

    def close(self) -> None:
        """Follows the bus no more."""
        self._running.kill()

    def _feed(self, source: Iterable[bytes]) -> None:
        """Hands to the program what comes."""
        why = "the input ended"
        try:
            assert self._running.stdin is not None
            for lines in source:
                self._running.stdin.write(lines)
                self._running.stdin.flush()
                self.table.hear(lines)
        except BrokenPipeError:
            why = "the program ended"
        except Exception as error:  # (whatever the bus raises: it is told on the page)
            why = plain(f"{type(error).__name__}: {error}")[:300]
        self.table.end(why)
        try:
            self._running.stdin and self._running.stdin.close()
        except OSError:
            pass

    def _read(self) -> None:
        """Takes what the program tells."""
        for line in self._running.stdout or ():
            # (reports are long, and nothing of them is shown; the quotes of a text inside would be \\")
            if b'"event":"over"' in line:
                self.table.begin_anew()
            elif b'"event":"report"' not in line:
                self.table.take(json.loads(line))
        status = self._running.wait()
        if status not in (0, 3):
            self.table.end(f"the program ended with status {status}")

    def _tick(self) -> None:
        """Takes a picture each second."""
        while True:
            text = json.dumps(self.table.picture(), separators=(",", ":")).encode()
            with self._changed:
                self.text, self.number = text, self.number + 1
                self._changed.notify_all()
            time.sleep(self._each)


def lines_of_file(descriptor: int) -> Iterator[bytes]:
    """What comes of an open file, as it comes."""
    return iter(lambda: os.read(descriptor, 1 << 16), b"")


def lines_of_bus(bus: Any, name: str) -> Iterator[bytes]:
    """What python-can reads of a bus, as candump -L writes it. 11-bit, remote and FD frames are passed over, as `watch` does."""
    called = re.sub(r"\s", "_", name) or "can0"
    while True:
        message = bus.recv(0.5)
        if message is None or message.is_remote_frame or message.is_fd or not (message.is_extended_id or message.is_error_frame):
            continue
        id = message.arbitration_id | (0x20000000 if message.is_error_frame else 0)
        yield b"(%.6f) %s %08X#%s\n" % (message.timestamp, called.encode(), id, bytes(message.data).hex().upper().encode())
