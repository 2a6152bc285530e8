"""Tables of a fleet: what several logs tell of a vehicle is joined under each NAME and code.

A row is of a vehicle, a NAME, a kind and a code, or of an address of one log that nobody claimed. Of two rows of the same, messages and times are
added, the first is the least, the last the greatest, the lamps are those of either; what is so now says the log that heard the unit last. So the
order in which logs are joined says nothing, nor which are joined first.
"""

import contextlib
import csv
import decimal
import functools
import importlib.util
import io
import os
import re
from typing import Any, Dict, Iterable, Iterator, List, NamedTuple, Optional, Sequence, Tuple

from ..program import plain
from .facts import KINDS, Json, both, greatest, least

Unit = Tuple[str, str, str]
"""The NAME; or else the address that nobody claimed, and the sum of its log."""

NUMBERS = {
    "spn", "fmi", "messages", "times", "contested", "partly", "count", "address", "function", "instance", "manufacturer", "identity", "dm1", "dm2", "dm6", "codes_now",
    "silent", "bytes", "lines", "frames", "bad", "missed", "unread",
}  # fmt: skip
TIMES = {"first", "last", "heard"}
MESSAGES = ("vehicle", "name", "unclaimed", "log", "kind", "spn", "fmi", "fmi_text", "first", "last", "messages", "times", "contested", "partly", "count", "lamps", "now",
            "name_hex")  # fmt: skip
UNITS = ("vehicle", "name", "unclaimed", "log", "address", "bus", "function", "instance", "manufacturer", "identity", "vin", "first", "heard", "dm1", "dm2",
         "dm6", "lamps", "lamps_now", "codes_now", "partly_now", "silent", "name_hex")  # fmt: skip
LOGS = ("path", "vehicle", "state", "why", "log", "bytes", "lines", "frames", "bad", "missed", "unread", "first", "last")

# (ISO 3779; a text that is none stands for no vehicle, so that none is taken for a path)
_VIN = re.compile(r"[0-9A-HJ-NPR-Z]{17}")


def vehicle_of(part: Json, path: str, by_folder: bool) -> str:
    """The vehicle of a log: the VIN, where just one was heard, else the file's path, or that of its folder."""
    vins = part.get("vins", ())
    if len(vins) == 1 and _VIN.fullmatch(vins[0]):
        return vins[0]
    return os.path.dirname(path) if by_folder else path


class Rows:
    """What logs of one vehicle tell, each of them taken once."""

    def __init__(self, part: Optional[Json] = None) -> None:
        self.units: Dict[Unit, Json] = {}
        self.codes: Dict[Tuple[Any, ...], Json] = {}
        for fact in part["units"] if part else ():
            self._join_unit(_unit_key(fact, part), _unit_row(fact, part))
        for fact in part["codes"] if part else ():
            self._join_code((*_unit_key(fact, part), fact["kind"], fact["spn"], fact["fmi"]), dict(fact))

    def join(self, other: "Rows") -> "Rows":
        """Takes the rows of other logs, too; these rows."""
        for key, unit in other.units.items():
            self._join_unit(key, unit)
        for key, code in other.codes.items():
            self._join_code(key, code)
        return self

    def _join_unit(self, key: Unit, unit: Json) -> None:
        mine = self.units.get(key)
        if mine is None:
            self.units[key] = unit
            return
        newest = max(mine, unit, key=lambda one: one["newest"])
        self.units[key] = {
            **newest,
            "first": least(mine["first"], unit["first"]),
            "counts": {kind: mine["counts"][kind] + unit["counts"][kind] for kind in KINDS},
            "lamps": both(tuple(mine["lamps"]), tuple(unit["lamps"])),
            "vins": sorted({*mine["vins"], *unit["vins"]}),
        }

    def _join_code(self, key: Tuple[Any, ...], code: Json) -> None:
        mine = self.codes.get(key)
        if mine is None:
            self.codes[key] = code
            return
        self.codes[key] = {
            **code,
            **{what: mine[what] + code[what] for what in ("messages", "times", "contested", "partly")},
            "first": least(mine["first"], code["first"]),
            "last": greatest(mine["last"], code["last"]),
            "count": greatest(mine["count"], code["count"]),
            "lamps": both(tuple(mine["lamps"]), tuple(code["lamps"])),
            "fmi_text": max(mine["fmi_text"], code["fmi_text"]),
        }

    def is_now(self, key: Tuple[Any, ...]) -> str:
        """`yes` where the newest message of its kind has this code, or none: in the log that heard its unit last, where a DM1 did not fall silent.
        `partly` where it was read in part, and has no code that can be read. Else nothing."""
        unit = self.units.get(key[:3])
        now = unit and now_of(unit, key[3])
        if not now or (list(key[4:]) not in now["codes"] if key[4] is not None else now["codes"]):
            return ""
        return "partly" if key[4] is None and now["partly"] else "yes"


def _unit_key(fact: Json, part: Json) -> Unit:
    """A NAME is the same unit on each bus and in each log; an address that nobody claimed is none of another bus or log."""
    if fact["name"]:
        return fact["name"], "", ""
    return "", fact["unclaimed"] + (f" of {fact['bus']}" if fact["bus"] else ""), part["sha256"]


def _unit_row(fact: Json, part: Json) -> Json:
    # (what is newest goes by time; between equal ones, and without a time, it is the same whoever is asked first)
    newest = (-1 if fact["heard"] is None else fact["heard"], part["sha256"], fact["bus"])
    return {**fact, "newest": newest, "vins": [fact["vin"]] if fact["vin"] else []}


def now_of(unit: Json, kind: str) -> Optional[Json]:
    """The newest message of a unit and kind, in the log that heard it last; none of a DM1 that fell silent or of a unit that is gone."""
    now = unit["now"][kind]
    if not now or kind == "dm1" and (unit["silent"] is not None or now.get("gone")):
        return None
    return now


def joined(parts: Iterable[Json]) -> Rows:
    """The rows of all these logs."""
    return functools.reduce(Rows.join, map(Rows, parts), Rows())


def message_rows(vehicle: str, rows: Rows) -> Iterator[Json]:
    """The rows of a vehicle's messages, in order."""
    for key in sorted(rows.codes, key=_order):
        code = rows.codes[key]
        yield {**code, **_named(vehicle, key), "lamps": " ".join(code["lamps"]), "now": rows.is_now(key)}


def unit_rows(vehicle: str, rows: Rows) -> Iterator[Json]:
    """The rows of a vehicle's units, in order."""
    for key in sorted(rows.units):
        unit = rows.units[key]
        now = now_of(unit, "dm1")
        yield {**unit, **unit["counts"], **_named(vehicle, key), "vin": " ".join(unit["vins"]), "lamps": " ".join(unit["lamps"]),
               "lamps_now": " ".join(now["lamps"]) if now else "", "codes_now": len(now["codes"]) if now else 0,
               "partly_now": "yes" if now and now["partly"] else ""}  # fmt: skip


def _order(key: Tuple[Any, ...]) -> Tuple[Any, ...]:
    return tuple(-1 if it is None else it for it in key)


def _named(vehicle: str, key: Sequence[str]) -> Json:
    return {"vehicle": vehicle, "name": key[0], "unclaimed": key[1], "log": key[2], "name_hex": f"0x{key[0]}" if key[0] else ""}


def time_text(time: Optional[int]) -> str:
    """A time as the log has it."""
    return "" if time is None else f"{time // 1_000_000}.{time % 1_000_000:06}"


def text_cell(value: Any) -> str:
    """A text as it stands in a cell: harmless for a terminal, and no formula for a spreadsheet."""
    text = str(value)
    if not (text.isascii() and text.isprintable()):
        text = plain(text)
    return f"'{text}" if text.startswith(("=", "+", "-", "@")) else text


class Lines(NamedTuple):
    """Rows of a table, ready to be written."""

    text: str
    """As CSV."""
    values: List[List[Any]]
    """Those of each row, where Parquet is to have them."""


def lines_of(columns: Sequence[str], rows: Iterable[Json], keeps_values: bool) -> Lines:
    """Makes rows ready to be written."""
    times = [place for place, column in enumerate(columns) if column in TIMES]
    texts = [place for place, column in enumerate(columns) if column not in TIMES | NUMBERS]
    file, values = io.StringIO(), []
    writer = csv.writer(file, lineterminator="\n")
    for row in rows:
        # (what is None is written as nothing)
        cells = list(map(row.get, columns))
        if keeps_values:
            values.append(cells[:])
        for place in times:
            cells[place] = time_text(cells[place])
        for place in texts:
            if cells[place]:
                cells[place] = text_cell(cells[place])
        writer.writerow(cells)
    return Lines(file.getvalue(), values)


def cell_of(text: str) -> str:
    """A text as a cell of CSV."""
    return lines_of(("text",), ({"text": text},), False).text[:-1]


def has_parquet() -> bool:
    """Whether pyarrow is here."""
    return importlib.util.find_spec("pyarrow") is not None


class Table(contextlib.ExitStack):
    """A table as CSV, and where pyarrow is as Parquet, which replace those of before once all is written."""

    def __init__(self, folder: str, name: str, columns: Sequence[str]) -> None:
        super().__init__()
        path = self.enter_context(replacing(os.path.join(folder, f"{name}.csv")))
        self._file = self.enter_context(open(path, "w", newline="", encoding="utf-8"))
        self._file.write(",".join(columns) + "\n")
        self._parquet = Parquet.opened(folder, name, columns, self) if has_parquet() else None

    def add(self, lines: Lines) -> None:
        """Writes rows."""
        self._file.write(lines.text)
        if self._parquet:
            for values in lines.values:
                self._parquet.add(values)


@contextlib.contextmanager
def replacing(path: str) -> Iterator[str]:
    """The path of a file to write, which stands in the place of the other one once it was written whole."""
    folder, name = os.path.split(path)
    new = os.path.join(folder, f".{name}.new")
    try:
        yield new
        os.replace(new, path)
    finally:
        if os.path.exists(new):
            os.remove(new)


class Parquet:
    """A table in Parquet: texts, whole numbers, and times as seconds with six digits behind the point."""

    AT_ONCE = 50_000

    def __init__(self, columns: Sequence[str], path: str) -> None:
        import pyarrow
        import pyarrow.parquet

        # (64 bits of microseconds have 20 digits)
        types = [pyarrow.decimal128(20, 6) if it in TIMES else pyarrow.int64() if it in NUMBERS else pyarrow.string() for it in columns]
        self._schema = pyarrow.schema(list(zip(columns, types)))
        self._table_of = pyarrow.Table.from_pylist
        self._file = pyarrow.parquet.ParquetWriter(path, self._schema)
        self._rows: List[Json] = []

    @classmethod
    def opened(cls, folder: str, name: str, columns: Sequence[str], files: contextlib.ExitStack) -> "Parquet":
        """One that ends with these files."""
        parquet = cls(columns, files.enter_context(replacing(os.path.join(folder, f"{name}.parquet"))))
        files.callback(parquet.end)
        return parquet

    def add(self, values: Sequence[Any]) -> None:
        """Adds a row."""
        self._rows.append({column: _parquet_value(column, value) for column, value in zip(self._schema.names, values)})
        if len(self._rows) == self.AT_ONCE:
            self._write()

    def end(self) -> None:
        """Writes what is left."""
        self._write()
        self._file.close()

    def _write(self) -> None:
        if self._rows:
            self._file.write_table(self._table_of(self._rows, schema=self._schema))
        self._rows = []


def _parquet_value(column: str, value: Any) -> Any:
    if value is None or column in NUMBERS:
        return value
    return decimal.Decimal(value).scaleb(-6) if column in TIMES else plain(str(value))
