"""The page of a fleet: vehicles with a lamp on now, codes by how many vehicles have them, and what the last run brought."""

import datetime
import html
from typing import Any, Dict, Iterable, List, NamedTuple, Optional, TextIO, Tuple

from ..program import plain
from .facts import LAMPS, Json
from .store import Store
from .tables import Rows, now_of, time_text

MOST = 1000
"""The most rows of a table of the page; of more it says how many are left out."""
MOST_CODES = 12
"""The most codes of a unit on the page."""
# (a clock that counts from 1970 is far beyond this)
_FROM_1970 = 100_000_000_000_000

STYLE = """:root{color-scheme:light dark;--ink:#1b2027;--soft:#5d6875;--line:#d5dae0;--ground:#fff;--stop:#b3261e;--amber:#9a6700;--other:#44546a}
@media(prefers-color-scheme:dark){:root{--ink:#e6e9ed;--soft:#9aa5b1;--line:#333b45;--ground:#12161c;--stop:#ff8a80;--amber:#f2c14e;--other:#a9b8cc}}
body{font:15px/1.45 system-ui,sans-serif;color:var(--ink);background:var(--ground);max-width:75rem;margin:0 auto;padding:1rem}
h1{font-size:1.4rem}h2{font-size:1.1rem;margin-top:2rem}p,td,th{overflow-wrap:anywhere}
table{border-collapse:collapse;width:100%}td,th{text-align:left;vertical-align:top;padding:.35rem .6rem .35rem 0;border-bottom:1px solid var(--line)}
th,.soft{color:var(--soft);font-weight:normal}.lamp{font-weight:bold}.lamp,th,time{white-space:nowrap}.stop{color:var(--stop)}.amber{color:var(--amber)}.mil,.protect{color:var(--other)}
code{font-family:ui-monospace,monospace}@media print{body{max-width:none;padding:0}}
@media(max-width:40rem){th{display:none}td{display:block;border:0;padding:.1rem 0}tr{display:block;border-bottom:1px solid var(--line);padding:.5rem 0}}"""
LAMP_WORDS = {"stop": "stop (red)", "amber": "amber", "mil": "MIL", "protect": "protect"}


class Vehicle(NamedTuple):
    """A vehicle that has a lamp or a code now, or a DM1 that was read in part."""

    name: str
    lamps: List[str]
    heard: Optional[int]
    units: List[Tuple[str, List[str]]]


class Code:
    """A code of a DM1, over all vehicles."""

    def __init__(self) -> None:
        self.text, self.now, self.ever, self.messages = "", 0, 0, 0


class Overview:
    """What the page tells, taken vehicle by vehicle."""

    def __init__(self) -> None:
        self.vehicles = self.units = 0
        self.faulty: List[Vehicle] = []
        self.codes: Dict[Tuple[int, int], Code] = {}
        self.new: List[Tuple[str, str, str, Optional[int]]] = []

    def take(self, vehicle: str, rows: Rows, is_new: Any) -> None:
        """Takes a vehicle; is_new tells of the key of a code whether the last run brought it."""
        self.vehicles += 1
        self.units += len(rows.units)
        here: Dict[Tuple[int, int], bool] = {}
        for key, code in rows.codes.items():
            if key[3] != "dm1" or key[4] is None:
                continue
            one = self.codes.setdefault(key[4:], Code())
            one.text, one.messages = code["fmi_text"], one.messages + code["messages"]
            here[key[4:]] = here.get(key[4:], False) or bool(rows.is_now(key))
            if is_new(key):
                self.new.append((vehicle, unit_words(key), code_words(key[4], key[5], code["fmi_text"]), code["first"]))
        for place, is_now in here.items():
            self.codes[place].ever += 1
            self.codes[place].now += is_now
        self._take_faulty(vehicle, rows)

    def _take_faulty(self, vehicle: str, rows: Rows) -> None:
        lamps, units = set(), []
        for key, unit in sorted(rows.units.items()):
            now = now_of(unit, "dm1")
            if now and (now["lamps"] or now["codes"] or now["partly"]):
                lamps.update(now["lamps"])
                texts = {code: rows.codes.get((*key, "dm1", *code), {}).get("fmi_text", "") for code in map(tuple, now["codes"])}
                codes = [code_words(*code, text) + (" (contested)" if now["contested"] else "") for code, text in texts.items()]
                in_part = ["no readable code" * (not codes), "read in part"] if now["partly"] else []
                units.append((unit_words(key, unit), [*filter(None, in_part), *codes]))
        if units:
            heard = max((unit["heard"] for unit in rows.units.values() if unit["heard"] is not None), default=None)
            self.faulty.append(Vehicle(vehicle, [lamp for lamp in LAMPS if lamp in lamps], heard, units))


def unit_words(key: Tuple[Any, ...], unit: Optional[Json] = None) -> str:
    """A unit in words."""
    if not key[0]:
        return f"{key[1]}, no claim seen (log {key[2][:12]})"
    told = unit and "function" in unit
    return key[0] + (f" (function {unit['function']} instance {unit['instance']}, manufacturer {unit['manufacturer']})" if unit and told else "")


def code_words(spn: int, fmi: int, text: str) -> str:
    """A code in words."""
    return f"{spn}/{fmi}" + (f" {text}" if text else "")


def time_words(time: Optional[int]) -> str:
    """A time by UTC, where it counts from 1970."""
    if time is None or not _FROM_1970 <= time < 250_000_000_000_000_000:
        return time_text(time)
    return datetime.datetime.fromtimestamp(time // 1_000_000, datetime.timezone.utc).strftime("%Y-%m-%d %H:%M:%S")


def overview(store: Store) -> Overview:
    """What all vehicles of a folder tell."""
    seen = Overview()
    run_of: Dict[str, int] = {}
    for log in store.logs.values():
        if "sha256" in log:
            run_of[log["sha256"]] = min(run_of.get(log["sha256"], log["run"]), log["run"])
    for vehicle, digests in store.vehicles().items():
        rows, before = Rows(), set()
        for part in store.parts_of(digests):
            of_log = Rows(part)
            if run_of[part["sha256"]] < store.runs:
                before.update(of_log.codes)
            rows.join(of_log)
        seen.take(vehicle, rows, lambda key, before=before: key not in before)
    return seen


def write_page(store: Store, out: TextIO) -> None:
    """Writes the page of a folder."""
    seen = overview(store)
    red = [it for it in seen.faulty if "stop" in it.lamps]
    amber = [it for it in seen.faulty if "amber" in it.lamps and "stop" not in it.lamps]
    others = [it for it in seen.faulty if "stop" not in it.lamps and "amber" not in it.lamps]
    out.write(f"""<!DOCTYPE html>
<html lang="en"><head><meta charset="utf-8"/><meta name="viewport" content="width=device-width"/>
<meta http-equiv="Content-Security-Policy" content="default-src 'none'; style-src 'unsafe-inline'"/>
<title>Fleet</title><style>{STYLE}</style></head><body>
<h1>{len(red)} of {seen.vehicles} vehicles with red now, {len(amber)} with amber</h1>
<p class="soft">Now is the end of the log that heard a unit last. Times are by UTC. {seen.units} units, run {store.runs}.</p>
""")
    by_lamp = sorted(red, key=_newest) + sorted(amber, key=_newest)
    _table(out, "Vehicles with red or amber now", ("Vehicle", "Lamps", "Units and codes", "Heard"), map(_vehicle_cells, by_lamp))
    _table(out, "Vehicles with a code or another lamp now, or a DM1 read in part", ("Vehicle", "Lamps", "Units and codes", "Heard"), map(_vehicle_cells, sorted(others, key=_newest)))
    codes = sorted(seen.codes.items(), key=lambda it: (-it[1].now, -it[1].ever, it[0]))
    _table(out, "Codes by how many vehicles", ("Code", "Vehicles now", "Vehicles ever", "Messages"), (
        (_text(code_words(*place, code.text)), str(code.now), str(code.ever), str(code.messages)) for place, code in codes))  # fmt: skip
    news = sorted(seen.new, key=lambda it: (it[0], it[1], it[2])) if store.runs > 1 else []
    _table(out, "New since the last run", ("Vehicle", "Unit", "Code", "First"), ((*map(_text, it[:3]), time_words(it[3])) for it in news),
           "nothing" if store.runs > 1 else "this is the first run")  # fmt: skip
    wrong = [row for row in store.log_rows() if row["state"] in ("not read", "no frame")]
    _table(out, "Logs that could not be read, or have no frame", ("Log", "Why"), ((_text(it["path"]), _text(f"{it['state']}: {it['why']}")) for it in wrong))
    out.write("</body></html>\n")


def _newest(vehicle: Vehicle) -> Tuple[int, str]:
    return -(vehicle.heard or 0), vehicle.name


def _text(text: str) -> str:
    """A text from outside, as HTML."""
    return html.escape(plain(text))


def _vehicle_cells(vehicle: Vehicle) -> Tuple[str, ...]:
    lamps = " ".join(f'<span class="lamp {lamp}">{LAMP_WORDS[lamp]}</span>' for lamp in vehicle.lamps)
    units = "<br/>".join(
        f"<code>{_text(unit)}</code>: " + _text("; ".join(codes[:MOST_CODES]) or "no code") + (f" and {len(codes) - MOST_CODES} more" if len(codes) > MOST_CODES else "")
        for unit, codes in vehicle.units[:MOST_CODES]
    )
    units += f"<br/>and {len(vehicle.units) - MOST_CODES} more units" if len(vehicle.units) > MOST_CODES else ""
    return _text(vehicle.name), lamps or "none", units, f"<time>{time_words(vehicle.heard)}</time>"


def _table(out: TextIO, heading: str, columns: Tuple[str, ...], rows: Iterable[Tuple[str, ...]], nothing: str = "none") -> None:
    """Writes a table, whose cells are HTML."""
    shown = list(rows)
    out.write(f"<h2>{heading}</h2>\n")
    if not shown:
        out.write(f'<p class="soft">{nothing}</p>\n')
        return
    out.write("<table><tr>" + "".join(f"<th>{column}</th>" for column in columns) + "</tr>\n")
    for cells in shown[:MOST]:
        out.write("<tr>" + "".join(f"<td>{cell}</td>" for cell in cells) + "</tr>\n")
    out.write("</table>\n")
    if len(shown) > MOST:
        out.write(f'<p class="soft">{len(shown) - MOST} further rows are in the tables, and not here</p>\n')
