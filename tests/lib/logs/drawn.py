"""What the page has beside units and changes: the table of values with its curves, what was at the first time of a code, and two visits compared."""

import json
import re
import tempfile

from harness import TOP
from page_model import clock, micros, text_of, tight

from .common import log_of, run, same
from .since import compared, dm1, log_of as log_of_frames
from .values import FILE, KEYS, LOGS

UTC = ("--format", "html", "--clock", "utc")
LISTED, CHANGES = 400, 200
WIDE, HIGH = 240, 28
DECODED = 'BO_ {number} {group}: 8 X\n SG_ {group} : 0|8@1+ (1,0) [0|0] "" X\n'


def rows_of(page):
    """The rows of its values: the text of each cell, and the markup of its curve."""
    body = page.split('class="values"', 1)[1].split("<tbody", 1)[1].split("</tbody>", 1)[0]
    rows = [re.findall(r"<td[^>]*>(.*?)</td>", row) for row in body.split("<tr ")[1:]]
    return [([text_of(cell) for cell in row[:-1]], row[-1]) for row in rows]


def points_of(markup):
    """The points of a curve; none where there is none."""
    found = re.search(r'points="([^"]*)"', markup)
    return [tuple(map(int, it.split(","))) for it in found[1].split()] if found else []


def values_on_the_page():
    """Each signal of a unit has a row, in the order of JSON, with the unit and its values and their times."""
    found = []
    for name in LOGS:
        log = log_of(name)
        report = json.loads(run(["watch", "--format", "json", "--signals", FILE], log)[1].splitlines()[-1], parse_float=str, parse_int=str)
        units = {it["signal"]: f" {it['unit']}" if it.get("unit") else "" for it in report["values"]}
        wanted = [[it["signal"], *(f"{it[key]['value']}{units[it['signal']]} {clock(micros(it[key]['time']))}" for key in KEYS)] for it in report["values"]]
        whose = [it["name"] or f"Address {it['source']}" for it in report["values"]]
        rows = [cells for cells, _ in rows_of(run(["watch", "--signals", FILE, *UTC], log)[1])]
        found += same([[cells[0], *cells[2:]] for cells in rows], wanted, f"{name}: values on the page")
        found += [f"{name}: {cells[1]!r} is not of {unit}" for cells, unit in zip(rows, whose) if unit not in cells[1]]
    return found


def curve_of(values, more=()):
    """The curve of a signal with these values, each with its time in microseconds."""
    lines = "".join(f"({at // 1_000_000}.{at % 1_000_000:06}) can0 18FEEE00#{value:02X}\n" for at, value in values)
    with tempfile.NamedTemporaryFile(suffix=".dbc") as file:
        file.write(DECODED.format(number=2566844158, group="Oil").encode())
        file.flush()
        return points_of(rows_of(run(["watch", "--signals", file.name, *UTC, *more], lines.encode())[1])[0][1])


def curves():
    """From the first time to the last, from the greatest value down to the least; of what falls into one stretch of time the greatest and the least."""
    start, found = 1_700_000_000_000_000, []
    for what, values in (("few", [5, 9, 0, 250, 250, 7]), ("two", [7, 8]), ("a line down", [*range(60, 0, -1)])):
        span, least, most = len(values) - 1, min(values), max(values)
        wanted = [(WIDE * at // span, HIGH * (most - value) // (most - least)) for at, value in enumerate(values)]
        found += same(curve_of([(start + at * 1_000_000, value) for at, value in enumerate(values)]), wanted, f"a curve of {what}")
    both = [(start, 10), (start + 100, 30), (start + 500, 20), (start + 1_000_000, 0)]
    found += same(curve_of(both), [(0, 0), (0, HIGH * 20 // 30), (WIDE, HIGH)], "a curve of several values in one stretch")
    for what, values in (("one value", [5]), ("equal values", [5, 5, 5])):
        found += same(curve_of([(start + at * 1_000_000, value) for at, value in enumerate(values)]), [], f"a curve of {what}")
    many = [(start + at * 10_000, at * 7 % 250 if at % 997 else 250) for at in range(6_000)]
    points, stretch = curve_of(many), WIDE / 31
    places = [at for at, _ in points]
    found += same((places == sorted(places), places[0], 31 < len(set(places)) <= 64, min(it for _, it in points), max(it for _, it in points)), (True, 0, True, 0, HIGH), "a curve of many")
    for at, value in many[::50]:
        near = [high for place, high in points if abs(place - WIDE * (at - start) / (6_000 * 10_000)) <= stretch]
        high = HIGH * (250 - value) / 250
        found += [] if near and min(near) <= high <= max(near) + 1 else [f"a curve of many: {value} at {at} is not within {near}"]
    return found


def values_beyond_the_table():
    """Of more signals than the table lists so many are listed, and the rest is counted."""
    many = "".join(f' SG_ S{at} : {at}|1@1+ (1,0) [0|0] "" X\n' for at in range(62))
    found = []
    for units, more in ((6, 0), (7, 34), (2, 0)):
        with tempfile.NamedTemporaryFile(suffix=".dbc") as file:
            file.write(f"BO_ 2566844158 Oil: 8 X\n{many}".encode())
            file.flush()
            page = run(["watch", "--signals", file.name, *UTC], "".join(f"(1.000000) can0 18FEEE{source:02X}#0000000000000000\n" for source in range(units)).encode())[1]
        told = re.findall(r'<p class="quiet">(and \d+ more signals?)</p>', page)
        found += same((len(rows_of(page)), told), (min(LISTED, 62 * units), [f"and {more} more signals"] if more else []), f"{units} units")
    return found


def what_was_there():
    """Below a code stand eight values: those of a freeze frame first, the unit's own before another's, and none of another bus."""
    groups = [("Torque", 0xFEF0, None), ("Speed", 0xFEF1, 190), ("Wheels", 0xFEF2, 84), ("Load", 0xFEF3, 92), ("Coolant", 0xFEF4, 110), ("Boost", 0xFEF5, 102), ("Percent", 0xFEF6, 899)]
    numbers = {name: 0x98000000 + pgn * 256 + 0xFE for name, pgn, _ in groups}
    text = "".join(DECODED.format(number=numbers[name], group=name) for name, _, _ in groups) + 'BA_DEF_ SG_ "SPN" INT 0 524287;\n'
    text += "".join(f'BA_ "SPN" SG_ {numbers[name]} {name} {spn};\n' for name, _, spn in groups if spn)
    frames = [f"can0 18{pgn:04X}{source:02X}#{16 * source + place:02X}" for place, (_, pgn, _) in enumerate(groups) for source in (1, 0)]
    frames += ["can1 18FEF100#77", "can0 18FECA00#04FFB8040301FFFF"]
    log = "".join(f"({1_700_000_000 + at // 100}.{at % 100:02}0000) {frame}\n" for at, frame in enumerate(frames)).encode()
    with tempfile.NamedTemporaryFile(suffix=".dbc") as file:
        file.write(text.encode())
        file.flush()
        page = run(["watch", "--signals", file.name, "--bus", "all", *UTC], log)[1]
    got = [tight(text_of(it)) for it in re.findall(r'<div class="then">(.*?)</div>', page)]
    of_first = [(name, 16 * source + place) for place, (name, _, spn) in enumerate(groups) if spn for source in (0, 1)][:8]
    return same(got, ["At that first time: " + ", ".join(f"{name} {value}" for name, value in of_first)], "what was there")


def visits_of_many_changes():
    """Of more codes than a page lists so many are listed, and the rest is counted."""
    found = []
    for count in (CHANGES, CHANGES + 1, CHANGES + 50):
        old = run(["watch", "--format", "json"], log_of_frames(*(dm1(source) for source in range(5))))[1].encode()
        log = log_of_frames(*(dm1(at % 5, (100 + at, 1)) for at in range(count)))
        page = compared(old, log, "--format", "html")[1].split('<ul class="since">', 1)[1].split("</ul>", 1)[0]
        told = [text_of(it) for it in re.findall(r"<li>(.*?)</li>", page)]
        more = [f"and {count - CHANGES} more"] if count > CHANGES else []
        found += same((len(told) - len(more), told[CHANGES:]), (CHANGES, more), f"{count} codes")
        codes = {f"{100 + at}/1" for at in range(count)}
        listed = re.findall(r"<b>(\d+/\d+)</b>", page)
        found += same((len(set(listed)), set(listed) <= codes), (CHANGES, True), f"{count} codes, those that are listed")
    return found
