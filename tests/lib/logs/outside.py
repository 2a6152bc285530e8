"""Texts from outside, of the log and of a shop: no terminal obeys them, and no spreadsheet."""

import csv
import io
import json
import tempfile

from logs.common import run, same
from seldom_lines import HIDDEN

NAME = "1000000001419907"
# What a terminal obeys: an escape sequence in either form, an end of a line, DEL; and what turns the direction of text.
OBEYED = "P\x1b[2Ju\u009b31mm\r\np\x7f\t\u202eoil\u2066\u061c\u200f"
SEEN = "P\\x1B[2Ju\\x9B31mm\\x0D\\x0Ap\\x7F\\x09\\u202Eoil\\u2066\\u061C\\u200F"
HIDES = "can\u009b0\u202e"
SEEN_BUS = "can\\x9B0\\u202E"
LOG = f"""(1.000000) {HIDES} 18EEFF00#0799410100000010
(1.100000) {HIDES} 18FECA00#04FF64000301FFFF
(1.200000) {HIDES} 18EEFF00#0699410100000010
"""


def with_texts(unit, code, words, log=LOG):
    """A run of `watch` with a text for the unit and one for the code of a log."""
    with tempfile.NamedTemporaryFile("w", suffix=".csv", newline="") as units, tempfile.NamedTemporaryFile("w", suffix=".csv", newline="") as codes:
        csv.writer(units).writerows([["name", "text"], [NAME, unit]])
        csv.writer(codes).writerows([["spn", "text"], [100, code]])
        units.flush()
        codes.flush()
        return run(["watch", "--units", units.name, "--texts", codes.name, *words], log.encode())


def rows_of(text):
    return list(csv.DictReader(io.StringIO(text)))


def texts_that_are_obeyed():
    """In text, JSON and CSV nothing stands that a terminal obeys; whoever reads JSON has the texts as they were."""
    found = []
    for form in ("text", "json", "csv"):
        status, out, err = with_texts(OBEYED, OBEYED, ["--bus", "all", "--format", form])
        found += same((status, err, HIDDEN.findall(out)), (0, "", []), form)
        if form == "text":
            lines = out.splitlines()
            found += same(lines[:4], [f"1.000000 {SEEN_BUS} unit {NAME} ({SEEN}) at 0", f"1.100000 {SEEN_BUS} dm1 {NAME} ({SEEN}) amber (04FF); 100/3/1 (100/3: {SEEN})",
                                      f"1.200000 {SEEN_BUS} unit {NAME} ({SEEN}) has no address", f"1.200000 {SEEN_BUS} unit 1000000001419906 (function 0 instance 0, manufacturer 10, identity 104710) at 0"], "changes")
            found += same([line for line in lines if line.startswith(f"{SEEN_BUS} {NAME} ") and line.endswith(f"; {SEEN}")], lines[4:5], "row")
            found += same(f"{SEEN_BUS} missed 0 unread 0" in lines, True, "counts")
        elif form == "json":
            *changes, report = [json.loads(line) for line in out.splitlines()]
            texts = [changes[0]["text"], changes[1]["codes"][0]["text"], report["rows"][0]["text"]]
            found += same((texts, changes[0]["bus"], report["buses"][0]["bus"]), ([OBEYED] * 3, HIDES, HIDES), "JSON as it is read")
        else:
            row = rows_of(out)[0]
            found += same((row["unit_text"], row["code_text"], row["bus"], len(out.splitlines())), (SEEN, SEEN, SEEN_BUS, 3), "CSV")
    return found


def formulas_in_csv():
    """Before a text that a spreadsheet takes for a formula stands an apostrophe; before no other."""
    found = []
    for text, wanted in (("=1+1", "'=1+1"), ("+1", "'+1"), ("-1", "'-1"), ("@SUM(A1)", "'@SUM(A1)"), ('=HYPERLINK("http://x","y")', "'=HYPERLINK(\"http://x\",\"y\")"),
                         ("'=1", "'=1"), ("Pump", "Pump"), ("1=1", "1=1"), ("Pump, -40 C", "Pump, -40 C"), ("\t=1", "\\x09=1"), ("\r=1", "\\x0D=1")):
        row = rows_of(with_texts(text, text, ["--format", "csv"])[1])[0]
        # (blanks around a text are no part of it)
        wanted = wanted if text.strip() == text else ("'" + text.strip(), wanted)
        for key in ("unit_text", "code_text"):
            found += same(row[key] in wanted if isinstance(wanted, tuple) else row[key] == wanted, True, f"{key} {text!r}: {row[key]!r}")
    for bus, wanted in (("=can0", "'=can0"), ("+c,n", "'+c,n"), ("-c", "'-c"), ("@c", "'@c"), ("can0", "can0")):
        out = run(["watch", "--bus", "all", "--format", "csv"], LOG.replace(HIDES, bus).encode())[1]
        found += same([row["bus"] for row in rows_of(out)], [wanted] * 2, f"bus {bus}")
    return found


def names_in_hex():
    """A NAME stands twice in CSV: as it was, and as no number, since a spreadsheet keeps 15 digits of one."""
    log = LOG.replace(HIDES, "can0") + "(1.300000) can0 18FECA09#04FF64000301FFFF\n"
    out = run(["watch", "--format", "csv"], log.encode())[1]
    told = [(row["name"], row["name_hex"]) for row in rows_of(out)]
    return same(told, [(NAME, f"0x{NAME}"), ("1000000001419906", "0x1000000001419906"), ("address 9, no claim seen", "")], "NAMEs")
