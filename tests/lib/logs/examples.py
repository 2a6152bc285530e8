"""The logs of examples/logs give the lists of tests/data/logs, in text, JSON and CSV."""

import collections
import csv
import io
import json
import shutil
import subprocess
import tempfile

from harness import TOP, program, skipped
from logs.common import KINDS, entry_of, is_change, joined, log_of, run, same, units_of_json


def lists_of(name):
    return json.loads((TOP / "tests/data/logs" / f"{name}.lists.json").read_text())


def units_wanted(name):
    """For each NAME its address and, for each kind, its runs of equal entries."""
    return {unit["name"]: (unit["address"], {k: [(r["times"], r["entry"]) for r in unit[k]] for k in KINDS}) for unit in lists_of(name)["names"]}


def units_of_csv(text):
    units, codes = {}, collections.OrderedDict()
    for row in csv.DictReader(io.StringIO(text)):
        address = int(row["address"]) if row["address"] else None
        units.setdefault(row["name"], (address, {kind: [] for kind in KINDS}))
        if row["kind"] and not row["not_read"]:
            run_of = (row["name"], row["kind"], row["first_time"], row["last_time"], row["entries"], row["lamps"])
            codes.setdefault(run_of, [])
            if row["spn"]:
                codes[run_of].append({"spn": row["spn"], "fmi": row["fmi"], "count": row["count"] or None})
    for (name, kind, _, _, entries, lamps), listed in codes.items():
        units[name][1][kind].append((int(entries), entry_of(lamps, listed)))
    for _, kinds in units.values():
        joined(kinds)
    return units


def log_in_text(name):
    """The changes as written, without rows of addresses that nobody claimed too."""
    shown, hidden = (TOP / "tests/data/logs" / f"{name}.{ending}" for ending in ("changes", "hidden.changes"))
    words = ["watch", "--silence", "0", "--address", "248"]
    return changes_of(name, words, shown) + changes_of(name, [*words, "--unclaimed", "hide"], hidden if hidden.exists() else shown)


def changes_of(name, words, file):
    """The changes as written, those of one moment in any order, and what is contested marked."""
    status, out, err = run(words, log_of(name))
    wanted = file.read_text().splitlines()
    lines = out.splitlines()
    found = same(status, 0, "status") + same(err, "", "standard error")
    found += same(sorted(line.replace(" contested", "") for line in lines), sorted(wanted), "lines")
    found += same([line for line in lines if not is_change(line)], [line for line in wanted if not is_change(line)], "report")
    marked = ["1792915210.005000 dm1 10001A092580001F amber (04FF); 190/2/1 contested (190/2: erratic or incorrect data)"] if name == "02-contention" else []
    return found + same([line for line in lines if " contested" in line], marked, "contested")


def log_in_json(name):
    words = ["watch", "--silence", "0", "--address", "248", "--format", "json"]
    rows = json.loads(run(words, log_of(name))[1].splitlines()[-1])["rows"]
    status, out, err = run([*words, "--unclaimed", "hide"], log_of(name))
    objects = [json.loads(line) for line in out.splitlines()]
    report, wanted = objects[-1], lists_of(name)
    named = same([row for row in rows if row["name"]], report["rows"], "rows of NAMEs beside those of addresses")
    found = same(status, 0, "status") + same(report["event"], "report", "last event")
    found += same(units_of_json(report), units_wanted(name), "units")
    found += same({tuple(key for key in row if key.startswith("dm")) for row in report["rows"]}, {KINDS}, "order of the kinds")
    found += same([report["missed"], report["unread"] + report.get("partly", 0), report["lines"]["frame"]], [wanted["missed"], wanted["unread"], wanted["lines"]["frame"]], "counts")
    found += same(report["not_attributed"], sum(wanted["not_attributed"].values()), "not attributed")
    hidden = TOP / "tests/data/logs" / f"{name}.hidden.changes"
    changes = [line for line in (hidden if hidden.exists() else TOP / "tests/data/logs" / f"{name}.changes").read_text().splitlines() if is_change(line)]
    return named + found + same(len(objects) - 1, len(changes), "changes")


def log_in_csv(name):
    status, out, err = run(["watch", "--silence", "0", "--address", "248", "--format", "csv", "--unclaimed", "hide"], log_of(name))
    header = "name,address,kind,first_time,last_time,entries,lamps,spn,fmi,count,contested,to,function,instance,manufacturer,identity,unit_text,code_text,name_hex"
    header += ",ever_lamp,ever_lamp_times,ever_lamp_first,ever_lamp_last,last_heard,silent,ever_code_times,ever_code_first,ever_code_last,fmi_text,not_read,vin,component,software,ecu"
    found = same(status, 0, "status") + same(out.splitlines()[0], header, "header") + same(units_of_csv(out), units_wanted(name), "units")
    rows = list(csv.DictReader(io.StringIO(out)))
    told = [(row["name"], row["kind"], row["first_time"], row["last_time"]) for row in rows if row["contested"] == "true"]
    wanted = [("10001A092580001F", "dm1", "1792915210.005000", "1792915210.005000")] if name == "02-contention" else []
    others = {row["contested"] for row in rows if row["contested"] != "true"}
    for unit in units_wanted(name):
        kinds = [row["kind"] for row in rows if row["name"] == unit]
        found += same(kinds, sorted(kinds), f"order of the kinds of {unit}")
    return found + same(told, wanted, "contested") + same(others - {"false", ""}, set(), "values of contested")


def late_packets():
    """With T1 the entry of two messages is withheld, and nothing else."""
    wanted = units_wanted("03-lost-frames")
    runs = wanted["1000000001419907"][1]["dm1"]
    del runs[3]
    status, out, err = run(["watch", "--format", "json", "--unclaimed", "hide"], log_of("03-lost-frames"))
    report = json.loads(out.splitlines()[-1])
    return same(units_of_json(report), wanted, "units") + ([] if report["lines"]["withheld"] > 0 else ["nothing is withheld"])


def broken_messages():
    """What is held, late, or comes again is listed as the standard's times have it; what breaks is told with its reason, and no late one again."""
    name = "08-held-and-broken"
    status, out, err = run(["watch", "--format", "json"], log_of(name))
    objects = [json.loads(line) for line in out.splitlines()]
    told = [(it["kind"], it.get("to"), it["read"], it["of"], it["why"]) for it in objects if it["event"] == "broken"]
    dm2 = [(2, 3, "packet 2 came again with other bytes"), (2, 3, "packet 2 for 3"), (0, 3, "late"), (0, 3, "late"), (1, 3, "packet 3 for 2"), (1, 3, "abort 3 (timeout) by 248(F8)"),
           (1, 3, "announced anew")]
    wanted = [("dm2", 248, *one) for one in dm2] + [("dm1", None, 1, 2, "claimed by another")]
    report = objects[-1]
    found = same(told, wanted, "broken") + same([report["broken"], report["open"], report["lines"]["withheld"]], [8, 1, 4], "counts")
    return found + same([run["times"] for run in report["rows"][0]["dm2"]], [4], "DM2s") + same((status, err), (0, ""), "status")


# Units that claim, and two that do not, whose addresses have gaps between them.
MIXED = b"""(1.000000) can0 18EEFF00#0799410100000010
(1.010000) can0 18EEFF01#0899410100000010
(1.100000) can0 18FECA00#04FF64000301FFFF
(1.200000) can0 18FECA05#04FF65000301FFFF
(1.300000) can0 18FECA06#04FF66000301FFFF
DROPCOUNT: dropped 1 CAN frames on 'can0' socket (total drops 1)
(1.400000) can0 18FECA05#04FF67000301FFFF
(1.500000) can0 18FECA06#00FF00000000FFFF
(1.600000) can0 18EEFF01#0899410100000010
(1.700000) can0 18EEFF01#0599410100000010
"""


def recipes_of(page):
    """The lines of the part `Recipes` of a page."""
    part = (TOP / page).read_text().partition("## Recipes\n")[2].partition("\n## ")[0]
    return [line[4:] for line in part.splitlines() if line.startswith("    ")]


def recipes():
    """Each line of the recipes for jq in docs/WATCH.md tells units apart that nobody claimed."""
    if shutil.which("jq") is None:
        skipped("the recipes of docs/WATCH.md: there is no jq")
        return []
    lines, told = recipes_of("docs/WATCH.md"), {}
    with tempfile.NamedTemporaryFile(suffix=".log") as log:
        log.write(MIXED)
        log.flush()
        for what, line in zip(lines[1:], lines[2:]):
            if what.startswith("#") and "jq" in line and ">" not in line.rpartition("'")[2]:
                line = line.replace("./j1939bench", program("watch")).replace(" LOG", f" {log.name}")
                ran = subprocess.run(["sh", "-c", f"{lines[0]}\n{line}"], capture_output=True, text=True, check=False)
                told[what] = (ran.returncode, ran.stdout, ran.stderr)
    five, six = "address 5, no claim seen", "address 6, no claim seen"
    return same(list(told.values()), [
        (0, f"1000000001419907: 100/3\n{five}: 101/3\n{six}: 102/3\n{five} since gap 1: 103/3\n", ""),
        (0, f"1000000001419907: amber 1 times, 1.100000 to 1.100000\n{five}: amber 1 times, 1.200000 to 1.200000\n{six}: amber 1 times, 1.300000 to 1.300000\n"
            f"{five} since gap 1: amber 1 times, 1.400000 to 1.400000\n", ""),
        (0, f"1000000001419907\t100/3\t1.100000\n{five}\t101/3\t1.200000\n{five} since gap 1\t103/3\t1.400000\n{six}\t102/3\t1.300000\n", ""),
        (0, "1.700000 1000000001419908\n", ""),
    ], "recipes")
