"""The logs of tests/data/logs/listener: where a station that takes part would have answered, and one who only reads has to hear it otherwise.

NAME.log, here or in examples/logs, is the log, NAME.lists.json what is to be listed, made by hand: for each unit, or address that nobody claimed
(`"name": null`), its runs of equal entries, each with the address that it went to (`"to"`, null for all) and behind a semicolon what of it is not
read.
"""

import json

from harness import TOP

from model import log_line, watch

FOLDER = TOP / "tests/data/logs/listener"
KINDS = ("dm1", "dm2", "dm6")


def log_of(name):
    log = FOLDER / f"{name}.log"
    return (log if log.exists() else TOP / "examples/logs" / log.name).read_bytes()


def wanted(name):
    return json.loads((FOLDER / f"{name}.lists.json").read_text())


def listed(units):
    """For each NAME, and for each address that nobody claimed: the address, and the runs of each kind. Of such addresses there may be several
    rows, each between two gaps, in their order."""
    found = {}
    for unit in units:
        runs = {kind: [(run["times"], run["to"], run["entry"]) for run in unit[kind]] for kind in KINDS}
        found.setdefault(unit["name"] or f"address {unit['address']}", []).append((unit["address"], runs))
    return found


def entry_of(run):
    codes = [f"{code['spn']}/{code['fmi']}/{127 if code['count'] is None else code['count']}" for code in run["codes"]]
    amiss = [f"{count} {key}" for key, count in run.get("not_read", {}).items() if count]
    return " ".join([run["lamps"], *(codes or ["-"])]) + ("; " + ", ".join(amiss) if amiss else "")


def differences(name, report, same):
    """What differs between a report in JSON and the lists."""
    report, lists = json.loads(report.splitlines()[-1]), wanted(name)
    rows = [row | {kind: [{"times": run["times"], "to": run.get("to"), "entry": entry_of(run)} for run in row[kind]] for kind in KINDS} for row in report["rows"]]
    contested = sum(run["contested"] for row in report["rows"] for kind in KINDS for run in row[kind])
    found = same(listed(rows), listed(lists["units"]), "lists") + same([report["missed"], report["unread"]], [lists["missed"], lists["unread"]], "missed and unread")
    for what, count in (("contested", contested), ("partly", report.get("partly", 0)), ("withheld", report["lines"]["withheld"])):
        found += same(count, lists.get(what, count), what)
    return found


def tries(run, same):
    """A name, and what says how a log differs, for each log. `run` and `same` are those of tests/lib/logs/common.py."""
    for name in sorted(lists.name.removesuffix(".lists.json") for lists in FOLDER.glob("*.lists.json")):
        yield f"{name} by the model", lambda name=name: differences(name, by_model(name), same)
        yield name, lambda name=name: differences(name, run(["watch", "--format", "json"], log_of(name))[1], same)


def by_model(name):
    return watch.watched(log_line.read_lines(log_of(name)), watch.Options.of([]))[0]["json"]
