"""What all tries over lines of a log stand on: a run of the program, what differs, a report read back."""

import re
import subprocess

from harness import TOP, called

LOGS = ["01-startup-and-dm1", "02-contention", "03-lost-frames", "04-pending-codes", "05-sessions-given-up", "08-held-and-broken"]
KINDS = ("dm1", "dm2", "dm6")
CLAIM = b"(1.000000) can0 18EEFF00#A000000000000000\n"
MESSAGE = b"(1.100000) can0 18FECA00#04FFB8040301FFFF\n"
CLAIMED = "1.000000 unit 00000000000000A0 (function 0 instance 0, manufacturer 0, identity 160) at 0\n"
SHOWN = "1.100000 dm1 00000000000000A0 amber (04FF); 1208/3/1 (1208/3: voltage above normal or shorted high)\n"


def run(words, text=b"", **given):
    """The status, standard output and standard error of a run."""
    if "stdin" not in given:
        given["input"] = text
    given.setdefault("stdout", subprocess.PIPE)
    ran = subprocess.run(called(*words), stderr=subprocess.PIPE, timeout=120, **given)
    out = ran.stdout.decode() if ran.stdout is not None else ""
    return ran.returncode, out, ran.stderr.decode()


def same(got, wanted, what):
    """An empty list where both are the same, else one text."""
    return [] if got == wanted else [f"{what}: {str(got)[:400]!r}, wanted {str(wanted)[:400]!r}"]


def log_of(name):
    return (TOP / "examples/logs" / f"{name}.log").read_bytes()


def entry_of(lamps, codes):
    """An entry as a script shows it."""
    return " ".join([lamps, *(f"{c['spn']}/{c['fmi']}/{127 if c['count'] is None else c['count']}" for c in codes)]) if codes else lamps + " -"


def units_of_json(report):
    """What was read whole: the lists of who takes part have no more."""
    units = {}
    for row in report["rows"]:
        runs = {kind: [(r["times"], entry_of(r["lamps"], r["codes"])) for r in row[kind] if "not_read" not in r] for kind in KINDS}
        units[row["name"]] = (row["address"], joined(runs))
    return units


def joined(kinds):
    """Runs of equal entries joined, as they stand apart where one is contested."""
    for kind, runs in kinds.items():
        whole = []
        for times, entry in runs:
            if whole and whole[-1][1] == entry:
                whole[-1] = (whole[-1][0] + times, entry)
            else:
                whole.append((times, entry))
        kinds[kind] = whole
    return kinds


def is_change(line):
    return re.match(r"\d+\.\d{6} ", line) is not None
