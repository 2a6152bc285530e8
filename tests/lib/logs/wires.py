"""The wire of each written script, read as a log, gives the lists that the script shows."""

import json
import re

from harness import TOP
from logs.common import KINDS, run, same, units_of_json


def scripts():
    for folder in ("tests/data/scripts", "examples"):
        for script in sorted((TOP / folder).glob("*.script")):
            if not any(script.with_suffix(kind).exists() for kind in (".words", ".fault", ".status")):
                yield script


def entries(shown):
    """The entries of an answer of shown."""
    return shown.split(": ", 1)[1].split(" | ") if ": " in shown else []


def stations_of(text):
    """The NAME and the address of each station of a script; none where no line makes a garage."""
    bad = {int(line.split(":")[0]) for line in run(["check"], text.encode())[1].splitlines()}
    accepted = (line.split() for number, line in enumerate(text.splitlines(), 1) if number not in bad)
    words = next((words for words in accepted if words and words[0].startswith("garage")), [])
    return [words[1:3], words[5:7]] if words[:1] == ["garage2"] else [words[1:3]] if words else []


def wire_of_script(script):
    """None where the script has no garage, or a station of it misses frames or can't read all; else what differs between what its
    stations show and what its log does."""
    text = script.read_text()
    stations = stations_of(text)
    _, wire, told = run(["log"], text.encode())
    found = [differences_at(y, station, text, wire) for y, station in enumerate(stations)]
    if not found or None in found:
        return None
    bad = [line for line in out_of_script(text) if line in ("bad line", "no seat") or line.startswith("refused ")]
    return sum(found, same([line.split(": ", 1)[1] for line in told.splitlines()], bad, "lines that are not accepted"))


def differences_at(y, station, text, wire):
    """What differs between what station y shows at the end of a script and what a listener does that reads the log, of messages to all or
    to an address that the station had; None where it misses frames or can't read all."""
    names = sorted({word.upper() for word in re.findall(r"\b[0-9A-Fa-f]{16}\b", text)})
    queries = ["stats"] + [f"shown {name} {kind}" for name in names for kind in KINDS]
    whole = text + ("" if text.endswith("\n") else "\n") + "".join(f"at {y} {query}\n" for query in ["read 4294967295"] + queries)
    status, out, err = run(["script"], whole.encode())
    read, *answers = out.splitlines()[-len(queries) - 1 :]
    if status != 0 or not read.startswith("read ") or not answers[0].startswith("missed 0 "):
        return None
    status, out, err = run(["watch", "--silence", "0", "--format", "json"], wire.encode())
    found = same((status, err), (0, "") if wire else (3, "no line was read\n"), "status and standard error of watch")
    *changes, report = [json.loads(line) for line in out.splitlines()]
    had = {int(station[1]), *(change["address"] for change in changes if change["event"] == "unit" and change["name"] == station[0].upper())}
    for row in report["rows"]:
        for kind in KINDS:
            row[kind] = [one for one in row[kind] if one.get("to", 255) == 255 or one["to"] in had]
    units = units_of_json(report)
    listed = iter(answers[1:])
    for name in names:
        for kind in KINDS:
            runs = units[name][1][kind] if name in units else []
            found += same([entry for times, entry in runs for _ in range(times)], entries(next(listed)), f"station {y}: {name} {kind}")
    return found


def out_of_script(text):
    return run(["script"], text.encode())[1].splitlines()


def answers_by_line(text):
    """The number of each line that has an answer, and that answer; of a report its last line."""
    out = iter(out_of_script(text))
    for number, line in enumerate(text.splitlines(), 1):
        if line and not line.startswith("#"):
            answer = next(out)
            while line.split()[-1:] == ["report"] and not answer.startswith(("missed ", "bad line")):
                answer = next(out)
            yield number, answer


def checked_script(script):
    """check tells as many lines as are not accepted, by their numbers."""
    text = script.read_text()
    bad = [number for number, answer in answers_by_line(text) if answer in ("bad line", "no seat") or answer.startswith("refused ")]
    status, out, err = run(["check"], text.encode())
    told = [int(line.split(":")[0]) for line in out.splitlines()]
    return same(told, bad, "numbers") + same(status, 3 if bad else 0, "status") + same(err, "", "standard error")
