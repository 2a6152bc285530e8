"""Counts tries, for the programs of this folder; and what the logs of examples/logs are expected to come to."""

import json
import pathlib
import sys

TOP = pathlib.Path(__file__).resolve().parent.parent.parent
LOGS = ["01-startup-and-dm1", "02-contention", "03-lost-frames", "04-pending-codes", "05-sessions-given-up"]

# what 03-lost-frames has as a DM1 that nobody sent, of one whose last packet was lost and the next one's first
LATE = "04FF 94/1/1 1181/16/1 1169/2/1 4334/18/1"

passed = failed = 0


def same(what, got, wanted):
    """One try: both are the same."""
    global passed, failed
    if got == wanted:
        passed += 1
    else:
        failed += 1
        print(f"{what}: {str(got)[:400]}, wanted {str(wanted)[:400]}")


def raised(call, *words, **named):
    """The error that a call raises, or what it returned."""
    try:
        return call(*words, **named)
    except Exception as error:  # what it is, is tried
        return error


def sums():
    """Writes the sums and ends."""
    print(f"{passed} passed, {failed} failed")
    sys.exit(1 if failed or not passed else 0)


def lines_of(log):
    """The lines of a log."""
    return (TOP / "examples/logs" / f"{log}.log").read_text().splitlines(keepends=True)


def lists_wanted(log):
    """What is expected of a log: for each NAME its address and for each kind its runs of equal entries; and the counts."""
    wanted = json.loads((TOP / "tests/data/logs" / f"{log}.lists.json").read_text())
    units = {
        int(unit["name"], 16): (unit["address"], {kind: [(run["times"], run["entry"]) for run in unit[kind]] for kind in ("dm1", "dm2", "dm6")})
        for unit in wanted["names"]
    }
    return units, (wanted["missed"], wanted["unread"])


def with_times(log):
    """What is expected of a log with its times: in one of them a message is late of which a loss would else make one with the next."""
    units, counts = lists_wanted(log)
    if log == "03-lost-frames":
        address, kinds = units[0x1000000001419907]
        runs = [(times - (entry == LATE), entry) for times, entry in kinds["dm1"]]
        units[0x1000000001419907] = address, {**kinds, "dm1": [run for run in runs if run[0]]}
        same("with times", sum(times for times, _ in runs), 18)
    return units, counts


def entry_of(message):
    """A message as the files of tests/data/logs have it."""
    codes = " ".join(f"{code.spn}/{code.fmi}/{code.count}" for code in message.codes)
    amiss = ", ".join(f"{count} {part}" for part, count in message.not_read._asdict().items() if count) if message.not_read else ""
    return f"{message.lamps.states:02X}{message.lamps.flashes:02X} {codes or '-'}{'; ' if amiss else ''}{amiss}"


def lists_of(station):
    """What a station has, or a listener of what went to all or to 248 and was read whole, in that form."""
    units = {}
    for unit in station.units():
        kinds = {}
        for kind, called in ((1, "dm1"), (2, "dm2"), (6, "dm6")):
            runs = []
            for message in station.messages(unit.name, kind):
                if message.to not in (None, 255, 248) or message.not_read:
                    continue
                entry = entry_of(message)
                if runs and runs[-1][1] == entry:
                    runs[-1] = (runs[-1][0] + 1, entry)
                else:
                    runs.append((1, entry))
            kinds[called] = runs
        units[unit.name] = (unit.address, kinds)
    return units, tuple(station.counts())


def all_heard(listener):
    """All that a listener tells."""
    lists = [(kind, who, listener.count(who, kind), listener.messages(who, kind)) for who in listener.senders() for kind in (1, 2, 6)]
    return listener.units(), lists, listener.counts()


def all_told(station):
    """All that a station tells."""
    units = station.units()
    lists = [(kind, unit.name, station.count(unit.name, kind), station.messages(unit.name, kind)) for unit in units for kind in (1, 2, 6)]
    return units, lists, station.counts(), station.address, station.claim()
