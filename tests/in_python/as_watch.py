"""The lists of a listener for each log that is named, each with the name of its bus, and how many messages broke: a line of JSON each, in the words of
`watch --format json`, for tests/run/python."""

import json
import sys

import hidzgula
from tries import entry_of

KINDS = ((1, "dm1"), (2, "dm2"), (6, "dm6"))


def runs_of(messages):
    """Equal messages in a row, each with where it went."""
    runs = []
    for message in messages:
        one = {"to": None if message.to == 255 else message.to, "entry": entry_of(message)}
        if runs and {**runs[-1], "times": 0} == {**one, "times": 0}:
            runs[-1]["times"] += 1
        else:
            runs.append({**one, "times": 1})
    return runs


for path, bus in zip(sys.argv[1::2], sys.argv[2::2]):
    broken = []
    with hidzgula.Listener() as listener, open(path, "rb") as log:
        hidzgula.take_log(listener, log, bus=bus, on_change=lambda heard, at: broken.append(at) if heard.what == hidzgula.What.BROKEN else None)
        addresses = {unit.name: unit.address for unit in listener.units()}
        whose = dict.fromkeys([*(hidzgula.Who(name) for name in addresses), *(who for who in listener.senders() if who.name is None)])
        rows = [{"name": None if who.name is None else f"{who.name:016X}", "address": addresses.get(who.name, who.address),
                 **{kind: runs_of(listener.messages(who, number)) for number, kind in KINDS}} for who in whose]
        print(json.dumps({"rows": rows, "missed": listener.counts().missed, "unread": listener.counts().unread, "broken": len(broken)}))
