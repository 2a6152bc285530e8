"""The table of a fleet's messages, from the rules: over the messages themselves, of all logs of a vehicle, and never over runs of them.

A row is of a vehicle, a NAME, a kind and a code, or of messages without a readable code. What is so now says the log that heard the unit last, by its
newest message of the kind; a DM1 that fell silent says nothing. One that was read in part may have a code that could not be read.
"""

from .ever import WORST, appearance, silence
from .words import FAILURE_MODES


class Log:
    """A log: of each NAME when it claimed, and of each kind its messages (`Told`), oldest first; and when the log ended."""

    def __init__(self, units, end):
        self.units, self.end = units, end

    def heard(self, name):
        """When anything of a unit was heard last."""
        claimed, kinds = self.units[name]
        return max([claimed, *(message.time for messages in kinds.values() for message in messages)])


def has(message, code):
    return code in message.codes if code else not message.codes


def now_of(logs, name, kind):
    """The newest message of a kind in the log that heard the unit last; none where its DM1 fell silent."""
    newest = max((log for log in logs if name in log.units), key=lambda log: log.heard(name))
    messages = newest.units[name][1].get(kind, [])
    return None if not messages or kind == "dm1" and silence(messages, newest.end) is not None else messages[-1]


def row_of(logs, name, kind, code):
    """What all logs of a vehicle tell of a unit's code."""
    lists = [log.units[name][1].get(kind, []) for log in logs if name in log.units]
    times, firsts, lasts = zip(*[found for messages in lists if (found := appearance(messages, lambda message: has(message, code)))])
    having = [message for messages in lists for message in messages if has(message, code)]
    newest = now_of(logs, name, kind)
    is_now = newest and has(newest, code)
    return {
        "spn": code[0] if code else None, "fmi": code[1] if code else None, "fmi_text": FAILURE_MODES[code[1]] if code else "",
        "first": min(firsts), "last": max(lasts), "messages": len(having), "times": sum(times), "partly": sum(message.in_part for message in having),
        "lamps": " ".join(lamp for lamp in WORST if any(lamp in message.lit() for message in having)), "now": "" if not is_now else "yes" if code or not newest.in_part else "partly",
    }  # fmt: skip


def messages(vehicles):
    """The rows of a fleet: of each vehicle its logs."""
    rows = {}
    for vehicle, logs in vehicles.items():
        for name in {name for log in logs for name in log.units}:
            kinds = {kind for log in logs if name in log.units for kind in log.units[name][1]}
            for kind in kinds:
                told = [message for log in logs if name in log.units for message in log.units[name][1].get(kind, [])]
                for code in {code for message in told for code in message.codes or [None]}:
                    rows[vehicle, name, kind, code] = row_of(logs, name, kind, code)
    return rows
