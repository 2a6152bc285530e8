"""What a unit told at any time of a log, and not only at its end: from the rules, over the list of its messages of one kind, oldest first.

Something comes with a message that shows it, where the message before does not, or there is none before. It was shown from the first message that
shows it to the last one. A DM1 with a lamp or a code is sent each second (J1939-73, 5.7.1); one that is not heard for over five seconds is silent.
"""

from .words import LAMPS

SILENCE = 5_000_000  # microseconds
WORST = ["stop", "amber", "mil", "protect"]  # lamps, from the worst on


class Told:
    """A message: the time of its line in microseconds, its two bytes of lamps, its codes as pairs of SPN and FMI, and whether it was read in part."""

    def __init__(self, time, lamps, codes, in_part=False):
        self.time, self.lamps, self.codes, self.in_part = time, lamps, list(codes), in_part

    def lit(self):
        """The words of the lamps that are on: 01 of the two bits of each (J1939-73, 5.7.1)."""
        return [word for word, at in LAMPS if self.lamps >> at & 3 == 1]

    def is_fault(self):
        return bool(self.lit() or self.codes)


def appearance(messages, shows):
    """How often something came, and the times of the first and the last message that show it; none where none does."""
    at = [place for place, message in enumerate(messages) if shows(message)]
    if not at:
        return None
    return len(set(at) - {place + 1 for place in at}), messages[at[0]].time, messages[at[-1]].time


def lamps_ever(messages):
    """Of each lamp that was on, from the worst on, how it appeared."""
    found = {word: appearance(messages, lambda message, word=word: word in message.lit()) for word in WORST}
    return {word: one for word, one in found.items() if one}


def codes_ever(messages):
    """Of each code, in the order in which they were listed first."""
    codes = dict.fromkeys(code for message in messages for code in message.codes)
    return {code: appearance(messages, lambda message, code=code: code in message.codes) for code in codes}


def silence(messages, end):
    """How long before the end the unit was last heard, where that is over five seconds and what it told was a fault; else none."""
    if not messages or not messages[-1].is_fault() or end - messages[-1].time <= SILENCE:
        return None
    return end - messages[-1].time


def rank(messages):
    """How bad the worst is that was told: 5 for stop down to 2 for protect, 1 for codes without a lamp, 0 for none."""
    worst = next((5 - WORST.index(word) for word in WORST if word in lamps_ever(messages)), 0)
    return worst or (1 if codes_ever(messages) else 0)
