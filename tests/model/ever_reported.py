"""What reports write of what units told at any time of a log (`ever`), by DM1 and by DM6: lines below a row, a member of it, values of it."""

from . import ever
from .frames import KINDS
from .log_cases import reach
from .words import FAILURE_MODES, meaning_words, time_text

EVER_KINDS = ("dm1", "dm6")
MOST_UNITS, MOST_CODES = 1024, 64


class Ever:
    """The messages that a unit sent of one kind. Of equal ones in a row the first and the last are enough."""

    def __init__(self):
        self.messages = []

    def hear(self, shown, time):
        told = ever.Told(time, shown[0][0], [(code.spn, code.fmi) for code in shown[1]])
        is_same = [(it.lamps, it.codes) == (told.lamps, told.codes) for it in self.messages[-2:]]
        if is_same == [True, True]:
            self.messages.pop()
        self.messages.append(told)

    def is_fine(self):
        return not ever.rank(self.messages)

    def lamp(self):
        """The worst lamp that was on, and how it appeared; none where none was."""
        return next(((word, *seen) for word, seen in ever.lamps_ever(self.messages).items()), (None, 0, None, None))

    def codes(self):
        """Each code that was listed, the first 64 of them, and how it appeared; and how many more a message had at most."""
        kept = dict(list(ever.codes_ever(self.messages).items())[:MOST_CODES])
        return [(code, *seen) for code, seen in kept.items()], max((sum(code not in kept for code in it.codes) for it in self.messages), default=0)

    def last_heard(self):
        return self.messages[-1].time if self.messages else None

    def silence(self, end):
        if None in (end, self.last_heard()):
            return None
        silence = ever.silence(self.messages, end)
        if silence:
            reach("a DM1 that fell silent")
        return silence


class EverInLog:
    """Of each unit of each bus, up to 1,024 of them."""

    def __init__(self):
        self.units, self.end, self.left_out = {}, None, 0

    def pass_line(self, line, last):
        """What comes behind the last time of which it is told ends nothing."""
        if line.kind == "frame" and line.time is not None and (last is None or line.time <= last):
            self.end = line.time

    def hear(self, unit, kind, shown, time, begins):
        """A unit told this; whether that begins a run."""
        if unit not in self.units and len(self.units) >= MOST_UNITS:
            self.left_out += begins
            return
        of_it = self.units.setdefault(unit, {KINDS[word]: Ever() for word in EVER_KINDS})
        if kind in of_it:
            of_it[kind].hear(shown, time)

    def of(self, unit, kind):
        return self.units.get(unit, {}).get(kind)

    def was_red(self, unit):
        return unit in self.units and self.of(unit, KINDS["dm1"]).lamp()[0] == "stop"

    def silence(self, unit, kind):
        return self.of(unit, kind).silence(self.end) if kind == KINDS["dm1"] else None

    # ---- in words, as JSON, as CSV

    def text(self, unit, clock):
        """The lines below the row of a unit; the clock makes words of a time."""
        for word in EVER_KINDS:
            told = self.of(unit, KINDS[word])
            if told is None or told.is_fine():
                continue
            lamp, *seen = told.lamp()
            codes, more = told.codes()
            silence = self.silence(unit, KINDS[word])
            words = f"{lamp} {seen_words(seen, clock)}" if lamp else "no lamp"
            reach("a unit had a lamp on at some time" if lamp else "a unit had a code at some time, and no lamp on")
            yield f"  ever {word}: {words}; last heard {time_or_dash(told.last_heard(), clock)}" + (f", not heard for the last {duration(silence)}" if silence else "")
            for (spn, fmi), *seen in codes:
                yield f"  ever {word}: {spn}/{fmi} {seen_words(seen, clock)}" + meaning_words(spn, fmi)
            if more:
                yield f"  ever {word}: further codes, up to {more} at once"

    def left_out_text(self):
        return f"ever: {self.left_out} messages of further units are not kept\n" if self.left_out else ""

    def object(self, unit):
        if unit not in self.units:
            return {}
        return {"ever": {word: self.kind_object(unit, KINDS[word]) for word in EVER_KINDS}}

    def kind_object(self, unit, kind):
        told, silence = self.of(unit, kind), self.silence(unit, kind)
        lamp, *seen = told.lamp()
        codes, more = told.codes()
        return {"lamp": lamp, **seen_object(seen), "codes": [{"spn": spn, "fmi": fmi, **seen_object(of_it), "fmi_text": FAILURE_MODES[fmi]} for (spn, fmi), *of_it in codes], "more": more,
                "last_heard": time_or(told.last_heard(), None)} | ({"silent": silence // 1_000_000} if silence else {})

    def values(self, unit, kind, code):
        """The last values of a row."""
        told = self.of(unit, kind)
        if told is None:
            return [""] * 9
        lamp, *seen = told.lamp()
        silence = self.silence(unit, kind)
        of_code = next((of_it for key, *of_it in told.codes()[0] if code is not None and key == (code.spn, code.fmi)), None)
        return [*([lamp, *seen_values(seen)] if lamp else [""] * 4), time_or(told.last_heard(), ""), str(silence // 1_000_000) if silence else "",
                *(seen_values(of_code) if of_code else [""] * 3)]


HEADER = ",ever_lamp,ever_lamp_times,ever_lamp_first,ever_lamp_last,last_heard,silent,ever_code_times,ever_code_first,ever_code_last"


def time_or(time, none):
    return none if time is None else time_text(time)


def time_or_dash(time, clock):
    return "-" if time is None else clock(time)


def seen_words(seen, clock):
    times, first, last = seen
    return f"{times} time{'' if times == 1 else 's'}, first {time_or_dash(first, clock)}, last {time_or_dash(last, clock)}"


def seen_object(seen):
    times, first, last = seen
    return {"times": times, "first": time_or(first, None), "last": time_or(last, None)}


def seen_values(seen):
    times, first, last = seen
    return [str(times), time_or(first, ""), time_or(last, "")]


def duration(micros):
    """By its two largest units."""
    seconds = micros // 1_000_000
    if seconds < 60:
        return f"{seconds}.{micros // 100_000 % 10} s"
    if seconds < 3600:
        return f"{seconds // 60} min {seconds % 60} s"
    if seconds < 86_400:
        return f"{seconds // 3600} h {seconds // 60 % 60} min"
    return f"{seconds // 86_400} d {seconds // 3600 % 24} h"
