"""What every aim of a random script stands on: to say a line, to choose, and whom to aim at."""

import random

from corners.values import ADDRESSES, CODES, MANY, UNITS
from model.script import Script


class Basics:
    """A script so far, the model's answers to it, and choices of what its next line names."""

    def __init__(self, seed):
        self.random, self.script, self.lines, self.answers = random.Random(seed), Script(), [], []
        self.strangers = False  # whether frames come from outside
        self.at = 0  # the station that is aimed at

    def say(self, *words):
        line = " ".join(map(str, words))
        self.lines.append(line)
        answer = self.script.answer(line)
        if answer is not None:
            self.answers.extend(answer.split("\n"))
        return answer

    def one_of(self, *things):
        return self.random.choice(things)

    def chance(self, percent):
        return self.random.randrange(100) < percent

    def is_long(self):
        return len(self.lines) >= self.most_lines or len(self.garage.wire) >= self.most_wire

    @property
    def garage(self):
        return self.script.garage

    def seats(self):
        return [number for number, seat in enumerate(self.garage.seats) if number >= self.first and seat.live]

    def seat(self):
        """A live seat, for the most part; rarely one that is gone or was never given."""
        live = self.seats()
        if not live or self.chance(2):
            return self.one_of(0, self.first - 1, len(self.garage.seats), max(1, len(self.garage.seats) - 2), 4294967295)
        return self.random.choice(live)

    def unit(self):
        live = self.seats()
        return self.garage.unit(self.random.choice(live)) if live else None

    def name_text(self, name):
        text = "%016X" % name
        return text.lower() if self.chance(10) else text

    def name(self):
        """The NAME of a live unit for the most part; else any."""
        unit = self.unit()
        if unit and self.chance(92):
            return self.name_text(unit.name)
        return self.one_of(*UNITS, "%016X" % self.station.name)

    def address(self):
        unit = self.unit()
        held = unit.held if unit and unit.held is not None else 0
        own = self.station.held if self.station.held is not None else 249
        return self.random.choice([held, held, own] + ADDRESSES)

    def kind(self):
        spn, fmi = self.random.choice(CODES)
        if self.chance(18):
            spn, fmi = self.one_of((524288, 1), (5, 32), (5, 129), (100, 255), (4294967295, 255))
        return self.random.choice(["plain"] * 5 + ["guarded"] * 3 + [f"flicker {spn} {fmi}"] * 2)

    def count(self):
        return self.random.choice(["", "0", "1", "1", "2", "3", "5", "9", MANY])
