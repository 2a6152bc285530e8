"""The writer of random scripts: all that it may aim at, by theme."""

from corners.basics import Basics
from corners.claims import Claims
from corners.commands import Commands
from corners.gaps import Gaps
from corners.misspelt import Misspelt
from corners.sessions import Sessions
from corners.strangers import Strangers
from corners.two_stations import TwoStations
from corners.values import MESSAGES, MOST_LINES, MOST_WIRE


class Writer(Basics, Commands, Misspelt, Claims, Gaps, Sessions, Strangers, TwoStations):
    """A script that is being written, and the model's answers to it."""

    def disturb(self):
        if self.strangers and self.chance(30):
            self.stranger()
            return
        self.random.choice([self.gap, self.contend, self.contend, self.order, self.order, self.replace, self.ask, self.ask,
                            self.dm1, self.leave, self.change, self.known_pair, self.think, self.hear, self.carry, self.misspelt])()

    def go_on(self):
        """Lets some frames be carried, heard and read, all of them or here and there."""
        before = len(self.garage.wire)
        if self.chance(55):
            self.say("round", self.random.choice([0, 1, 1, 2, 2, 3, 4, 5, 7, 9]))
        else:
            for _ in range(self.random.randrange(1, 5)):
                self.random.choice([self.carry, self.carry, self.read, self.hear, self.hear])()
        if self.chance(25):
            for at in range(before, len(self.garage.wire))[:9]:
                self.say("frame", at)

    def any_line(self):
        if self.strangers and self.chance(30):
            self.stranger()
            return
        self.random.choice([self.join, self.change, self.known_pair, self.lamps, self.dm1, self.dm1, self.carry, self.carry, self.read, self.read,
                            self.hear, self.hear, self.round, self.ask, self.ask, self.command, self.think, self.turn, self.leave,
                            self.query, self.query, self.query, self.misspelt])()

    def ask_all_about_it(self):
        """All that can be asked at the end, at each station."""
        for self.at in range(self.first):
            for name in self.random.sample(self.station.names(), min(4, len(self.station.names()))):
                for kind in MESSAGES:
                    self.tell("shown", "%016X" % name, kind)
                self.tell("row", "%016X" % name)
            self.tell("stats")
            self.tell("report")
        for seat in range(min(6, len(self.garage.seats))):
            self.say("counts", seat)
        for at in sorted(self.random.sample(range(len(self.garage.wire)), min(60, len(self.garage.wire)))):
            self.say("frame", at)

    def write(self, plan, most_lines=MOST_LINES, most_wire=MOST_WIRE):
        self.most_lines, self.most_wire, self.strangers = most_lines, most_wire, self.chance(20)
        plan(self)
        if self.garage:
            self.ask_all_about_it()
        return self

    def text(self):
        """The script: some lines end with CR and LF, and the last one may end with neither.

        A line's own CR at its end would be dropped with its LF, so such a line always gets another one.
        """
        text = "".join(line + ("\r\n" if line.endswith("\r") or self.chance(2) else "\n") for line in self.lines)
        return text[:-1] if self.chance(20) and text.endswith("\n") and not text.endswith("\r\n") else text
