"""Frames that a station misses: between messages, in a session, before an answer."""

from corners.values import MANY


class Gaps:
    """What stands behind frames that were missed."""

    def gap(self):
        """More frames than the station's window holds, at times with one more behind them."""
        seats = self.seats()
        if self.window > 16 or not seats:
            return
        for _ in range(self.window + self.random.randrange(3)):
            self.say("dm1", self.random.choice(seats))
        for seat in seats:
            self.say("hear", seat, MANY)
        self.say("carry", self.window + self.random.randrange(6))
        if self.chance(50):
            self.hear()
            self.carry()
        self.tell("read", self.one_of("1", "1", "2", MANY))

    def gap_in_session(self):
        """The station misses frames while packets are granted, and reads the rest of them."""
        unit = self.unit()
        if unit is None or unit.held is None or self.window > 5 or len(self.seats()) < 2:
            return
        self.say("set", unit.seat, 100, 1, self.one_of(3, 9))
        self.say("round", MANY)
        self.tell("ask", "%016X" % unit.name, "dm1")
        self.say("round", self.one_of(2, 3, 4))
        for _ in range(self.window + 1):
            self.say("dm1", self.random.choice(self.seats()))
        for _ in range(self.window + self.random.randrange(1, 4)):
            for seat in self.seats():
                self.say("hear", seat, MANY)
            self.say("carry", 1)
        self.tell("read", self.one_of(MANY, 1, 2))
        self.go_on()

    def answer_after_gap(self):
        """An acknowledgment is read behind a gap, so that nobody is known to own its source."""
        unit = self.unit()
        if unit is None or unit.held is None or self.window > 5:
            return
        self.say("round", MANY)
        self.tell("ask", "%016X" % unit.name, self.one_of("dm3", "0", "65259"))
        for _ in range(self.window + self.random.randrange(2)):
            self.say("dm1", self.random.choice(self.seats()))
        for _ in range(self.window + 3):
            self.say("carry", 1)
            for seat in self.seats():
                self.say("hear", seat, MANY)
        self.tell("read", MANY)
        self.go_on()

    def unowned_session(self):
        """The station misses frames and then reads a request to send from an address whose owner it forgot."""
        unit = self.unit()
        if unit is None or unit.held is None or self.window > 5 or self.station.held is None:
            return
        self.say("set", unit.seat, 100, 1, 3)
        self.say("round", MANY)
        self.tell("ask", "%016X" % unit.name, "dm1")
        for _ in range(self.window + 1):
            self.say("dm1", self.random.choice(self.seats()))
        self.say("carry", 1)
        for seat in self.seats():
            self.say("hear", seat, MANY)
        for _ in range(self.window + 4):
            self.say("carry", 1)
            for seat in self.seats():
                self.say("hear", seat, MANY)
            if unit.session is None or unit.queue == []:
                break
        self.tell("read", self.one_of(MANY, "2", "1"))
        for _ in range(3):
            self.go_on()
