"""Each command of a script, with words that fit where things stand."""

from corners.values import ASKED, CODES, MANY, MESSAGES, STATIONS, UNITS

ONE = "0000000000000001"
NO_GARAGES = ["XY 249 4 16 100", "00000000000000010 249 4 16 100"] + [ONE + " " + settings for settings in (
    "254 4 16 100", "255 4 16 100", "249 0 16 100", "249 4097 16 100", "249 4 0 100", "249 4 16 0", "249 4 16 16777217",
    "256 4 16 100", "249 4 256 100", "249 4294967296 16 100", "249 4 16", "249 4 16 100 1", "249 +4 16 100")]


class Commands:
    """Single commands, a call for each."""

    def make_garage(self, window=None, grant=None, limit=None, name=None, more=0):
        """A garage, of two stations in a third of the scripts, and then with a limit that is so many more."""
        if self.chance(6):
            self.say(self.one_of("join 0000000000000001 0 plain", "round 1", "stats", "hear 1", "fly", "carry", "row XY", "at 0 read",
                                 "at 1 garage 0000000000000001 249 4 16 100"))
        while self.chance(25):
            self.say(*self.one_of(("garage", self.random.choice(NO_GARAGES)), ("garage2", self.no_garage2())))
        name, address = name or self.random.choice(STATIONS), self.random.choice([249, 249, 249, 0, 128, 253])
        first = (name, address, window or self.any_window(), grant or self.any_grant())
        limit = limit or self.one_of(100000, 100000, 16777216)
        if self.chance(33):
            self.make_garage2(first, limit + more, [other for other in STATIONS if other != name])
        else:
            self.say("garage", *first, limit)

    def any_window(self):
        return self.one_of(1, 2, 3, 4, 5, 8, 16, 64, 64, 64, 4096)

    def any_grant(self):
        return self.one_of(1, 1, 2, 3, 4, 7, 16, 16, 255)

    def join(self, name=None, address=None, kind=None):
        name = name or ("%016X" % self.random.choice(self.garage.stations).name if self.chance(3) else self.random.choice(UNITS))
        address = address if address is not None else 254 if self.chance(2) else 255 if self.chance(1) else self.address()
        return self.say("join", name, address, kind or self.kind())

    def fill(self, seat):
        """Gives a unit codes: few, or so many that a message needs several packets or all of them."""
        count = self.random.choice([1, 2, 2, 3, 4, 5, 7, 8, 9])
        self.say("set", seat, self.random.choice([100, 200, 104, 1000]), self.one_of(1, 1, 2), count)
        if self.chance(60):
            self.say("heal", seat, self.random.choice([100, 200, 104]), 1, self.random.choice([1, 2, 3, 5]))
        if self.chance(60):
            self.say("pend", seat, self.random.choice([300, 300, 300, 102, 204]), 1, self.random.choice([1, 2, 3, 5, 9]))
        if self.chance(30):
            self.say("lamps", seat, self.one_of("04FF", "40bf", "0000", "FFFF", "00FF", "1234"))

    def change(self):
        spn, fmi = self.random.choice(CODES)
        if self.chance(20):
            spn, fmi = self.one_of((524288, 1), (5, 32), (7, 129), (7, 255), (524286, 4), (4294967295, 255), (600000, 40))
        count = self.random.choice(["", "", "0", "1", "2", "3", "5"])
        self.say(self.one_of("set", "set", "heal", "pend", "pend", "unpend"), self.seat(), spn, fmi, count)

    def known_pair(self):
        """A code of a unit's memory, in whatever list, is set, healed, pended or taken out of the pending ones."""
        unit = self.unit()
        if unit is None:
            return
        codes = self.random.choice([unit.memory.active, unit.memory.previous, unit.memory.pending])
        if not codes:
            self.fill(unit.seat)
            return
        code = self.random.choice(codes)
        self.say(self.one_of("set", "heal", "pend", "unpend"), unit.seat, code.spn, code.fmi, self.random.choice(["", "1", "2", "5"]))

    def lamps(self):
        self.say("lamps", self.seat(), self.one_of("04FF", "00ff", "FFFF", "0000", "5555"))

    def dm1(self):
        self.say("dm1", self.seat())

    def carry(self):
        self.say("carry", self.count())

    def read(self):
        self.aim()
        self.tell("read", self.count())

    def hear(self):
        self.say("hear", self.seat(), self.count())

    def round(self):
        self.say("round", self.random.choice([0, 1, 1, 2, 3, 4, 5, 6, 9, 20, MANY]))

    def ask(self):
        what = "16777216" if self.chance(2) else self.random.choice(ASKED)
        self.tell("ask", "all" if self.chance(30) else self.name(), what)

    def command(self):
        self.tell("command", self.name(), self.one_of(254, 255) if self.chance(5) else self.address())

    def think(self):
        """A unit thinks; a flicker's code may be pending then."""
        seat = self.seat()
        unit = self.garage.unit(seat)
        if unit and unit.kind[0] == "flicker" and self.chance(25):
            self.say("pend", seat, *unit.kind[1:])
        self.say("think", seat)

    def turn(self):
        self.say("turn", self.seat())

    def leave(self):
        self.say("leave", self.seat())

    def query(self):
        self.aim()
        self.tell(*self.random.choice([
            ("shown", self.name(), self.one_of(*MESSAGES)), ("row", self.name()), ("stats",), ("report",),
            ("counts", self.one_of(0, self.first - 1, self.seat(), self.random.randrange(len(self.garage.seats)))),
            ("frame", self.random.randrange(len(self.garage.wire) + 2)), ("injected",)]))
