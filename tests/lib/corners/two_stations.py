"""What random scripts do where there are two stations: whom to aim at, and contests, gaps and requests between the two."""

from corners.values import MANY
from model.script import AT_A_STATION

ONE, TWO = "0000000000000001 249 4 16", "0000000000000002 250 4 16"
FITTING = [ONE, TWO, "100000"]
# What is refused or is no line: the place of the three, and what stands there instead.
SETTINGS = [(0, "0000000000000001 254 4 16"), (0, "0000000000000001 249 0 16"), (0, "0000000000000001 249 4097 16"),
            (0, "0000000000000001 249 4 0"), (1, "0000000000000002 255 4 16"), (1, "0000000000000002 250 0 16"),
            (1, "0000000000000002 250 4097 16"), (1, "0000000000000002 250 4 0"), (1, "0000000000000001 254 4 16"), (2, "0"), (2, "0"),
            (2, "16777217")]
UNFIT = SETTINGS + [(0, "0000000000000002 249 4 16")] * 2 + [(1, "0000000000000001 250 4 16")] * 2 + [
    (0, "XY 249 4 16"), (0, "00000000000000001 249 4 16"), (0, "0000000000000001 249 4"), (0, "0000000000000001 256 4 16"),
    (1, "XY 250 4 16"), (1, "000000000000000G 250 4 16"),
    (1, "0000000000000002 250 4 256"), (1, ""), (1, "0000000000000001 249 4 16"), (2, "4294967296"), (2, ""), (2, "100000 1"), (2, "-1")]


class TwoStations:
    """What a writer of scripts does with the stations of its garage, be there one or two."""

    @property
    def first(self):
        """The first seat of a unit, which is the number of stations."""
        return len(self.garage.stations)

    @property
    def station(self):
        """The station that is aimed at."""
        return self.garage.stations[self.at]

    @property
    def window(self):
        return self.garage.windows[self.at]

    def aim(self):
        """Aims at one of the stations."""
        self.at = self.random.randrange(self.first)

    def tell(self, *words):
        """Says a line to the station that is aimed at, at times with its number where it needs none, rarely with a wrong one. A line
        that is for no station alone is said as it is."""
        if words[0] not in AT_A_STATION and self.chance(97):
            return self.say(*words)
        if self.chance(1):
            return self.say("at", self.one_of(2, 3, self.first, "", "x", MANY), *words)
        if self.at or self.chance(5):
            return self.say("at", "00" * self.chance(2) + str(self.at), *words)
        return self.say(*words)

    def at_the_other(self, *words):
        """Says a line to the station that is not aimed at, where there is one."""
        if self.first > 1:
            self.at = 1 - self.at
            self.tell(*words)
            self.at = 1 - self.at

    # The garage.

    def no_garage2(self):
        """Words of a garage of two stations that is refused, for one cause or for two."""
        words = list(FITTING)
        for at, instead in [self.random.choice(UNFIT)] + [self.random.choice(SETTINGS)] * self.one_of(0, 1):
            words[at] = instead
        return " ".join(words)

    def make_garage2(self, first, limit, names):
        """A garage of that first station and another: at its address now and then, and one that overruns where the first does not."""
        name, address, _, _ = first
        second = (self.random.choice(names), self.one_of(250, 250, 249, 128, 129, address), self.any_window(), self.any_grant())
        if self.chance(3):
            self.say("garage2", *first, name, *second[1:], limit)
        self.say("garage2", *first, *second, limit)

    # What goes on between the two.

    def between_stations(self):
        """One station asks the other, alone or among all, for what it knows and for what it does not; or all, as after a gap."""
        self.aim()
        other = self.garage.stations[1 - self.at]
        what = self.one_of("claim", "claim", "dm1", "dm3", "65259", "0")
        self.tell("ask", self.one_of("%016X" % other.name, "%016X" % other.name, "all"), what)
        if self.chance(30):
            self.command()
        for _ in range(self.random.randrange(1, 3)):
            self.go_on()
            if self.chance(20):
                self.disturb()
        self.tell("row", "%016X" % other.name)
        self.at_the_other("row", "%016X" % self.station.name)

    def both_ask(self):
        """Both stations ask one unit for a long message, at once or one while the other's session is open."""
        unit = self.unit()
        if unit is None or unit.held is None:
            self.join()
            return
        self.fill(unit.seat)
        self.say("round", self.one_of(9, MANY))
        name, kind = self.name_text(unit.name), self.one_of("dm1", "dm1", "dm2", "dm6")
        self.aim()
        self.tell("ask", name, kind)
        self.say("round", self.one_of(0, 0, 1, 2, 3))
        self.at_the_other("ask", name, self.one_of(kind, kind, "dm1", "dm2", "dm3", "dm11"))
        for _ in range(self.random.randrange(1, 5)):
            self.go_on()
            if self.chance(25):
                self.disturb()
        self.say("round", MANY)
        for say in (self.tell, self.at_the_other):
            say("shown", name, kind)

    def overrun(self, y):
        """More frames are carried than the window of station y holds, while the other one reads each of them."""
        for _ in range(self.garage.windows[y] + 1):
            self.say("dm1", self.random.choice(self.seats()))
        for _ in range(self.garage.windows[y] + self.random.randrange(1, 4)):
            self.others_hear(y)
            self.say("carry", 1)

    def others_hear(self, y):
        """All but station y hear and read all."""
        for seat in self.seats():
            self.say("hear", seat, MANY)
        self.at = 1 - y
        self.tell("read", MANY)

    def gap_at_one_alone(self):
        """One station misses frames that the other one reads: of a session with either, of a broadcast, or of the other station."""
        near = [y for y in range(self.first) if self.garage.windows[y] < 9]
        unit = self.unit()
        if not near or unit is None or unit.held is None:
            self.join()
            return
        y = self.random.choice(near)
        self.say("set", unit.seat, 100, 1, self.one_of(2, 3, 9))
        self.say("round", MANY)
        self.at = self.one_of(y, 1 - y)
        self.tell("ask", "%016X" % unit.name, self.one_of("dm1", "dm1", "65259"))
        self.say("round", self.one_of(0, 2, 3, 4))
        if self.chance(40):
            self.at = 1 - y
            self.tell(*self.random.choice([("ask", "all", "claim"), ("command", "%016X" % unit.name, 5), ("ask", "all", "dm2")]))
        self.overrun(y)
        self.at = y
        self.tell("read", self.one_of(MANY, MANY, 1, 2))
        for _ in range(self.random.randrange(1, 4)):
            self.go_on()
        for say in (self.tell, self.at_the_other):
            say("stats")

    def miss_the_claim(self, y):
        """The other station's claim is asked for, and station y misses it."""
        self.say("round", MANY)
        self.at = 1 - y
        self.tell("ask", "all", "claim")
        for _ in range(3):
            self.others_hear(y)
            self.say("carry", 1)
        self.overrun(y)

    def same_address(self):
        """A station that misses the other one's claims takes its address, at times in the other one's session."""
        y = self.random.randrange(self.first)
        unit, held = self.unit(), self.garage.stations[1 - y].held
        if unit is None or held is None or self.garage.windows[y] > 16:
            self.between_stations()
            return
        self.miss_the_claim(y)
        self.at = y
        self.tell("read", self.one_of(1, 1, MANY))
        if unit.held is not None and self.chance(70):
            self.say("set", unit.seat, 100, 1, 3)
            self.at = 1 - y
            self.tell("ask", "%016X" % unit.name, "dm1")
            for _ in range(self.random.randrange(1, 6)):
                self.others_hear(y)
                self.say("carry", 1)
        self.at = y
        self.tell("read", MANY)
        for _ in range(self.random.randrange(1, 6)):
            self.random.choice([self.carry, self.hear, self.read, self.go_on])()
        self.go_on()

    def carry_unread(self, y, count):
        """So many frames are carried, which all but station y read."""
        for _ in range(count):
            self.others_hear(y)
            self.say("carry", 1)

    def source_is_claimed(self):
        """A unit takes a station's address unread by it, and begins a message there that the other one joins. Then that station
        reads of it, and defends its address."""
        y = self.random.choice([y for y in range(self.first) if self.garage.windows[y] > 7] or [0])
        self.at = y
        if self.station.held is None:
            self.between_stations()
            return
        self.say("round", MANY)
        name = self.one_of("FFFFFFFFFFFFFFFF", "90000300258004D2")
        if not str(self.join(name, self.station.held, "plain")).startswith("seat"):
            return
        seat = len(self.garage.seats) - 1
        self.say("set", seat, 100, 1, self.one_of(3, 5))
        self.carry_unread(y, 1)
        self.at = 1 - y
        self.tell("read", MANY)
        if self.chance(60):
            self.tell("ask", name, "dm1")
        else:
            self.say("dm1", seat)
        self.carry_unread(y, self.one_of(2, 2, 3))
        self.at = 1 - y
        self.tell("read", MANY)
        self.at = y
        self.tell("read", MANY)
        for _ in range(self.random.randrange(1, 4)):
            self.go_on()

    def answer_behind_a_gap(self):
        """A station reads the other one's acknowledgment behind a gap, so that nobody is known to own its source."""
        y = min(range(self.first), key=self.garage.windows.__getitem__)
        if self.garage.windows[1 - y] < self.garage.windows[y] + 4 or self.garage.windows[y] > 9 or not self.seats():
            self.between_stations()
            return
        self.say("round", MANY)
        self.at = y
        self.tell("ask", "%016X" % self.garage.stations[1 - y].name, self.one_of("dm3", "0", "65259"))
        self.say("carry", 1)
        for _ in range(self.garage.windows[y] + 1):
            self.say("dm1", self.random.choice(self.seats()))
        for _ in range(self.garage.windows[y] + 1):
            for seat in self.seats():
                self.say("hear", seat, MANY)
            self.say("carry", 1)
        self.carry_unread(y, 1)
        self.at = y
        self.tell("read", MANY)
        self.go_on()

    def at_one_address(self):
        """A whole script: two stations at one address, the one of which misses the other's claim. It claims the address while the
        other has a session."""
        y = self.random.randrange(2)
        settings = [("0000000000000001", 249, 64, self.one_of(1, 2, 16)), ("0000000000000002", 249, 64, 16)]
        if self.chance(40):
            settings.reverse()
        name, address, _, grant = settings[y]
        settings[y] = (name, address, self.one_of(1, 2, 3), grant)
        self.say("garage2", *settings[0], *settings[1], 100000)
        self.join("00000000000000A0", 0, "plain")
        self.join("00000000000000B0", 1, "plain")
        self.say("set", 2, 100, 1, self.one_of(3, 5, 9))
        self.carry_unread(y, self.one_of(3, 3, 4))
        for _ in range(self.garage.windows[y]):
            self.say("dm1", 3)
        self.carry_unread(y, self.garage.windows[y])
        self.at = 1 - y
        self.tell("read", MANY)
        self.tell("ask", "00000000000000A0", "dm1")
        self.carry_unread(y, self.random.randrange(1, 6))
        self.at = 1 - y
        self.tell("read", MANY)
        self.at = y
        self.tell("read", MANY)
        self.say("carry", 1)
        while not self.is_long() and self.chance(85):
            self.aim()
            self.random.choice([self.carry, self.read, self.hear, self.go_on, self.any_line, self.between_stations, self.both_ask])()

    def moves_onto_the_other(self):
        """A station that may choose its address loses it to a lower NAME, and at times moves onto the other one's, of which it
        missed the claim."""
        y = self.random.randrange(self.first)
        if self.garage.windows[y] < 9 and self.seats() and self.chance(60):
            self.miss_the_claim(y)
        self.at = y
        held = self.station.held
        self.join(self.one_of("0000000000000000", "0000000000000005"), held if held is not None else 249, "plain")
        for _ in range(self.random.randrange(2, 6)):
            self.random.choice([self.carry, self.hear, self.read, self.go_on])()
        self.say("round", MANY)
