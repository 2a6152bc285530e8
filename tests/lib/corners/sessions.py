"""Messages of several packets, to one and to all, disturbed before each packet."""

from corners.values import MANY, MESSAGES
from model.frames import KINDS


class Sessions:
    """Messages that are begun, disturbed, cut off and begun again."""

    def session(self):
        """A unit with a long message is asked at its address, and disturbed before each packet of it."""
        unit = self.unit()
        if unit is None or unit.held is None:
            self.join()
            return
        if self.chance(60):
            self.fill(unit.seat)
        self.say("round", self.one_of(9, 9, 3, 0))
        kind = self.one_of(*MESSAGES, *MESSAGES, "dm11", "dm3")
        self.tell("ask", self.name_text(unit.name), kind)
        for _ in range(self.random.randrange(1, 6)):
            self.go_on()
            if self.chance(25):
                self.tell("ask", self.one_of(self.name_text(unit.name), "all"), self.one_of(kind, *MESSAGES))
            if self.chance(10):
                self.at_the_other("ask", self.one_of(self.name_text(unit.name), "all"), self.one_of(kind, *MESSAGES))
            if self.chance(30):
                self.say("dm1", unit.seat)
            if self.chance(50):
                self.disturb()
        self.tell("shown", self.name_text(unit.name), kind if kind in KINDS else "dm1")
        if self.chance(50):
            self.at_the_other("shown", self.name_text(unit.name), kind if kind in KINDS else "dm1")

    def broadcast(self):
        """A long message to all, disturbed before each packet of it."""
        unit = self.unit()
        if unit is None:
            self.join()
            return
        if self.chance(60):
            self.fill(unit.seat)
        if self.chance(60):
            self.say("dm1", unit.seat)
        else:
            self.tell("ask", "all", self.one_of(*MESSAGES))
        for _ in range(self.random.randrange(1, 6)):
            self.go_on()
            if self.chance(50):
                self.disturb()
        self.tell("shown", self.name_text(unit.name), self.one_of(*MESSAGES))

    def stale_end(self):
        """A session ends by a command while its end of message acknowledgment is under way, and the next one is open."""
        unit = self.unit()
        if unit is None or unit.held is None:
            return
        self.say("set", unit.seat, 100, 1, 3)
        self.say("round", MANY)
        name = "%016X" % unit.name
        self.tell("ask", name, "dm1")
        for _ in range(8):
            if any(frame.pgn == 60160 for frame, _ in unit.queue):
                break
            self.say("round", 1)
        self.tell("command", name, unit.held if unit.held is not None else 3)
        self.tell("ask", name, self.one_of("dm1", "dm1", "dm2", "dm6", "all"))
        for _ in range(self.random.randrange(6, 14)):
            self.say("round", 1)
            if self.chance(10):
                self.disturb()
        self.say("round", MANY)

    def shortened(self):
        """A session goes on though the memory changes; its kind is asked for again when its message would be short."""
        unit = self.unit()
        if unit is None or unit.held is None:
            return
        name, kind = self.name_text(unit.name), self.one_of(*MESSAGES)
        self.say("set", unit.seat, 100, 1, 3)
        if kind == "dm2":
            self.say("heal", unit.seat, 100, 1, self.one_of(2, 3))
        if kind == "dm6" or self.chance(50):
            self.say("pend", unit.seat, 300, 1, self.one_of(2, 3))
        self.say("round", MANY)
        self.tell("ask", name, kind)
        self.say("round", self.one_of(1, 2, 3))
        self.tell("ask", self.one_of(name, "all"), "dm3" if kind == "dm2" else "dm11")
        self.tell("ask", name, self.one_of(*MESSAGES))
        self.tell("ask", self.one_of(name, "all"), kind)
        for _ in range(self.random.randrange(1, 4)):
            self.say("round", self.one_of(1, 2, 3))
            if self.chance(20):
                self.disturb()
        self.say("round", MANY)
        self.tell("shown", name, kind)

    def clear(self):
        """A unit with codes of one kind or of several is asked to clear them, alone or among all."""
        unit = self.unit()
        if unit is None:
            return
        if self.chance(70):
            self.say("set", unit.seat, self.one_of(100, 200), 1, self.one_of(2, 3, 5))
            self.say("heal", unit.seat, self.one_of(100, 200), 1, self.one_of(1, 2))
        elif len(unit.memory.active) < 9:
            for code in list(unit.memory.active):
                self.say("heal", unit.seat, code.spn, code.fmi)
        if self.chance(70):
            self.say("pend", unit.seat, self.one_of(300, 101), 1, self.one_of(1, 2, 5))
        self.say("round", self.one_of(0, MANY))
        for _ in range(2):
            self.tell("ask", self.one_of(self.name_text(unit.name), self.name_text(unit.name), "all"), self.one_of("dm3", "dm11"))
        self.say("round", self.one_of(2, MANY))
        self.say("dm1", unit.seat)
        self.tell("ask", self.one_of(self.name_text(unit.name), "all"), self.one_of("dm2", "dm6"))
        self.go_on()

    def begun_again(self):
        """A long broadcast is cut off, by a command or with its unit, and the next one comes from the same address."""
        unit = self.unit()
        if unit is None or unit.held is None:
            return
        seat, name = unit.seat, "%016X" % unit.name
        self.say("set", seat, 100, 1, self.one_of(3, 5, 9))
        self.say("round", MANY)
        self.say("dm1", seat)
        self.say("round", self.one_of(1, 2, 3))
        if self.chance(50):
            self.say("leave", seat)
            self.join(name, unit.held, "plain")
            seat = len(self.garage.seats) - 1
            self.say("set", seat, 200, 1, self.one_of(2, 3))
        else:
            self.tell("command", name, unit.held)
            self.say("round", self.one_of(3, 4))
        self.say("dm1", seat)
        self.say("round", self.one_of(2, 3, MANY))
        self.go_on()

    def foreign_session(self):
        """A unit takes the station's address unheard, and is sent what was meant for the station."""
        unit, own = self.unit(), self.station.held
        if unit is None or own is None or unit.held is None:
            return
        self.say("set", unit.seat, 100, 1, 3)
        self.say("round", MANY)
        self.tell("ask", "%016X" % unit.name, "dm1")
        self.say("carry", 1)
        self.say("hear", unit.seat, MANY)
        self.join(address=own)
        low = self.random.choice(["0000000000000003", "0000000000000004"])
        self.join(low, self.one_of(0, 1))
        self.say("carry", 1)
        self.say("hear", unit.seat, MANY)
        for _ in range(self.random.randrange(2, 6)):
            self.random.choice([self.carry, self.hear, self.read])()
        self.go_on()
