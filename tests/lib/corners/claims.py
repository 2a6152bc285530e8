"""Addresses: contests for them, orders to move, units that leave and come back."""

from corners.values import ASKED


class Claims:
    """What happens to addresses while messages are under way."""

    def contend(self):
        """A unit joins at an address that is held: a lower or higher NAME, one that may move or one that may not."""
        unit = self.unit()
        address = unit.held if unit and unit.held is not None and self.chance(60) else self.station.held
        self.join(address=address if address is not None else 249)

    def order(self):
        """A live unit is commanded to its own address, to another's, to the station's or to one that is free."""
        unit = self.unit()
        if unit:
            own = unit.held if unit.held is not None else 3
            self.tell("command", self.name_text(unit.name), self.one_of(own, self.address(), self.address(), 5))

    def replace(self):
        """A unit leaves, and the next one of its NAME comes to its address or to another."""
        unit = self.unit()
        if unit:
            self.say("leave", unit.seat)
            if self.chance(80):
                held = unit.held if unit.held is not None and self.chance(80) else self.address()
                if not str(self.join("%016X" % unit.name, held)).startswith("seat"):
                    return
                if self.chance(60):
                    self.fill(len(self.garage.seats) - 1)

    def half_command(self):
        """A command loses its last packets to a gap, and is given again."""
        for _ in range(2):
            self.order()
            self.say("carry", self.one_of(1, 1, 2, 3))
            if self.chance(70):
                self.gap()
            self.go_on()

    def to_the_station(self):
        """A unit holds the station's address while requests of the station are under way."""
        own = self.station.held
        if own is None:
            self.order()
            return
        if self.chance(50):
            self.session()
        self.tell("ask", self.one_of("all", self.name()), self.random.choice(ASKED))
        if self.chance(60):
            self.join(address=own)
        else:
            self.tell("command", self.name(), own)
        for _ in range(self.random.randrange(1, 4)):
            self.go_on()
