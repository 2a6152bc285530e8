"""Frames from outside for random scripts: of every kind, aimed at what is under way."""

from corners.values import MANY
from model.frames import (ABORT, ACKNOWLEDGMENT, BAM, CLAIM, COMMANDED_ADDRESS, CONTROL, CTS, DM1, DM3, DM11, END_OF_MESSAGE, GLOBAL,
                          NULL, PACKET, REQUEST, RTS, TITLES, Frame, acknowledgment, broadcast, claim, packet, packets_of, request,
                          rts, to_all, to_one)

GROUPS = [CLAIM, REQUEST, ACKNOWLEDGMENT, CONTROL, PACKET, *TITLES, DM3, DM11, COMMANDED_ADDRESS, 65259, 0]
NOBODYS = [NULL, GLOBAL]
UNREADABLE = ["20 08 00 02 FF CA FE 00", "20 0A 00 03 FF CA FE 00", "12 00 00 00 00 CA FE 00", "20 16 00 04 FF CA FE",
              "10 16 00 04 FF CA FE", "10 00 00 00 FF CA FE 00", "13 FF FF FF FF CA FE 00", ""]
MEMORIES = ["04 FF B8 04 03 0A FF FF", "00 FF 00 00 00 00 FF FF", "00 FF FF FF FF FF FF FF", "40 FF 64 00 01 81 FF FF",
            "00 FF 64 00 01 00 FF FF", "00 FF 00", "00 FF B8 04", "00 FF B8 04 03 01", "04 FF 64 00 01 01 65 00"]


def codes_of(count):
    """What a message with that many codes says."""
    return bytes([0, 255]) + b"".join(bytes([100 + code, 0, 1, 1 + code]) for code in range(count))


class Strangers:
    """What a writer of scripts puts on the bus from outside."""

    def inject(self, frame):
        text = frame.text()
        self.say("inject", text.lower() if self.chance(5) else text)

    def held_addresses(self):
        """The addresses that units and stations hold now."""
        seats = [seat.who.held for seat in self.garage.seats if seat.live]
        return [address for address in seats if address is not None] or [0]

    def owned(self):
        return self.random.choice(self.held_addresses())

    def anybody(self):
        return self.random.choice(NOBODYS) if self.chance(12) else self.owned() if self.chance(70) else self.address()

    def own_address(self):
        """The address of the station that is aimed at."""
        return 249 if self.station.held is None else self.station.held

    def some_name(self):
        return int(self.name(), 16)

    def any_bytes(self, most=8):
        return bytes(self.random.randrange(256) for _ in range(self.random.randrange(most + 1)))

    # Single frames.

    def any_frame(self):
        self.inject(Frame(self.random.randrange(1 << 29), self.any_bytes()))

    def any_of_a_group(self):
        """A group that is known, from and to anybody, with any bytes."""
        pgn = self.random.choice(GROUPS)
        if pgn >> 8 >= 240:
            self.inject(to_all(self.random.randrange(8), pgn, self.anybody(), self.any_bytes()))
        else:
            self.inject(to_one(self.random.randrange(8), pgn, self.one_of(GLOBAL, self.anybody()), self.anybody(), self.any_bytes()))

    def strange_claim(self):
        """Anybody's claim of any address, also a NAME's own, a cannot claim, or a claim from nobody's address."""
        name = self.some_name()
        if self.chance(15):
            self.inject(to_one(6, CLAIM, self.one_of(GLOBAL, GLOBAL, self.owned()), self.anybody(), self.any_bytes()))
        else:
            source = self.random.choice(NOBODYS) if self.chance(20) else self.one_of(self.owned(), self.owned(), self.address(), 128)
            self.inject(to_one(6, CLAIM, GLOBAL, source, name.to_bytes(8, "little")))

    def claimed_before(self):
        """One who may choose an address hears its own claim of the first one, then loses its own to a lower NAME."""
        movers = [seat.who for seat in self.garage.seats if seat.live and seat.who.name >> 63 and seat.who.held is not None]
        if movers:
            who = self.random.choice(movers)
            self.inject(claim(who.name, 128))
            self.say("round", self.one_of(0, 1, MANY))
            self.inject(claim(self.one_of(0, 5), who.held))
        else:
            self.join("80000000000000B0")

    def strange_request(self):
        pgn = self.random.choice([*TITLES, DM3, DM11, CLAIM, 65259, 16777215])
        dest = self.random.choice([self.owned(), self.own_address(), self.own_address(), GLOBAL])
        frame = request(pgn, dest, self.anybody())
        self.inject(Frame(frame.number, frame.data[:2]) if self.chance(8) else frame)

    def strange_acknowledgment(self):
        self.inject(acknowledgment(self.random.randrange(5), self.one_of(self.own_address(), self.anybody()),
                                   self.random.choice([*TITLES, 65259]), self.anybody()))

    def strange_memory(self):
        """A DM1, DM2 or DM6 in one frame: one that can be read, or not."""
        self.inject(to_all(6, self.one_of(*TITLES), self.anybody(), bytes.fromhex(self.random.choice(MEMORIES))))

    def strange_control(self):
        """A control message that can't be read, or one to another than it is for."""
        if self.chance(40):
            data = bytes.fromhex(self.random.choice(UNREADABLE))
        else:
            first = self.random.choice([RTS, CTS, END_OF_MESSAGE, BAM, ABORT])
            size = self.random.choice([8, 9, 22, 1785, 1786])
            data = (bytes([first]) + size.to_bytes(2, "little") + bytes([packets_of(size) & 255, self.random.choice([0, 1, 2, 255])])
                    + self.random.choice([*TITLES, COMMANDED_ADDRESS, 130762]).to_bytes(3, "little"))
        self.inject(to_one(7, CONTROL, self.one_of(GLOBAL, self.owned(), self.own_address()), self.anybody(), data))

    def to_one_alone(self):
        """A broadcast is announced to one alone; or what no announcement is, to all."""
        start = broadcast(codes_of(3), DM1, self.anybody())[0]
        if self.chance(60):
            self.inject(to_one(7, CONTROL, self.owned(), start.source, start.data))
        else:
            self.inject(to_one(7, CONTROL, GLOBAL, start.source, bytes([CTS]) + start.data[1:]))

    def strange_packet(self):
        """A packet that nothing announced, or one between those of a message."""
        data = bytes([self.random.choice([0, 1, 2, 3, 4, 255])]) + bytes(range(self.random.choice([7, 7, 7, 6])))
        self.inject(to_one(7, PACKET, self.one_of(GLOBAL, self.own_address(), self.owned()), self.anybody(), data))

    # What is under way.

    def in_a_session(self):
        """Somebody speaks in a session that is open: as the one who asked for it, or as its unit."""
        units = [seat.who for seat in self.garage.live() if seat.who.session and seat.who.held is not None]
        if not units:
            self.session()
            return
        unit = self.random.choice(units)
        session, size = unit.session, len(unit.session.payload)
        pgn = session.kind.to_bytes(3, "little")
        way = self.random.choice([0, 0, 0, 1, 2, 2, 3, 4, 4, 5])
        if way < 4:
            data = [bytes([CTS, 0, session.following & 255, 255, 255]), bytes([CTS, 255, session.following & 255, 255, 255]),
                    bytes([ABORT, 2, 255, 255, 255]), bytes([END_OF_MESSAGE]) + size.to_bytes(2, "little") + bytes([packets_of(size), 255])][way]
            self.inject(to_one(7, CONTROL, unit.held, session.dest, data + pgn))
        elif way == 4:
            self.inject(to_one(7, CONTROL, session.dest, unit.held, bytes([ABORT, 2, 255, 255, 255]) + pgn))
        else:
            self.inject(to_one(7, PACKET, session.dest, unit.held, bytes([self.random.randrange(5)]) + bytes(7)))

    def strange_broadcast(self):
        """A whole message to all from an address, at times with a packet too few, too many or out of order."""
        frames = broadcast(codes_of(self.random.randrange(2, 6)), self.one_of(*TITLES), self.anybody())
        self.some_of(frames)

    def strange_session(self):
        """A request to send to the station and its packets, as granted or not."""
        payload, pgn = codes_of(self.random.randrange(2, 6)), self.one_of(*TITLES, DM1, 65259)
        source, own = self.anybody(), self.own_address()
        start = rts(len(payload), pgn, own, source)
        if self.chance(40):
            data = bytearray(start.data)
            data[4] = self.random.choice([0, 1, 2])
            start = Frame(start.number, bytes(data))
        self.some_of([start] + [packet(payload, which, own, source) for which in range(1, packets_of(len(payload)) + 1)])

    def sessions_at_once(self):
        """One address has a session with each station, their packets in between each other's. At times a station's address is
        claimed meanwhile, and the packets go on to where the session was."""
        source, messages = self.anybody(), []
        if self.chance(50):
            self.inject(claim(self.some_name(), source))
        for station in self.garage.stations:
            payload, pgn, own = codes_of(self.random.randrange(2, 6)), self.one_of(*TITLES), 249 if station.held is None else station.held
            messages.append([rts(len(payload), pgn, own, source)]
                            + [packet(payload, which, own, source) for which in range(1, packets_of(len(payload)) + 1)])
        while any(messages):
            self.inject(self.random.choice([frames for frames in messages if frames]).pop(0))
            if self.chance(40):
                self.say("round", self.one_of(0, 0, 1, 2))
            if self.chance(15):
                station = self.random.choice(self.garage.stations)
                self.inject(claim(self.one_of(self.some_name(), (1 << 64) - 1), 249 if station.held is None else station.held))
                self.say("round", self.one_of(0, 1))

    def strange_command(self):
        """A commanded address from outside: also one that nobody can hold, and in pieces."""
        payload = self.some_name().to_bytes(8, "little") + bytes([self.one_of(254, 255, self.address(), 5)])
        self.some_of(broadcast(payload, COMMANDED_ADDRESS, self.anybody()))

    def some_of(self, frames):
        if self.chance(25):
            at = self.random.randrange(len(frames))
            frames = self.random.choice([frames[:at] + frames[at + 1 :], frames[: at + 1] + frames[at:], frames[:at] + frames[at::-1]])
        for frame in frames:
            self.inject(frame)
            if self.chance(30):
                self.say("round", self.one_of(0, 1, 2))
            elif self.chance(10):
                self.disturb()

    # Refused.

    def no_frame(self):
        """An identifier past 29 bits, nine bytes, or both."""
        self.say("inject", self.one_of("20000000", "FFFFFFFF 00", "20000000" + " 00" * 9, "18FECA00" + " 00" * 9, "1FFFFFFF" + " ff" * 12))

    def stranger(self):
        self.random.choice([
            self.any_frame, self.any_of_a_group, self.any_of_a_group, self.strange_claim, self.strange_claim, self.claimed_before,
            self.strange_request, self.strange_request, self.strange_acknowledgment, self.strange_memory, self.strange_control,
            self.strange_control, self.to_one_alone, self.strange_packet, self.in_a_session, self.in_a_session, self.strange_broadcast,
            self.strange_session, self.sessions_at_once, self.strange_command, self.no_frame])()
