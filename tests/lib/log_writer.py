"""Writes random logs of one or two buses: units that claim, contend, move and tell of codes, a tool that asks and lets send, messages of several
packets between many pairs of addresses, of which some are broken in every way, and lines of every form.

Log I of a seed is always the same. What goes on at once is a list of running messages, each a generator of frames; a step lets one of
them go on, begins one, or writes a line of another kind. `Frames` makes what goes over a bus, `Lines` what stands of it in a log.
"""

from model.frames import (ABORT, ACKNOWLEDGMENT, BAM, CLAIM, COMMANDED_ADDRESS, CONTROL, CTS, DM3, DM11, END_OF_MESSAGE, GLOBAL, KINDS, NULL, PACKET, REQUEST,
                          RTS, Frame, packets_of, three, to_all, to_one)

DMS = list(KINDS.values())
OTHERS = [65259, 65260, 65242, COMMANDED_ADDRESS, DM3, DM11, 130762, 130763, 61444, CLAIM]
TOOLS = [249, 248, 250]
VIN, SOFTWARE = 65260, 65242
IDENTIFICATIONS = [VIN, VIN, 65259, SOFTWARE, 64965]
NAMES = [0x1000000001419907, 0x1000030006E00899, 0x90008100258004D2, 0x10003D0001419908, 0xA00C81045A20021B, 0x0000000000000001, 0, 0xFFFFFFFFFFFFFFFF]
DAY = 86_400_000_000


class Frames:
    """What the units, the tools and strangers put on one bus."""

    def __init__(self, chance):
        self.chance = chance
        self.places = chance.sample([0, 1, 3, 17, 39, 128, 129, 248, 253], chance.randint(2, 5))
        self.tools = TOOLS[: chance.randint(1, 3)]
        self.names = [*chance.sample(NAMES, chance.randint(2, 6)), chance.getrandbits(64)]
        self.name_at = {place: chance.choice(self.names) for place in self.places + self.tools}
        self.last = {}  # the last message of each unit and kind
        self.answered = {}  # the last acknowledgment of each unit
        self.identified = {}  # what each unit told last of each group
        self.running = []

    def bytes(self, count):
        return bytes(self.chance.getrandbits(8) for _ in range(count))

    def anyone(self):
        chance = self.chance.random()
        return self.chance.choice(self.places) if chance < 0.88 else self.chance.choice(self.tools) if chance < 0.97 else self.chance.choice([NULL, GLOBAL, 7])

    def tool(self):
        return self.chance.choice(self.tools) if self.chance.random() < 0.85 else self.anyone()

    # ---- claims

    def claims(self):
        """A unit claims, again or anew; another NAME claims its address; it moves; it says that it cannot claim."""
        chance, way = self.chance, self.chance.random()
        place = chance.choice(self.places + self.tools)
        if way < 0.5:
            return [self.claim(place, self.name_at[place])]
        if way < 0.75:
            other = chance.choice(self.names)
            found = [self.claim(place, other)]
            if chance.random() < 0.5:
                found.append(self.claim(place, self.name_at[place]))
            else:
                self.name_at[place] = other
            return found
        if way < 0.86:
            to = chance.choice(self.places + [128, 200])
            if to not in self.name_at:
                self.places.append(to)
            self.name_at[to] = self.name_at[place]
            return [self.claim(to, self.name_at[to])]
        if way < 0.96:
            return [self.claim(NULL, self.name_at[place] if chance.random() < 0.8 else chance.choice(NAMES))]
        return [to_one(6, CLAIM, chance.choice([GLOBAL, 0]), chance.choice([GLOBAL, place]), self.bytes(chance.choice([7, 8, 8, 0])))]

    def takeover(self):
        """An address is taken, or taken and defended, and who stays there goes on sending what it sent before."""
        chance = self.chance
        place = chance.choice(self.places)
        kind = chance.choice(DMS)
        yield from [to_all(6, kind, place, self.payload(place, kind, False))] * chance.randint(0, 2)
        yield self.claim(place, chance.choice(self.names))
        if chance.random() < 0.5:
            yield self.claim(place, self.name_at[place])
        for _ in range(chance.randint(1, 4)):
            yield to_all(6, kind, place, self.last.get((place, kind, False)) or self.payload(place, kind, False))
            if chance.random() < 0.3:
                yield self.claim(place, self.name_at[place])

    @staticmethod
    def claim(source, name):
        return to_one(6, CLAIM, GLOBAL, source, name.to_bytes(8, "little"))

    def all_claim(self):
        return [self.claim(place, name) for place, name in self.name_at.items()]

    # ---- what messages tell

    def code(self):
        chance = self.chance
        spn = chance.choice([100, 110, 1208, 3361, 65535, 524287, chance.getrandbits(19)])
        fmi, count = chance.choice([0, 3, 31, chance.getrandbits(5)]), chance.choice([1, 2, 9, 126, 127])
        way = chance.random()
        if way < 0.05:
            return chance.choice([bytes(4), b"\xff" * 4, b"\xff" * 4, self.bytes(4)])
        if way < 0.08:  # of an older conversion method, now and then of zeros
            return chance.choice([bytes(3), self.bytes(3), self.bytes(3)]) + bytes([chance.choice([128, 133, 255, chance.randint(128, 254)])])
        return bytes([spn & 255, spn >> 8 & 255, spn >> 16 << 5 | fmi, count])

    def lamps(self):
        return bytes([self.chance.choice([0, 4, 0x10, 0x40, 0x44, 0x01, 0x55, 0xAA, self.chance.getrandbits(8)]), self.chance.choice([255, 255, 0x00, 0x55, 0xDF, self.chance.getrandbits(8)])])

    def short_payload(self):
        chance = self.chance
        way = chance.random()
        behind = chance.choice([b"\xff\xff", self.bytes(2)])
        if way < 0.25:
            return self.lamps() + chance.choice([bytes(4), b"\xff" * 4]) + behind
        if way < 0.92:
            return self.lamps() + self.code() + behind
        if way < 0.96:
            return self.lamps() + self.bytes(3) + bytes([chance.randint(128, 254)]) + behind
        return self.bytes(chance.choice([0, 1, 2, 3, 5, 6, 7]))

    def long_payload(self):
        chance = self.chance
        codes = chance.choice([2, 2, 2, 3, 3, 4, 6, 12])
        if chance.random() < 0.004:
            codes = chance.choice([100, 445])
        payload = self.lamps() + b"".join(self.code() for _ in range(codes))
        return payload if chance.random() < 0.94 else payload + self.bytes(chance.randint(1, 3))

    def payload(self, source, kind, long):
        """Most often what that unit told before."""
        key = source, kind, long
        if key not in self.last or self.chance.random() < 0.4:
            self.last[key] = self.long_payload() if long else self.short_payload()
        return self.last[key]

    def identification(self, source):
        """A group, and most often the text that the unit told before; of any bytes, too."""
        chance, pgn = self.chance, self.chance.choice(IDENTIFICATIONS)
        if (source, pgn) not in self.identified or chance.random() < 0.2:
            fields = [self.field() for _ in range(1 if pgn == VIN else chance.choice([0, 1, 2, 4, 5, 6, 7]))]
            text = b"*".join(fields) + chance.choice([b"*", b"*", b"*", b"", b"*7*", b"**", b"\xff"])
            self.identified[source, pgn] = bytes([len(fields)]) + text if pgn == SOFTWARE else text
        return pgn, self.identified[source, pgn]

    def field(self):
        chance, way = self.chance, self.chance.random()
        text = bytes(chance.choice(b"0123456789ABCDEFGHJKLMNPRSTUVWXYZ") for _ in range(chance.choice([17, 17, 17, 17, 3, 39, 60, 199, 200, 201])))
        if way > 0.92:
            return b""
        return chance.choice([b"=1+1", b"<b>", b'","', b"\x1b[31m", b"\xe9\x00", b"\\\"", b""]) + text[: chance.choice([0, 1, 17])] if way < 0.3 else text

    def single(self):
        """A DM1, DM2 or DM6 in one frame, or an identification; sometimes of another data page."""
        if self.chance.random() < 0.1:
            source = self.anyone()
            pgn, text = self.identification(source)
            return to_all(6, pgn | (self.chance.random() < 0.02) << 16, source, text[:8].ljust(self.chance.choice([0, 8]), b"\xff"))
        source, kind = self.anyone(), self.chance.choice([*DMS, DMS[0], DMS[0]])
        return to_all(self.chance.choice([6, 6, 3]), kind | (self.chance.random() < 0.02) << 16, source, self.payload(source, kind, False))

    # ---- messages of several packets

    def control(self, what, source, dest, size, pgn, **given):
        """A connection management message; a few cannot be read, or tell of a limit."""
        chance = self.chance
        packets = packets_of(size) + (chance.random() < 0.02)
        head = {RTS: [size & 255, size >> 8, packets & 255, given.get("most", 255)], BAM: [size & 255, size >> 8, packets & 255, 255],
                END_OF_MESSAGE: [size & 255, size >> 8, packets & 255, 255], CTS: [given.get("granted", 255), given.get("following", 1), 255, 255],
                ABORT: [chance.randint(1, 3), 255, 255, 255]}[what]
        data = bytes([what, *head]) + three(pgn)
        return to_one(7, CONTROL, dest, source, data if chance.random() < 0.995 else data[: chance.randint(0, 7)])

    def group_and_payload(self, source):
        chance = self.chance
        way = chance.random()
        if way < 0.65:
            kind = chance.choice(DMS)
            return kind, self.payload(source, kind, True) if chance.random() < 0.98 else self.bytes(9)
        if way < 0.8:
            pgn, text = self.identification(source)
            return pgn, text.ljust(9, b"\xff")
        return chance.choice(OTHERS), self.bytes(chance.choice([9, 10, 14, 15, 20]))

    def packets(self, payload, source, dest):
        """The packets in order, now and then one that is lost, repeated, of another number, too short, or late (None)."""
        for at in range(1, packets_of(len(payload)) + 1):
            way, piece = self.chance.random(), payload[at * 7 - 7 : at * 7].ljust(7, b"\xff")
            if way < 0.012:
                continue
            if way < 0.03:
                yield None
            number = self.chance.choice([0, at + 1, 255]) if 0.03 < way < 0.04 else at
            yield to_one(7, PACKET, dest, source, (bytes([number & 255]) + (piece if way > 0.045 else piece[:6]))[: 9 if way > 0.04 else self.chance.randint(0, 8)])
            if 0.045 < way < 0.055:
                yield to_one(7, PACKET, dest, source, bytes([at]) + piece)
        if self.chance.random() < 0.03:
            yield to_one(7, PACKET, dest, source, bytes([at + 1 & 255]) + piece)

    def broadcast(self):
        source = self.anyone()
        pgn, payload = self.group_and_payload(source)
        yield self.control(BAM, source, GLOBAL if self.chance.random() < 0.97 else self.tool(), len(payload), pgn)
        for frame in self.packets(payload, source, GLOBAL):
            yield frame
            yield from self.disturbed(source, None, pgn, 0.03)

    def session(self, pair=None):
        """An announcement, what the receiver answers, packets; disturbed in every way; sometimes begun and left."""
        chance = self.chance
        source, dest = pair or (self.anyone(), self.tool())
        if chance.random() < 0.05:  # between addresses that nobody can hold, too
            source, dest = chance.choice([(NULL, dest), (GLOBAL, dest), (source, NULL), (source, GLOBAL), (NULL, NULL), (source, source)])
        how_often = 0.3 if max(source, dest) >= NULL else 0.09
        pgn, payload = self.group_and_payload(source)
        yield self.control(RTS, source, dest, len(payload), pgn, most=chance.choice([255, 255, 1, 2, 0]))
        way = chance.random()
        if way < 0.1:  # given up, or busy: the source goes on with something else, sometimes
            yield from [self.control(ABORT, dest, source, 9, pgn)] * (way < 0.07)
            if chance.random() < 0.6:
                yield from self.session((source, dest))
            return
        if way < 0.5:
            while chance.random() < 0.15:
                yield self.control(CTS, dest, source, 9, pgn, granted=0, following=255)
                yield None
            yield self.control(CTS, dest, source, 9, pgn, granted=packets_of(len(payload)) & 255)
            if chance.random() < 0.05:
                yield None
        sent = []
        for frame in self.packets(payload, source, dest):
            yield frame
            sent.append(frame)
            if chance.random() < 0.06:
                yield from self.again(sent, source, dest, pgn)
            yield from self.disturbed(source, dest, pgn, how_often)
            if chance.random() < 0.01:
                return
        if chance.random() < 0.5:
            yield self.control(END_OF_MESSAGE, dest, source, len(payload), pgn)

    def again(self, sent, source, dest, pgn):
        """Packets that come again, mostly as they were asked for, and mostly the same."""
        chance, first = self.chance, self.chance.randint(1, len(sent))
        if chance.random() < 0.8:
            yield self.control(CTS, dest, source, 9, pgn, granted=min(len(sent) - first + chance.randint(1, 3), 255), following=first)
        for frame in (it for it in sent[first - 1 :] if it is not None):
            yield frame if chance.random() < 0.9 else to_one(7, PACKET, dest, source, frame.data[:1] + self.bytes(7))

    def disturbed(self, source, dest, pgn, how_often):
        """What comes in mid-message."""
        chance = self.chance
        if chance.random() > how_often:
            return
        whose = source if dest is None or chance.random() < 0.5 else dest
        what = chance.randint(0, 9)
        if what == 0:
            yield self.claim(whose, chance.choice(self.names))
        elif what == 1:
            yield self.claim(whose, self.name_at.get(whose, 5))
        elif what in (2, 7, 8) and dest is not None:
            yield self.control(ABORT, *((source, dest) if chance.random() < 0.5 else (dest, source)), 9, chance.choice([pgn, 65259]))
        elif what in (2, 7):
            yield self.control(ABORT, *((source, GLOBAL) if chance.random() < 0.5 else (GLOBAL, source)), 9, pgn)
        elif what == 3 and dest is not None:
            yield self.control(RTS, source, dest, 14, chance.choice([pgn, 65259, 65259, 65259, *DMS]))
        elif what == 4:
            yield self.claim(NULL, self.name_at.get(whose, 5))
        elif what == 5:
            yield self.control(BAM, source, GLOBAL, 10, chance.choice([pgn, 65259]))
        elif what == 6 and dest is not None:
            yield self.control(RTS, dest, source, 14, pgn)
        else:
            yield to_one(7, PACKET, chance.choice([GLOBAL, dest or 0]), source, self.bytes(8))

    # ---- the rest

    def request(self):
        chance = self.chance
        pgn = chance.choice([CLAIM, *DMS, DM3, DM11, 65259])
        data = three(pgn) + self.bytes(chance.choice([0, 0, 0, 5])) if chance.random() < 0.95 else self.bytes(2)
        return to_one(6, REQUEST, chance.choice([GLOBAL, self.anyone(), self.tool()]), chance.choice([self.anyone(), self.tool(), NULL]), data)

    def acknowledgment(self):
        """Often the same again."""
        chance, source = self.chance, self.anyone()
        if source not in self.answered or chance.random() < 0.5:
            data = bytes([chance.choice([0, 0, 1, 2, 3, 4, 255]), 255, 255, 255, chance.choice([self.tool(), self.tool(), GLOBAL])])
            self.answered[source] = data + three(chance.choice([DM3, DM11, 65259]))
        data = self.answered[source]
        return to_one(6, ACKNOWLEDGMENT, chance.choice([GLOBAL, GLOBAL, self.tool()]), source, data if chance.random() < 0.96 else data[:7])

    def stranger(self):
        chance = self.chance
        if chance.random() < 0.3:
            return Frame(chance.getrandbits(29), self.bytes(chance.randint(0, 8)))
        if chance.random() < 0.5:
            what = chance.choice([RTS, CTS, END_OF_MESSAGE, BAM, ABORT])
            return self.control(what, self.anyone(), chance.choice([GLOBAL, self.tool()]), chance.choice([9, 14, 1785]), chance.choice([*DMS, *OTHERS]), granted=chance.randint(0, 5), following=chance.randint(0, 5))
        return to_all(3, chance.choice([61444, 65262, *OTHERS]), self.anyone(), self.bytes(8))

    def some(self):
        """The next frames; None for a long silence."""
        chance, way = self.chance, self.chance.random()
        if self.running and way < 0.55:
            return self.go_on()
        if way < 0.64:
            self.running.append(chance.choice([self.broadcast, self.broadcast, self.session, self.session, self.session, self.takeover])())
            return self.go_on(-1)
        if way < 0.72:
            return self.claims()
        if way < 0.88:
            return [self.single()]
        if way < 0.91:
            return [self.request()]
        if way < 0.95:
            return [self.acknowledgment()]
        return [self.stranger()] if way < 0.99 else self.all_claim()

    def go_on(self, which=None):
        """One more frame, or several in a row, of one of the running messages."""
        which = self.chance.randrange(len(self.running)) if which is None else which
        found = [frame for _, frame in zip(range(self.chance.choice([1, 1, 2, 5])), self.running[which])]
        if not found:
            del self.running[which]
        return found
