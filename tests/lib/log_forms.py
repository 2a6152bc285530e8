"""What stands in a random log: frames of one or two buses in every form of a line, what is no frame, what is bad, times that go on, stand still,
jump ahead or back."""

import random

from log_writer import NAMES, Frames

LARGEST = 9_999_999_999_999_999  # microseconds: ten digits of seconds
# what each line of an error frame has as identifier and data: those that tell of a lost frame, and those that tell of something else
LOST = [("20000004", "0001000000000000"), ("20000084", "0003000000000000"), ("2000000C", "00FF"), ("3FFFFFFF", "FF01")]
OTHER_ERRORS = [("20000088", "0000000000000000"), ("20000004", "0000040000000000"), ("20000004", "0002"), ("20000080", "0001000000000000"), ("20000004", "00"),
                ("20000100", "0001000000000000"), ("20000004", ""), ("20000008", "0101010101010101")]
NOTES = [b"", b"", b"# a comment", b"#", b"  ", b"\xef\xbb\xbf", b"interface = can0 29bits", b"total 12", b"\xff\xfe", b"\x00", b"18FECA00#04F", b"18FECA00#04FFB8040301FFFF X",
         b"18FECA00 04 F", b"18FECA0 04 FF", b"98FECA00 04 FF", b"20000004 00 01", b"can0", b"can0 18FECA00", b"18FECA00 00 01 02 03 04 05 06 07 08", b"x#y", b"DROPCOUNT",
         b"dropped 7 CAN frames on 'can0' socket", b"18FECA00 04FF", b"18FECA00 0 4F", b"123 04 FF", b" \xef\xbb\xbf(1.000000) can0 18FECA00#04FFB8040301FFFF",
         b"(1.000000) can0 18FECA00 [2] 04 remote request"]
# White space of ASCII that is no space beside a bus; brackets that hold no count; more than ten digits of seconds; counts that are no decimal digits, or
# above 32 bits.
ODD = [b"(1.000000) \tcan0 18FECA00#04FFB8040301FFFF", b"(1.000000) can0\t 18FECA00#04FFB8040301FFFF", b"(1.000000) can\t0 18FECA00#04FFB8040301FFFF",
       b"can0 18FECA00 [ab] 00", b"can0 18FECA00 [8]] 00", b"can0 18FECA00 [123 00", "can0 18FECA00 [\u00e9] 00".encode(), b"can0 18FECA00 [9] 00", b"can0 18FECA00 [1a] 00",
       b"(00000000001.000000) can0 18FECA00#04FFB8040301FFFF", b"DROPCOUNT: dropped +7 CAN frames on 'can0' socket", b"DROPCOUNT: dropped 007 CAN frames on 'can0' socket",
       b"DROPCOUNT: dropped 4294967296 CAN frames on 'can0' socket", b"DROPCOUNT: dropped 99999999999999999999 CAN frames on 'can0' socket", b"DROPCOUNT: dropped 7x CAN frames on 'can0' socket"]
# The beginnings of logs in which nothing is a frame, of other programs' form and of none.
WITHOUT_FRAMES = [
    [[b"date Thu Nov 26 10:00:00.000 am 2026", b"base hex  timestamps absolute", b"   0.001000 1  18FECA00x       Rx   d 8 04 FF B8 04 03 01 FF FF"],
     [b"// a comment", b"base hex  timestamps absolute", b"   0.001000 1  18FECA00x       Rx   d 8 04 FF B8 04 03 01 FF FF"]],
    [[b"LOGG\x90\x00\x00\x00\x00\x08", b"\x00\xff(\x01LOBJ;,,,"], [b"LOGG"]],
    *[[[mark + b"\x08\x00,,,;;;", b";\x00"], [mark]] for mark in (b"\x1f\x8b", b"\xfd7zXZ", b"\x28\xb5\x2f\xfd", b"PK\x03\x04", b"BZh9", b"\xff\xfe(\x00", b"\xfe\xff\x00(")],
    [[b"\x7fELF\x00", b";", b"a,b,c,d"], [b"\x1f\x8a\x00"]],
    [[b";$FILEVERSION=2.1", b";   Message   Time    Type", b"      1      1059.900 DT 18FECA00 Rx 8  04 FF B8 04 03 01 FF FF"], [b"", b";$FILEVERSION=1.1"]],
    [[b"timestamp,arbitration_id,extended,remote,error,dlc,data", b"1.000000,0x18feca00,1,0,0,8,BP+4BAMB//8="],
     [b"time;id;dlc;data", b"1,5;18FECA00;8;04FFB8040301FFFF"]],
    [[b"hello", b"18FECA00", b"a,b,c"], [b"(1.000000) can0", b"# a comment"], [b"(x"]],
]
TIMES = [b"1.1", b"1", b"", b"1.0000001", b"-1.000000", b"1.00000x", b"1,000000", b".000001", b"1.", b" 1.000000", b"12345678901.000000", b"2026-11-26 10:00:00.000000", b"1.000000.0",
         b"2026-1-26 10:00:00.000000", b"02026-11-26 10:00:00.000000", b"2026-11-26 1:00:00.000000", b"2026-11-26 10:00:060.000000", b"2026-11-26 10:00:6.000000"]


class Lines:
    """The lines of one log. Each is written as `candump -L` does, or in another form, by how the log is."""

    def __init__(self, seed):
        self.chance = chance = random.Random(seed)
        self.notes = NOTES + ODD
        self.buses = [Frames(chance) for _ in range(1 if chance.random() < 0.6 else 2)]
        self.words = chance.choice([["can0", "can1"], ["can0", "can1"], ["vcan0", "can0"], ["can1", "c\u00e4n\"1\\"], ["c\x1b[7mn", "c\u009b1\u202e"], ["slcan_0123456789", "slcan_012345678"]])
        self.now = chance.choice([0, 1_000_000, 1_792_915_200_000_000, 1_792_915_200_000_000, LARGEST - 30_000_000])
        self.other_forms = chance.choice([0, 0.02, 0.05, 0.3])
        self.odd = chance.choice([0, 0.01, 0.03, 0.1])  # what is no frame of J1939
        self.bad = chance.choice([0, 0, 0.004, 0.01, 0.03])
        self.lost = chance.choice([0, 0.003, 0.01, 0.02])
        self.leaps = chance.choice([0, 0.01, 0.03])
        self.end = chance.choice([b"\n", b"\n", b"\n", b"\r\n"])
        self.lines = []
        self.timeless = chance.choice([0] * 12 + [3, 30, 10**6])  # so many lines at the beginning have no time
        self.claimed = chance.random() < 0.9
        self.relative = chance.choice([None] * 12 + ["-td", "-td", "-tz"])
        self.before = None  # when the line before came, or the first one
        self.often = self.bad_line(0) if chance.random() < 0.1 else None  # a bad line that comes again and again

    def written(self, count):
        """A log of so many lines, or a few more. Some begin with what names no bus, some are short, some have no frame, or none of J1939."""
        way = self.chance.random()
        if way < 0.2:
            return self.end.join([*self.chance.choice(self.chance.choice(WITHOUT_FRAMES)), *self.chance.choices([b"", b"#", b"text"], k=self.chance.randint(0, 3))])
        if way < 0.26:
            times = sorted(self.chance.sample(range(99_000_000), self.chance.randint(1, 8)))
            return self.end.join(f" ({at // 1_000_000:03d}.{at % 1_000_000:06d})  can0  18FECA00   [8]  00 FF 00 00 00 00 FF FF".encode() for at in times)
        if way > 0.94:
            what = self.chance.choice([lambda at: b"", self.lost_frames, self.odd_line, self.odd_line])
            return self.end.join([line for line in (what(self.chance.randint(0, 1)) for _ in range(self.chance.randint(0, 9))) if line])
        while self.chance.random() < 0.15:
            at = len(self.buses) - 1
            self.lines.append(self.chance.choice([self.bad_line, self.lost_frames, self.odd_line])(at))
        if self.claimed:
            for at, bus in enumerate(self.buses):
                for frame in bus.all_claim():
                    self.put(at, frame)
        if self.chance.random() < 0.06:
            self.crowd()
        while len(self.lines) < count:
            self.step()
        text = self.end.join(self.lines)
        way = self.chance.random()
        return (b"\xef\xbb\xbf" if way < 0.05 else b"") + text + (b"" if way > 0.9 else self.end)

    def crowd(self):
        """Some twenty buses, more than are joined, each with a broadcast."""
        buses = [f"bus{at}" for at in range(self.chance.randint(15, 20))]
        for group, data in (("EC", "200A0002FFCAFE00"), ("EB", "0104FFB804030164"), ("EB", "02000501FFFFFFFF")):
            self.lines += [f"({self.time()}) {bus} 1C{group}FF05#{data}".encode() for bus in buses]

    def step(self):
        chance, way = self.chance, self.chance.random()
        at = 0 if chance.random() < 0.8 else len(self.buses) - 1
        if way < self.bad or self.often and way < 0.1:
            self.lines.append(self.often or self.bad_line(at))
        elif way < self.bad + self.lost:
            self.lines.append(self.lost_frames(at))
        elif way < self.bad + self.lost + self.odd:
            self.lines.append(self.odd_line(at))
        else:
            for frame in self.buses[at].some():
                if frame is None:
                    self.now += chance.choice([500_000, 740_000, 749_000, 751_000, 760_000, 1_040_000, 1_060_000, 1_240_000, 1_260_000, 2_000_000, 2_290_000, 2_310_000, 2_490_000, 2_510_000])
                else:
                    self.put(at, frame)

    def pass_time(self):
        chance, way = self.chance, self.chance.random()
        if way < self.leaps:
            self.now += chance.choice([-1, -200_000, -3_600_000_000, 249_999, 250_000, 250_001, 749_999, 750_000, 750_001, 1_050_000, 1_050_001, 1_250_000, 1_250_001, 2_300_000, 2_300_001, 2_500_000, 2_500_001, 3_600_000_001, 86_400_000_000])
        elif way < 0.9:
            self.now += chance.choice([0, 100, 540, 1_000, 5_000, 10_000, 20_000])
        else:
            self.now += chance.choice([50_000, 100_000, 200_000, 240_000, 249_000, 300_000, 750_000, 1_000_000])
        self.now = min(max(self.now, 0), LARGEST)

    def time(self):
        """The seconds of a log; with `-td` since the line before, with `-tz` since the first one."""
        if self.relative is None:
            return f"{self.now // 1_000_000}.{self.now % 1_000_000:06d}"
        since = max(self.now - (self.now if self.before is None else self.before), 0)
        if self.relative == "-td" or self.before is None:
            self.before = self.now
        return f"{since // 1_000_000:03d}.{since % 1_000_000:06d}"

    # ---- frames

    def put(self, at, frame):
        self.pass_time()
        self.lines.append(self.line(at, f"{frame.number:08X}", frame.data.hex().upper()))

    def line(self, at, identifier, data, error=False):
        """A frame with these digits, mostly as `candump -L` writes it."""
        bus = self.words[at]
        if len(self.lines) < self.timeless:
            pairs = [data[at : at + 2] for at in range(0, len(data), 2)]
            return f"  {bus}  {identifier}   [{len(pairs)}]  {' '.join(pairs)}".encode()
        if self.chance.random() >= self.other_forms:
            return f"({self.time()}) {bus} {identifier}#{data}".encode()
        return self.other_form(bus, identifier, data, error).encode()

    def other_form(self, bus, identifier, data, error):
        chance, way = self.chance, self.chance.randint(0, 10)
        pairs = [data[at : at + 2] for at in range(0, len(data), 2)]
        apart = f"{identifier}   [{len(pairs)}]  " + " ".join(pairs) + (" " * 6 + chance.choice(["ERRORFRAME", ""]) if error else chance.choice(["", "", "   '..n..'", "  '"]))
        if way == 0:
            return f"({self.time()}) {bus} {identifier}#{data} {chance.choice('RT')}"
        if way == 1:
            return f"({self.time()}) {bus} {identifier}#{'.'.join(pairs)}" + chance.choice(["", "."])
        if way == 2:
            return f" ({self.time()})  {bus}  {apart}"
        if way == 3:
            return f"({self.time()})\t{bus}  {apart}"
        if way == 4:
            return f"  {bus}  {apart}"
        if way == 5:
            return f"({self.time()}) {bus} {identifier}#{data}".lower()
        if way == 6:
            return f"({self.time()}){bus} \t {identifier}#{data} \f"
        if way == 7:
            return f"{identifier}#{data}" + chance.choice(["", "", " R"])
        if way == 8:
            return " ".join([identifier, *pairs])
        if way == 9:
            direction = f"{chance.choice(['RX', 'TX'])} {chance.choice('-B')} {chance.choice('-E')}"
            return chance.choice([f" ({self.time()})  {bus}  {direction}  {apart}", f"  {bus}  {direction}  {apart}", f"({self.time()}) {bus} {direction} {identifier}#{data}"])
        return f"\ufeff({self.time()}) {bus} {identifier.lower()}#{data}"

    # ---- what is no frame of J1939

    def lost_frames(self, at):
        """What candump -d tells, whole and cut short; an overflow."""
        chance = self.chance
        if chance.random() < 0.4:
            return self.line(at, *chance.choice(LOST), error=True)
        text = f"DROPCOUNT: dropped {chance.choice([1, 2, 7, 0, 4294967295])} CAN frames on '{chance.choice(self.words)}' socket (total drops {chance.randint(1, 99)})"
        way = chance.random()
        if way < 0.6:
            return text.encode()
        if way < 0.8:
            return text[: chance.randint(10, len(text))].encode()
        return chance.choice(["DROPCOUNT:", "DROPCOUNT: dropped x CAN frames on can0 socket", "DROPCOUNT: dropped 3 CAN frames on ' socket", " DROPCOUNT:dropped 2 CAN frames on 'can0'"]).encode()

    def odd_line(self, at):
        chance, way, bus, time = self.chance, self.chance.randint(0, 9), self.words[at], self.time()
        if way < 3:
            return chance.choice(self.notes)
        if way == 3:
            return self.line(at, *chance.choice(OTHER_ERRORS), error=True)
        if way == 4:
            return self.line(at, chance.choice(["123", "7FF", "000", "abc"]), chance.choice(["", "04FF", "0102030405060708"]))
        if way == 5:
            return f"({time}) {bus} {chance.choice(['18FECA00', '123'])}#{chance.choice(['R', 'R8', 'r', 'R0'])}".encode()
        if way == 6:
            return f"({time}) {bus} {chance.choice(['18FECA00', '123'])}##{chance.choice(['1', '104FF', '0' + '00' * 64])}".encode()
        if way == 7:
            return f"{chance.choice(['', f'({time})'])} {bus} {chance.choice(['18FECA00', '123'])} {chance.choice(['[0]', '[8]'])} remote request".encode()
        if way == 8:
            return f"{chance.choice(['', f'({time})'])} {bus} {chance.choice(['18FECA00', '123'])} [{chance.choice(['12', '08', '64'])}] 00 11 22".encode()
        return f"{chance.choice(['18FECA00', '123', '20000004'])}#{chance.choice(['R', '#100', '0001', ''])}".encode()

    def bad_line(self, at):
        """A line of each reason."""
        chance, bus, time = self.chance, self.words[at], self.time()
        head, plain = f"({time}) {bus} ", chance.choice(["", f"({time}) "]) + f"{bus} "
        text = chance.choice([
            head + "18FECA0#04FFB8040301FFFF", head + "18FECA001#04FF", head + "#04FF", head + "12#00", head + "1234#R",
            head + "18FECA00#04FFB8040301FFF", head + "18FECA00#0", head + "123#0", head + "18FECA00#04.F.00",
            head + "18FECA00#04FFB8040301FFFF00", head + "18FECA00#00.11.22.33.44.55.66.77.88.ZZ",
            head + "18FECA00#04FFB8040301FFZZ", head + "18FECG00#04FF", head + "18FECA00#04\u00e4F", head + "18FE\u20acA00#04FF", head + "18FECA00#04\"F", head + "18FECA00#0\x01", head + "\x7f#00",
            head + "98FECA00#04FF", head + "58FECA00#04FF", head + "FFFFFFFF#", head + "40000000#R",
            head + "18FECA00 04FFB8040301FFFF", head + "18FECA00", head + "18FECA00 04 FF", plain + "18FECA00 [9] 00 11 22 33 44 55 66 77 88", plain + "18FECA00 [x] 00", plain + "18FECA00 [ 00",
            head + "18FECA00#04FF X", head + "18FECA00#04FF R R", head + "18FECA00#04FF r", plain + "18FECA00 [2] 04 FF 00", plain + "18FECA00 [2] 04 FF R", plain + "20000004 [2] 00 01 ERRORFRAMES",
            plain + "18FECA00 [3] 04 FF", plain + "18FECA00 [8] 04 FF B8 04 03 01 FF", plain + "18FECA00 [2] 04 FFB8", plain + "18FECA00 [1]", plain + "18FECA00 [2] 04 F", plain + "123 [1] \u20ac",
            plain + "18FECA00 [2] 04 FG", plain + "18FECA0 [2] 04 FF", plain + "98FECA00 [2] 04 FF", plain + "18FECAXX [2] 04 FF", plain + "18FECA00 [2] 04 \u00e4",
            f"({time})", f"({time})  ", f"({time}) {bus}", f"({time}) {bus} RX", f"({time}) {bus} TX - -", head + "RX - - 18FECA00", head + "RX 18FECA00#04FF", plain + "TX - - 18FECA00 [x] 00", f"({time}) 18FECA00#04FF", f"({time} {bus} 18FECA00#04FF", "(", "()", "(x",
        ]).encode()
        way = chance.random()
        if way < 0.1:
            return b"(" + chance.choice(TIMES) + b") can0 18FECA00#04FF"
        if way < 0.15:
            return chance.choice([b"(" + b"1" * 5000, b"x" * 4097, (head + "18FECA00#04FF").encode().ljust(chance.choice([4095, 4096, 4096, 4097, 4098, 8192]))])
        if way < 0.2:
            return chance.choice([head.encode() + b"18FECA00#04FF\xff", b" (\xff", b"(\xc3\x28"])
        return text


def words_of_watch(chance):
    """Words behind `watch`."""
    words = []
    if chance.random() < 0.6:
        words += ["--address", str(chance.choice([249, 249, 249, 249, 250, 0, 3, 128, 253]))]
    if chance.random() < 0.2:
        words += ["--name", f"{chance.choice([0, 2, 0xFFFFFFFFFFFFFFFF, 0x9000000000000000, 0x7000000000000000]):016x}"]
    if chance.random() < 0.35:
        words += ["--bus", chance.choice(["can0", "can1", "can1", "vcan9", "all", "all", "all", "all"])]
    if chance.random() < 0.2:
        words += ["--unit", chance.choice(["0", "3", "249", "253", "33", "1000000001419907", "00000000000000A0", "0", "3", "249"])]
    for word in ("--from", "--to"):
        if chance.random() < 0.12:
            words += [word, chance.choice(["0", "1.500000", "2.000", "1792915201", "1792915202.250", "1792915203.123456789", "10", "9999999999", "2026-10-25", "2026-10-25 08:00:02",
                                           "2026-10-25T13:30:02.250", "1970-01-01 05:30:01.500000"])]
    if "--from" not in words and chance.random() < 0.08:
        words += ["--from", "9999999999"]  # (behind nearly all)
    if chance.random() < 0.2:
        words.append("--clock=" + chance.choice(["log", "utc", "relative", "+02:00", "UTC-05:30", "-05:30", "+05:30", "UTC-23:59"]))
    if chance.random() < 0.25:
        for _ in range(chance.randint(1, 3)):
            words += ["--assume", f"{chance.choice([0, 3, 249, 253])}={chance.choice([0xA0, 0x1000000001419907]):016X}"]
    if chance.random() < 0.3:
        for _ in range(chance.randint(1, 3)):
            words += ["--conversion", f"{chance.choice(NAMES):016X}={chance.randint(1, 3)}"]
    if chance.random() < 0.3:
        words += ["--bad", chance.choice(["skip", "skip", "missed"])]
    if chance.random() < 0.4:
        words += ["--silence", str(chance.choice([0, 0, 1, 100, 749, 751, 3_600_000]))]
    if chance.random() < 0.3:
        words += ["--unclaimed", chance.choice(["hide", "hide", "show"])]
    if chance.random() < 0.1:
        words += ["--keep", str(chance.choice([1, 1, 2, 5, 20]))]
    return words + ["--strict"] * (chance.random() < 0.12)


TEXTS = """spn,fmi,text
110,0,Engine coolant hot
110,,Engine coolant temperature
1208,,"Pressure, filter"
,3,voltage high
,31,condition exists
524287,31,"the ""last"" one"
100, 3,told first
 100 ,3,told last
65535,,of the SPN before 65536
"""
