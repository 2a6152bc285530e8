"""Random DBC files, and random logs of the groups that they tell of: frames, and messages joined from packets."""

UNITS = [b"", b"rpm", b"km/h", b"%", "\u00b0C".encode(), "\u00b0C".encode("latin-1"), b'6\\" pipe', b"\x1b[7m", b"a;b", b"kPa"]
WORDS = [b"on", b"off", b"", b"not available", b'a \\" quote', "gr\u00fcn".encode(), "gr\u00fcn".encode("latin-1"), b"line\nBO_ 2566834432 Fake: 8 X\n SG_ Fake : 0|8@1+ (1,0) [0|0] \\\"\\\"", b"\xe2\x80\xae"]
FACTORS = ["1", "1", "1", "0.125", "0.5", "0.1", "0.00390625", "4", "10", "1E-7", "0.0000001", "-1", "-0.25", "1.0E+3", "0.017453292519943", "3.0517578125e-05", "0", "+2", "0.000", "1000000"]
OFFSETS = ["0", "0", "0", "0", "-40", "-273", "-125", "1", "0.5", "-1.6e-2", "+7.25", "1E3", "-0", "-3200", "0.000000000001"]
LENGTHS = [1, 2, 2, 3, 4, 8, 8, 8, 12, 16, 16, 16, 24, 32, 63, 64]
PRELUDE = b'VERSION "x"\n\nNS_ :\n\tNS_DESC_\n\tCM_\n\tBA_\n\tVAL_\n\tSIG_VALTYPE_\n\tSG_MUL_VAL_\n\nBS_:\n\nBU_: Engine Brakes\nVAL_TABLE_ T 1 "one" 0 "none" ;\n'
LARGEST = 1785


class Groups:
    """A file of random messages."""

    def __init__(self, chance):
        self.chance, self.messages, self.names = chance, [], 0
        for _ in range(chance.randint(1, 9)):
            self.messages.append((self.identifier(), chance.choice([8, 8, 8, 8, 3, 20, 60, LARGEST])))
        if chance.random() < 0.5:  # the same group from another source
            number, size = chance.choice(self.messages)
            self.messages.append((number & 0x1FFFFF00 | chance.choice([0, 3, 11, 254]), size))
        self.messages = list(dict(self.messages).items())

    def identifier(self):
        chance, pages = self.chance, self.chance.choice([0, 0, 0, 1, 2, 3])
        form, specific = chance.choice([(chance.randrange(240), chance.choice([0, 255, 254, 17])), (chance.randrange(240, 256), chance.randrange(256)), (240, chance.randrange(6)), (254, chance.choice([0xCA, 0xF1, 0xEE]))])
        return chance.randrange(8) << 26 | pages << 24 | form << 16 | specific << 8 | chance.choice([254, 254, 0, 3, 0x31])

    def gap(self):
        return self.chance.choice([b" ", b" ", b" ", b" ", b"  ", b"\t"])

    def maybe(self):
        return self.chance.choice([b"", b"", b"", b" "])

    def name(self):
        self.names += 1
        return f"{self.chance.choice(['Speed', 'Level', 'Mode', 'x', 'Temperature_2'])}{self.names}".encode()

    def signal(self, size, presence):
        chance = self.chance
        count = chance.choice(LENGTHS + [chance.randint(1, 64)])
        start = min(chance.randrange(8 * size + (8 if chance.random() < 0.1 else 0)), 14279)
        if chance.random() < 0.5:
            start = start // 8 * 8 + (0 if chance.random() < 0.5 else 7) if start // 8 * 8 + 7 < 14280 else start
        order, sign = chance.choice(b"01"), chance.choice(b"+++-")
        name, m = self.name(), self.maybe
        scaling = b"(" + m() + chance.choice(FACTORS).encode() + m() + b"," + m() + chance.choice(OFFSETS).encode() + m() + b")"
        where = f"{start}".encode() + m() + b"|" + m() + f"{count}".encode() + m() + b"@" + m() + bytes([order, sign])
        line = self.gap() + b"SG_" + self.gap() + name + (self.gap() + presence if presence else b"") + chance.choice([b" ", b""]) + b":" + self.gap() + where + self.gap() + scaling
        return name, count, line + self.gap() + b"[0|" + chance.choice([b"0", b"1E+10", b"-3.5"]) + b"] " + b'"' + chance.choice(UNITS) + b'"' + self.gap() + b"Vector__XXX"

    def written(self):
        chance, lines, behind = self.chance, [], []
        for number, size in self.messages:
            extended = number | 1 << 31
            lines.append(b"BO_ %d %s%s: %d Vector__XXX" % (extended, self.name(), self.maybe(), size))
            is_paged = chance.random() < 0.4
            presences = [b"M"] if is_paged else []
            presences += [chance.choice([b"", b"m0", b"m1", b"m3", b"m255"]) if is_paged else b"" for _ in range(chance.randint(0, 12))]
            chance.shuffle(presences)
            for presence in presences:
                name, count, line = self.signal(size, presence)
                if presence == b"M" and chance.random() < 0.7:
                    line = b" SG_ %s M : 0|%d@1+ (1,0) [0|0] \"\" X" % (name, chance.choice([1, 2, 8]))
                lines.append(line)
                behind += self.of_signal(extended, name, count)
        lines += [b"BO_ 3221225472 VECTOR__INDEPENDENT_SIG_MSG: 0 Vector__XXX", b' SG_ Lost : 0|8@1+ (1,0) [0|0] "" Vector__XXX', b"BO_ 291 Short: 8 Vector__XXX", b' SG_ Eleven : 0|8@1+ (1,0) [0|0] "" Vector__XXX']
        chance.shuffle(behind)
        lines += [b'CM_ SG_ 2566834432 Speed "%s";' % chance.choice(WORDS), b'BA_DEF_ SG_ "SPN" INT 0 524287;', b'VAL_ variable 0 "x" ;', b'BA_ "GenMsgCycleTime" BO_ 2566834432 100;', *behind]
        return PRELUDE + chance.choice([b"\n", b"\n", b"\r\n"]).join(lines) + chance.choice([b"\n", b""])

    def of_signal(self, number, name, count):
        chance = self.chance
        if chance.random() < 0.25:
            values = [chance.choice([0, 1, 2, 3, 255, (1 << count) - 1, (1 << count) - 2, -1]) for _ in range(chance.randint(0, 5))]
            yield b"VAL_ %d %s%s ;" % (number, name, b"".join(b' %d "%s"' % (value, chance.choice(WORDS)) for value in values))
        if chance.random() < 0.3:
            yield b'BA_ "SPN" SG_ %d %s %d;' % (number, name, chance.randrange(524288))
        if chance.random() < 0.04:
            yield b"SIG_VALTYPE_ %d %s : %d;" % (number, name, chance.choice([0, 1, 2]))

    def payload(self, size):
        chance, kind = self.chance, self.chance.random()
        if kind < 0.3:
            return bytes(chance.choices([0, 1, 0xFF, 0xFE, 0xFF, 0xFA, 0x7F, 0x80], k=size))
        return chance.randbytes(size)

    def log(self, count):
        """So many frames, one a line, and the packets of longer messages (J1939-21, 5.10)."""
        chance, lines = self.chance, []
        while len(lines) < count:
            number, size = chance.choice(self.messages)
            source = chance.choice([number & 255, 0, 3, 11])
            if size > 8 and chance.random() < 0.3 or chance.random() < 0.02:
                lines += self.broadcast(number >> 8 & 0x3FFFF, source, max(9, min(LARGEST, size - chance.choice([0, 0, 0, 1, 5]))))
            else:
                if number >> 16 & 255 < 240:
                    number = number & 0x1FFF00FF | chance.choice([255, 0, 3]) << 8
                lines.append("%08X#%s" % (number & 0x1FFFFF00 | source, self.payload(chance.choice([8, 8, 8, 8, chance.randrange(9)])).hex().upper()))
        return ("\n".join(lines) + "\n").encode()

    def broadcast(self, pgn, source, size):
        if pgn >> 8 & 255 < 240:
            pgn &= 0x3FF00
        payload, packets = self.payload(size), (size + 6) // 7
        yield "1CECFF%02X#20%s%02XFF%s" % (source, size.to_bytes(2, "little").hex().upper(), packets, pgn.to_bytes(3, "little").hex().upper())
        for at in range(packets):
            yield "1CEBFF%02X#%02X%s" % (source, at + 1, payload[7 * at : 7 * at + 7].ljust(7, b"\xff").hex().upper())
