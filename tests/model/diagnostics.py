"""Diagnostic messages that are values, and groups that are text, from the layouts of J1939-73 and -71 (from memory): byte 1 is the first, bit 1 the lowest; of a
number of several bytes the first is the lowest."""

from .log_cases import reach
from .signal_values import EXACT, MARK, decimal_text
from .words import FAILURE_MODES, IDENTIFICATIONS, VALUE_MESSAGES

MOST_SHOWN = 200
CONTINUOUS = ["misfire", "fuel system", "comprehensive component"]  # bits 1 to 3 of byte 4, and their states bits 5 to 7
OTHERS = ["catalyst", "heated catalyst", "evaporative system", "secondary air system", "A/C refrigerant", "oxygen sensor", "oxygen sensor heater",
          "EGR/VVT system", "cold start aid", "boost pressure control", "NMHC catalyst", "NOx catalyst/adsorber", "particulate filter"]


def ascii_text(data):
    """Text as it is told: what is no ASCII that can be printed stands by its number, and of a long one the front."""
    told = "".join(chr(byte) if 0x20 <= byte < 0x7F else f"\\x{byte:02X}" for byte in data[:MOST_SHOWN])
    return told + ("..." if len(data) > MOST_SHOWN else "")


def identification(pgn, data):
    """The text of an identification: of software behind the number of its fields; without unused bytes at the end, and the last `*`."""
    text = data[1:] if pgn == 65242 else data
    text = text.rstrip(b"\xff")
    return text[:-1] if text.endswith(b"*") else text


class Value:
    """What bytes say under a name, in words and as an object."""

    def __init__(self, name, words, told, unit=""):
        self.name, self.words, self.told, self.unit = name, words, told, unit

    def text(self):
        return f"{self.name}={self.words}" + (f" {self.unit}" if self.unit and "value" in self.told and "text" not in self.told else "")

    def object(self):
        return {"name": self.name, **self.told, **({"unit": self.unit} if self.unit else {})}


class Bytes:
    """Bytes, of which values are taken by their places in the standard; what is not there gives none."""

    def __init__(self, data):
        self.data, self.values = data, []

    def raw(self, first, count=1):
        """The number of so many bytes from one on, the first being 1."""
        return int.from_bytes(self.data[first - 1 : first - 1 + count], "little") if first - 1 + count <= len(self.data) else None

    def tell(self, name, words, told, unit=""):
        self.values.append(Value(name, words, told, unit))

    def number(self, name, first, count, unit="", factor="1", offset="0"):
        raw = self.raw(first, count)
        if raw is None:
            reach("diagnostic: a value that is not there")
            return
        high = raw >> 8 * (count - 1)  # by the highest byte (J1939-71)
        if high >= 0xFE:
            state = "not available" if high == 0xFF else "error"
            reach(f"diagnostic: {state}")
            self.tell(name, state, {"state": state}, unit)
            return
        value = decimal_text(EXACT.add(EXACT.multiply(EXACT.create_decimal(raw), EXACT.create_decimal(factor)), EXACT.create_decimal(offset)))
        self.tell(name, value, {"value": f"{MARK}{value}{MARK}"}, unit)

    def plain(self, name, number, unit="", text=None):
        self.tell(name, f"{number} ({text})" if text else str(number), {"value": f"{MARK}{number}{MARK}", **({"text": text} if text else {})}, unit)

    def spn(self, first):
        """Bytes n and n + 1, and the three highest bits of the next."""
        low, high = self.raw(first, 2), self.raw(first + 2)
        if high is not None:
            self.plain("SPN", low | high >> 5 << 16)

    def code(self, first):
        self.spn(first)
        self.plain("FMI", self.raw(first + 2) & 31, text=FAILURE_MODES[self.raw(first + 2) & 31])
        self.plain("count", self.raw(first + 3) & 127)

    def monitors(self):
        states = [(name, 4, at, 4, at + 4) for at, name in enumerate(CONTINUOUS)]
        states += [(name, 5 + at // 8, at % 8, 7 + at // 8, at % 8) for at, name in enumerate(OTHERS)]
        for name, byte, bit, other, state in states:
            has, waits = self.raw(byte), self.raw(other)
            if waits is not None and has >> bit & 1:
                reach("diagnostic: a monitor")
                word = "not complete" if waits >> state & 1 else "complete"
                self.tell(name, word, {"text": word})

    def rest(self, first):
        if self.data[first - 1 :]:
            self.tell("data", self.data[first - 1 :].hex().upper(), {"data": self.data[first - 1 :].hex().upper()})


def dm5(it):
    it.number("active codes", 1, 1)
    it.number("previously active codes", 2, 1)
    it.number("OBD compliance", 3, 1)
    it.monitors()


def dm26(it):
    it.number("time since engine start", 1, 2, "s")
    it.number("warm-ups since codes were cleared", 3, 1)
    it.monitors()


def dm21(it):
    for at, (name, unit) in enumerate([("distance with MIL on", "km"), ("distance since codes were cleared", "km"), ("time with MIL on", "min"),
                                       ("time since codes were cleared", "min")]):
        it.number(name, 1 + 2 * at, 2, unit)


def dm20(it):
    it.number("ignition cycles", 1, 2)
    it.number("OBD conditions met", 3, 2)


def ratio(it):
    it.spn(1)
    it.number("numerator", 4, 2)
    it.number("denominator", 6, 2)


def calibration(it):
    digits = f"{it.raw(1, 4):08X}"
    it.tell("verification number", digits, {"text": digits})
    text = ascii_text(it.data[4:20].rstrip(b"\x00\xff"))
    it.tell("calibration", text, {"text": text})


def support(it):
    it.spn(1)
    for at, name in enumerate(["freeze frame", "data stream", "test results"]):
        word = "no" if it.raw(3) >> at & 1 else "yes"
        it.tell(name, word, {"text": word})
    it.plain("length", it.raw(4), "bytes")


def freeze(it):
    it.code(2)
    it.number("torque mode", 6, 1)
    it.number("boost pressure", 7, 1, "kPa", "2")
    it.number("engine speed", 8, 2, "rpm", "0.125")
    it.number("engine load", 10, 1, "%")
    it.number("coolant temperature", 11, 1, "°C", "1", "-40")
    it.number("vehicle speed", 12, 2, "km/h", "0.00390625")
    it.rest(14)


def expanded(it):
    it.code(2)
    it.rest(6)


# The size of what stands before the records, its values; the size of a record (None: its first byte has how many follow), its values.
LAYOUTS = {65229: (0, None, None, freeze), 65230: (8, dm5, 0, None), 54016: (0, None, 20, calibration), 49664: (4, dm20, 7, ratio), 49408: (8, dm21, 0, None),
           64950: (0, None, 4, support), 64951: (0, None, None, expanded), 64952: (8, dm26, 0, None)}


def taken(read, data):
    it = Bytes(data)
    read(it)
    return it.values


def read_message(pgn, data):
    """The values before the records (None where it has none), those of each record, how many bytes are left, and how many are missing."""
    size, front, record, read = LAYOUTS[pgn]
    values, rest, records = taken(front, data) if front else None, data[size:], []
    while rest.strip(b"\xff"):
        length = rest[0] + 1 if record is None and rest[0] >= 4 else record
        if not length or length > len(rest):
            reach("diagnostic: bytes behind the last record")
            return values, records, len(rest), max(0, size - len(data))
        reach("diagnostic: a record of " + VALUE_MESSAGES[pgn])
        records.append(taken(read, rest[:length]))
        rest = rest[length:]
    return values, records, 0, max(0, size - len(data))


def part_words(values):
    return ", ".join(value.text() for value in values) or "-"


def identification_words(pgn, data, name):
    reach("says: " + IDENTIFICATIONS[pgn])
    return f"{name}: {ascii_text(identification(pgn, data)) or '-'}"


def words(pgn, data):
    values, records, behind, missing = read_message(pgn, data)
    reach("says: " + VALUE_MESSAGES[pgn])
    parts = ([] if values is None else [part_words(values)]) + [part_words(it) for it in records]
    amiss = (f"; {behind} byte{'' if behind == 1 else 's'} behind the last value" if behind else "") + (f"; {missing} of {LAYOUTS[pgn][0]} bytes missing" if missing else "")
    return f"{VALUE_MESSAGES[pgn]}: {'; '.join(parts) or '-'}{amiss}"


def objects(pgn, data):
    """What JSON has of a message of values, or of an identification."""
    if pgn in IDENTIFICATIONS:
        return {"identification": [ascii_text(field) for field in identification(pgn, data).split(b"*")]}
    if pgn not in VALUE_MESSAGES:
        return {}
    values, records, behind, missing = read_message(pgn, data)
    told = {} if values is None else {"values": [value.object() for value in values]}
    told |= {"records": [[value.object() for value in it] for it in records]} if LAYOUTS[pgn][3] else {}
    return told | ({"bytes_behind": behind} if behind else {}) | ({"bytes_missing": missing} if missing else {})
