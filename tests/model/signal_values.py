"""The values of signals by a DBC file, from the rules of that form: exact, as decimals. It reads files that are right; all that is wrong is tried apart."""

import decimal
import re

from .frames import Frame
from .log_cases import reach
from .words import seen

EXACT = decimal.Context(prec=400, Emin=-999999, Emax=999999, traps=[decimal.Inexact, decimal.InvalidOperation])
TEXT = r'"((?:\\"|[^"])*)"'  # a quote in it stands behind a backslash
GAP = r"[ \t\r\n\f]*"


def spaced(pattern):
    """A pattern of parts with gaps between them; a gap before a name ends what stands before it."""
    return re.compile(GAP.join(pattern.split(" ")).encode(), re.S)


MESSAGE = spaced(r"BO_ (\d+) ([^\s:|@()\[\],;\"]+) :")
SIGNAL = spaced(r"SG_ ([^\s:|@()\[\],;\"]+) (M|m\d+|) : (\d+) \| (\d+) @ ([01])([+-]) \( (\S+?) , (\S+?) \) \[[^\]]*\] " + TEXT)
TEXTS = spaced(r"VAL_ (\d+) ([^\s:|@()\[\],;\"]+) (.*) ;")
ONE_TEXT = spaced(r"([+-]?\d+) " + TEXT)
NUMBER = spaced(r'BA_ "SPN" SG_ (\d+) ([^\s:|@()\[\],;\"]+) (\d+) ;')
TYPE = spaced(r"SIG_VALTYPE_ (\d+) ([^\s:|@()\[\],;\"]+) : (\d)")


def statements(data):
    """The lines of a file; one that ends in an open quote goes on behind it."""
    line, is_open, before = bytearray(), False, None
    for byte in data + b"\n":
        if byte == 0x0A and not is_open:
            yield bytes(line)
            line.clear()
        else:
            line.append(byte)
            if byte == 0x22 and not (is_open and before == 0x5C):
                is_open = not is_open
        before = byte


def text_of(data):
    """A text in quotes: UTF-8, or else Latin-1."""
    try:
        text = data.decode()
    except UnicodeDecodeError:
        text = data.decode("latin-1")
    return text.replace('\\"', '"')


class Signal:
    def __init__(self, found):
        name, page, start, count, order, sign, factor, offset, unit = found
        self.name, self.unit, self.start, self.count = name.decode(), text_of(unit), int(start), int(count)
        self.is_multiplexor, self.page = page == b"M", int(page[1:]) if page[:1] == b"m" else None
        self.is_little, self.is_signed = order == b"1", sign == b"-"
        self.factor, self.offset = decimal.Decimal(factor.decode()), decimal.Decimal(offset.decode())
        self.texts, self.spn, self.is_float = {}, None, False

    def places(self):
        """The numbers of its bits, from the lowest to the highest: bit n is bit n % 8 of byte n // 8. A signal of the little order goes up from its lowest bit; one of
        the big order goes down from its highest, within a byte to its bit 0 and from there to bit 7 of the next byte."""
        if self.is_little:
            return range(self.start, self.start + self.count)
        places = [self.start]
        while len(places) < self.count:
            places.append(places[-1] - 1 if places[-1] % 8 else places[-1] + 15)
        return places[::-1]

    def raw(self, data):
        """The number that its bits are; None where the payload has not all of them."""
        places = self.places()
        if max(places) >= 8 * len(data):
            reach("a signal does not fit")
            return None
        return sum((data[at // 8] >> at % 8 & 1) << k for k, at in enumerate(places))

    def says(self, raw):
        """Its value and the file's text for it, or what it is in place of a value (J1939-71, ranges of transmitted signals, from memory)."""
        number = raw - (1 << self.count) if self.is_signed and raw >> self.count - 1 else raw
        value = EXACT.add(EXACT.multiply(decimal.Decimal(number), self.factor), self.offset)
        if number not in self.texts and not self.is_signed and self.count > 1:
            below = (1 << self.count) - 1 - raw if self.count < 8 else 255 - (raw >> self.count - 8)
            if below < 2:
                reach(("a signal is not available", "a signal is an error")[below])
                return None, ("not available", "error")[below]
        reach(("a big" if not self.is_little else "a little") + (" signed" if self.is_signed else "") + " signal")
        if number in self.texts:
            reach("a value has the file's text")
        return decimal_text(value), self.texts.get(number)


def decimal_text(value):
    text = f"{value:f}" if value else "0"
    return text.rstrip("0").rstrip(".") if "." in text else text


class SignalFile:
    """The signals of a DBC file, by message: those of 29 bits, but the one that stands for none."""

    def __init__(self, data=b""):
        self.messages, current = {}, None
        for line in statements(data):
            line = line.strip(b" \t\r\n\f")
            if found := MESSAGE.match(line):
                number, name = int(found[1]), found[2]
                current = self.messages.setdefault(number, []) if number >> 31 and name != b"VECTOR__INDEPENDENT_SIG_MSG" else None
            elif (found := SIGNAL.match(line)) and current is not None:
                current.append(Signal(found.groups()))
            elif found := TEXTS.match(line):
                for signal in self.named(found):
                    for number, text in ONE_TEXT.findall(found[3]):
                        signal.texts.setdefault(int(number), text_of(text))
            elif found := NUMBER.match(line):
                for signal in self.named(found):
                    signal.spn = int(found[3])
            elif found := TYPE.match(line):
                for signal in self.named(found):
                    signal.is_float = signal.is_float or found[3] != b"0"

    def named(self, found):
        return [signal for signal in self.messages.get(int(found[1]), []) if signal.name == found[2].decode()]

    def of(self, pgn, source):
        """The signals of a group: of its messages those of the first with this source, or else of the first."""
        there = [(Frame(number & 0x1FFFFFFF, b"").source, signals) for number, signals in self.messages.items() if Frame(number & 0x1FFFFFFF, b"").pgn == pgn]
        if len(there) > 1:
            reach("a group of several messages")
        return next((signals for of, signals in there if of == source), there[0][1] if there else None)

    def told(self, pgn, source, data):
        """Each signal that is there with what it says; None where the group is not known."""
        signals = self.of(pgn, source)
        if signals is None:
            return None
        page = next((signal.raw(data) for signal in signals if signal.is_multiplexor), None)
        told = []
        for signal in signals:
            if signal.page is not None:
                reach("a signal of a page that is there" if signal.page == page else "a signal of another page")
            if signal.is_float or signal.page not in (None, page):
                continue
            raw = signal.raw(data)
            if raw is not None:
                told.append((signal, *signal.says(raw)))
        return told

    def words(self, pgn, source, data):
        """What stands of it behind a line."""
        return "".join(f"; {seen(signal.name)}={says(signal, value, word)}" for signal, value, word in self.told(pgn, source, data) or [])

    def objects(self, pgn, source, data):
        """The same in JSON, where the group is known. A number is written as it is told: digit by digit."""
        told = self.told(pgn, source, data)
        if told is None:
            return {}
        return {"signals": [{"name": signal.name} | ({} if signal.spn is None else {"spn": signal.spn}) | meaning(value, word) | ({"unit": signal.unit} if signal.unit else {})
                            for signal, value, word in told]}


def says(signal, value, word):
    if value is None:
        return word
    return f"{value} ({seen(word)})" if word is not None else f"{value} {seen(signal.unit)}" if signal.unit else value


MARK = "\uf8ff"  # around digits that are a number in JSON


def meaning(value, word):
    if value is None:
        return {"state": word}
    return {"value": f"{MARK}{value}{MARK}"} | ({} if word is None else {"text": word})


def with_numbers(text):
    """JSON in which values are numbers, with each of their digits."""
    return re.sub(f'"{MARK}([-.0-9]+){MARK}"', r"\1", text)
