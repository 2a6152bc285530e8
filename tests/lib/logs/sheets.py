"""Random files of a shop's texts, right and wrong: what is told of each line, and which unit or code has which text, by the rules of docs/WATCH.md."""
import random
import tempfile

from page_model import Name, Texts

from .common import run, same

UNITS = {"name": None, "function": 255, "industry_group": 7, "vehicle_system": 127, "manufacturer": 2047}
CODES = {"spn": 524_287, "fmi": 31}
TEXTS = ["Engine", "Motor, links", 'the "old" one', "a;b", "Ölpumpe", "two words", "x\ty", "=1+1"]
NAMES = ["1000000001419907", "1000030006E00899", "90008100258004D2", "A00B83120D2580FF"]
MISREAD = ["-1", "1.5", "x", "0x10", "4294967296"]


class Sheet:
    """A random file. `lines` has what is told of it where it is wrong, `rows` what it says where it is not."""

    def __init__(self, seed, word, keys):
        self.chance, self.word, self.keys = random.Random(seed), word, keys
        self.separator = self.chance.choice(",;\t")
        self.end = self.chance.choice(["\n", "\r\n"])
        self.told, self.rows = [], []
        names = self.chance.sample(list(keys), self.chance.randint(1, len(keys))) + ["text"]
        names += self.chance.choice([[], [], ["#checked by"], ["#", "#b"], [""]])
        self.chance.shuffle(names)
        # (a file that begins with a mark, or with a separator that another value has)
        self.columns, self.content, self.line = names, self.chance.choice(["", "\ufeff"]), 1
        self.add([self.chance.choice([it, it.upper(), it.capitalize(), f" {it} "]) if it else it for it in names], quotes=False)
        for _ in range(self.chance.choice([0, 1, 4, 4, 30])):
            self.row(self.chance.random() < self.chance.choice([0, 0, 0.4]))
        if self.chance.random() < 0.3 and len(names) > 1:
            self.content = self.content.removesuffix(self.end)

    def add(self, values, quotes=True):
        """Adds a line of values, in quotes where they need it and now and then where not."""
        told = []
        for value in values:
            needs = any(it in value for it in (self.separator, '"', "\n", "\r"))
            told.append('"' + value.replace('"', '""') + '"' if needs or quotes and self.chance.random() < 0.2 else value)
        text = self.separator.join(told) + self.end
        self.content += text
        self.line += text.count("\n")

    def row(self, is_wrong):
        at = self.line
        row = {"text": self.chance.choice(TEXTS)}
        given = [it for it in self.columns if it in self.keys]
        for key in self.chance.sample(given, self.chance.randint(1, len(given))):
            row[key] = self.value(key)
        values = {it: self.written(it, row[it]) for it in row}
        wrong = self.make_wrong(values, row) if is_wrong else None
        out = [values.get(it, self.chance.choice(["", "seen"]) if it.startswith("#") else "") for it in self.columns]
        if wrong == "count":
            out = self.chance.choice([out[:-1], [*out, ""], [*out, "more"]])
            wrong = f"{len(out)} values, and the first line has {len(self.columns)}" if len(out) > 1 or out[0] else None
        self.add(out)
        if wrong:
            self.told.append(f"{self.word}, line {at}: {wrong}")
        elif len(out) == len(self.columns):
            self.rows.append(row)

    def value(self, key):
        if key == "name":
            return self.chance.choice(NAMES)
        said = Name(self.chance.choice(NAMES))
        return getattr(said, key, None) if key in UNITS and self.chance.random() < 0.8 else self.chance.choice([0, 1, self.keys[key]])

    def written(self, key, value):
        """A value as one may write it, with blanks around it."""
        text = str(value)
        if key != "text":
            text = self.chance.choice([text, text, f" {text}", f"{text} ", text.lower() if key == "name" else f"0{text}"])
        return text

    def make_wrong(self, values, row):
        """Makes a line wrong, and says what has to be told of it."""
        keys = [it for it in values if it != "text"]
        what = self.chance.choice(["count", "value", "value", "no key", "no text", "unnamed"])
        if what == "count":
            return what
        if what == "unnamed" and "" in self.columns:
            values[""] = "x"
            return f"value {self.columns.index('') + 1} stands below no name of a column"
        if what == "no key":
            for key in keys:
                values[key] = self.chance.choice(["", " "])
            return f"{', '.join(self.keys)}: all are empty"
        if what == "no text" and self.word == "units":
            values["text"] = self.chance.choice(["", "  "])
            return "text: empty"
        key = self.chance.choice(keys)
        if key == "name":
            bad = self.chance.choice(["100000000141990", "10000000014199071", "100000000141990G"])
            values[key] = bad
            return f"name: {bad} is not 16 hexadecimal digits"
        bad = self.chance.choice([*MISREAD, str(self.keys[key] + 1)])
        values[key] = bad
        return f"{key}: {bad} is not 0 to {self.keys[key]}"

    def said(self):
        """What is told of it: nothing where it is right."""
        more = [f"{self.word}: and {len(self.told) - 10} more lines"] if len(self.told) > 10 else []
        return "".join(f"{it}\n" for it in ["fault: texts", *self.told[:10], *more]) if self.told else ""


def written(sheet):
    file = tempfile.NamedTemporaryFile(suffix=".csv")
    file.write(sheet.content.encode())
    file.flush()
    return file


def random_unit_files():
    """Which unit has which text, or what is wrong with which line."""
    claims = "".join(f"(1.{at:06}) can0 18EEFF{at:02X}#{int(name, 16).to_bytes(8, 'little').hex()}\n" for at, name in enumerate(NAMES))
    found = []
    for seed in range(120):
        sheet = Sheet(seed, "units", UNITS)
        with written(sheet) as file:
            status, out, said = run(["watch", "--units", file.name], claims.encode())
        found += same((status, said), (2 if sheet.told else 0, sheet.said()), f"units {seed}")
        if not sheet.told:
            texts = Texts(sheet.rows)
            told = [line.partition("no DM1")[2] or line for line in out.splitlines() if line[:16] in NAMES]
            for name, line in zip(NAMES, told):
                text = texts.unit(name)
                found += [f"units {seed}: {line!r} has not {text!r} of {name}"] if text and text.strip() not in line.replace("\\x09", "\t") else []
                others = {it["text"] for it in sheet.rows} - {text}
                found += [f"units {seed}: {line!r} has {it!r}" for it in others if not text and it in line]
    return found


def random_code_files():
    """Which code has which text, or what is wrong with which line."""
    found = []
    for seed in range(120):
        sheet = Sheet(1000 + seed, "texts", CODES)
        texts = Texts(codes=sheet.rows)
        pairs = [(spn, fmi) for spn in (0, 1, 524_287) for fmi in (0, 1, 31) if spn or fmi]
        codes = "".join(f"{spn & 255:02X}{spn >> 8 & 255:02X}{spn >> 16 << 5 | fmi:02X}01" for spn, fmi in pairs)
        lines = [f"1CECFF00#20{2 + 4 * len(pairs):02X}00{-(-(2 + 4 * len(pairs)) // 7):02X}FFCAFE00"]
        lines += [f"1CEBFF00#{number + 1:02X}{('00FF' + codes)[14 * number:14 * number + 14].ljust(14, 'F')}" for number in range(-(-(2 + 4 * len(pairs)) // 7))]
        with written(sheet) as file:
            status, out, said = run(["watch", "--texts", file.name], "".join(f"(1.{at:06}) can0 {line}\n" for at, line in enumerate(lines)).encode())
        found += same((status, said), (2 if sheet.told else 0, sheet.said()), f"texts {seed}")
        if not sheet.told:
            told = next((line for line in out.splitlines() if " dm1 " in line), "")
            for spn, fmi in pairs:
                text = texts.meaning(spn, fmi).replace("\t", "\\x09")
                found += [f"texts {seed}: {told!r} has not {spn}/{fmi}: {text}"] if f"({spn}/{fmi}: {text})" not in told else []
    return found
