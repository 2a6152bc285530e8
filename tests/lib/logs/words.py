"""What a line of a log, or of a script, is in words: of each group, each day, each text of a shop."""

import csv
import datetime
import io
import itertools
import json
import random
import re
import tempfile

from harness import TOP
from logs.common import CLAIM, MESSAGE, run, same
from model import words
from script_reasons import NOT_ACCEPTED, REASONS, REASONS_TOO_EARLY, TOO_EARLY


def reasons_of_a_script():
    found = same(run(["check"], TOO_EARLY.encode()), (3, REASONS_TOO_EARLY, ""), "check before a garage")
    status, out, err = run(["check"], NOT_ACCEPTED.encode())
    found += [text for pair in zip(out.splitlines(), REASONS.splitlines()) for text in same(*pair, "check")]
    return found + same((status, out.count("\n"), err), (3, REASONS.count("\n"), ""), "check")


def log_of_a_script():
    """The wire alone on standard output; what is not accepted on standard error."""
    text = "garage 0000000000000001 249 64 16 100\njoin 00000000000000A0 0 plain\nfly\nlamps 1 04FF\nset 1 1208 3\ndm1 1\nround 10\n"
    wire = "(0.000000) can0 18EEFF00#A000000000000000\n(0.000540) can0 18EEFFF9#0100000000000000\n(0.001080) can0 18FECA00#04FFB8040301FFFF\n"
    found = same(run(["log"], text.encode()), (3, wire, "line 3: bad line\n"), "log")
    other = wire.replace("can0", "vcan1").replace("000540", "001000").replace("001080", "002000")
    return found + same(run(["log", "--bus", "vcan1", "--period", "1000"], text.encode())[1], other, "bus and period")


WORDS = [
    ("(1792915208.500000) can0 18FECA00#04FF6E000001FFFF", "(1792915208.500000) can0 p6 0>all 65226 DM1: amber (04FF); 110/0/1 (110/0: above normal, most severe)"),
    ("(1792918802.110000) can0 18FECF00#04FF64000101FFFF", "(1792918802.110000) can0 p6 0>all 65231 DM6: amber (04FF); 100/1/1 (100/1: below normal, most severe)"),
    ("18FECF03#00FF00000000FFFF", "p6 3>all 65231 DM6: no lamp (00FF); -"),
    ("18FECA09#44DF00000000FFFF", "p6 9>all 65226 DM1: mil, amber (44DF); -"),
    ("18FECA0A#10DF00000000FFFF", "p6 10(0A)>all 65226 DM1: stop flashing fast (10DF); -"),
    ("18EAFFF9#00EE00", "p6 249(F9)>all 59904 request: of 60928 (claim)"),
    ("18EA00F9#CFFE00", "p6 249(F9)>0 59904 request: of 65231 (DM6)"),
    ("18EA0BFE#EEFE00", "p6 254(FE)>11(0B) 59904 request: of 65262 (ET1 engine temperature 1)"),
    ("18EA0BFE#00F000", "p6 254(FE)>11(0B) 59904 request: of 61440 (ERC1 electronic retarder controller 1)"),
    ("18EA0BFE#FFF000", "p6 254(FE)>11(0B) 59904 request: of 61695"),
    ("1CECF83D#100E0002FFCFFE00", "p7 61(3D)>248(F8) 60416 TP.CM: RTS 14 bytes in 2 packets, at most 255 at once, of 65231 (DM6)"),
    ("(1792915201.500000) can0 1CECFF00#200A0002FFCAFE00", "(1792915201.500000) can0 p7 0>all 60416 TP.CM: BAM 10 bytes in 2 packets of 65226 (DM1)"),
    ("(1792915216.120000) can0 18E8FF00#00FFFFFFF9CCFE00", "(1792915216.120000) can0 p6 0>all 59392 ack: positive, to 249(F9), of 65228 (DM3)"),
    ("0CF00400#F07D820C1D00F083", "p3 0>all 61444 EEC1 electronic engine controller 1: data F0 7D 82 0C 1D 00 F0 83"),
    ("0DF00400#F07D820C1D00F083", "p3 0>all 126980 -: data F0 7D 82 0C 1D 00 F0 83"),
    ("0C000B27#FF", "p3 39(27)>11(0B) 0 TSC1 torque/speed control 1: data FF"),
    ("18FECA00#04FFB8040381FFFF", "p6 0>all 65226 DM1: amber (04FF); (4 bytes of an older conversion method: FMI 3, count 1)"),
    ("18FECF00#04FFB8040381FFFF", "p6 0>all 65231 DM6: amber (04FF); (4 bytes of an older conversion method: FMI 3, count 1)"),
    ("19FECF00#04FFB8040301FFFF", "p6 0>all 130767 -: data 04 FF B8 04 03 01 FF FF"),
    ("18FECA00 04 FF B8 04 03 01 FF FF", "p6 0>all 65226 DM1: amber (04FF); 1208/3/1 (1208/3: voltage above normal or shorted high)"),
    ("", "-"),
]


def lines_in_words():
    text = "".join(line + "\n" for line, _ in WORDS)
    return same(run(["decode"], text.encode()), (0, "".join(words + "\n" for _, words in WORDS), ""), "decode")


def groups_in_words():
    """The name of each group up to 2^17, and none of any other: those of data as the model has them, those of the protocol."""
    numbers = range(0, 1 << 17)
    status, out, err = run(["decode"], "".join(f"18EA0BFE#{number.to_bytes(3, 'little').hex()}\n" for number in numbers).encode())
    names = words.GROUPS | words.DATA_GROUPS
    wanted = [f"p6 254(FE)>11(0B) 59904 request: of {number}" + (f" ({names[number]})" if number in names else "") for number in numbers]
    wrong = [pair for pair in zip(out.splitlines(), wanted, strict=True) if pair[0] != pair[1]]
    return same((status, err), (0, ""), "status") + [f"{len(wrong)} groups: {wrong[:3]}"] * bool(wrong)


def every_day():
    """Each day that a time can be of, as `candump -tA` writes it, and the days and times that there are none of."""
    first, days = datetime.date(1970, 1, 1), 10**10 // 86_400
    dates = [first + datetime.timedelta(days=day) for day in range(days)]
    lines = "".join(f" ({date} 0{day % 10}:{day % 60:02d}:{day % 61:02d}.{day % 1000:03d})  can0  18FECA00   [0]\n" for day, date in enumerate(dates))
    times = [line.split(")")[0] for line in run(["decode"], lines.encode())[1].splitlines()]
    wanted = [f"({day * 86_400 + day % 10 * 3600 + day % 60 * 60 + day % 61}.{day % 1000:03d}000" for day in range(days)]
    wrong = [(str(dates[day]), *pair) for day, pair in enumerate(zip(times, wanted, strict=True)) if pair[0] != pair[1]]
    none = [f"{year}-{month:02d}-{day:02d} 00:00:00" for year in range(1970, 2286) for month in range(14) for day in range(33) if not is_date(year, month, day)]
    none += ["2026-01-31 24:00:00", "2026-01-31 23:60:00", "2026-01-31 23:59:61", "1969-12-31 23:59:59", "2286-11-20 17:46:40"]
    told = run(["decode"], "".join(f"({time}.000) can0 18FECA00#\n" for time in none).encode())[1].splitlines()
    read = [pair for pair in zip(none, told, strict=True) if pair[1] != "bad: no time (SECONDS.MICROSECONDS)"]
    return [f"{len(wrong)} days: {wrong[:3]}"] * bool(wrong) + [f"{len(read)} that are none: {read[:3]}"] * bool(read)


def is_date(year, month, day):
    try:
        return bool(datetime.date(year, month, day))
    except ValueError:
        return False


def lines_in_json():
    status, out, err = run(["decode", "--format", "json"], MESSAGE + CLAIM + b"(1.0) can0 12#\n")
    objects = [json.loads(line) for line in out.splitlines()]
    wanted = {"line": 1, "time": "1.100000", "bus": "can0", "priority": 6, "source": 0, "destination": 255, "pgn": 65226}
    wanted |= {"data": "04FFB8040301FFFF", "says": "DM1: amber; 1208/3/1", "lamps": "04FF", "codes": [{"spn": 1208, "fmi": 3, "count": 1, "fmi_text": "voltage above normal or shorted high"}]}
    found = same(objects[0], wanted, "first object") + same(objects[1]["name"], "00000000000000A0", "NAME")
    found += same(objects[1]["fields"]["identity"], 0xA0, "identity") + same(len(objects), 3, "objects")
    return found + same((status, err), (3, "line 3: no time (SECONDS.MICROSECONDS)\n"), "status and standard error")


# Lines behind the first of a file of texts, and what is told of the one that is refused.
BAD_TEXTS = [
    (b"524288,1,too large\n", "line 2: spn: 524288 is not 0 to 524287"),
    (b"1,32,too large\n", "line 2: fmi: 32 is not 0 to 31"),
    (b"1,2,good\n,,none\n", "line 3: spn, fmi: all are empty"),
    (b"1,2\n", "line 2: 2 values, and the first line has 3"),
    (b"1,x,y\n", "line 2: fmi: x is not 0 to 31"),
    (b"1,2,\"of\ntwo lines\"\n1,2,\xff\n", "line 4: text: no UTF-8 (a spreadsheet saves it as CSV UTF-8)"),
    (b"1,2,x\n" * 300 + b"1,99,y\n", "line 302: fmi: 99 is not 0 to 31"),
]


def own_texts():
    """Texts of both numbers go before those of one; a file that holds none is refused, one that is not there is a failed read."""
    text = b"spn,fmi,text\n1208,,\"Pressure, filter\"\n,3,voltage high\n110,0,Coolant hot\n"
    lines = b"18FECA00#04FFB8040301FFFF\n18FECA00#04FF6E000001FFFF\n18FECA00#04FF6E000101FFFF\n18FECA00#04FFB8040501FFFF\n18FECA00#04FFB8041F01FFFF\n"
    wanted = ["1208/3/1 (1208/3: Pressure, filter, voltage high)", "110/0/1 (110/0: Coolant hot)", "110/1/1 (110/1: below normal, most severe)", "1208/5/1 (1208/5: Pressure, filter)", "1208/31/1 (1208/31: Pressure, filter)"]
    with tempfile.NamedTemporaryFile(suffix=".csv") as texts:
        texts.write(text)
        texts.flush()
        status, out, err = run(["decode", "--texts", texts.name], lines)
        found = same([line.split("amber (04FF); ")[1] for line in out.splitlines()], wanted, "texts")
        codes = [json.loads(line)["codes"][0].get("text") for line in run(["decode", "--texts", texts.name, "--format", "json"], lines)[1].splitlines()]
        found += same(codes, ["Pressure, filter, voltage high", "Coolant hot", None, "Pressure, filter", "Pressure, filter"], "texts in JSON")
        texts.seek(0)
        texts.truncate()
        texts.write(b"spn,fmi,text\n 110 , 0 ,first\n110,0,last\n524287,31,greatest\n,31,of any\n109,16,of another\n,0,zero\n0,,none\n")
        texts.flush()
        lines_of = b"18FECA00#04FF6E000001FFFF\n18FECA00#04FFFFFFFF01FFFF\n18FECA00#04FF6D001F01FFFF\n18FECA00#04FF00000001FFFF\n18FECA00#04FF00000101FFFF\n"
        wanted = ["110/0/1 (110/0: last)", "524287/31/1 (524287/31: greatest)", "109/31/1 (109/31: of any)", "0/0/1 (0/0: none, zero)", "0/1/1 (0/1: none)"]
        found += same([line.split("; ")[1] for line in run(["decode", "--texts", texts.name], lines_of)[1].splitlines()], wanted, "later texts, blanks, the greatest numbers")
        for bad, told in BAD_TEXTS:
            texts.seek(0)
            texts.truncate()
            texts.write(b"spn,fmi,text\n" + bad)
            texts.flush()
            found += same(run(["decode", "--texts", texts.name], lines), (2, "", f"fault: texts\ntexts, {told}\n"), f"{bad!r}")
    told = "fault: read\n/nowhere: "
    status, out, err = run(["decode", "--texts", "/nowhere"], lines)
    return found + same((status, out, err[: len(told)], err.count("\n")), (1, "", told, 2), "no file")


OIL = b"18FECA00#04FF64000301FFFF\n"
# What is read of a file, and what it gives the code 100/3 or the unit of function 0; or what is told where it is refused. `KEY` is `spn` or `function`.
FIRST_LINES = [
    (b"KEY,text\nN,Oil\n", "Oil"), (b"text,KEY\nOil,N\n", "Oil"), (b"Text , KEY\nOil,N\n", "Oil"), (b"TEXT;KEY\n\"a;b\";N\n", "a;b"), (b"KEY;text\nN;Oil, hot\n", "Oil, hot"),
    (b"KEY\ttext\r\nN\tOil; hot\r\n", "Oil; hot"), (b"\xef\xbb\xbfKEY;text\nN;Oil\n", "Oil"), (b"\n\nKEY,text\n\nN,Oil", "Oil"), (b'"KEY","text"\n"N","O""il"\n', 'O"il'),
    (b"#who,KEY,text,# when\nme,N,Oil,\"now\n\"\n", "Oil"), (b"KEY,text,\nN,Oil,\n", "Oil"), (b"KEY,text,,\nN,Oil, ,\n", "Oil"),
    (b"KEY,text,\nN,Oil, hot\n", "line 2: value 3 stands below no name of a column"), (b"KEY,text\nN,Oil, hot\n", "line 2: 3 values, and the first line has 2"),
    (b"N,Oil\n", "line 1: N is none of the columns NAMES (one of notes begins with #)"), (b"KEY,notes,text\nN,x,Oil\n", "line 1: notes is none of the columns NAMES (one of notes begins with #)"),
    (b"KEY,text,KEY\nN,Oil,N\n", "line 1: KEY stands there twice"), (b"KEY\nN\n", "line 1: no column text, or none of KEYS"), (b"#KEY,text\nN,Oil\n", "line 1: no column text, or none of KEYS"),
    (b"KEY,te\xfft\nN,Oil\n", "line 1: column: no UTF-8 (a spreadsheet saves it as CSV UTF-8)"), (b"KEY:text\nN:Oil\n", "line 1: KEY:text is none of the columns NAMES (one of notes begins with #)"),
    (b"KEY,text\nN,Oil\n1,\"Pump\n2,Valve\n3,Fan\n", "line 3: a quote that does not end"), (b"KEY,text\n1,\"Pump\nN,\"Oil\"\n", "line 2: a quote with more behind its end"),
    (b"\"KEY,text\nN,Oil\n", "line 1: a quote that does not end"), (b"KEY,text\nN,\"Oil\" hot\n", "line 2: a quote with more behind its end"), (b"KEY,text\nN,Oil \"hot\"\n", 'Oil "hot"'),
]


def first_lines():
    """The first line of either file names its columns, in any order, by any separator; a wrong one is told, and a quote that takes in the rest."""
    found = []
    kinds = (("--texts", b"spn", b"100", "spn, fmi", OIL, lambda line: line.split("(100/3: ")[1][:-1]),
             ("--units", b"function", b"0", "name, function, industry_group, vehicle_system, manufacturer", CLAIM, lambda line: line.partition("; ")[2]))
    for (text, wanted), (option, key, number, keys, line, told_of) in itertools.product(FIRST_LINES, kinds):
        text = text.replace(b"KEY", key).replace(b"N", number) if b"UTF" not in text else text
        with tempfile.NamedTemporaryFile(suffix=".csv") as file:
            file.write(text)
            file.flush()
            status, out, err = run(["decode" if option == "--texts" else "watch", option, file.name], line)
        if wanted.startswith("line "):
            wanted = wanted.replace("KEYS", keys).replace("NAMES", keys + ", text").replace("KEY", key.decode()).replace("N ", number.decode() + " ", 1)
            found += same((status, out, err), (2, "", f"fault: texts\n{option[2:]}, {wanted}\n"), f"{option} {text!r}")
        else:
            row = out.splitlines()[0 if option == "--texts" else 1] if status == 0 else out
            found += same((status, told_of(row) if status == 0 else row, err), (0, wanted, ""), f"{option} {text!r}")
    return found


def wrong_lines():
    """Of many wrong lines of a file the first ten are told, and the rest counted; a quote without an end is told behind those before it."""
    told = "".join(f"texts, line {line}: fmi: 32 is not 0 to 31\n" for line in range(2, 12))
    found = []
    for rows, more in ((b"1,32,x\n" * 12, "texts: and 2 more lines\n"), (b"1,32,x\n" * 10 + b'1,2,"x\n', "texts: and 1 more lines\n")):
        with tempfile.NamedTemporaryFile(suffix=".csv") as file:
            file.write(b"spn,fmi,text\n" + rows)
            file.flush()
            found += same(run(["decode", "--texts", file.name], OIL), (2, "", f"fault: texts\n{told}{more}"), more)
    return found


def most_exact_rows():
    """The most exact of many rows counts, the last of equally exact ones; looked up against a search of all rows, and where its columns of industry group and
    vehicle system are not there, as before these were."""
    chance, found = random.Random(64), []
    parts = ((40, 0xFF), (60, 7), (49, 0x7F), (21, 0x7FF))  # function, industry group, vehicle system, manufacturer: where it stands in a NAME
    clear = sum(most << at for at, most in parts)
    names = [chance.getrandbits(64) & ~clear | sum(chance.randrange(3) << at for at, _ in parts) for _ in range(12)]
    for count, columns in itertools.product((0, 1, 5, 40, 2000), ((0, 1, 2, 3), (0, 3), (1, 2))):
        rows = []
        for at in range(count):
            name = chance.choice(names) if chance.random() < 0.4 else None
            given = [chance.randrange(4) if place in columns and chance.random() < 0.5 else None for place in range(4)]
            if name is None and given == [None] * 4:
                given[columns[0]] = chance.randrange(4)
            rows.append((name, given, f"row {at}"))
        with tempfile.NamedTemporaryFile("w", suffix=".csv") as file:
            titles = ["function", "industry_group", "vehicle_system", "manufacturer"]
            file.write(",".join(["name", *(titles[place] for place in columns), "text"]) + "\n")
            file.writelines(",".join(["" if name is None else f"{name:016X}", *("" if given[place] is None else str(given[place]) for place in columns), text]) + "\n" for name, given, text in rows)
            file.flush()
            lines = "".join(f"(1.{at:06}) can0 18EEFF{at:02X}#{name.to_bytes(8, 'little').hex()}\n" for at, name in enumerate(names))
            out = run(["watch", "--units", file.name], lines.encode())[1].splitlines()
        told = {row[:16]: row.partition("; ")[2] for row in out if re.match("[0-9A-F]{16} ", row)}
        for name in names:
            fields = [name >> at & most for at, most in parts]
            fit = [([of is not None for of in (row, *given)], at, text) for at, (row, given, text) in enumerate(rows)
                   if row in (None, name) and all(one in (None, field) for one, field in zip(given, fields))]
            found += same(told[f"{name:016X}"] if fit else "", max(fit)[2] if fit else "", f"{count} rows of {columns}: {name:016X}")
    return found


def functions_of_industries():
    """A function from 128 on is another one in each industry group and vehicle system: each has a text of its own, and words that tell them apart."""
    lines = "".join(f"(1.{at:06}) can0 18EEFF{at:02X}#{(group << 60 | system << 49 | 129 << 40 | 5).to_bytes(8, 'little').hex()}\n" for at, (group, system) in enumerate([(1, 0), (2, 0), (2, 3)]))
    units = b"function,industry_group,vehicle_system,text\n129,1,,Tool\n129,2,,Of farms\n129,2,3,Sprayer\n"
    with tempfile.NamedTemporaryFile(suffix=".csv") as file:
        file.write(units)
        file.flush()
        out = run(["watch", "--units", file.name], lines.encode())[1].splitlines()
    found = same([line.partition("(")[2][:-len(") at 0")] for line in out[:3]], ["Tool", "Of farms", "Sprayer"], "texts")
    out = run(["watch"], lines.encode())[1].splitlines()
    wanted = [f"function 129 (industry group {group}, vehicle system {system}) instance 0, manufacturer 0, identity 5" for group, system in ((1, 0), (2, 0), (2, 3))]
    return found + same([line.partition(" (")[2][:-len(") at 0")] for line in out[:3]], wanted, "words")


def texts_of_rows():
    """Texts with commas, quotes, ends of lines and blanks, as Python's `csv` writes them, in files that end their lines either way, with a byte order mark or not."""
    chance, found = random.Random(3), []
    for ends, quoting, mark in itertools.product(("\n", "\r\n"), (csv.QUOTE_MINIMAL, csv.QUOTE_ALL), (b"", b"\xef\xbb\xbf")):
        texts = ["".join(chance.choices(["a", "\u00e4", ",", '"', " ", ";", "\n", "\r\n", "'"], k=chance.randint(1, 9))) for _ in range(40)]
        text = io.StringIO()
        rows = csv.writer(text, quoting=quoting, lineterminator=ends)
        rows.writerows([["spn", "fmi", "text"], *([100 + at, 3, words] for at, words in enumerate(texts))])
        lines = "".join(f"18FECA00#04FF{100 + at:02X}000301FFFF\n" for at in range(40)).encode()
        with tempfile.NamedTemporaryFile(suffix=".csv") as file:
            file.write(mark + text.getvalue().encode())
            file.flush()
            status, out, err = run(["decode", "--texts", file.name, "--format", "json"], lines)
        told = [json.loads(line)["codes"][0].get("text") for line in out.splitlines()]
        found += same((status, err), (0, ""), f"{ends!r} {quoting} {mark!r}") + [text for pair in zip(told, texts, strict=True) for text in same(*pair, f"{ends!r} {quoting} {mark!r}")]
    return found


def identifiers():
    """Priority, group, destination and source of each identifier; a group for all has the destination 255."""
    with (TOP / "tests/data/logs/identifiers.csv").open() as file:
        rows = list(csv.DictReader(file))
    status, out, err = run(["decode", "--format", "json"], "".join(f"{row['id']}#\n" for row in rows).encode())
    found = same(status, 0, "status") + same(len(out.splitlines()), len(rows), "lines")
    for row, line in zip(rows, out.splitlines()):
        told = json.loads(line)
        wanted = [int(row["priority"]), int(row["pgn"]), int(row["destination"] or 255), int(row["source"])]
        found += same([told["priority"], told["pgn"], told["destination"], told["source"]], wanted, row["id"])
    return found


# The two bytes of lamps, and what is told of them.
LAMPS = [
    ("00FF", "no lamp"), ("04FF", "amber"), ("54FF", "mil, stop, amber"), ("10FF", "stop"), ("10DF", "stop flashing fast"), ("10CF", "stop flashing slowly"), ("1000", "stop flashing slowly"), ("0155", "protect flashing fast"),
    ("FFFF", "lamps not available"), ("C3FF", "no lamp, mil/protect not available"), ("C7FF", "amber, mil/protect not available"), ("F7FF", "amber, mil/stop/protect not available"),
    ("80FF", "no lamp, mil reserved"), ("AAFF", "mil/stop/amber/protect reserved"), ("DBFF", "stop, mil/protect not available, amber reserved"), ("FEFF", "mil/stop/amber not available, protect reserved"),
]


def lamps_in_words():
    """One word for a lamp in every text, and that nothing is said of it where that is so (SAE J1939-73, 5.7.1)."""
    found = []
    for lamps, words in LAMPS:
        frame = f"(1.000000) can0 18FECA00#{lamps}64000301FFFF\n".encode()
        found += same(run(["decode"], frame)[1], f"(1.000000) can0 p6 0>all 65226 DM1: {words} ({lamps}); 100/3/1 (100/3: voltage above normal or shorted high)\n", f"decode of {lamps}")
        found += same(json.loads(run(["decode", "--format", "json"], frame)[1])["says"], f"DM1: {words}; 100/3/1", f"decode's JSON of {lamps}")
        status, out, err = run(["watch"], frame)
        found += same((status, err, out.splitlines()[:2]), (0, "", [f"1.000000 dm1 address 0, no claim seen: {words} ({lamps}); 100/3/1 (100/3: voltage above normal or shorted high)",
                                                                    f"address 0, no claim seen      1      0      0    1 {words} ({lamps})"]), f"watch of {lamps}")
    return found


def failure_modes_in_words():
    """Who has no texts reads in words what each FMI says: in `watch` as text, JSON, CSV and a page, and in `decode`."""
    found, lines = [], [(f"({fmi + 1}.000000) can0 18FECA00#04FFBE00{fmi:02X}01FFFF\n", fmi, mode) for fmi, mode in enumerate(words.FAILURE_MODES)]
    log = "".join(line for line, _, _ in lines).encode()
    text, page = run(["watch"], log)[1].splitlines(), run(["watch", "--format", "html"], log)[1]
    report = [json.loads(line) for line in run(["watch", "--format", "json"], log)[1].splitlines()]
    rows = list(csv.DictReader(io.StringIO(run(["watch", "--format", "csv"], log)[1])))
    decoded = run(["decode"], log)[1].splitlines()
    objects = [json.loads(line) for line in run(["decode", "--format", "json"], log)[1].splitlines()]
    ever = report[-1]["rows"][0]["ever"]["dm1"]["codes"]
    for at, (_, fmi, mode) in enumerate(lines):
        behind = f"190/{fmi}/1 (190/{fmi}: {mode})"
        told = [text[at].endswith(behind), decoded[at].endswith(behind), report[at]["codes"][0]["fmi_text"], ever[at]["fmi_text"], rows[at]["fmi_text"], objects[at]["codes"][0]["fmi_text"]]
        found += same(told, [True, True, mode, mode, mode, mode], f"FMI {fmi}")
        found += same(f'<b>190/{fmi}</b> <span class="text">{mode}: </span>' in page, fmi < 20, f"FMI {fmi} on the page, of which the first 20 codes are listed")
    return found + same(len(set(words.FAILURE_MODES[:22])), 22, "words that are the same")


def aborts_in_words():
    """Each reason for which a session was aborted, by its number, and to people in words where these are known."""
    log = "".join(f"1CEC00F9#FF{reason:02X}FFFFFFCAFE00\n" for reason in range(256)).encode()
    told = [line.partition("TP.CM: ")[2] for line in run(["decode"], log)[1].splitlines()]
    says = [json.loads(line)["says"] for line in run(["decode", "--format", "json"], log)[1].splitlines()]
    wanted = [f"abort for reason {reason}" + (f" ({words.ABORTS[reason]})" if reason in words.ABORTS else "") + ", of 65226 (DM1)" for reason in range(256)]
    return same(told, wanted, "decode") + same(says, [f"TP.CM: abort for reason {reason}, of 65226 (DM1)" for reason in range(256)], "JSON")
