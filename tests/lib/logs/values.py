"""The values of signals in watch: of each signal of a unit the newest, the least and the greatest, in each form; and those at the first time of a code."""

import csv
import decimal
import io
import json
import re
import tempfile

from harness import TOP
from model.frames import Frame, claimed_name
from model.signal_values import SignalFile

from .common import log_of, run, same

FILE = str(TOP / "examples/signals.dbc")
LINE = re.compile(rb"\((\d+\.\d+)\) (\S+) ([0-9A-F]{8})#([0-9A-F]*)")
LOGS = ("01-startup-and-dm1", "04-pending-codes", "06-no-claims")
MESSAGE = 'BO_ 2566844158 Oil: 8 X\n SG_ Oil : 0|8@1{sign} ({factor},{offset}) [0|0] "{unit}" X\n'
KEYS = ("newest", "least", "greatest")


def values_of(log, data, first=None, last=None):
    """Of each unit, source, group and signal the values with their times, one after the other. A unit is its NAME, or none where nobody has claimed its source."""
    signals, owners, found = SignalFile(data), {}, {}
    for time, _, number, payload in LINE.findall(log):
        frame = Frame(int(number, 16), bytes.fromhex(payload.decode()))
        if (name := claimed_name(frame)) is not None:
            owners = {source: owner for source, owner in owners.items() if owner != name} | {frame.source: name}
        if (first and time.decode() < first) or (last and time.decode() > last):
            continue
        for signal, value, word in signals.told(frame.pgn, frame.source, frame.data) or []:
            raw = signal.raw(frame.data)
            below = (1 << signal.count) - 1 - raw if signal.count < 8 else 255 - (raw >> signal.count - 8)
            if value is not None and not (below < 2 and not signal.is_signed and signal.count > 1):
                found.setdefault((owners.get(frame.source), frame.source, frame.pgn, signal.name), []).append((decimal.Decimal(value), time.decode()))
    return found


def shown(values):
    """The newest, and the first of the least and of the greatest."""
    return values[-1], min(values, key=lambda it: it[0]), max(values, key=lambda it: it[0])


def in_json(log, words):
    report = json.loads(run(["watch", "--format", "json", *words], log)[1].splitlines()[-1], parse_float=decimal.Decimal, parse_int=decimal.Decimal)
    return {(None if it["name"] is None else int(it["name"], 16), int(it["source"]), int(it["pgn"]), it["signal"]):
            (int(it["times"]), *((it[key]["value"], it[key]["time"]) for key in KEYS)) for it in report["values"]}


def values_in_json():
    """Those of three logs are what a model of its own says, also of a part of the time."""
    found, data = [], (TOP / "examples/signals.dbc").read_bytes()
    for name in LOGS:
        log = log_of(name)
        times = [line[0].decode() for line in LINE.findall(log)]
        for first, last in ((None, None), (times[len(times) // 3], times[len(times) // 2])):
            wanted = {key: (len(it), *shown(it)) for key, it in values_of(log, data, first, last).items()}
            words = ["--signals", FILE, *(["--from", first, "--to", last] if first else [])]
            found += same(in_json(log, words), wanted, f"{name} from {first}")
    return found


def values_in_csv():
    """The same as rows of their own, behind those of codes, which are as without them."""
    found, log = [], log_of(LOGS[0])
    rows = list(csv.DictReader(io.StringIO(run(["watch", "--format", "csv", "--signals", FILE], log)[1])))
    plain = list(csv.DictReader(io.StringIO(run(["watch", "--format", "csv"], log)[1])))
    found += same([{key: row[key] for key in plain[0]} for row in rows if row["kind"] != "value"], plain, "rows of codes")
    found += same({len(row) for row in rows} | {None in row for row in rows}, {len(rows[0]), False}, "columns")
    got = {(int(row["name_hex"], 16), int(row["source"]), row["signal"]): (int(row["entries"]), row["newest"], row["last_time"], row["least"], row["least_time"], row["greatest"], row["greatest_time"])
           for row in rows if row["kind"] == "value"}
    wanted = {}
    for (name, source, _, signal), it in values_of(log, (TOP / "examples/signals.dbc").read_bytes()).items():
        newest, least, greatest = shown(it)
        wanted[name, source, signal] = (len(it), f"{newest[0]}", newest[1], f"{least[0]}", least[1], f"{greatest[0]}", greatest[1])
    return found + same(got, wanted, "rows of values")


def values_in_text():
    """A line for each, between the rows and the counts; without the file nothing of it, byte for byte."""
    log = log_of(LOGS[0])
    lines, plain = run(["watch", "--signals", FILE], log)[1].splitlines(), run(["watch"], log)[1].splitlines()
    found = same([line for line in lines if not line.startswith("value ")], plain, "other lines")
    speed = [line for line in lines if "EngineSpeed" in line]
    return found + same(speed, ["value 1000000001419907 at 0: EngineSpeed 1186.625 rpm at 1792915239.900000; least 705.125 rpm at 1792915204.700000; greatest 1595.25 rpm at 1792915223.800000; 396 values"], "a line")


def of_signal(frames, words=(), **given):
    """What is told of the signal of a file of one signal, of these frames."""
    given = {"sign": "+", "factor": "1", "offset": "0", "unit": ""} | given
    with tempfile.NamedTemporaryFile(suffix=".dbc") as file:
        file.write(MESSAGE.format(**given).encode())
        file.flush()
        return run(["watch", "--signals", file.name, *words], "".join(f"({at}.000000) can0 {it}\n" for at, it in enumerate(frames, 1)).encode())[1]


def values_that_are_kept():
    """An error, what is not available and what does not fit count for nothing; a sign and a factor below 0 turn the order; a gap begins another row."""
    told = [
        ("ranges", ["18FEEE00#05", "18FEEE00#FF", "18FEEE00#FE", "18FEEE00#", "18FEEE00#03"], {}, ["value address 0, no claim seen at 0: Oil 3 at 5.000000; least 3 at 5.000000; greatest 5 at 1.000000; 2 values"]),
        ("a sign", ["18FEEE00#05", "18FEEE00#FF"], {"sign": "-"}, ["value address 0, no claim seen at 0: Oil -1 at 2.000000; least -1 at 2.000000; greatest 5 at 1.000000; 2 values"]),
        ("a factor", ["18FEEE00#05", "18FEEE00#06"], {"factor": "-0.5", "offset": "1.25", "unit": "bar"}, ["value address 0, no claim seen at 0: Oil -1.75 bar at 2.000000; least -1.75 bar at 2.000000; greatest -1.25 bar at 1.000000; 2 values"]),
        ("one", ["18FEEE00#05"], {"unit": "\x1b"}, ["value address 0, no claim seen at 0: Oil 5 \\x1B at 1.000000; least 5 \\x1B at 1.000000; greatest 5 \\x1B at 1.000000; 1 value"]),
        ("equal ones", ["18FEEE00#05", "18FEEE00#05"], {}, ["value address 0, no claim seen at 0: Oil 5 at 2.000000; least 5 at 1.000000; greatest 5 at 1.000000; 2 values"]),
        ("owners", ["18FEEE00#05", "18EEFF00#A000000000000000", "18FEEE00#06"], {}, ["value 00000000000000A0 at 0: Oil 6 at 3.000000; least 6 at 3.000000; greatest 6 at 3.000000; 1 value", "value address 0, no claim seen at 0: Oil 5 at 1.000000; least 5 at 1.000000; greatest 5 at 1.000000; 1 value"]),
        ("another bus", ["18FEEE00#05", "x"], {}, ["value address 0, no claim seen at 0: Oil 5 at 1.000000; least 5 at 1.000000; greatest 5 at 1.000000; 1 value"]),
    ]
    found = []
    for what, frames, given, wanted in told:
        found += same([line for line in of_signal(frames, **given).splitlines() if line.startswith("value")], wanted, what)
    hidden = of_signal(["18FEEE00#05", "18EEFF00#A000000000000000", "18FEEE00#06", "18EEFF01#B000000000000000", "18FEEE01#07"], ["--unit", "00000000000000A0"])
    return found + same([line[:30] for line in hidden.splitlines() if line.startswith("value")], ["value 00000000000000A0 at 0: O"], "of one unit")


def values_at_first_times():
    """On the page a code's first time has the values that came within 10 s before it, the engine's speed first; of one moment once; and a curve."""
    claim, engine = "18EEFF00#A000000000000000", "0CF00400#00000020030000FF"
    frames = [claim, engine, "18FECA00#04FFB8040301FFFF", "0CF00400#00000020040000FF", "18FECA00#04FFBE000201FFFF", *["0CF00400#00000020050000FF"] * 3]
    log = "".join(f"({at}.000000) can0 {it}\n" for at, it in enumerate(frames, 1)).encode()
    page = run(["watch", "--signals", FILE, "--format", "html"], log)[1]
    text = re.sub(r"<[^>]*>", "", page)
    found = same(re.findall(r"At that first time: EngineSpeed ([\d.]+) rpm", text), ["100", "132"], "moments")
    late = run(["watch", "--signals", FILE, "--format", "html"], log.replace(b"(3.000000)", b"(12.000001)").replace(b"(4.0", b"(14.0").replace(b"(5.0", b"(15.0").replace(b"(6.0", b"(16.0").replace(b"(7.0", b"(17.0").replace(b"(8.0", b"(18.0"))[1]
    found += same(re.findall(r"At that first time: EngineSpeed ([\d.]+) rpm", re.sub(r"<[^>]*>", "", late)), ["132"], "a value of more than 10 s")
    found += same(page.count("<svg xmlns=\"http://www.w3.org/2000/svg\" class=\"curve\"") > 0, True, "a curve")
    return found + same("At that first" in run(["watch", "--format", "html"], log)[1], False, "without the file")


def values_are_bounded():
    """Of 6,000 values of a signal the page has no more than of a few hundred; of very many units the first 2,048 signals are kept."""
    def page(count):
        lines = "".join(f"({at // 100}.{at % 100:02d}0000) can0 18FEEE00#{at * 7 % 250:02X}\n" for at in range(count)).encode()
        with tempfile.NamedTemporaryFile(suffix=".dbc") as file:
            file.write(MESSAGE.format(sign="+", factor="1", offset="0", unit="").encode())
            file.flush()
            return len(run(["watch", "--signals", file.name, "--format", "html"], lines)[1])
    found = same(page(6_000) < page(600) + 2_000, True, "a page")
    many = "".join(f" SG_ S{at} : {at}|2@1+ (1,0) [0|0] \"\" X\n" for at in range(62))
    with tempfile.NamedTemporaryFile(suffix=".dbc") as file:
        file.write(f"BO_ 2566844158 Oil: 8 X\n{many}".encode())
        file.flush()
        lines = "".join(f"(1.000000) can0 18FEEE{source:02X}#0000000000000000\n" for source in range(254)).encode()
        told = [line for line in run(["watch", "--signals", file.name], lines)[1].splitlines() if line.startswith("value")]
    return found + same((len(told), told[-1]), (2_049, f"value: {254 * 62 - 2_048} values of further signals are not kept"), "many")
