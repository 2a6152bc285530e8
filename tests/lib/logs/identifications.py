"""What units tell of themselves, VIN, component, software and ECU identification: in the rows of a report, in each form."""

import csv
import io
import json
import random

from model.identifications import VIN as VIN_GROUP
from model.identifications import WORDS, text_of as text_in, told_of, words_of

from .common import run, same

VIN = "1FUJGLDR5CLBP8834"
CLAIM, OTHER = "18EEFF00#A000000000000000", "18EEFF00#9000000000000000"
BAM, RTS, CTS = "1CECFF00#20120003FFECFE00", "1CECF900#10120003FFECFE00", "1CEC00F9#11{:02X}{:02X}FFFFECFE00"
A0, B0 = ("A0", 0), ("90", 0)


def packets(text, dest="FF"):
    """The packets of a text, from address 0."""
    return [f"1CEB{dest}00#{at // 7 + 1:02X}" + text[at : at + 7].ljust(7, b"\xff").hex().upper() for at in range(0, len(text), 7)]


WHOLE = packets(VIN.encode() + b"*")
SESSION = packets(VIN.encode() + b"*", "F9")
# What it is, the frames, one each 200 ms, and of each row its NAME, or none, and its VIN.
TOLD = [
    ("a broadcast", [CLAIM, BAM, *WHOLE], [("A0", VIN)]),
    ("a session", [CLAIM, RTS, CTS.format(3, 1), *SESSION], [("A0", VIN)]),
    ("a packet of a session that comes again as it was asked for", [CLAIM, RTS, CTS.format(2, 1), *SESSION[:2], CTS.format(2, 2), *SESSION[1:]], [("A0", VIN)]),
    ("one that comes again though nobody asked", [CLAIM, RTS, SESSION[0], *SESSION], [("A0", None)]),
    ("an abort of the receiver", [CLAIM, RTS, SESSION[0], "1CEC00F9#FF02FFFFFFECFE00", *SESSION[1:]], [("A0", None)]),
    ("a session and a broadcast at once", [CLAIM, RTS, BAM, WHOLE[0], SESSION[0], *WHOLE[1:]], [("A0", VIN)]),
    ("another message is announced in its place", [CLAIM, BAM, WHOLE[0], "1CECFF00#20120003FFCAFE00", *WHOLE[1:]], [("A0", None)]),
    ("a packet is missing", [CLAIM, BAM, WHOLE[0], WHOLE[2]], [("A0", None)]),
    ("the address changes hands in mid-message", [CLAIM, BAM, *WHOLE[:2], OTHER, WHOLE[2]], [("A0", None), ("90", None)]),
    ("the same NAME claims again", [CLAIM, BAM, *WHOLE[:2], CLAIM, WHOLE[2]], [("A0", VIN)]),
    ("the address changes hands behind it", [CLAIM, BAM, *WHOLE, OTHER], [("A0", VIN), ("90", None)]),
    ("a claim in mid-message where nobody had claimed", [BAM, WHOLE[0], CLAIM, *WHOLE[1:]], [("A0", None)]),
    ("an address that nobody claimed", [BAM, *WHOLE], [(None, VIN)]),
    ("and its codes", ["18FECA00#04FFB8040301FFFF", BAM, *WHOLE], [(None, VIN)]),
    ("a gap in mid-message", [CLAIM, BAM, WHOLE[0], "x", *WHOLE[1:]], [("A0", None)]),
    ("behind a gap it is kept", [CLAIM, BAM, *WHOLE, "x"], [("A0", VIN)]),
    ("one frame", [CLAIM, "18FEEC00#5649" + "4E2A" + "FFFFFFFF"], [("A0", "VIN")]),
    ("one frame without a star", [CLAIM, "18FEEC00#56494EFFFFFFFFFF"], [("A0", "VIN")]),
    ("no characters change nothing", [CLAIM, "18FEEC00#56494E2A", "18FEEC00#2AFFFFFFFFFFFFFF"], [("A0", "VIN")]),
    ("the newest", [CLAIM, "18FEEC00#41412A", "18FEEC00#42422A"], [("A0", "BB")]),
    ("another data page", [CLAIM, "19FEEC00#41412A"], [("A0", None)]),
    ("200 bytes", [CLAIM, "1CECFF00#20C9001DFFECFE00", *packets(b"0123456789" * 20 + b"*")], [("A0", "0123456789" * 20)]),
    ("200 bytes of more", [CLAIM, "1CECFF00#20CA001DFFECFE00", *packets(b"0123456789" * 20 + b"0*")], [("A0", "0123456789" * 20 + "...")]),
    ("bytes that a terminal obeys", [CLAIM, "18FEEC00#1B5B33316DE9002A"], [("A0", "\\x1B[31m\\xE9\\x00")]),
    ("markup", [CLAIM, "18FEEC00#3C623E2622" + "2A"], [("A0", '<b>&"')]),
    ("a formula", [CLAIM, "18FEEC00#3D312B31" + "2C5C2A"], [("A0", "=1+1,\\")]),
]


def text_of(frames, bus="can0"):
    return "".join(f"({at // 5}.{at % 5 * 200:03d}000) {bus} {frame}\n" if "#" in frame else f"({frame}\n" for at, frame in enumerate(frames))


def name_of(name):
    return None if name is None else name.rjust(16, "0")


COMPONENT = b"DETDL*6R1011*0692*U1*"
SOFTWARE = b"\x02A1.7*B-0x3F*"
ECU = b"7421-9*SN0007**DDEC*Detroit*"
ALL_FOUR = {65260: VIN.encode() + b"*", 65259: COMPONENT, 65242: SOFTWARE, 64965: ECU}
BELOW = ["  component: make DETDL, model 6R1011, serial number 0692, unit number U1", "  software: A1.7, B-0x3F",
         "  ecu: part number 7421-9, serial number SN0007, type DDEC, manufacturer Detroit"]
LISTS = {"vin": VIN, "component": ["DETDL", "6R1011", "0692", "U1"], "software": ["A1.7", "B-0x3F"], "ecu": ["7421-9", "SN0007", "", "DDEC", "Detroit"]}
COLUMNS = [VIN, "DETDL*6R1011*0692*U1", "A1.7*B-0x3F", "7421-9*SN0007**DDEC*Detroit"]


def announced(pgn, size, dest="FF"):
    return f"1CEC{dest}00#{'20' if dest == 'FF' else '10'}" + size.to_bytes(2, "little").hex().upper() + f"{-(-size // 7):02X}FF" + pgn.to_bytes(3, "little").hex().upper()


def sent(pgn, text, dest="FF"):
    """In packets, to all or in a session."""
    allowed = [] if dest == "FF" else [f"1CEC00{dest}#11{-(-len(text) // 7):02X}01FFFF" + pgn.to_bytes(3, "little").hex().upper()]
    return [announced(pgn, len(text), dest), *allowed, *packets(text, dest)]


def rows_in(log, *words):
    return json.loads(run(["watch", *words, "--format", "json"], log.encode())[1].splitlines()[-1])["rows"]


def all_four():
    """A unit that says all four, by broadcast and by session: in its row and below it, as keys and in columns; and what is told of each once."""
    found = []
    for dest in ("FF", "F9"):
        log = text_of([CLAIM, *(frame for pgn, text in ALL_FOUR.items() for frame in sent(pgn, text, dest)), *sent(65259, COMPONENT, dest)])
        told = run(["watch"], log.encode())[1].splitlines()
        events = [line.split(" ", 1)[1] for line in told if any(f" {word} {name_of('A0')} " in line for word in WORDS.values())]
        wanted = [f"vin {name_of('A0')} {VIN}"] + [f"{line.split(':')[0].strip()} {name_of('A0')} {line.split(': ')[1]}" for line in BELOW]
        found += same(events, wanted, f"to {dest}: changes")
        row = next(at for at, line in enumerate(told) if line.endswith(f"; VIN {VIN}"))
        found += same(told[row + 1 : row + 4], BELOW, f"to {dest}: below the row")
        found += same([{key: row.get(key) for key in LISTS} for row in rows_in(log)], [LISTS], f"to {dest}: JSON")
        values = next(csv.DictReader(io.StringIO(run(["watch", "--format", "csv"], log.encode())[1])))
        found += same([values[key] for key in LISTS], COLUMNS, f"to {dest}: CSV")
        page = run(["watch", "--format", "html"], log.encode())[1]
        found += same([page.count(f">{line.strip().replace('ecu', 'ECU')}</div>") for line in BELOW], [1, 1, 1], f"to {dest}: page")
    return found


def identifications_of_two_units():
    """Two units change addresses between two packets: none of both has what was half said; whole ones stay apart, of each unit and each group."""
    swap = ["18EEFF00#9000000000000000", "18EEFF01#A000000000000000"]
    mine, other = sent(65259, COMPONENT), [frame.replace("FF00#", "FF01#", 1) for frame in sent(64965, ECU)]
    claims = [CLAIM, "18EEFF01#9000000000000000"]
    found = []
    for what, frames, wanted in [
        ("in mid-message", [*claims, *mine[:2], *other[:3], *swap, *mine[2:], *other[3:]], [("A0", {}), ("90", {})]),
        ("behind them", [*claims, *mine, *other, *swap], [("A0", {"component": LISTS["component"]}), ("90", {"ecu": LISTS["ecu"]})]),
        ("one, behind the other", [*claims, *mine, *other[:3], *swap, *other[3:]], [("A0", {"component": LISTS["component"]}), ("90", {})]),
        ("another group is announced in its place", [*claims, *mine[:2], *sent(65242, SOFTWARE), *mine[2:]], [("A0", {"software": LISTS["software"]}), ("90", {})]),
        ("a VIN and a component by turns", [*claims, sent(65260, ALL_FOUR[65260], "F9")[0], sent(65259, COMPONENT)[0], *packets(ALL_FOUR[65260], "F9")[:2], *packets(COMPONENT)[:2], packets(ALL_FOUR[65260], "F9")[2], packets(COMPONENT)[2]],
         [("A0", {"vin": VIN, "component": LISTS["component"]}), ("90", {})]),
        ("a quote, a backslash and what a terminal obeys", [*claims, *sent(65259, b'a"\\\x1b*\xe9<b>*=1')], [("A0", {"component": ['a"\\\\x1B', "\\xE9<b>", "=1"]}), ("90", {})]),
        ("no characters tell none", [*claims, "18FEEB00#2AFFFFFFFFFFFFFF", "18FEDA00#02FFFFFFFFFFFFFF", "1DFDC500#FF"], [("A0", {}), ("90", {})]),
        ("empty fields", [*claims, "18FEEB00#2A2A2AFFFFFFFFFF"], [("A0", {"component": ["", "", ""]}), ("90", {})]),
        ("of more than 200 bytes the front", [*claims, *sent(64965, b"P" * 199 + b"*S" + b"T" * 9)], [("A0", {"ecu": ["P" * 199, "..."]}), ("90", {})]),
    ]:
        found += same([(row["name"], {key: row[key] for key in LISTS if key in row}) for row in rows_in(text_of(frames))], [(name_of(name), of) for name, of in wanted], what)
    unclaimed = text_of([*sent(65259, COMPONENT), *sent(65242, SOFTWARE)])
    found += same([(row["name"], row["address"], row["component"], row["software"]) for row in rows_in(unclaimed)], [(None, 0, LISTS["component"], LISTS["software"])], "one row of an address that nobody claimed")
    found += same([line for line in run(["watch"], unclaimed.encode())[1].splitlines() if line.startswith("  ")], BELOW[:2], "and below it")
    return found


def hostile_payloads(count=20_000):
    """Payloads of any bytes, in one frame and in packets: each text is told as the rules have it, where it differs from the one before."""
    chance, frames, wanted, last = random.Random(75), [CLAIM], [], {}
    for _ in range(count):
        pgn = chance.choice(list(WORDS))
        size = chance.choice([9, 15, 60, 210, 1785]) if chance.random() < 0.02 else chance.randint(0, 8)
        payload = bytes(chance.choice([42, 255, 34, 92, 44, chance.getrandbits(8), chance.getrandbits(8), chance.getrandbits(8)]) for _ in range(size))
        frames += sent(pgn, payload) if size > 8 else [f"18{pgn:04X}00#{payload.hex().upper()}"]
        text = text_in(pgn, payload)
        if text and last.get(pgn) != text:
            last[pgn] = text
            wanted.append((pgn, text))
    log = "".join(f"(1.000000) can0 {frame}\n" for frame in frames).encode()
    words = [f"1.000000 {WORDS[pgn]} {name_of('A0')} {words_of(pgn, text)}" for pgn, text in wanted]
    found = same([line for line in run(["watch"], log)[1].splitlines()[1 : len(wanted) + 1]], words, "text")
    events = [json.loads(line) for line in run(["watch", "--format", "json"], log)[1].splitlines()[1:-1]]
    found += same([(event["event"], event[event["event"]]) for event in events], [(WORDS[pgn], told_of(pgn, text)) for pgn, text in wanted], "JSON")
    return found + same(VIN_GROUP in last, True, "VINs among them")


def vins_in_rows():
    """Each in text, JSON and CSV, under whoever held the address from its first frame to its last."""
    found = []
    for what, frames, wanted in TOLD:
        log, rows = text_of(frames).encode(), [(name_of(name), vin) for name, vin in wanted]
        lines = [line for line in run(["watch"], log)[1].splitlines() if line.startswith(("address ", "00000000"))]
        found += same([line.partition("; VIN ")[2] or None for line in lines], [vin for _, vin in rows], f"{what}: text")
        report = json.loads(run(["watch", "--format", "json"], log)[1].splitlines()[-1])
        found += same([(row["name"], row.get("vin")) for row in report["rows"]], rows, f"{what}: JSON")
        values = list(csv.DictReader(io.StringIO(run(["watch", "--format", "csv"], log)[1])))
        guarded = [(name, ("'" if vin and vin[0] in "=+-@" else "") + (vin or "")) for name, vin in rows]
        found += same([(row["name"] if row["name"][0] == "0" else None, row["vin"]) for row in values], guarded, f"{what}: CSV")
        found += same(list(values[0])[-4:], ["vin", "component", "software", "ecu"], f"{what}: the last columns")
    return found


def vins_that_change():
    """Each that differs from the one before is told, in text and JSON."""
    log = text_of([CLAIM, BAM, *WHOLE, BAM, *WHOLE, "18FEEC00#41412A", "18FEEC00#2A", "18FEEC01#42422A", OTHER, "18FEEC00#41412A"]).encode()
    texts = [line.partition(" vin ")[2] for line in run(["watch"], log)[1].splitlines() if " vin " in line]
    found = same(texts, [f"{name_of('A0')} {VIN}", f"{name_of('A0')} AA", "address 1, no claim seen: BB", f"{name_of('90')} AA"], "text")
    objects = [json.loads(line) for line in run(["watch", "--format", "json"], log)[1].splitlines() if '"event":"vin"' in line]
    wanted = [{"line": 5, "time": "0.800000", "event": "vin", "name": name_of("A0"), "address": 0, "vin": VIN}, {"line": 10, "time": "1.800000", "event": "vin", "name": name_of("A0"), "address": 0, "vin": "AA"},
              {"line": 12, "time": "2.200000", "event": "vin", "name": None, "address": 1, "gaps": 0, "vin": "BB"}, {"line": 14, "time": "2.600000", "event": "vin", "name": name_of("90"), "address": 0, "vin": "AA"}]
    return found + same(objects, wanted, "objects")


def vins_of_two_buses():
    """The same NAME on two buses is two units."""
    log = text_of([CLAIM, "18FEEC00#41412A"]) + text_of([CLAIM, "18FEEC00#42422A"], "can1") + text_of([CLAIM], "can2")
    report = json.loads(run(["watch", "--bus", "all", "--format", "json"], log.encode())[1].splitlines()[-1])
    return same([(row["bus"], row["name"], row.get("vin")) for row in report["rows"]], [("can0", name_of("A0"), "AA"), ("can1", name_of("A0"), "BB"), ("can2", name_of("A0"), None)], "buses")


def vins_that_are_shown():
    """As entries of codes are: of one unit, one time, one receiver, and of addresses that nobody claimed."""
    broadcast, session = text_of([CLAIM, BAM, *WHOLE]), text_of([CLAIM, RTS, CTS.format(3, 1), *SESSION])
    unclaimed = text_of([BAM, *WHOLE])
    found = []
    for words, log, wanted in [
        (["--unit", name_of("A0")], broadcast, [VIN]), (["--unit", name_of("90")], broadcast, []), (["--unit", "0"], broadcast, [VIN]), (["--unit", "1"], broadcast, []),
        (["--from", "0.700000"], broadcast, [VIN]), (["--from", "0.900000"], broadcast, [None]), (["--to", "0.800000"], broadcast, [VIN]), (["--to", "0.700000"], broadcast, [None]),
        (["--address", "249"], session, [VIN]), (["--address", "250"], session, [None]), (["--address", "250"], broadcast, [VIN]),
        (["--unclaimed", "hide"], unclaimed, []), (["--assume", "0=" + name_of("90")], unclaimed, [VIN]),
    ]:
        report = json.loads(run(["watch", *words, "--format", "json"], log.encode())[1].splitlines()[-1])
        found += same([row.get("vin") for row in report["rows"]], wanted, " ".join(words))
    return found


def vins_go_on():
    """A VIN stays where a watch is begun anew; one that is half read does not."""
    runs = "".join(f"(2.{at:03d}000) can0 18FECA00#04FFB80403{at % 126 + 1:02X}FFFF\n" for at in range(40))
    found = []
    for what, log, wanted in [("whole", text_of([CLAIM, BAM, *WHOLE]) + runs, VIN), ("half read", text_of([CLAIM, BAM, *WHOLE[:2]]) + runs + f"(2.050000) can0 {WHOLE[2]}\n", None)]:
        out = run(["watch", "--keep", "30", "--format", "json"], log.encode())[1].splitlines()
        reports = [json.loads(line) for line in out if '"rows"' in line]
        found += same([[row.get("vin") for row in report["rows"]] for report in reports], [[wanted], [wanted]], what)
    return found
