"""What of a unit is told: rows, acknowledgments, why a message is unread, of one unit and of one time, of sessions."""

import csv
import io
import json
import re

from logs.common import CLAIM, MESSAGE, SHOWN, is_change, log_of, run, same

# The address of a unit's row, and how it stands there, and where the unit is told to be.
ADDRESSES = [(0, "      0"), (9, "      9"), (10, " 10(0A)"), (99, " 99(63)"), (100, "100(64)"), (253, "253(FD)")]


def addresses_in_rows():
    """In decimal, from 10 on with the hexadecimal digits behind, in a column of seven."""
    text = "".join(f"(1.000000) can0 18EEFF{address:02X}#{address:02X}00000000000000\n" for address, _ in ADDRESSES).encode()
    out = run(["watch"], text)[1].splitlines()
    unit = "function 0 instance 0, manufacturer 0, identity {}"
    found = same(out[:6], [f"1.000000 unit {address:016X} ({unit.format(address)}) at {words.strip()}" for address, words in ADDRESSES], "changes")
    rows = [f"{address:016X} {words}      0      0      0    - -; {unit.format(address)}" for address, words in ADDRESSES]
    return found + same(out[6:12], rows, "rows")


def acknowledgments_in_words():
    """By the control byte, for whom, and of which group by its name; the same again is not told."""
    answers = [(0, "positive"), (1, "negative"), (2, "access denied"), (3, "cannot respond now"), (4, "control 4"), (255, "control 255")]
    frames = [f"18E8FF00#{control:02X}FFFFFF{0x0B + control % 5:02X}EBFE00" for control, _ in answers] + ["18E8FF00#00FFFFFFF9EBFE00"] * 2 + ["18E8FF00#00FFFFFFFFDAFE00"]
    text = CLAIM + "".join(f"(2.000000) can0 {frame}\n" for frame in frames).encode()
    told = [line for line in run(["watch"], text)[1].splitlines() if " ack " in line]
    wanted = [f"2.000000 ack 00000000000000A0: {words}, to {0x0B + control % 5}({0x0B + control % 5:02X}), of 65259 (CI component identification)" for control, words in answers]
    wanted += ["2.000000 ack 00000000000000A0: positive, to 249(F9), of 65259 (CI component identification)", "2.000000 ack 00000000000000A0: positive, to all, of 65242 (SOFT software identification)"]
    return same(told, wanted, "acknowledgments")


def read_in_part():
    """What of a message is not read, and why one is not read at all; of an older code what its unit's conversion method says."""
    frames = ["18FECA00#04FFB80403", "18FECA00#04FF0017C385FFFF", "18FECA00#04", "1CECF900#100E0002FFCAFE00", "1CEBF900#0104FF6400010100", "1CEBF900#0200000065000101"]
    text = CLAIM + "".join(f"(2.{n}00000) can0 {frame}\n" for n, frame in enumerate(frames)).encode()
    told = [line for line in run(["watch"], text)[1].splitlines() if line.startswith("2.")]
    unit, behind = "00000000000000A0", " (100/1: below normal, most severe) (101/1: below normal, most severe)"
    found = same(told, [f"2.000000 dm1 {unit} amber (04FF); -; not read: 3 bytes behind the last code; 3 of 8 bytes missing", f"2.100000 dm1 {unit} amber (04FF); -; not read: 1 code of an older conversion method",
                        f"2.200000 unread 1: dm1 of {unit}: bad length", f"2.500000 dm1 {unit} amber (04FF); 100/1/1 101/1/1 to 249(F9){behind}; not read: 1 group of zeros"], "text")
    for method, spn in ((1, 190), (2, 47110), (3, 399104)):
        told = [line.split("; ")[1:] for line in run(["watch", "--conversion", f"{unit}={method}"], text)[1].splitlines() if line.startswith("2.1")]
        found += same(told, [[f"{spn}/3/5 ({spn}/3: voltage above normal or shorted high)", "1 code by an older conversion method"]], f"method {method}")
    *objects, report = [json.loads(line) for line in run(["watch", "--format", "json"], text)[1].splitlines()]
    found += same([[key for key, count in one["not_read"].items() if count] for one in objects if "not_read" in one], [["bytes_behind", "bytes_missing"], ["older"], ["zeros"]], "JSON")
    found += same([(one["count"], one["why"]) for one in objects if one["event"] == "unread"], [(1, "bad length")], "unread in JSON")
    return found + same((report["unread"], report["partly"]), (1, 3), "counts")


# What is left of the text of `watch` over log 02, whose engine and another unit contest address 0, and of which NAME or address it is asked.
ENGINE, OTHER, NEXT = "1000000001419907", "10001A092580001F", "1000000001419A27"
OF_ONE_UNIT = [
    (ENGINE, ["--unit", ENGINE], [ENGINE], 9),
    (ENGINE + " in small letters", ["--unit", ENGINE.lower()], [ENGINE], 9),
    ("address 0", ["--unit", "0"], [ENGINE, OTHER, NEXT], 11),
    ("address 7", ["--unit", "7"], [], 0),
]


def of_one_unit():
    """Its changes and its row alone, as they are told without it; what is counted is of all."""
    log, found = log_of("02-contention"), []
    whole = run(["watch"], log)[1].splitlines()
    for what, words, names, count in OF_ONE_UNIT:
        out = run(["watch", *words], log)[1].splitlines()
        changes, rows = [line for line in out if is_change(line)], [line for line in out if re.match(r"[0-9A-F]{16} ", line)]
        left = iter(whole)
        found += same([line for line in out if line not in left], [], f"{what}: lines of their own")
        found += same([row.split()[0] for row in rows], names, f"{what}: rows") + same(len(changes), count, f"{what}: changes") + same(out[-2:], whole[-2:], what)
    return found


def of_one_time():
    """Changes and entries from one time to another, both included, are as without it, but for the first of a list."""
    lines = [CLAIM.decode(), *(f"({n}.000000) can0 18FECA00#04FFB80403{n:02X}FFFF\n" for n in (2, 3, 4, 5))]
    found = []
    for words, wanted in (
        (["--from", "3"], "345"), (["--from", "2.000001"], "345"), (["--to", "3.000000"], "123"), (["--from", "3.000", "--to", "4.000000000"], "34"),
        (["--from", "1970-01-01 00:00:04.000"], "45"), (["--from", "6"], ""), (["--to", "0"], ""), ([], "12345"),
    ):
        status, out, err = run(["watch", *words], "".join(lines).encode())
        found += same([line[0] for line in out.splitlines() if is_change(line)], list(wanted), f"{words}: changes")
        entries = len(wanted.replace("1", ""))
        row = next(line for line in out.splitlines() if line.startswith("00000000000000A0 "))
        found += same(row.split()[2:4], [str(entries), "0"], f"{words}: {out}")
        told = "" if wanted else f"frames from 1.000000 to 5.000000 were read; none {'from 6.000000 on' if '--from' in words else 'until 0.000000'}\n"
        found += same((status, err), (3 if told else 0, told), f"{words}")
    return found


def assumed_owner():
    status, out, err = run(["watch", "--assume", "0=00000000000000A0", "--assume", "3=00000000000000A1"], MESSAGE)
    found = [] if SHOWN in out and "unowned" not in out else [out]
    rows = [line for line in out.splitlines() if " assumed; " in line]
    return found + same([row.split()[0] for row in rows], ["00000000000000A0", "00000000000000A1"], "assumed")


def session_to_an_address():
    """A session to 249 gives its DM2, or its DM6, and says where it went; with another address it is not shown."""
    found = []
    for kind, group in (("dm2", "CBFE00"), ("dm6", "CFFE00")):
        frames = ["18EEFF00#A000000000000000", f"1CECF900#100A0002FF{group}", "1CEBF900#0104FFB804030164", "1CEBF900#02000501FFFFFFFF"]
        text = "".join(f"({n}.000000) can0 {frame}\n" for n, frame in enumerate(frames)).encode()
        all_shown = run(["watch", "--silence", "0"], text)[1]
        own, other = (run(["watch", "--address", address, "--silence", "0"], text)[1] for address in ("249", "248"))
        told = f"3.000000 {kind} 00000000000000A0 amber (04FF); 1208/3/1 100/5/1 to 249(F9) (1208/3: voltage above normal or shorted high) (100/5: current below normal or open circuit)\n"
        found += [out for out in (all_shown, own) if told not in out] + ([other] if f" {kind} " in other else [])
    return found


def session_given_up():
    """Of a session that was announced and given up, packets of another group make no entry, whatever is said of silence."""
    packets = ["1CEBF900#0144444320585858", "1CEBF900#022A3132332A5A2A"]
    found = []
    for kind, group in (("dm2", "CBFE00"), ("dm6", "CFFE00")):
        frames = ["18EEFF00#A000000000000000", f"1CECF900#100E0002FF{group}", f"1CEC00F9#FF02FFFFFF{group}", "1CECF900#100E0002FFEBFE00"]
        for without in ((), (2,), (3,)):
            left = [frame for n, frame in enumerate(frames) if n not in without] + packets
            text = "".join(f"({n}.000000) can0 {frame}\n" for n, frame in enumerate(left)).encode()
            for silence in ("0", "750", "3600000"):
                out = run(["watch", "--address", "249", "--silence", silence], text)[1]
                entries = [line for line in out.splitlines() if f" {kind} " in line and " broken " not in line]
                found += [f"without {without}, silence {silence}: {out}"] if entries else []
    return found


def addresses_of_no_unit():
    """What comes from 254, the null address, or from 255 has a row that says that no unit holds it, and is told as from that address."""
    log = b"".join(b"(1.%06d) can0 18FECA%02X#04FF64000301FFFF\n" % (at, at) for at in (253, 254, 255))
    lines = run(["watch"], log)[1].splitlines()
    wanted = ["address 253(FD), no claim seen", "address 254(FE), no unit's address", "address 255(FF), no unit's address"]
    found = same([line.partition(" dm1 ")[2].partition(":")[0] for line in lines[:3]], wanted, "changes")
    found += same([words for words in wanted if any(line.startswith(words + " ") for line in lines[3:])], wanted, "rows")
    rows = list(csv.DictReader(io.StringIO(run(["watch", "--format", "csv"], log)[1])))
    found += same([row["name"] for row in rows], ["address 253, no claim seen", "address 254, no unit's address", "address 255, no unit's address"], "CSV")
    page = run(["watch", "--format", "html"], log)[1]
    hidden = run(["watch", "--unclaimed", "hide"], log)[1].splitlines()
    found += same([line.split(",")[0].split()[-1] for line in hidden[:3]], ["253(FD)", "254(FE)", "255(FF)"], "without rows")
    return found + same(("no claim seen" in page, "no unit's address" in page), (True, True), "page")
