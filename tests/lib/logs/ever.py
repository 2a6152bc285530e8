"""What units told at any time of a log, beside how they stood at its end."""

import csv
import io
import json

from logs.common import run, same

MOST, HIGH = "above normal, most severe", "voltage above normal or shorted high"
LAMP_ON, ALL_OFF = "18FECA00#10FF64000301FFFF", "18FECA00#00FF00000000FFFF"


def line(time, frame, bus="can0"):
    return f"({time}.000000) {bus} {frame}\n"


def flickering():
    """A unit without a fault; one whose red stop lamp is on for ten seconds in each half minute of thirty minutes, 60 times, and off at the end; and one that tells an amber lamp and two codes, and
    is silent for the last twenty minutes but for a pending code."""
    lines = [line(0, "18EEFF05#0599410100000010"), line(0, "18EEFF00#0799410100000010"), line(0, "18EEFF03#0899410100000010")]
    for second in range(1, 1801):
        lines.append(line(second, "18FECA05#00FF00000000FFFF"))
        lines.append(line(second, LAMP_ON if second % 30 in range(10, 20) else ALL_OFF))
        if second <= 600:
            lines.append(line(second, "18FECA03#04FF6E000001FFFF" if second < 500 else "18FECA03#04FFAF000001FFFF"))
    return "".join([*lines, line(1800, "18FECF03#00FFAF000001FFFF")])


FIRST = """1000000001419907       0   1800      0      0    0 no lamp (00FF); function 0 instance 0, manufacturer 10, identity 104711
  ever dm1: stop 60 times, first 10.000000, last 1789.000000; last heard 1800.000000
  ever dm1: 100/3 60 times, first 10.000000, last 1789.000000 (100/3: voltage above normal or shorted high)
"""
QUIET = "1000000001419905       5   1800      0      0    0 no lamp (00FF); function 0 instance 0, manufacturer 10, identity 104709\n"
SILENT = """1000000001419908       3    600      0      1    1 amber (04FF); function 0 instance 0, manufacturer 10, identity 104712
  ever dm1: amber 1 time, first 1.000000, last 600.000000; last heard 600.000000, not heard for the last 20 min 0 s
  ever dm1: 110/0 1 time, first 1.000000, last 499.000000 (110/0: above normal, most severe)
  ever dm1: 175/0 1 time, first 500.000000, last 600.000000 (175/0: above normal, most severe)
  ever dm6: no lamp; last heard 1800.000000
  ever dm6: 175/0 1 time, first 1800.000000, last 1800.000000 (175/0: above normal, most severe)
"""
COUNTED = "missed 0 unread 0\nlines 4204 frames 4204 bad 0; not J1939: 11-bit 0, remote 0, CAN FD 0, error 0; other bus 0; not attributed 0\n"


def rows_behind_changes(out):
    """The report, behind the last change."""
    lines = out.splitlines(True)
    first = next(at for at, line in enumerate(lines) if line.startswith("10000"))
    return "".join(lines[first:])


def ever_in_text():
    """Below a unit's row stand its worst lamp, each code, and how long it was silent; a unit that had red stands first."""
    log = flickering().encode()
    status, out, err = run(["watch"], log)
    found = same((status, err, rows_behind_changes(out)), (0, "", FIRST + QUIET + SILENT + COUNTED), "text")
    dated = run(["watch", "--clock", "relative"], log)[1].splitlines()
    found += same("  ever dm1: 100/3 60 times, first +0:00:10.000000, last +0:29:49.000000 (100/3: voltage above normal or shorted high)" in dated, True, "relative times")
    each = run(["watch", "--bus", "all"], log)[1].splitlines()
    found += same("can0   ever dm6: 175/0 1 time, first 1800.000000, last 1800.000000 (175/0: above normal, most severe)" in each, True, "each bus")
    untimed = run(["watch"], b" can0  18FECA00  [8]  10 FF 64 00 03 01 FF FF\n can0  18FECA00  [8]  00 FF 00 00 00 00 FF FF\n")[1].splitlines()
    return found + same(untimed[3:5], ["  ever dm1: stop 1 time, first -, last -; last heard -", "  ever dm1: 100/3 1 time, first -, last - (100/3: voltage above normal or shorted high)"], "without times")


def ever_in_json():
    """A further member of each row that told anything, behind those that were there; the order of rows is as it was."""
    report = json.loads(run(["watch", "--format", "json"], flickering().encode())[1].splitlines()[-1])
    quiet, first, silent = report["rows"]
    none = {"lamp": None, "times": 0, "first": None, "last": None, "codes": [], "more": 0}
    found = same([row["name"][-1] for row in report["rows"]], ["5", "7", "8"], "order") + same([list(row)[-1] for row in report["rows"]], ["ever"] * 3, "the last key")
    found += same(quiet["ever"], {"dm1": none | {"last_heard": "1800.000000"}, "dm6": none | {"last_heard": None}}, "a unit without a fault")
    seen = {"times": 60, "first": "10.000000", "last": "1789.000000"}
    found += same(first["ever"]["dm1"], {"lamp": "stop", **seen, "codes": [{"spn": 100, "fmi": 3, **seen, "fmi_text": HIGH}], "more": 0, "last_heard": "1800.000000"}, "a lamp that flickers")
    dm1 = {"lamp": "amber", "times": 1, "first": "1.000000", "last": "600.000000", "codes": [
        {"spn": 110, "fmi": 0, "times": 1, "first": "1.000000", "last": "499.000000", "fmi_text": MOST}, {"spn": 175, "fmi": 0, "times": 1, "first": "500.000000", "last": "600.000000", "fmi_text": MOST}],
        "more": 0, "last_heard": "600.000000", "silent": 1200}
    dm6 = none | {"codes": [{"spn": 175, "fmi": 0, "times": 1, "first": "1800.000000", "last": "1800.000000", "fmi_text": MOST}], "last_heard": "1800.000000"}
    return found + same(silent["ever"], {"dm1": dm1, "dm6": dm6}, "a DM1 that fell silent")


def ever_in_csv():
    """The same as the last values of each row."""
    rows = list(csv.reader(io.StringIO(run(["watch", "--format", "csv"], flickering().encode())[1])))
    place = rows[0].index("name_hex") + 1
    found = same(rows[0][place:], ["ever_lamp", "ever_lamp_times", "ever_lamp_first", "ever_lamp_last", "last_heard", "silent", "ever_code_times", "ever_code_first", "ever_code_last", "fmi_text", "not_read", "vin", "component", "software", "ecu"], "names")
    told = {(row[0][-1], row[2], row[7]): row[place:-5] for row in rows[1:]}
    lamp = ["stop", "60", "10.000000", "1789.000000", "1800.000000", ""]
    amber = ["amber", "1", "1.000000", "600.000000", "600.000000", "1200"]
    wanted = {("7", "dm1", ""): [*lamp, "", "", "", ""], ("7", "dm1", "100"): [*lamp, "60", "10.000000", "1789.000000", HIGH], ("5", "dm1", ""): [""] * 4 + ["1800.000000"] + [""] * 5,
              ("8", "dm1", "110"): [*amber, "1", "1.000000", "499.000000", MOST], ("8", "dm1", "175"): [*amber, "1", "500.000000", "600.000000", MOST],
              ("8", "dm6", "175"): [""] * 4 + ["1800.000000", "", "1", "1800.000000", "1800.000000", MOST]}
    return found + same(told, wanted, "values")


def ever_is_bounded():
    """Of a unit 64 codes are kept, and of a log 1,024 units; what is not is counted. What was told before a watch began anew is told behind it too."""
    codes = "".join(line(at, f"18FECA00#00FF{100 + at:02X}000301FFFF") for at in range(70)).encode()
    lines = run(["watch"], codes)[1].splitlines()
    ever = [it for it in lines if it.startswith("  ever")]
    found = same((len(ever), ever[-2:]), (66, ["  ever dm1: 163/3 1 time, first 63.000000, last 63.000000 (163/3: voltage above normal or shorted high)", "  ever dm1: further codes, up to 1 at once"]), "codes")
    row = json.loads(run(["watch", "--format", "json"], codes)[1].splitlines()[-1])["rows"][0]["ever"]["dm1"]
    found += same((len(row["codes"]), row["more"]), (64, 1), "codes in JSON")
    units = "".join(line(at, f"18EEFF00#{at:04X}000000000010") + line(at, LAMP_ON) for at in range(1030)).encode()
    out = run(["watch"], units)[1]
    found += same((out.count("  ever dm1: stop 1 time, first "), "\never: 6 messages of further units are not kept\n" in out), (1024, True), "units")
    report = json.loads(run(["watch", "--format", "json"], units)[1].splitlines()[-1])
    found += same((sum("ever" in row for row in report["rows"]), report["ever_left_out"]), (1024, 6), "units in JSON")
    anew = (line(0, "18EEFF00#0799410100000010") + line(1, LAMP_ON) + line(2, ALL_OFF) + line(3, LAMP_ON) + line(4, ALL_OFF)).encode()
    last = [it for it in run(["watch", "--keep", "2"], anew)[1].splitlines() if it.startswith("  ever dm1: stop ")]
    return found + same(last, ["  ever dm1: stop 1 time, first 1.000000, last 1.000000; last heard 2.000000", "  ever dm1: stop 2 times, first 1.000000, last 3.000000; last heard 4.000000"], "begun anew")
