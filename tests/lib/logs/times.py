"""Times that are asked for, and clocks that tell them."""

import os
import pathlib
import struct
import tempfile

from logs.common import CLAIM, run, same

RULE = "CET-1CEST,M3.5.0,M10.5.0/3"  # the zone of Berlin: an hour ahead of UTC, two from the last Sunday of March, 01:00 UTC, to that of October, 01:00 UTC
SUMMER_ENDS = 1792890000  # 2026-10-25 01:00:00 UTC
SUMMER_BEGINS = 1774746000  # 2026-03-29 01:00:00 UTC
DAY = 1792915200  # 2026-10-25 08:00:00 UTC


def entries(*seconds):
    """A claim, and an entry at each of these times, each with another count."""
    return CLAIM.replace(b"1.0", b"%d.0" % seconds[0]) + b"".join(b"(%d.000000) can0 18FECA00#04FFB80403%02XFFFF\n" % (at, count) for count, at in enumerate(seconds, 1))


def told_at(words, data, **given):
    """The times of the entries that are told, and the status."""
    status, out, _ = run(["watch", *words], data, **given)
    return [line.split(" dm1 ")[0] for line in out.splitlines() if " dm1 " in line], status


def in_zone(zone):
    return {"env": {**{name: value for name, value in os.environ.items() if name != "TZ"}, **({} if zone is None else {"TZ": zone})}}


# Words for a time, and how many seconds behind 2026-10-25 08:00:00 UTC it is, by which clock.
ASKED = [
    ("1792915208", 8), ("1792915208.000", 8), ("1792915207.999999999", 8), ("2026-10-25 08:00:08", 8), ("2026-10-25T08:00:08", 8), ("2026-10-25 08:00:08.000", 8),
    ("2026-10-25 08:00:07.5", 8), ("2026-10-25T08:00:07.000001", 8), ("2026-10-25 08:00", 0), ("2026-10-25", 0), ("2026-10-25T08:00:08Z", 8),
    ("2026-10-25T10:00:08+02:00", 8), ("2026-10-25 02:30:08-05:30", 8), ("2026-10-26", 20),
]
BY_CLOCKS = [
    ("utc", "2026-10-25 08:00:08", 8), ("log", "2026-10-25 08:00:08", 8), ("relative", "2026-10-25 08:00:08", 8), ("+02:00", "2026-10-25 10:00:08", 8),
    ("UTC+02:00", "2026-10-25T10:00:08", 8), ("UTC-05:30", "2026-10-25 02:30:08", 8), ("+02:00", "1792915208", 8), ("+02:00", "2026-10-25T08:00:08Z", 8),
    ("+16:00", "2026-10-26", 0), ("+15:59", "2026-10-26", 20),
]
NO_TIME = ["", "2026-13-01", "2026-02-29", "2026-10-25 24:00:00", "2026-10-25 08:60", "1969-12-31", "1969-12-31 23:59:59", "2286-11-21", "2026-10-25T08:00:08[Europe/Berlin]",
           "2026-10-25 08:00:08 +02:00", "10-25", "08:00:08", "yesterday", "12345678901", "1.5", "2026-10-25 08:00:08,5x", "-1"]
NO_CLOCK = ["", "UTC", "cet", "+2", "+0200", "+24:00", "+02:60", "+2:00", "02:00", "+02:00:00", "UTC+", "++02:00", "LOCAL"]
FORMS = ["SECONDS or SECONDS.MICROSECONDS", "YYYY-MM-DD", "YYYY-MM-DD HH:MM:SS", "YYYY-MM-DDTHH:MM:SS"]


def times():
    """A time is asked for in seconds, or by a date in each form; one that is none is refused, and the forms are told."""
    found, data = [], entries(*(DAY + at for at in range(16)))
    for words, first in [(["--from", word], first) for word, first in ASKED] + [([f"--clock={clock}", "--from", word, "--format", "csv"], first) for clock, word, first in BY_CLOCKS]:
        rows = [line.split(",")[3] for line in run(["watch", *words, *(["--format", "csv"] if "csv" not in words else [])], data)[1].splitlines()[1:] if ",dm1," in line]
        found += same(rows, [f"{DAY + at}.000000" for at in range(first, 16)], f"{words}")
    found += same(told_at(["--from", "2026-10-25 08:00:03", "--to", "2026-10-25 08:00:04"], data), ([f"{DAY + 3}.000000", f"{DAY + 4}.000000"], 0), "both ends")
    for option in ("--from", "--to"):
        for word in NO_TIME:
            status, out, err = run(["watch", f"{option}={word}"], data)
            found += same((status, out), (2, ""), f"{option} {word}") + [f"{word}: {err}" for form in FORMS if form not in err and word]
    for word in NO_CLOCK:
        status, out, err = run(["watch", f"--clock={word}"], data)
        found += same((status, out), (2, ""), f"--clock {word}") + ([] if "utc, local, log, relative" in err or not word else [f"{word}: {err}"])
    return found


def clocks():
    """Each tells a time in its own words, and JSON and CSV have the log's."""
    found, data = [], entries(DAY, DAY + 3661)
    for clock, wanted in (("log", "1792918861.000000"), ("utc", "2026-10-25 09:01:01.000000"), ("+02:00", "2026-10-25 11:01:01.000000"), ("UTC-05:30", "2026-10-25 03:31:01.000000"),
                          ("-10:00", "2026-10-24 23:01:01.000000"), ("+16:00", "2026-10-26 01:01:01.000000"), ("relative", "+1:01:01.000000")):
        out = run(["watch", f"--clock={clock}"], data)[1]
        found += [] if f"\n{wanted} dm1 " in out else [f"{clock}: {out}"]
        for form in ("json", "csv"):
            found += same(run(["watch", f"--clock={clock}", "--format", form], data), run(["watch", "--format", form], data), f"{clock}: {form}")
    return found


def table_of_zone(rule):
    """A file of a zone (RFC 9636) with no table and this rule, a rule of POSIX."""
    head = b"TZif2" + bytes(15) + struct.pack(">6I", 0, 0, 0, 0, 1, 4)
    block = struct.pack(">iBB", 3600, 0, 0) + b"CET\0"
    return head + block + head + block + b"\n" + rule.encode() + b"\n"


def in_zones():
    """The clock of this machine: by the rule that TZ says, by a file, by a name where there are such; by none where it says none."""
    found = []
    with tempfile.TemporaryDirectory() as folder:
        path = pathlib.Path(folder) / "zone"
        path.write_bytes(table_of_zone(RULE))
        zones = [RULE, str(path), f":{path}"] + ["Europe/Berlin", ":Europe/Berlin"] * os.path.exists("/usr/share/zoneinfo/Europe/Berlin")
        for zone in zones:
            found += berlin(zone)
        for zone, word in (("", "2026-10-25 08:00:00.000000"), ("UTC", "2026-10-25 08:00:00.000000"), ("XXX5:30", "2026-10-25 02:30:00.000000"), ("<+0545>-5:45", "2026-10-25 13:45:00.000000")):
            found += same(told_zone(["--clock", "local"], entries(DAY), zone), ([word], 0), f"TZ={zone}")
        (pathlib.Path(folder) / "text").write_text("no zone")
        for zone in ("Nowhere/Town", f"{folder}/none", f"{folder}/text", folder, "../../../etc/passwd", "/dev/zero"):
            status, out, err = run(["watch", "--clock", "local"], entries(DAY), **in_zone(zone))
            found += same((status, out, err.splitlines()[:1], "TZ" in err), (2, "", ["fault: command line"], True), f"TZ={zone}")
            found += same(run(["watch", "--clock", "utc"], entries(DAY), **in_zone(zone))[0], 0, f"TZ={zone}, which is not asked for")
    return found + same(run(["watch", "--clock", "local"], entries(DAY), **in_zone(None))[0], 0, "without TZ")


def told_zone(words, data, zone):
    return told_at(words, data, **in_zone(zone))


def berlin(zone):
    """The hour that is told twice is taken for the first, and the one that is left out is counted on from before."""
    data = entries(SUMMER_ENDS - 5400, SUMMER_ENDS - 1800, SUMMER_ENDS + 1800, SUMMER_ENDS + 5400)
    hours = ["2026-10-25 01:30", "2026-10-25 02:30", "2026-10-25 02:30", "2026-10-25 03:30"]
    shown = [f"{hour}:00.000000" for hour in hours]
    found = same(told_zone(["--clock", "local"], data, zone), (shown, 0), f"{zone}: October")
    for word, first in (("2026-10-25 02:30", 1), ("2026-10-25T02:30:01", 2), ("2026-10-25 03:00", 3), ("2026-10-25", 0), ("2026-10-25 00:30Z", 1), ("2026-10-25 02:30+01:00", 2)):
        found += same(told_zone(["--clock", "local", "--from", word], data, zone), (shown[first:], 0), f"{zone}: from {word}")
    data = entries(SUMMER_BEGINS - 1800, SUMMER_BEGINS + 1800, SUMMER_BEGINS + 5400)
    shown = ["2026-03-29 01:30:00.000000", "2026-03-29 03:30:00.000000", "2026-03-29 04:30:00.000000"]
    found += same(told_zone(["--clock", "local"], data, zone), (shown, 0), f"{zone}: March")
    for word, first in (("2026-03-29 02:30", 1), ("2026-03-29 02:31", 2), ("2026-03-29 03:30", 1), ("2026-03-29 01:30", 0)):
        found += same(told_zone(["--clock", "local", "--from", word], data, zone), (shown[first:], 0), f"{zone}: from {word}")
    return found
