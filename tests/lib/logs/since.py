"""Two visits compared: which codes are new, came back, are gone or were not heard since the report of an earlier one."""

import json
import re
import tempfile

from .common import run, same

A, B = "00000000000000A0", "00000000000000B0"


def dm1(source, *codes):
    """A DM1 of up to one code in one frame."""
    code = bytes.fromhex("00000000") if not codes else codes[0][0].to_bytes(2, "little") + bytes([codes[0][1], 1])
    return f"18FECA{source:02X}#{'00' if not codes else '04'}FF{code.hex().upper()}FFFF"


def log_of(*frames):
    return "".join(f"({at}.000000) can0 {it}\n" for at, it in enumerate(frames, 1)).encode()


CLAIMS = ("18EEFF00#A000000000000000", "18EEFF01#B000000000000000")
# The frames of the earlier visit, of this one, and what changed: how, whose, which.
VISITS = [
    ("nothing changed", [dm1(0, (100, 1))], [dm1(0, (100, 1))], []),
    ("new", [dm1(0)], [dm1(0, (100, 1))], [("new", A, "100/1")]),
    ("new and gone again", [dm1(0)], [dm1(0, (100, 1)), dm1(0)], [("new", A, "100/1")]),
    ("gone", [dm1(0, (100, 1))], [dm1(0)], [("gone", A, "100/1")]),
    ("gone on the way", [dm1(0, (100, 1))], [dm1(0, (100, 1)), dm1(0)], [("gone", A, "100/1")]),
    ("gone before, and still", [dm1(0, (100, 1)), dm1(0)], [dm1(0)], []),
    ("came back", [dm1(0, (100, 1)), dm1(0)], [dm1(0, (100, 1))], [("came back", A, "100/1")]),
    ("not heard", [dm1(0, (100, 1))], [dm1(1)], [("not heard", A, "100/1")]),
    ("another FMI", [dm1(0, (100, 1))], [dm1(0, (100, 2))], [("new", A, "100/2"), ("gone", A, "100/1")]),
    ("another unit", [dm1(0, (100, 1))], [dm1(0), dm1(1, (100, 1))], [("new", B, "100/1"), ("gone", A, "100/1")]),
    ("another count", [dm1(0, (100, 1))], [dm1(0, (100, 1)).replace("01FFFF", "05FFFF")], []),
    ("the address alone", ["!", dm1(0, (100, 1))], ["!", dm1(0)], [("gone", "address 0, no claim seen", "100/1")]),
    ("its NAME at another address", [dm1(0, (100, 1))], ["18EEFF05#A000000000000000", dm1(5, (100, 1))], []),
]
REFUSED = [b"", b"\n\n", b"x", b"{}", b'{"event":"report"', b'{"event":"report","rows":3}\n', b'{"event":"report","rows":[{"name":"x"}]}', b'{"event":"report","rows":[]}\nx\n', b'{"event":"report","rows":[{"name":null,"address":256}]}']


def log_with_claims(frames):
    return log_of(*([] if frames[:1] == ["!"] else CLAIMS), *(it for it in frames if it != "!"))


def compared(file, log, *words):
    with tempfile.NamedTemporaryFile(suffix=".json") as old:
        old.write(file)
        old.flush()
        return run(["watch", "--since", old.name, *words], log)


def visits_compared():
    """Each in text, JSON and on the page; without the option nothing of it."""
    found = []
    for what, before, now, wanted in VISITS:
        old, log = run(["watch", "--format", "json"], log_with_claims(before))[1].encode(), log_with_claims(now)
        status, out, err = compared(old, log)
        lines = [line for line in out.splitlines() if line.startswith("since then")]
        told = [re.fullmatch(r"since then (new|came back|gone|not heard): (.*) (\d+/\d+) \(.*\)", line) for line in lines]
        found += same([line.groups() for line in told if line], wanted, f"{what}: text") + same((status, err), (0, ""), what)
        found += same(lines == ["since then: no code is new, came back or is gone"], not wanted, f"{what}: nothing")
        report = json.loads(compared(old, log, "--format", "json")[1].splitlines()[-1])
        got = [(it["what"].replace("_", " "), it["name"] or f"address {it['address']}, no claim seen", f"{it['spn']}/{it['fmi']}") for it in report["since"]]
        found += same(got, wanted, f"{what}: JSON")
        page = compared(old, log, "--format", "html")[1]
        chips = re.findall(r'<span class="chip \w+">([\w ]+)</span> <b>(\d+/\d+)</b>', page)
        found += same(chips, [(how, code) for how, _, code in wanted], f"{what}: page")
        found += same("since" in run(["watch"], log)[1], False, f"{what}: without it")
    return found


def visits_that_are_none():
    """A file whose last line is no report is told, with its line and status 2, and nothing is read."""
    found = []
    for file in REFUSED:
        status, out, err = compared(file, log_of(dm1(0)))
        found += same((status, out, err.splitlines()[0], bool(re.fullmatch(r"since, line \d+: (file: its last line is not a report, as watch --format json writes it|report: it is not JSON as watch writes it)", err.splitlines()[-1]))), (2, "", "fault: texts", True), repr(file))
    status, _, err = run(["watch", "--since", "/no/such/file"], b"")
    return found + same((status != 0, "no/such/file" in err), (True, True), "no file")
