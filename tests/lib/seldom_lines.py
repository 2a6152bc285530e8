"""What random logs seldom reach: announcements between 4,096 pairs of addresses, claims that displace before a watch begins anew, names of buses that
have to be quoted, reads that fail before any frame. What is told is written here by hand; where the model is quick enough, it has to tell the same.
"""

import csv
import io
import json
import re
import socket
import tempfile

from model import log_line, watch

CLAIM = b"(1.000000) can0 18EEFF00#A000000000000000\n"
MOST_PAIRS = 4096


def by_model(words, data, form="text"):
    """The status, the output and standard error of `watch` with these words."""
    texts, errors, status = watch.watched(log_line.read_lines(data), watch.Options.of(words))
    return status, texts[form], errors


def announcements(pairs):
    """A line for each pair: its first address announces a message to the second one."""
    return b"".join(b"(1.000000) can0 1CEC%02X%02X#100A0002FFCAFE00\n" % (dest, source) for source, dest in pairs)


def pairs_that_announced(run, same):
    """Behind the announcements between 4,096 pairs a watch begins anew, whatever the addresses; how often a pair announces does not count."""
    found = []
    orders = {"all destinations": [(source, dest) for source in range(17) for dest in range(254)],
              "all sources": [(source, dest) for dest in range(17) for source in range(254)]}
    for what, pairs in orders.items():
        line = MOST_PAIRS + 2  # (behind the claim and the announcements)
        told = (f"line {line}: more than is kept at once, 65536 NAMEs (--most) and 1000000 runs (--keep): what was heard so far is reported, "
                "and it is begun anew with the units that hold addresses\n")
        status, out, err = run(["watch"], CLAIM + announcements(pairs[:MOST_PAIRS]) + CLAIM)
        found += same((status, err, [it for it in out.splitlines() if it.startswith("over ")]), (3, told, [f"over at line {line}, so far:"]), what)
        status, out, err = run(["watch"], CLAIM + announcements(pairs[: MOST_PAIRS - 1] * 2) + CLAIM)
        found += same((status, err, "over " in out), (0, "", False), f"{what} but one, twice")
    return found


# Two units lose their addresses; then one run is kept at once, so a watch begins anew behind each entry.
CONTESTED = b"""(1.000000) can0 18EEFF05#B000000000000000
(1.000000) can0 18EEFFC8#C000000000000000
(1.100000) can0 18EEFF05#9000000000000000
(1.200000) can0 18EEFFC8#9100000000000000
(1.300000) can0 18FECA05#04FF64000101FFFF
(1.310000) can0 18FECAC8#04FF65000101FFFF
(1.349999) can0 18FECA05#04FF66000101FFFF
(1.350000) can0 18FECA05#04FF67000101FFFF
(1.449999) can0 18FECAC8#04FF68000101FFFF
(1.450000) can0 18FECAC8#04FF69000101FFFF
"""

ENTRIES = """1.300000 dm1 0000000000000090 amber (04FF); 100/1/1 contested (100/1: below normal, most severe)
1.310000 dm1 0000000000000091 amber (04FF); 101/1/1 contested (101/1: below normal, most severe)
1.349999 dm1 0000000000000090 amber (04FF); 102/1/1 contested (102/1: below normal, most severe)
1.350000 dm1 0000000000000090 amber (04FF); 103/1/1 (103/1: below normal, most severe)
1.449999 dm1 0000000000000091 amber (04FF); 104/1/1 contested (104/1: below normal, most severe)
1.450000 dm1 0000000000000091 amber (04FF); 105/1/1 (105/1: below normal, most severe)
"""


def contested_anew(run, same):
    """Which claims displaced another NAME is known on where a watch begins anew, of each address."""
    found = []
    for words in ([], ["--keep", "1"], ["--keep", "2"]):
        told = run(["watch", *words], CONTESTED)
        found += same([line for line in told[1].splitlines(True) if " dm1 " in line], ENTRIES.splitlines(True), f"{words}")
        found += same(told, by_model(words, CONTESTED), f"{words}, the model")
    return found


BUSES = ["a,b", 'c"d', ",", '""', "e\\f", "g\x08h", "i\x1bj", "k\x7fl", "m\u00e4n", "o'p", "q\u009br", "s\u202et", "=u", "+v", "-w,x", "@y"]


def names_of_buses(run, same):
    """Each stands in JSON as it is in the log, whatever has to be quoted in it; so it does in CSV, but what a terminal or a spreadsheet obeys."""
    in_csv = ["a,b", 'c"d', ",", '""', "e\\f", "g\\x08h", "i\\x1Bj", "k\\x7Fl", "m\u00e4n", "o'p", "q\\x9Br", "s\\u202Et", "'=u", "'+v", "'-w,x", "'@y"]
    data = "".join(f"(1.000000) {bus} 18EEFF00#A000000000000000\n(1.000000) {bus} 18FECA00#04FF64000101FFFF\n" for bus in BUSES).encode()
    status, out, err = run(["watch", "--bus", "all", "--format", "csv"], data)
    rows = list(csv.reader(io.StringIO(out)))
    place = rows[0].index("bus")
    found = same((status, err, [row[place] for row in rows], {len(row) for row in rows}), (0, "", ["bus", *in_csv], {len(rows[0])}), "csv")
    *changes, report = [json.loads(line) for line in run(["watch", "--bus", "all", "--format", "json"], data)[1].splitlines()]
    found += same([it["bus"] for it in changes], [bus for bus in BUSES for _ in range(2)], "changes")
    found += same([[it["bus"] for it in report[key]] for key in ("rows", "buses")], [BUSES, BUSES], "the report")
    found += same([json.loads(line)["bus"] for line in run(["decode", "--format", "json"], data)[1].splitlines()], [bus for bus in BUSES for _ in range(2)], "decode")
    for form in ("text", "json", "csv"):
        found += same(run(["watch", "--bus", "all", "--format", form], data)[1], by_model(["--bus", "all"], data, form)[1], f"{form} by the model")
    return found


# Characters that a terminal obeys, and marks that turn the direction of text: none of them is told, but line feeds.
HIDDEN = re.compile("[\x00-\x09\x0b-\x1f\x7f-\x9f\u061c\u200e\u200f\u202a-\u202e\u2066-\u2069]")


def errors_that_are_obeyed(run, same):
    """What is told of a line, of a file or of a word holds nothing that a terminal obeys."""
    found = []
    for words, data, part in ((["watch"], "(1.000000) can0 18FECA00#04\u202eF\n", ": \\u202E\n"), (["watch"], "(1.000000) can0 18FECA00#04\u009bF\n", ": \\x9B\n"),
                              (["decode", "/nowhere/\x1b[2J"], "", "/nowhere/\\x1B[2J: "), (["decode", "--\x1b[2J"], "", "\\x1B[2J"),
                              (["watch", "--bus", "\x1b[2J\u202e#"], "", "invalid value '\\x1B[2J\\u202E#'")):
        err = run(words, data.encode())[2]
        found += same((HIDDEN.findall(err), part in err), ([], True), f"{words}: {err!r}")
    return found


def reads_that_fail(run, same):
    """An input that breaks off is not whole: that no line of it is a frame is not told, and of bad lines as of any input."""
    found, bad = [], b"(x\n" * 11
    told = "".join(f"line {number}: no time (SECONDS.MICROSECONDS)\n" for number in range(1, 11)) + "and 1 more bad lines: 1 no time (SECONDS.MICROSECONDS)\n"
    for data, wanted in ((b"a note\n", ""), (b"LOGG\n" * 3, ""), (bad, told), (CLAIM, "")):
        for command in ("watch", "decode"):
            ours, theirs = socket.socketpair(socket.AF_UNIX, socket.SOCK_STREAM)
            with theirs:
                theirs.sendall(b"never read")
                ours.sendall(data)
                ours.close()
                status, _, err = run([command], stdin=theirs)
            found += same((status, err), (1, wanted + "fault: read\n"), f"{command} of {data[:9]!r}")
    return found


def frames_of_no_group_without_times(run, same):
    """That no line has a time is told where a frame of SAE J1939 has none, and not where only frames of others have none."""
    found, untimed = [], "no line has a time: no packet is late, no entry contested; candump -L has times\n"
    unnamed = "frames that name no bus were read; none of "
    for data, told in ((b"  can0  123   [2]  04 FF\n", "1 frame with an 11-bit identifier was read, none with 29 bits\n"),
                       (b"123#04FF\n18FECA00#R\n", "1 frame with an 11-bit identifier and 1 remote frame were read, no data frame with 29 bits\n"),
                       (b"18FECA00#\n", f"{untimed}{unnamed}a bus that is watched\n"),
                       (b"  can0  123   [2]  04 FF\n18FECA00#\n", f"{untimed}{unnamed}can0, which is named first (--bus)\n")):
        found += same(run(["watch"], data)[::2], (3, told), f"{data!r}") + same(by_model([], data)[::2], (3, told), f"{data!r} by the model")
    return found


def longest_lines(run, same):
    """A line of 4,096 bytes without its end is read, one of 4,097 is not, whatever the bytes are and however the line ends."""
    found, frame = [], b"(1.000000) can0 18FECA00#04FF64000301FFFF"
    for size, told in ((4095, ""), (4096, ""), (4097, "line 2: longer than 4096 bytes\n")):
        for line, read in ((frame.ljust(size), b" DM1: "), (frame.rjust(size), b" DM1: "), (b"#".ljust(size, b"x"), b"-")):
            for end in (b"", b"\n", b"\r\n"):
                status, out, err = run(["decode"], frame + b"\n" + line + end)
                found += same((status, err, read.decode() in out.splitlines()[1]), (3 if told else 0, told, not told), f"{size} bytes, {line[:1]!r}, {end!r}")
    return found


def texts_of_other_rows(run, same):
    """A file of texts whose lines have other than as many values as the first is refused, and so is one without a line; one with the first alone has no text."""
    found = []
    for text, told in ((b"spn,text\n100,Oil,x\n", "texts, line 2: 3 values, and the first line has 2"), (b"spn\n100\n", "texts, line 1: no column text, or none of spn, fmi"),
                       (b"a,b,c,d\n\n100,3,Oil,x\n", "texts, line 1: a is none of the columns spn, fmi, text (one of notes begins with #)"),
                       (b"", "texts, line 1: no column text, or none of spn, fmi"), (b"\n\r\n", "texts, line 1: no column text, or none of spn, fmi"), (b"spn,text\n", None)):
        with tempfile.NamedTemporaryFile(suffix=".csv") as file:
            file.write(text)
            file.flush()
            wanted = (0, "p6 0>all 65226 DM1: amber (04FF); 100/3/1 (100/3: voltage above normal or shorted high)\n", "") if told is None else (2, "", f"fault: texts\n{told}\n")
            found += same(run(["decode", "--texts", file.name], b"18FECA00#04FF64000301FFFF\n"), wanted, f"{text!r}")
    return found


def tries(run, same):
    """A name, and what says what is wrong. `run` and `same` are those of tests/run/logs."""
    for what in (pairs_that_announced, contested_anew, names_of_buses, errors_that_are_obeyed, reads_that_fail, frames_of_no_group_without_times, longest_lines, texts_of_other_rows):
        yield what.__name__, lambda what=what: what(run, same)
