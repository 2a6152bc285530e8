"""The logs of tests/data/logs/other: inputs in which no line is a frame, times that do not count, and bad lines without end. What is told of each on standard
error is written here by hand, and the model has to tell the same.
"""


import bz2
import gzip
import io
import lzma
import tempfile
import zipfile

from harness import TOP

from model import decode, log_line, watch

FOLDER = TOP / "tests/data/logs/other"
NOT_COUNTED = "count for nothing: no packet is late by them, no entry contested; candump -L has times that count\n"


def other(lines, name, conversion):
    return f"no frame in {lines} lines: this looks like {name}, which is read once it is converted: {conversion}\n"


# The file, what `watch` tells, what `decode` tells, their status.
TOLD = [
    ("vector.asc", *2 * [other(9, "Vector's text (.asc)", "asc2log -I IN.asc -O OUT.log")], 3),
    ("vector.blf", *2 * [other(1, "Vector's binary form (.blf)", "can_logconvert IN.blf OUT.log")], 3),
    ("peak.trc", *2 * [other(8, "PEAK's text (.trc)", "can_logconvert IN.trc OUT.log")], 3),
    ("python-can.csv", *2 * [other(3, "a table (.csv)", "can_logconvert IN.csv OUT.log")], 3),
    ("semicolons.csv", *2 * [other(3, "a table (.csv)", "can_logconvert IN.csv OUT.log")], 3),
    ("nothing.txt", *2 * ["no frame in 2 lines: this looks like no log of candump (candump -L can0 > OUT.log)\n"], 3),
    ("candump-td.log", "line 3: times since the line before (candump -td) " + NOT_COUNTED, "", 0),
    ("candump-td-too-short.log", "relative times (candump -tz, -td), too few to tell since when, " + NOT_COUNTED, "", 0),
    ("candump-tz.log", "", "", 0),
    ("candump-without-times.log", "no line has a time: no packet is late, no entry contested; candump -L has times\n", "", 0),
    ("many-bad-lines.log", *2 * [None], 3),
]


def many_bad_lines():
    """Twelve lines of one kind and fifteen of another: of each the first ten are told."""
    return ("".join(f"line {n}: 8 digits of identifier wanted, 7 found\n" for n in range(1, 11)) + "".join(f"line {n}: odd number of digits\n" for n in range(13, 23))
            + "and 7 more bad lines: 2 8 digits of identifier wanted, 5 odd number of digits\n")


def differences(name, by_watch, by_decode, status, run, same):
    """What of a file the program or the model tells otherwise."""
    data, found = (FOLDER / name).read_bytes(), []
    lines = log_line.read_lines(data)
    models = {"watch": watch.watched(lines, watch.Options.of([])), "decode": decode.decoded(lines)}
    for command, told in (("watch", by_watch), ("decode", by_decode)):
        ran = run([command], data)
        found += same((ran[0], ran[2]), (status, told), command) + same(models[command][2:0:-1], (status, told), f"the model's {command}")
        found += same(ran[1], models[command][0]["text"], f"{command}: what is written")
    return found


def bad_lines_without_end(run, same):
    """The first bad line of a strict run ends it; nothing is counted behind it."""
    status, out, err = run(["watch", "--strict"], (FOLDER / "many-bad-lines.log").read_bytes())
    return same((status, err), (3, "line 1: 8 digits of identifier wanted, 7 found\n"), "strict")


def packed_inputs():
    """Each input that is no text, and what is told of it behind the count of its lines."""
    log, room = (TOP / "examples/logs/01-startup-and-dm1.log").read_bytes(), io.BytesIO()
    with zipfile.ZipFile(room, "w", zipfile.ZIP_DEFLATED) as folder:
        folder.writestr("a.log", log)
    packed = {"gzip": (gzip.compress(log), "zcat"), "xz": (lzma.compress(log), "xzcat"), "bzip2": (bz2.compress(log), "bzcat"), "zip": (room.getvalue(), "unzip -p"),
              "zstd": (b"\x28\xb5\x2f\xfd\x24" + bytes(range(1, 256)), "zstdcat")}
    told = [(data, f"this is compressed ({name}): {command} FILE | j1939bench watch") for name, (data, command) in packed.items()]
    told += [(log.decode().encode(form), "this is UTF-16: iconv -f UTF-16 -t UTF-8 FILE | j1939bench watch") for form in ("utf-16",)]
    told += [(b"\xfe\xff" + log.decode().encode("utf-16-be"), "this is UTF-16: iconv -f UTF-16 -t UTF-8 FILE | j1939bench watch")]
    return told + [(b"\x7fELF\x02\x01\x01\0,,,;;;\n" * 3, "this is not a text log"), (b"a,b,c,d\n\0\n", "this looks like a table (.csv), which is read once it is converted: "
                                                                                    "can_logconvert IN.csv OUT.log"), (b"BZ\n", "this looks like no log of candump (candump -L can0 > OUT.log)")]


def packed_logs(run, same):
    """What is no text is told as what it is, and how it is read; by the model too."""
    found = []
    for data, told in packed_inputs():
        lines = log_line.read_lines(data)
        last = f"no frame in {len(lines)} lines: {told}"
        for command, model in (("watch", watch.watched(lines, watch.Options.of([]))), ("decode", decode.decoded(lines))):
            with tempfile.NamedTemporaryFile() as file:
                file.write(data)
                file.flush()
                status, _, err = run([command, file.name])
            found += same((status, err.splitlines()[-1]), (3, last), f"{command} {data[:6]}") + same(model[2:0:-1], (status, err), f"the model's {command} {data[:6]}")
    return found


HEAD = b"(1.000000) can0 "
# A line of each kind, what is told of it, and what its kind is called where such lines are counted, in the order in which they are.
KINDS = [
    (b"x" * 4097, "longer than 4096 bytes", None), (HEAD + b"\xff", "no text", None), (b"(1)", "no time (SECONDS.MICROSECONDS)", None),
    (b"(1.000000)", "no bus behind the time", None), (HEAD, "no frame behind the bus", None), (HEAD + b"18FECA00 04", "no # behind the identifier", None),
    (HEAD + b"1234#", "8 digits of identifier wanted, 4 found", "8 digits of identifier wanted"), (HEAD + b"40000000#", "identifier above 1FFFFFFF", None),
    (HEAD + b"18FECA00#000000000000000000", "more than 8 bytes", None), (HEAD + b"18FECA00 [2] 00", "1 bytes, and 2 told of", "other bytes than told of"),
    (HEAD + b"18FECA00#0", "odd number of digits", None), (HEAD + b"18FECA00#G", "no hexadecimal digit: G", "no hexadecimal digit"),
    (HEAD + b"18FECA00# X", "words behind the data", None),
]


def bad_lines_of_each_kind(run, same):
    """Of each kind ten lines are told, and of the first kind one, of the second two, of the last thirteen are counted alone."""
    lines = [(line, told) for at, (line, told, _) in enumerate(KINDS, 1) for _ in range(10 + at)]
    told = [f"line {number}: {reason}\n" for number, (_, reason) in enumerate(lines, 1) if [it for _, it in lines[:number]].count(reason) <= 10]
    counts = ", ".join(f"{at} {kind or reason}" for at, (_, reason, kind) in enumerate(KINDS, 1))
    data = b"".join(line + b"\n" for line, _ in lines)
    wanted = (3, "".join(told) + f"and 91 more bad lines: {counts}\n")
    found = [text for words in (["watch"], ["decode"]) for text in same(run(words, data + HEAD + b"18FECA00#\n")[::2], wanted, words[0])]
    # (only ten of a kind, and one more)
    for count, rest in ((10, ""), (11, "and 1 more bad lines: 1 no text\n")):
        told = "".join(f"line {number}: no text\n" for number in range(1, 11)) + rest
        found += same(run(["decode"], (HEAD + b"\xff\n") * count + HEAD + b"18FECA00#\n")[::2], (3, told), f"{count} of a kind")
    # (256 of a kind, and of one line that is none)
    found += same(run(["decode"], (HEAD + b"\xff\n") * 256 + HEAD + b"18FECA00#\n")[0], 3, "256 of a kind")
    return found + same(run(["decode"], b"18FECA0\n")[::2], (3, "no frame in 1 lines: this looks like no log of candump (candump -L can0 > OUT.log)\n"), "one line alone")


def tries(run, same):
    """A name, and what says how a file differs. `run` and `same` are those of tests/lib/logs/common.py."""
    for name, by_watch, by_decode, status in TOLD:
        told = [many_bad_lines() if it is None else it for it in (by_watch, by_decode)]
        yield f"told of {name}", lambda name=name, told=told, status=status: differences(name, *told, status, run, same)
    yield "a strict run", lambda: bad_lines_without_end(run, same)
    yield "packed logs", lambda: packed_logs(run, same)
    yield "bad lines of each kind", lambda: bad_lines_of_each_kind(run, same)
