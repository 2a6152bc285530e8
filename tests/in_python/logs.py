"""Logs that are read: by bytes, files and lines, in parts of any size, with the same frames, times and lines; bad lines, which are told and count as a
frame missed; buses; forms of lines; and a pipe, whose lines are taken as they come."""

import io
import os
import threading

import hidzgula
from hidzgula import DM1, BadLine, Frame, Heard, Listener, LogCounts, Logged, Missed, What, Who, candump
from tries import LOGS, TOP, all_heard, lines_of, raised, same, sums

FRAME = "18FECA00#04FF6E000001FFFF"
MIXED = f"""# a note
(1.000002) can0 18EEFF00#0799410100000010
(1.000003) can1 {FRAME}
(x) can0 {FRAME}
(2.500000) can0 {FRAME} R
DROPCOUNT: dropped 7 CAN frames on 'can0' socket (total drops 7)

 can0  18EEFF00   [8]  07 99 41 01 00 00 00 10
(3.000000) can0 123#00
(3.000001) can0 20000004#0001000000000000
(3.000002) can0 18FECA00#0G
{FRAME}"""
BAD = [BadLine(4, "no time (SECONDS.MICROSECONDS)"), BadLine(11, "no hexadecimal digit")]


def taken(log, **more):
    """What a log comes to: what it was read as, the changes with their places, the bad lines, and what the listener tells."""
    changes, bad = [], []
    with Listener() as listener:
        counts = hidzgula.take_log(listener, log, on_change=lambda change, at: changes.append((change, at)), on_bad=bad.append, **more)
        return counts, changes, bad, all_heard(listener)


def forms_of(text):
    """The same log in each form, with its name."""
    data = text.encode()
    yield "bytes", data
    yield "a bytearray", bytearray(data)
    yield "a memoryview", memoryview(data)
    yield "a file of bytes", io.BytesIO(data)
    yield "a file of text", io.StringIO(text)
    yield "lines", text.splitlines(keepends=True)
    yield "lines without ends", text.splitlines()
    yield "lines of bytes", data.splitlines()
    yield "one line after the other", iter(text.splitlines(keepends=True))


def each_form():
    for log in LOGS:
        text = "".join(lines_of(log))
        wanted = taken(text.encode())
        same(f"{log}: lines", wanted[0].lines, text.count("\n"))
        for what, form in forms_of(text):
            same(f"{log} by {what}", taken(form), wanted)
        for name in ("rb", "r"):
            with open(TOP / "examples/logs" / f"{log}.log", name) as file:
                same(f"{log} by a file, {name}", taken(file), wanted)
    for what, form in forms_of(MIXED):
        same(f"the mixed one by {what}", taken(form), taken(MIXED.encode()))
        same(f"nothing by {what}", taken(type(form)() if what in ("bytes", "bytearray", "lines") else b""), taken(b""))


def each_cut():
    """In parts of so many bytes, and of so many frames."""
    wanted = taken(MIXED.encode())
    chunk, at_once = candump._CHUNK, candump._AT_ONCE
    for size in (1, 2, 3, 7, 41, 42, 43, 100):
        candump._CHUNK, candump._AT_ONCE = size, size % 3 + 1
        same(f"{size} bytes at once", taken(io.BytesIO(MIXED.encode())), wanted)
    candump._CHUNK, candump._AT_ONCE = 5000, 64
    longest = "#" * 4096 + "\n" + "(" * 4097 + "\n" + "(" * 40000 + f"\n(1.000000) can0 {FRAME}\n"
    same("lines that are too long", taken(longest.encode())[:1] + taken(longest.encode())[2:3],
         (LogCounts(4, 1, 2, 2), [BadLine(2, "longer than 4096 bytes"), BadLine(3, "longer than 4096 bytes")]))
    candump._CHUNK, candump._AT_ONCE = chunk, at_once


def what_is_told():
    counts, changes, bad, told = taken(MIXED.encode())
    same("it is read as", counts, LogCounts(lines=12, frames=5, missed=10, bad=2))
    same("bad lines", bad, BAD)
    same("in words", str(bad[0]), "line 4: no time (SECONDS.MICROSECONDS)")
    name = 0x1000000001419907
    same("the changes", changes, [
        (Heard(What.CLAIMED, Who(name), 0), Logged(2, 1000002)),
        (Heard(What.LISTED, Who(name), 0, 255, DM1), Logged(3, 1000003)),
        (Heard(What.MISSED, count=1), Logged(4, None)),
        (Heard(What.LISTED, Who(None, 0, 1), 0, 255, DM1), Logged(5, 2500000)),
        (Heard(What.MISSED, count=7), Logged(6, None)),
        (Heard(What.CLAIMED, Who(name), 0), Logged(8, None)),
        (Heard(What.MISSED, count=1), Logged(10, None)),
        (Heard(What.MISSED, count=1), Logged(11, None)),
        (Heard(What.LISTED, Who(None, 0, 4), 0, 255, DM1), Logged(12, None)),
    ])  # fmt: skip
    same("bad lines passed over", taken(MIXED.encode(), skip_bad=True)[0], LogCounts(12, 5, 8, 2))
    same("of one bus", taken(MIXED.encode(), bus="can0", skip_bad=True)[0], LogCounts(12, 3, 8, 2))
    same("of another one", taken(MIXED.encode(), bus="can1", skip_bad=True)[0], LogCounts(12, 1, 0, 2))
    same("a drop of whatever bus", taken(b"DROPCOUNT: dropp\n20000004#0001\n", bus="can0")[0], LogCounts(2, 0, 1, 0))
    read = [*hidzgula.read_log(MIXED.encode())]
    same("what is read", [type(it) for it in read], [Frame, Frame, Missed, Frame, Missed, Frame, Missed, Missed, Frame])
    same("the frames", [str(it) for it in read if isinstance(it, Frame)], ["18EEFF00#0799410100000010", FRAME, FRAME, "18EEFF00#0799410100000010", FRAME])
    same("the gaps", [it.count for it in read if isinstance(it, Missed)], [1, 7, 1, 1])
    found = []
    same("without the bad lines", [it.count for it in hidzgula.read_log(MIXED.encode(), on_bad=found.append, skip_bad=True) if isinstance(it, Missed)], [7, 1])
    same("which are told", found, BAD)
    same("a name in place of a log", type(raised(hidzgula.read_log("01.log").__next__)), TypeError)
    same("a text that is none of UTF-8", taken([f"(1.000000) can0 {FRAME}\n", "(\udcff\n"])[0], LogCounts(2, 1, 1, 1))


def by_pipe():
    """What has come is taken before more comes."""
    there, here = os.pipe()
    listed = threading.Semaphore(0)
    with Listener() as listener, open(there, "rb") as log, open(here, "wb", buffering=0) as bus:
        reader = threading.Thread(target=hidzgula.take_log, args=(listener, log), kwargs={"on_change": lambda heard, at: listed.release()})
        reader.start()
        for turn in range(20):
            bus.write(b"(1.000000) can0 18EEFF00#A0000000000000" + b"%02X\n" % turn)
            same("is taken", listed.acquire(timeout=20), True)
        bus.close()
        reader.join(20)
        same("it ends with the pipe", (reader.is_alive(), len(listener.units())), (False, 20))


each_form()
each_cut()
what_is_told()
by_pipe()
sums()
