"""Inputs of which nothing is told: that is told, with what was there, and the status is 3."""

from logs.common import CLAIM, MESSAGE, run, same
from model import decode, log_line, watch


def claims(*buses):
    return b"".join(CLAIM.replace(b"can0", bus.encode()) for bus in buses)


SHORT = b"(1.000000) can0 123#00\n"
REMOTE, FD, ERROR = b"(1.000000) can0 18FECA00#R\n", b"(1.000000) can0 18FECA00##100\n", b"(1.000000) can0 20000004#0002\n"
OVERFLOW, DROPPED = b"(1.000000) can0 20000004#0001000000000000\n", b"DROPCOUNT: dropped 7 CAN frames on 'can0' socket (total drops 7)\n"
UNNAMED, UNTIMED = b"18EEFF00#A000000000000000\n", "no line has a time: no packet is late, no entry contested; candump -L has times\n"
MANY = [f"can{n}" for n in range(70)]
# The words behind `watch`, what is read, what is told of it.
NOTHING_IS_TOLD = [
    ([], b"", "no line was read"),
    (["--bus", "can7"], CLAIM, "frames of can0 were read; none of can7"),
    (["--bus", "can7"], claims("can0", "can1", "can0"), "frames of can0 and can1 were read; none of can7"),
    (["--bus", "can7"], claims("can0", "can1", "vcan2"), "frames of can0, can1 and vcan2 were read; none of can7"),
    (["--bus", "x"], claims(*MANY[:8]), "frames of can0, can1, can2, can3, can4, can5, can6 and can7 were read; none of x"),
    (["--bus", "x"], claims(*MANY[:11]), "frames of can0, can1, can2, can3, can4, can5, can6, can7 and 3 more were read; none of x"),
    (["--bus", "x"], claims(*MANY), "frames of can0, can1, can2, can3, can4, can5, can6, can7 and at least 56 more were read; none of x"),
    (["--bus", "can7"], SHORT.replace(b"can0", b"can7") + CLAIM, "frames of can0 were read; none of can7"),
    (["--bus", "can7"], UNNAMED, f"{UNTIMED}frames that name no bus were read; none of can7"),
    ([], UNNAMED, f"{UNTIMED}frames that name no bus were read; none of a bus that is watched"),
    ([], SHORT + claims("can1"), "frames of can1 were read; none of can0, which is named first (--bus)"),
    ([], OVERFLOW + claims("can1"), "frames of can1 were read; none of can0, which is named first (--bus)"),
    ([], SHORT * 127, "127 frames with 11-bit identifiers were read, none with 29 bits"),
    (["--bus", "can7"], SHORT, "1 frame with an 11-bit identifier was read, none with 29 bits"),
    (["--bus", "all"], b"a note\n" + ERROR, "1 error frame was read, no data frame with 29 bits"),
    ([], SHORT + REMOTE + FD * 2, "1 frame with an 11-bit identifier, 1 remote frame and 2 CAN FD frames were read, no data frame with 29 bits"),
    ([], ERROR * 2 + REMOTE * 3, "3 remote frames and 2 error frames were read, no data frame with 29 bits"),
    ([], DROPPED, "frames were dropped, and none was read"),
    ([], OVERFLOW, "frames were dropped, and none was read"),
    (["--from", "2"], CLAIM + MESSAGE, "frames from 1.000000 to 1.100000 were read; none from 2.000000 on"),
    (["--to", "0.500"], MESSAGE + CLAIM, "frames from 1.000000 to 1.100000 were read; none until 0.500000"),
    (["--from", "1.050", "--to", "1.090"], CLAIM + MESSAGE, "frames from 1.000000 to 1.100000 were read; none between 1.050000 and 1.090000"),
    (["--bus", "all", "--from", "2"], claims("can0", "can1"), "frames from 1.000000 to 1.000000 were read; none from 2.000000 on"),
    (["--bus", "can\u202e7"], CLAIM, "frames of can0 were read; none of can\\u202E7"),
]
# What is told of: one frame is enough.
TOLD = [([], CLAIM), (["--bus", "can1"], claims("can0", "can1")), (["--bus", "all"], SHORT + CLAIM), (["--from", "1"], CLAIM), (["--to", "1"], CLAIM + MESSAGE),
        (["--from", "9"], b"  can0  18FECA00   [8]  00 FF 00 00 00 00 FF FF\n" * 2), (["--unit", "9"], CLAIM), (["--unclaimed", "hide"], MESSAGE)]


def frames_of_no_bus():
    """One line tells what was there in place of what is asked for; the report is written all the same. By the model too."""
    found = []
    for words, data, told in NOTHING_IS_TOLD:
        status, out, err = run(["watch", *words], data)
        found += same((status, err), (3, told + "\n"), f"{words} {data[:60]}") + ([] if " unread 0\n" in out or words[:2] == ["--bus", "all"] else [out])
        found += same((3, err), watch.watched(log_line.read_lines(data), watch.Options.of(words))[:0:-1], f"the model: {words} {data[:60]}")
    for words, data in TOLD:
        status, _, err = run(["watch", *words], data)
        found += same((status, err if words[:1] != ["--from"] or data[:1] == b"(" else ""), (0, ""), f"{words} {data[:60]}")
    return found


def frames_of_no_group():
    """`decode` answers each line, and tells that none was a frame of SAE J1939, or that there was none."""
    found = []
    for words, data, told in NOTHING_IS_TOLD:
        if words or b" " not in data and data:
            continue
        wanted = (0, "") if b"#A0" in data else (3, told + "\n")
        status, out, err = run(["decode"], data)
        found += same((status, err, out.count("\n")), (*wanted, data.count(b"\n")), f"{data[:60]}")
        found += same((status, err), decode.decoded(log_line.read_lines(data))[:0:-1], f"the model: {data[:60]}")
    return found


def what_breaks_off():
    """Of an input that ends at a bad line nothing more is told than that line."""
    return same(run(["watch", "--strict"], SHORT + b"(x\n" + SHORT)[::2], (3, "line 2: no time (SECONDS.MICROSECONDS)\n"), "strict")
