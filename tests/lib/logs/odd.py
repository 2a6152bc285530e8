"""Corners of what is counted, forgotten and told, as the model says."""

import tempfile

from logs.common import run, same
from model import decode, log_line, watch

# Corners of what is counted, forgotten and told, each a log with the words of `watch`. What is right of them, the model says.
CORNERS = [
    ("drops of a bus whose name is cut", "--bus can1", ["(1.000000) can1 18EEFF00#A000000000000000", "DROPCOUNT: dropped 3 CAN frames on 'can0", "DROPCOUNT: dropped 5 CAN frames on can0' socket"]),
    ("remote behind a byte", "", ["(1.000000) can0 18FECA00 [2] 04 remote request", "  can0  18FECA00   [2]  04 remote request"]),
    ("delete is a control character", "", ["(1.000000) can0 18FECA00#04\x7fF", "(1.000000) can0 18FECA00#04\x1fF"]),
    ("bytes of two digits in a script's frame", "", ["18FECA00 04FF B804 0301 FFFF", "20000004 00 01 00", "18FECA00 04 FF B8 04 03 01 FF FF"]),
    ("a message of nobody that cannot be read", "", ["(1.000000) can0 18FECA05#04FF", "(1.100000) can0 18FECA05#04FFB8040301FFFF", "(1.200000) can0 1CECFF05#200A0002FFCAFE00"]),
    ("unread on two buses", "--bus all", ["(1.000000) can0 18FECA05#04FF", "(1.100000) can1 18FECA05#04FF", "(1.200000) can1 18FECA05#04"]),
    ("lost frames of buses that are heard and not", "--bus all", ["DROPCOUNT: dropped 2 CAN frames on 'can7' socket", "(1.000000) can0 18FECA05#04FFB8040301FFFF", "(1.000000) can0 20000004#0001", "(1.000000) can8 20000004#0001",
     "DROPCOUNT: dropped 3 CAN frames on 'can0' socket", "DROPCOUNT: dropped 4 CAN frames on 'can7' socket", "(1.000000) can0 123#00"]),
    ("withheld on two buses", "--bus all", [f"({n}.000000) can{bus} 1C{rest}" for bus in (0, 1) for n, rest in enumerate(["ECFF05#20110003FFCAFE00", "EBFF05#0104FFB804030164", "EBFF05#0200050165000101", "EBFF05#03FFFFFFFFFFFFFF"])]),
    ("a gap of one frame ends a contest", "", ["(1.000000) can0 18EEFF00#A000000000000000", "(1.010000) can0 18EEFF00#A100000000000000", "(x", "(1.020000) can0 18EEFF00#A100000000000000", "(1.030000) can0 18FECA00#04FFB8040301FFFF"]),
    ("a contest without a time", "", ["(1.000000) can0 18EEFF00#A000000000000000", "(1.010000) can0 18EEFF00#A100000000000000", "  can0  18EEFF00   [8]  A2 00 00 00 00 00 00 00", "(1.020000) can0 18FECA00#04FFB8040301FFFF"]),
    ("late by T1 and less", "", [line for n, gap in enumerate((749_999, 750_000, 750_001)) for line in (f"({n}.000000) can0 1CECFF05#200A0002FFCAFE00", f"({n}.000000) can0 1CEBFF05#0104FFB804030164",
     f"({(n * 1_000_000 + gap) // 1_000_000}.{(n * 1_000_000 + gap) % 1_000_000:06d}) can0 1CEBFF05#02000501FFFFFFFF")]),
    ("an entry without a time behind one with a time", "", ["(1.000000) can0 18FECA05#04FFB8040301FFFF", "  can0  18FECA05   [8]  04 FF B8 04 03 01 FF FF"]),
    ("no frame but of 11 bits, without times", "", ["  can0  123   [0]", "  can0  124   [1]  00"]),
    ("assumed on each bus", "--bus all --assume 0=00000000000000A0 --assume 1=00000000000000A1 --assume 2=00000000000000A2", [f"({n}.000000) can{n} 18FECA0{n}#04FFB8040301FFFF" for n in range(3)]),
    ("of the unit at 253", "--unit 253", ["(1.000000) can0 18EEFFFD#A000000000000000", "(1.100000) can0 18FECAFD#04FFB8040301FFFF", "(1.200000) can0 18FECAFA#04FFB8040301FFFF"]),
    ("gaps of an address", "", [line for n in range(1, 5) for line in (f"({n}.000000) can0 18FECA05#04FFB80403{n:02X}FFFF", "(x")]),
    ("answers to everybody", "", ["(1.000000) can0 18EEFF00#A000000000000000", "(1.100000) can0 18E8FF00#00FFFFFFFECCFE00", "(1.200000) can0 18E8FF00#00FFFFFFFFCCFE00"]),
    ("strict in each form", "--strict", ["(1.000000) can0 18EEFF00#A000000000000000", "(x", "(1.100000) can0 18FECA00#04FFB8040301FFFF"]),
    ("foreign frames and notes among packets", "", ["(1.000000) can0 1CECFF05#200A0002FFEBFE00", "(1.000000) can0 123#00", "# a comment", "", "(1.000000) can0 1CEBFF05#0144444320585858", "(1.000000) can0 18FECA00#R", "(1.000000) can0 1CEBFF05#022A3132FFFFFFFF"]),
    ("packets that name no bus", "", ["(1.000000) can0 1CECFF05#200A0002FFCFFE00", "1CEBFF05#0104FFB804030164", "(1.000000) can0 1CEBFF05#0104FFB804030164", "1CEBFF05#02000501FFFFFFFF", "(1.000000) can0 1CEBFF05#02000501FFFFFFFF",
     "1CECFF05#200A0002FFCBFE00", "1CEBFF05#0104FFB804030164", "1CEBFF05#02000501FFFFFFFF"]),
]
TEXTS = "spn,fmi,text\n1208,,of the SPN\n,5,of the FMI\n100,5,own\n524287,,greatest\n"


def corners():
    """Each in every form, with `decode --join` and a shop's texts, as the model says."""
    found = []
    with tempfile.NamedTemporaryFile(suffix=".csv") as texts:
        texts.write(TEXTS.encode())
        texts.flush()
        for what, given, lines in CORNERS:
            data = "".join(line + "\n" for line in lines).encode()
            read = log_line.read_lines(data)
            of_watch = watch.watched(read, watch.Options.of(given.split()))
            of_decode = decode.decoded(read, TEXTS, True)
            for words_of_it, (forms, errors, status) in ((["watch", *given.split()], of_watch), (["decode", "--join", "--texts", texts.name], of_decode)):
                for form, text in forms.items():
                    found += same(run([*words_of_it, "--format", form], data), (status, text, errors), f"{what}, {words_of_it[0]} {form}")
    return found


RTS, CTS, FIRST, SECOND = "1CECF905#100A0002FFCBFE00", "1CEC05F9#11{}01FFFFCBFE00", "1CEBF905#0104FF6400010165", "1CEBF905#02000101FFFFFFFF"
BAM, TO_ALL = "1CECFF05#200A0002FFCBFE00", [it.replace("EBF905", "EBFF05") for it in (FIRST, SECOND)]
BOTH, ONE, HOLD, NEXT = CTS.format("02"), CTS.format("01"), CTS.format("00"), "1CEC05F9#110102FFFFCBFE00"
# Where a message waits (J1939-21, 5.10.3): the frames before and behind, and how many microseconds it may at most.
WAITS = {
    "of a broadcast, packet after packet (T1)": ([BAM, TO_ALL[0]], [TO_ALL[1]], 750_000),
    "of a session, packet after packet (T1)": ([RTS, BOTH, FIRST], [SECOND], 750_000),
    "a packet after a clear to send (T2)": ([RTS, BOTH], [FIRST, SECOND], 1_250_000),
    "a clear to send after a request (T3)": ([RTS], [BOTH, FIRST, SECOND], 1_250_000),
    "a clear to send after a packet (T3)": ([RTS, ONE, FIRST], [NEXT, SECOND], 1_250_000),
    "a clear to send after a hold (T4)": ([RTS, HOLD], [BOTH, FIRST, SECOND], 1_050_000),
    "a hold after a hold (T4)": ([RTS, HOLD], [HOLD, BOTH, FIRST, SECOND], 1_050_000),
    "a packet whose clear to send was not read (T3 and T2)": ([RTS], [FIRST, SECOND], 2_500_000),
}


def each_time_limit():
    """A message that waits as long as it may is listed, and one that waits a microsecond longer is not, and is told as broken."""
    found = []
    for what, (before, behind, limit) in WAITS.items():
        for wait, is_listed in ((limit - 1, True), (limit, True), (limit + 1, False)):
            at = 1_000_000 + wait
            lines = [f"(1.000000) can0 {it}" for it in before] + [f"({at // 1_000_000}.{at % 1_000_000:06d}) can0 {it}" for it in behind]
            _, out, _ = run(["watch"], "".join(f"{it}\n" for it in lines).encode())
            found += same((" dm2 address 5" in out, "broken 1: dm2 of address 5" in out), (is_listed, not is_listed), f"{what}, {wait}: {out}")
            _, out, _ = run(["decode", "--join"], "".join(f"{it}\n" for it in lines).encode())
            found += same("joined" in out, is_listed, f"decode --join, {what}, {wait}: {out}")
    return found
