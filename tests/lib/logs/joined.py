"""Messages joined from their packets."""

import json
import random
import tempfile

from logs.common import run, same

AMBER = "DM1: amber (04FF); 1208/3/1 100/5/1 (1208/3: voltage above normal or shorted high) (100/5: current below normal or open circuit)"
BAM = "1CECFF00#200A0002FFCAFE00"
FIRST, LAST = "1CEBFF00#0104FFB804030164", "1CEBFF00#02000501FFFFFFFF"
RTS = "1CECF900#100A0002FFCAFE00"
S_FIRST, S_LAST = FIRST.replace("1CEBFF", "1CEBF9"), LAST.replace("1CEBFF", "1CEBF9")
TO_ALL, TO_TOOL = f"joined 0>all 65226 {AMBER}", f"joined 0>249(F9) 65226 {AMBER}"
SPACE = 200  # milliseconds from frame to frame: three of them are no more than there may be between two packets to all
ASKED = "1CEC00F9#110201FFFFCAFE00"
JOINED = [
    ("a broadcast", [BAM, FIRST, LAST], [TO_ALL]),
    ("a session", [RTS, "1CEC00F9#110201FFFFCAFE00", S_FIRST, S_LAST, "1CEC00F9#130A0002FFCAFE00"], [TO_TOOL]),
    ("a session and a broadcast of one source", [RTS, BAM, FIRST, S_FIRST, LAST, S_LAST], [TO_ALL, TO_TOOL]),
    ("two sessions of one pair, there and back", [RTS, "1CEC00F9#100A0002FFCAFE00", S_FIRST, S_FIRST.replace("F900", "00F9"), S_LAST, S_LAST.replace("F900", "00F9")],
     [TO_TOOL, f"joined 249(F9)>0 65226 {AMBER}"]),
    ("sessions of two sources to one", [RTS, RTS.replace("F900", "F901"), S_FIRST, S_FIRST.replace("F900", "F901"), S_LAST, S_LAST.replace("F900", "F901")],
     [TO_TOOL, f"joined 1>249(F9) 65226 {AMBER}"]),
    ("a packet that is asked for again comes again", [RTS, ASKED, S_FIRST, ASKED, S_FIRST, S_LAST], [TO_TOOL]),
    ("it comes again with another byte", [RTS, ASKED, S_FIRST, ASKED, S_FIRST.replace("64", "65"), S_LAST], []),
    ("it comes again though nobody asked", [RTS, S_FIRST, S_FIRST, S_LAST], []),
    ("the session is held", [RTS, *["1CEC00F9#1100FFFFFFCAFE00"] * 15, ASKED, S_FIRST, S_LAST], [TO_TOOL]),
    ("packets that nobody announced", [FIRST, LAST], []),
    ("a packet is missing", [BAM, LAST], []),
    ("a packet comes twice", [BAM, FIRST, FIRST, LAST], []),
    ("a short packet", [BAM, FIRST[:-2], LAST], []),
    ("a packet behind the last", [BAM, FIRST, LAST, LAST], [TO_ALL]),
    ("announced again", [BAM, FIRST, BAM, FIRST, LAST], [TO_ALL]),
    ("another message is announced in its place", [RTS, S_FIRST, "1CECF900#100A0002FFEBFE00", S_LAST], []),
    ("another one is announced, and comes", [RTS, "1CECF900#100A0002FFEBFE00", S_FIRST, S_LAST],
     ["joined 0>249(F9) 65259 CI component identification: \\x04\\xFF\\xB8\\x04\\x03\\x01d\\x00\\x05\\x01"]),
    ("the sender aborts", [RTS, S_FIRST, "1CECF900#FF02FFFFFFCAFE00", S_LAST], []),
    ("the receiver aborts", [RTS, S_FIRST, "1CEC00F9#FF02FFFFFFCAFE00", S_LAST], []),
    ("an abort names another group", [RTS, S_FIRST, "1CEC00F9#FF02FFFFFFCBFE00", S_LAST], []),
    ("others abort", [RTS, S_FIRST, "1CEC01F9#FF02FFFFFFCAFE00", "1CECF901#FF02FFFFFFCAFE00", "1CECFF00#FF02FFFFFFCAFE00", S_LAST], [TO_TOOL]),
    ("an abort of a session leaves the broadcast", [BAM, RTS, "1CEC00F9#FF02FFFFFFCAFE00", FIRST, LAST], [TO_ALL]),
    ("acknowledged before its last packet", [RTS, S_FIRST, "1CEC00F9#130A0002FFCAFE00", S_LAST], [TO_TOOL]),
    ("the sender's acknowledgment", [RTS, S_FIRST, "1CECF900#130A0002FFCAFE00", S_LAST], [TO_TOOL]),
    ("packets go to another", [RTS, S_FIRST, S_LAST.replace("F900", "FA00")], []),
    ("a request to send to all", [RTS.replace("F900", "FF00"), FIRST, LAST], []),
    ("an announcement to one", [BAM.replace("FF00", "F900", 1), S_FIRST, S_LAST], []),
    ("a claim of the source", [BAM, "18EEFF00#A000000000000000", FIRST, LAST], [TO_ALL]),
]


def joined_messages():
    """Each message has its line behind that of its last packet, in text and JSON; without --join there is none."""
    found = []
    for what, frames, wanted in JOINED:
        text = "".join(f"({n * SPACE // 1000}.{n * SPACE % 1000:03d}000) can0 {frame}\n" for n, frame in enumerate(frames)).encode()
        status, out, err = run(["decode", "--join"], text)
        lines = out.splitlines()
        found += same([line.split(" can0 ")[1] for line in lines if " joined " in line], wanted, what) + same((status, err), (0, ""), what)
        found += same([line for line in lines if " joined " not in line], run(["decode"], text)[1].splitlines(), f"{what}: the other lines")
        objects = [json.loads(line) for line in run(["decode", "--join", "--format", "json"], text)[1].splitlines()]
        told = [f"joined {o['source']}>{o['destination']} {o['pgn']} {o['data']}" for o in objects if o.get("joined")]
        found += same(len(told), len(wanted), f"{what}: in JSON") + same(len(objects), len(frames) + len(wanted), f"{what}: objects")
        for line, text_line in zip(objects[1:], objects):
            found += same((line["line"], line["time"]), (text_line["line"], text_line["time"]), f"{what}: its line") if line.get("joined") else []
    return found


def random_frame(chance):
    """A frame of the transport protocol between a few addresses: (source, destination, control byte or packet number, its bytes)."""
    source, dest = chance.choice((0, 1, 249)), chance.choice((0, 1, 249, 255, 255))
    if chance.random() < 0.7:
        number, rest = chance.choice((1, 1, 2, 2, 3)), bytes(chance.randrange(256) for _ in range(7))
        return source, dest, None, bytes([number]) + rest[: chance.choice((7, 7, 7, 7, 7, 7, 7, 6))]
    kind, size, group = chance.choice((16, 16, 16, 32, 32, 17, 19, 255)), chance.choice((9, 14, 15)), chance.choice((65226, 65227, 65259))
    return source, dest, kind, bytes([kind, size, 0, -(-size // 7), 255]) + group.to_bytes(3, "little")


def joined_back(frames, at):
    """The message that the packet at a place makes whole, as found by going back: its source, destination, group and bytes."""
    source, dest, kind, packet = frames[at]
    packets = [packet]
    if kind is not None:
        return None
    for s, d, kind, bytes_ in reversed(frames[:at]):
        if kind is None and (s, d) == (source, dest):
            packets.insert(0, bytes_)
        elif kind == 255 and dest != 255 and (s, d) in ((source, dest), (dest, source)):
            return None
        elif (s, d) == (source, dest) and kind == (32 if dest == 255 else 16):
            size, group = bytes_[1], int.from_bytes(bytes_[5:8], "little")
            in_order = [p[0] for p in packets] == list(range(1, -(-size // 7) + 1)) and all(len(p) == 8 for p in packets)
            return (source, dest, group, b"".join(p[1:] for p in packets)[:size].hex().upper()) if in_order else None
    return None


def random_joins():
    """What is joined of random frames is what is found by going back from each packet."""
    chance, found, joins = random.Random(1), [], 0
    for run_ in range(60):
        frames = [random_frame(chance) for _ in range(400)]
        text = "".join(f"1C{'EB' if kind is None else 'EC'}{d:02X}{s:02X}#{data.hex()}\n" for s, d, kind, data in frames)
        objects = [json.loads(line) for line in run(["decode", "--join", "--format", "json"], text.encode())[1].splitlines()]
        told = [(o["line"], o["source"], o["destination"], o["pgn"], o["data"]) for o in objects if o.get("joined")]
        wanted = [(at + 1, *joined_back(frames, at)) for at in range(len(frames)) if joined_back(frames, at)]
        joins += len(wanted)
        found += same(told, wanted, f"run {run_}")
    return found + ([] if joins > 100 else [f"only {joins} messages are joined"])


def joined_apart():
    """Packets of two buses are not joined; a bad line and lost frames end what is half joined; texts of codes stand behind a joined
    message; its JSON has what a frame's has."""
    log = lambda *frames: "".join(f"(1.000000) {bus} {frame}\n" for bus, frame in frames).encode()
    found = []
    for frames, wanted in (
        ([("can0", BAM), ("can1", BAM), ("can0", FIRST), ("can1", FIRST), ("can1", LAST), ("can0", LAST)], 2),
        ([("can0", BAM), ("can1", FIRST), ("can0", LAST)], 0),
        ([("can0", BAM), ("can0", FIRST), ("can1", LAST)], 0),
        ([(f"can{n}", BAM) for n in range(17)] + [(f"can{n}", frame) for n in range(17) for frame in (FIRST, LAST)], 16),
    ):
        found += same(run(["decode", "--join"], log(*frames))[1].count(" joined "), wanted, f"{frames[:3]}")
    for between in (b"(x\n", b"DROPCOUNT: dropped 1 CAN frame on 'can0' socket (total drops 1)\n", b"(1.000000) can0 20000004#0001000000000000\n"):
        text = log(("can0", BAM), ("can0", FIRST)) + between + log(("can0", LAST))
        found += same(run(["decode", "--join"], text)[1].count(" joined "), 0, f"{between!r}")
    text = log(("can0", BAM), ("can0", FIRST), ("can0", LAST))
    with tempfile.NamedTemporaryFile(suffix=".csv") as texts:
        texts.write(b"spn,fmi,text\n100,,Oil\n")
        texts.flush()
        last = run(["decode", "--join", "--texts", texts.name], text)[1].splitlines()[-1]
        found += same(last, f"(1.000000) can0 {TO_ALL}".replace("current below normal or open circuit", "Oil"), "texts")
        last = json.loads(run(["decode", "--join", "--format", "json", "--texts", texts.name], text)[1].splitlines()[-1])
    wanted = {"line": 3, "joined": True, "time": "1.000000", "bus": "can0", "source": 0, "destination": 255, "pgn": 65226, "data": "04FFB804030164000501"}
    codes = [{"spn": 1208, "fmi": 3, "count": 1, "fmi_text": "voltage above normal or shorted high"},
             {"spn": 100, "fmi": 5, "count": 1, "text": "Oil", "fmi_text": "current below normal or open circuit"}]
    wanted |= {"says": "DM1: amber; 1208/3/1 100/5/1", "lamps": "04FF", "codes": codes}
    found += same(last, wanted, "in JSON")
    named = json.loads(run(["decode", "--format", "json"], b"0CF00400#F07D820C1D00F083\n")[1])
    return found + same((named["says"], named["group"]), ("-: data F0 7D 82 0C 1D 00 F0 83", "EEC1 electronic engine controller 1"), "group in JSON")
