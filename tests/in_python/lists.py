"""The lists of the logs, by a listener and a log that is read, as `watch` has them; many frames at once, by a station too; each kind of change
with its fields; which messages are kept; that structs lie as the header says; and that types and texts are as they are told."""

import ctypes
import json
import re
import typing

import hidzgula
from hidzgula import DM1, DM2, DM6, BrokenBy, Change, Code, Frame, Heard, Kind, Lamps, Listener, Message, Missed, NotRead, Reply, Station, What, Who, Why, _library, candump
from tries import LOGS, TOP, all_told, entry_of, lists_of, lists_wanted, lines_of, raised, same, sums, with_times

HEADER = (TOP / "c/hidzgula_station.h").read_text()


def read_logs():
    for log in LOGS:
        with Listener() as listener:
            told = []
            hidzgula.take_log(listener, lines_of(log), on_change=lambda heard, at: told.append(heard))
            same(f"the lists of {log}", lists_of(listener), with_times(log))
            same(f"the lists of {log}, of another bus", [*hidzgula.read_log(lines_of(log), bus="can9")], [])
        with Listener() as listener:
            for it in hidzgula.read_log(lines_of(log)):
                listener.missed(it.count) if isinstance(it, Missed) else listener.take(*it)
            same(f"the lists of {log}, without times", lists_of(listener), lists_wanted(log))
        with Listener() as listener:
            hidzgula.take_log(listener, lines_of(log), times=False)
            same(f"the lists of {log}, times aside", lists_of(listener), lists_wanted(log))
    same("a log for a station", type(raised(hidzgula.take_log, Station(1, 248), [])), TypeError)


def as_watch():
    """By a listener, the lists of `watch` in each log of the repository: of NAMEs and of addresses that nobody had claimed, each with where it went."""
    folder = TOP / "tests/data/logs"
    for lists in sorted((folder / "listener").glob("*.lists.json")):
        wanted, name = json.loads(lists.read_text()), lists.name.removesuffix(".lists.json")
        log = folder / "listener" / f"{name}.log"
        log = log if log.exists() else TOP / "examples/logs" / log.name
        with Listener() as listener, open(log, "rb") as file:
            hidzgula.take_log(listener, file, times=name != "relative-times")
            found, rows = {}, {unit.name: unit.address for unit in listener.units()}
            for who in dict.fromkeys([*(Who(unit) for unit in rows), *listener.senders()]):
                runs = {called: runs_of(listener.messages(who, kind)) for kind, called in ((1, "dm1"), (2, "dm2"), (6, "dm6"))}
                key = f"{who.name:016X}" if who.name is not None else f"address {who.address}"
                found.setdefault(key, []).append((rows[who.name] if who.name is not None else who.address, runs))
            units = {}
            for unit in wanted["units"]:
                runs = {kind: [(run["times"], run["to"], run["entry"]) for run in unit[kind]] for kind in ("dm1", "dm2", "dm6")}
                units.setdefault(unit["name"] or f"address {unit['address']}", []).append((unit["address"], runs))
            same(f"{name}: the lists of watch", found, units)
            same(f"{name}: counts", tuple(listener.counts()), (wanted["missed"], wanted["unread"] + wanted.get("partly", 0)))


def runs_of(messages):
    """Equal messages in a row, as the files of tests/data/logs/listener have them."""
    runs = []
    for message in messages:
        entry, to = entry_of(message), None if message.to == 255 else message.to
        if runs and runs[-1][1:] == (to, entry):
            runs[-1] = (runs[-1][0] + 1, to, entry)
        else:
            runs.append((1, to, entry))
    return runs


def heard():
    """Each kind of what a listener hears, and sessions to a tool whose address others claim in their midst."""
    dm1, a, b = bytes.fromhex("04FFB8040301FFFF"), bytes([0xA0] + 7 * [0]), bytes([0xB0] + 7 * [0])
    rts, first, last = (bytes.fromhex(it) for it in ("100A0002FFCBFE00", "0104FFB804030164", "02000101FFFFFFFF"))
    with Listener() as listener:
        for id, data, wanted in (
            (0x18EEFF07, a, Heard(What.CLAIMED, Who(0xA0), 7)),
            (0x18EEFF07, a, Heard(What.NOTHING)),
            (0x18FECA07, bytearray(dm1), Heard(What.LISTED, Who(0xA0), 7, 255, DM1)),
            (0x18FECB07, b"", Heard(What.UNREADABLE, Who(0xA0), 7, 255, DM2, Why.LENGTH)),
            (0x18FECA63, dm1, Heard(What.LISTED, Who(None, 0x63, 0), 0x63, 255, DM1)),
            (0x18E8FF07, bytes.fromhex("01FFFFFFF8CCFE00"), Heard(What.ACKNOWLEDGED, Who(0xA0), 7, 255, control=1, requester=248, pgn=hidzgula.PGN_DM3)),
            (0x1CECF907, rts, Heard(What.NOTHING)),
            (0x1CEBF907, first, Heard(What.NOTHING)),
            (0x18EEFFF9, b, Heard(What.CLAIMED, Who(0xB0), 249)),
            (0x18EEFFF9, bytes(8), Heard(What.CLAIMED, Who(0), 249, displaced=0xB0, lost=True)),
            (0x1CEBF907, last, Heard(What.LISTED, Who(0xA0), 7, 249, DM2)),
            (0x18EEFFFE, b, Heard(What.NOTHING)),
            (0x18EEFFFE, bytes(8), Heard(What.GAVE_UP, Who(0))),
            (0x18FECF63, dm1[:6], Heard(What.LISTED, Who(None, 0x63, 0), 0x63, 255, DM6, Why.IN_PART)),
            (0x1CECFF4D, bytes.fromhex("200A0002FFCBFE00"), Heard(What.UNOWNED, source=77, kind=DM2)),
        ):
            same(f"{id:08X}", listener.take(id, data), wanted)
        same("missed", listener.missed(5, 10), Heard(What.MISSED, count=5))
        same("units", listener.units(), [(0xA0, None, (1, hidzgula.PGN_DM3)), (0xB0, None, None), (0, None, None)])
        same("senders", listener.senders(), [Who(0xA0), Who(None, 0x63, 0)])
        same("in words", [str(who) for who in listener.senders()], ["00000000000000A0", "address 99, no claim seen"])
        same("in words", str(Who(None, 9, 3)), "address 9, no claim seen since gap 3")
        same("a DM2", listener.messages(0xA0, DM2), [Message(0, Lamps(0x04, 0xFF), (Code(1208, 3, 1), Code(100, 1, 1)), 249)])
        same("by Who", listener.messages(Who(None, 0x63, 0), DM1), [Message(0, Lamps(0x04, 0xFF), (Code(1208, 3, 1),), 255)])
        same("in part", listener.messages(Who(None, 0x63, 0), DM6), [Message(0, Lamps(0x04, 0xFF), (Code(1208, 3, 1),), 255, NotRead(0, 0, 0, 0, 2))])
        same("in words", str(listener.newest(Who(None, 0x63, 0), DM6)), "amber; 1208/3/1 in part")
        same("of another gap", (listener.messages(Who(None, 0x63, 1), DM1), listener.newest(Who(None, 0x63, 1), DM1)), ([], None))
        same("it", repr(listener), "<hidzgula.Listener, units 3, missed 5, unread 2>")
        with listener._lock:
            same("in a call", repr(listener), "<hidzgula.Listener, in a call>")
    same("closed", repr(listener), "<hidzgula.Listener, closed>")
    with Listener(keep=2) as listener:
        same("no frames", listener.take_frames([]), (0, []))
        many = [(0x18EEFF00, a), *[(0x18FECA00, memoryview(dm1))] * 9999]
        taken = listener.take_frames(many, range(10000))
        same("ten thousand", (taken.count, [place for place, _ in taken.heard]), (10000, [*range(10000)]))
        same("the first one", taken.heard[0][1], Heard(What.CLAIMED, Who(0xA0), 0))
        same("are counted", listener.count(0xA0, DM1), 9999)
        same("the newest are kept", [message.place for message in listener.messages(0xA0, DM1)], [9997, 9998])
        same("kept no longer", raised(listener.message, 0xA0, DM1, 9996).name, "NOT_KEPT")
        same("without times, from a place on", listener.take_frames(many, start=9990).count, 10)


def broken():
    """Messages that break, each for its reason, one by one and in a row; and a claim that breaks two."""
    bam, rts, other, first, cts = (bytes.fromhex(it) for it in ("200A0002FFCBFE00", "100A0002FFCBFE00", "0104FFB804030165", "0104FFB804030164", "110201FFFFCBFE00"))
    a, b = bytes([0xA0] + 7 * [0]), bytes([0xB0] + 7 * [0])
    of = (What.BROKEN, Who(0xA0), 7)
    steps = [
        (0x18EEFF07, a, 0, Heard(What.CLAIMED, Who(0xA0), 7)),
        (0x1CECFF07, bam, 1000, Heard(What.NOTHING)),
        (0x1CEBFF07, first, 751_001, Heard(*of, 255, DM2, BrokenBy.LATE, read=0, of=2, broken=1)),
        (0x1CECFF07, bam, 800_000, Heard(What.NOTHING)),
        (0x1CEBFF07, first, 1_550_000, Heard(What.NOTHING)),
        (0x1CEBFF07, first, 1_550_001, Heard(*of, 255, DM2, BrokenBy.PACKET, read=1, of=2, number=1, broken=1)),
        (0x1CECF907, rts, 1_600_000, Heard(What.NOTHING)),
        (0x1CEC07F9, cts, 1_600_001, Heard(What.NOTHING)),
        (0x1CEBF907, first, 1_600_002, Heard(What.NOTHING)),
        (0x1CEC07F9, cts, 1_600_003, Heard(What.NOTHING)),
        (0x1CEBF907, first, 1_600_004, Heard(What.NOTHING)),
        (0x1CEBF907, other, 1_600_005, Heard(*of, 249, DM2, BrokenBy.DIFFERS, read=1, of=2, number=1, broken=1)),
        (0x1CECF907, rts, 1_700_000, Heard(What.NOTHING)),
        (0x1CECF907, rts, 1_700_001, Heard(*of, 249, DM2, BrokenBy.ANEW, of=2, broken=1)),
        (0x1CEBF907, first[:7], 1_700_002, Heard(*of, 249, DM2, BrokenBy.LENGTH, of=2, number=1, broken=1)),
        (0x1CECF907, rts, 1_800_000, Heard(What.NOTHING)),
        (0x1CEC07F9, bytes.fromhex("FF02FFFFFFCBFE00"), 1_800_001, Heard(*of, 249, DM2, BrokenBy.ABORT, of=2, reason=2, by=249, broken=1)),
        (0x1CECF907, rts, 1_900_000, Heard(What.NOTHING)),
        (0x1CECFF07, bam, 1_900_001, Heard(What.NOTHING)),
        (0x18EEFF07, b, 1_900_002, Heard(What.CLAIMED, Who(0xB0), 7, displaced=0xA0, lost=True, broken=2)),
    ]
    two = [Heard(*of, to, DM2, BrokenBy.CLAIM, of=2, broken=2) for to in (249, 255)]
    with Listener() as listener:
        same("none yet", listener.broken(), [])
        for at, (id, data, time, wanted) in enumerate(steps):
            same(f"step {at}", listener.take(id, data, time), wanted)
            if wanted.what is What.BROKEN:
                same(f"step {at}", listener.broken(), [wanted])
        same("both", listener.broken(), two)
        listener.missed(1, 1_900_003)
        same("a gap breaks none", listener.broken(), [])
    with Listener() as listener:
        row = [(id, data) for id, data, _, _ in steps] + [(0x18FECA07, bytes.fromhex("04FFB8040301FFFF"))]
        taken = listener.take_frames(row, [time for _, _, time, _ in steps] + [None])
        told = [(at, wanted) for at, (_, _, _, wanted) in enumerate(steps) if wanted.what]
        same("in a row", taken, (len(row), [*told, *((len(steps) - 1, one) for one in two), (len(steps), Heard(What.LISTED, Who(0xB0), 7, 255, DM1))]))


def in_rows():
    """By a station that answers: rows come to what the frames come to one by one."""
    for log in LOGS:
        frames = [read for read in hidzgula.read_log(lines_of(log)) if isinstance(read, Frame)]
        with Station(1, 248, keep=40) as one, Station(1, 248, keep=40) as rows:
            wanted = [one.take(*frame) for frame in frames]
            at, turns = 0, 0
            while at < len(frames):
                taken = rows.take_frames(frames, at)
                part = wanted[at : at + taken.count]
                same(f"{log}: who was replied to", [bool(it.reply.frames) for it in part[:-1]], [False] * (len(part) - 1))
                same(f"{log}: the reply", taken.reply, part[-1].reply)
                same(f"{log}: it ends at a reply or at the end", bool(taken.reply.frames) or at + taken.count == len(frames), True)
                same(f"{log}: the changes", taken.changes, [(at + place, it.change) for place, it in enumerate(part) if it.change.what])
                at, turns = at + taken.count, turns + 1
            same(f"{log}: the end", all_told(rows), all_told(one))
    with Station(1, 248) as station:
        same("no frames", station.take_frames([]), (0, [], (False, ())))
        same("none from the end", station.take_frames([Frame(0, b"")], 1), (0, [], (False, ())))
        many = [(0x18EEFF00, bytes([0xA0, 0, 0, 0, 0, 0, 0, 0])), *[(0x18FECA00, memoryview(b"\x04\xff\xb8\x04\x03\x01\xff\xff"))] * 9999]
        taken = station.take_frames(many)
        same("ten thousand", (taken.count, [place for place, _ in taken.changes]), (10000, [*range(10000)]))
        same("are listed", station.count(0xA0, DM1), 9999)
        same("the first one", taken.changes[0][1], Change(What.CLAIMED, 0xA0, 0))


def changes():
    dm1, dm6 = bytes.fromhex("04FFB8040301FFFF"), bytes.fromhex("00FF64000102FFFF")
    a, b = bytes([0xA0] + 7 * [0]), bytes([0xB0] + 7 * [0])
    with Station(1, 248) as station:
        for id, data, wanted in (
            (0x18EEFF07, a, Change(What.CLAIMED, 0xA0, 7)),
            (0x18EEFF07, a, Change(What.NOTHING)),
            (0x18FECA07, bytearray(dm1), Change(What.LISTED, 0xA0, 7, DM1)),
            (0x18FECF07, memoryview(dm6), Change(What.LISTED, 0xA0, 7, DM6)),
            (0x18FECB07, b"", Change(What.UNREADABLE, 0xA0, 7, DM2)),
            (0x18FECA63, dm1, Change(What.UNOWNED, address=0x63, kind=DM1)),
            (0x18E8FF07, bytes.fromhex("01FFFFFFF8CCFE00"), Change(What.ACKNOWLEDGED, 0xA0, control=1, pgn=hidzgula.PGN_DM3)),
            (0x18E8FF07, bytes.fromhex("01FFFFFFF8CCFE00"), Change(What.ACKNOWLEDGED, 0xA0, control=1, pgn=hidzgula.PGN_DM3, again=True)),
            (0x18EEFF07, b, Change(What.CLAIMED, 0xB0, 7, displaced=0xA0, lost=True)),
            (0x18EEFF09, b, Change(What.CLAIMED, 0xB0, 9)),
            (0x18EEFF07, a, Change(What.CLAIMED, 0xA0, 7, displaced=0xB0)),
            (0x18EEFFFE, b, Change(What.GAVE_UP, 0xB0)),
        ):
            same(f"{id:08X}", station.take(id, data).change, wanted)
        same("units", station.units(), [(0xA0, 7, (1, hidzgula.PGN_DM3)), (0xB0, None, None)])
        same("in words", [str(unit) for unit in station.units()], ["00000000000000A0 at 7", "00000000000000B0 has no address"])
        same("a DM1", station.messages(0xA0, DM1), [Message(0, Lamps(0x04, 0xFF), (Code(1208, 3, 1),))])
        same("in words", str(station.newest(0xA0, DM1)), "amber; 1208/3/1")
        same("a DM6", station.messages(0xA0, DM6), [Message(0, Lamps(0x00, 0xFF), (Code(100, 1, 2),))])
        same("in words", str(station.message(0xA0, DM6, 0)), "no lamp; 100/1/2")
        same("no DM2", (station.messages(0xA0, DM2), station.newest(0xA0, DM2), station.count(0xA0, DM2)), ([], None, 0))
        same("counts", station.counts(), (0, 1))
        same("missed", station.missed(5), (Reply(True, (station.claim(), Frame(0x18EAFFF8, b"\x00\xee\x00"))), Change(What.MISSED, count=5)))
        same("counts", station.counts(), (5, 1))
        station.take(0x18EEFF07, a)
        same("asks", station.ask(0xA0, hidzgula.PGN_DM2), Reply(False, (Frame(0x18EA07F8, b"\xcb\xfe\x00"),)))
        same("asks all", station.ask_all(hidzgula.PGN_ADDRESS_CLAIMED), Reply(False, (Frame(0x18EAFFF8, b"\x00\xee\x00"),)))
        same("commands", [frame.id for frame in station.command(0xA0, 9).frames], [0x1CECFFF8, 0x1CEBFFF8, 0x1CEBFFF8])
        same("its address", (station.address, str(station.claim())), (248, "18EEFFF8#0100000000000000"))
        same("it", repr(station), "<hidzgula.Station 0000000000000001 at 248, units 2, missed 5, unread 1>")
        with station._lock:
            same("in a call", repr(station), "<hidzgula.Station 0000000000000001, in a call>")
        station.take(0x18EEFFF8, bytes(8))
        same("without address", repr(station), "<hidzgula.Station 0000000000000001 without address, units 3, missed 5, unread 1>")
    same("closed", repr(station), "<hidzgula.Station 0000000000000001, closed>")
    lamps = Lamps(0b01010101, 0)
    same("all lamps", (lamps.mil, lamps.stop, lamps.amber, lamps.protect, str(lamps)), (True, True, True, True, "mil, stop, amber, protect"))
    same("none", [str(Lamps(states, 0xFF)) for states in (0, 0xFF, 0xAA)], 3 * ["no lamp"])


def kept():
    for keep, places in ((0, []), (1, [4]), (3, [2, 3, 4]), (None, [0, 1, 2, 3, 4]), (2**32 - 1, [0, 1, 2, 3, 4])):
        with Station(1, 248, keep=keep) as station:
            station.take(0x18EEFF07, bytes([0xA0] + 7 * [0]))
            for spn in range(5):
                station.take(0x18FECA07, bytes([0x04, 0xFF, spn, 0, 3, 1, 0xFF, 0xFF]))
            same(f"{keep} kept", [message.place for message in station.messages(0xA0, DM1)], places)
            same("all are counted", station.count(0xA0, DM1), 5)
            newest = station.newest(0xA0, DM1)
            same("the newest", newest and newest.codes, ((4, 3, 1),) if places else None)


def layouts():
    """Each offset and size that the header states is that of the struct here, and each struct has all fields stated but the first."""
    records = {called: record for record, called, _ in _library.RECORDS}
    for called, size in re.findall(r"HIDZGULA_LAYOUT\(sizeof\((hidzgula_\w+)\) == (\d+)\)", HEADER):
        same(f"the size of {called}", ctypes.sizeof(records[called]), int(size))
    stated = re.findall(r"HIDZGULA_LAYOUT\(offsetof\((hidzgula_\w+), (\w+)\) == (\d+)\)", HEADER)
    for called, field, offset in stated:
        same(f"{called}.{field}", getattr(records[called], field).offset, int(offset))
    for called, record in records.items():
        fields = [field for field, _ in record._fields_]
        same(f"the fields of {called}", [field for name, field, _ in stated if name == called], fields[1:])
        same(f"the first of {called}", getattr(record, fields[0]).offset, 0)
    declared = set(re.findall(r"^(?:uint32_t|void) (hidzgula_\w+)\(", HEADER, re.M))
    same("the calls", set(_library.CALLS), declared)
    numbers = {name: int(number) for name, number in re.findall(r"HIDZGULA_(\w+) = (\d+)", HEADER)}
    same("the kinds", {kind.name: kind.value for kind in Kind}, {name: numbers[name] for name in ("DM1", "DM2", "DM6")})
    same("the changes", {what.name: what.value for what in What}, {what.name: numbers[what.name] for what in What})
    same("why", {f"WHY_{why.name}": why.value for why in Why}, {name: number for name, number in numbers.items() if name.startswith("WHY_")})
    same("broken", {f"BROKEN_{why.name}": why.value for why in BrokenBy}, {name: number for name, number in numbers.items() if name.startswith("BROKEN_")})
    same("the groups", {name: getattr(hidzgula, name) for name in numbers if name.startswith("PGN_") and name != "PGN_TOO_LARGE"},
         {name: number for name, number in numbers.items() if name.startswith("PGN_") and name != "PGN_TOO_LARGE"})
    reasons = {int(number): name for name, number in re.findall(r"HIDZGULA_BAD_(\w+) = (\d+)", HEADER)}
    del reasons[24]  # BAD_SETTING
    same("the reasons", [*reasons], [*range(1, len(candump.REASONS))])
    major, minor = (re.search(rf"HIDZGULA_VERSION_{part} (\d+)", HEADER)[1] for part in ("MAJOR", "MINOR"))
    same("the version", hidzgula.__version__.rsplit(".", 1)[0], f"{major}.{minor}")


def told():
    """What is public has a text and, where it is a call, types."""
    for called in hidzgula.__all__:
        it = getattr(hidzgula, called)
        if isinstance(it, type) or callable(it):
            same(f"{called} has a text", bool(it.__doc__) and not it.__doc__.startswith(f"{called}("), True)
    for of in (Station, Listener):
        for called, it in vars(of).items():
            it = it.fget if isinstance(it, property) else it
            if callable(it) and not called.startswith("_"):
                same(f"{of.__name__}.{called} has a text", bool(it.__doc__), True)
                same(f"{of.__name__}.{called} has types", "return" in typing.get_type_hints(it), True)


def claims(first, count):
    """Claims of so many NAMEs, each from an address of its own, and a DM1 behind each."""
    for at in range(first, first + count):
        yield 0x18EEFF00 | at % 200, (0x8000000000000000 | at).to_bytes(8, "little")
        yield 0x18FECA00 | at % 200, bytes.fromhex("04FF6E000301FFFF")


def ceilings():
    """With `most`, a station, a live station and a listener never have more NAMEs; they go on with those that hold addresses; and refuse 0."""
    frames = [*claims(0, 1500)]
    for of in (Station(1, 249, most=500, keep=2), Listener(most=500, keep=2)):
        with of:
            rows = 0
            for frame in frames:
                of.take(*frame)
                rows = max(rows, len(of.units()))
            same(f"{of!r}: the most NAMEs, and how often begun anew", (rows, of.begun_anew), (500, 4))
            same(f"{of!r}: the last NAME's list", of.count(0x8000000000000000 | 1499, DM1), 1)
            same(f"{of!r}: addresses", len([it for it in of.units() if it.address is not None]), 200)
    for of in (Station(1, 249, most=500, keep=2), Listener(most=500, keep=2)):
        with of:
            taken = of.take_frames(frames)
            same(f"{of!r}: in rows", (taken.count, of.begun_anew, len(of.units()) <= 500), (3000, 4, True))
    with Listener(most=3) as of:
        unclaimed = [0x18FECAF0, bytes.fromhex("04FF6E000301FFFF")]
        seen = [of.take(*unclaimed).who, *(of.take(*frame).who for frame in frames[:4]), of.take(*unclaimed).who]
        same("who is unclaimed before and behind a new beginning", (seen[0].gaps, seen[-1].gaps, of.begun_anew), (0, 1, 1))
    with hidzgula.LiveStation(1, 249, most=500) as live:
        for now, frame in enumerate(frames):
            live.hear(*frame, now * 1000)
        same("a live station", (live.begun_anew, len(live.units()), live.address), (4, 300, 249))
    with hidzgula.LiveStation(1, 249, most=500) as live:
        live.ask(5, DM1)
        for now, frame in enumerate(frames[:1999]):
            live.hear(*frame, now * 1000)
        same("an open order keeps it", (live.begun_anew, len(live.units()), live.is_open), (0, 1000, True))
        live.hear(*frames[1999], 1999000)
        same("up to twice as many", (live.begun_anew, len(live.units()), live.verdict.finding), (1, 200, hidzgula.Finding.CUT_OFF))
    with Station(0x10, 249, most=1) as lost:
        lost.take(0x18EEFFF9, bytes(8))
        same("without an address", raised(lost.take, 0x18EEFFF9, bytes(8)).name, "NOT_HELD")
        refused = raised(lost.take_frames, frames)
        same("without an address, in rows", (refused.name, refused.taken.count), ("NOT_HELD", 0))
    for of in (lambda: Station(1, 249, most=0), lambda: Listener(most=0), lambda: hidzgula.LiveStation(1, 249, most=0)):
        same("none at most", raised(of).name, "BAD_SETTING")
    same("no number", type(raised(Listener, most="many")), TypeError)
    with Station(1, 249) as plain:
        plain.take_frames(frames)
        same("without `most`", (plain.begun_anew, len(plain.units())), (0, 1500))


read_logs()
as_watch()
heard()
broken()
in_rows()
changes()
kept()
ceilings()
layouts()
told()
sums()
