"""Each refusal raises its name and number, and changes nothing; so do numbers beyond the library's types, and data that is none."""

import copy
import pickle
import re

import hidzgula
from hidzgula import DM1, Frame, Listener, Refused, SimulatedUnit, Station, Who
from hidzgula.refusals import OUT_OF_MEMORY, REFUSALS
from tries import TOP, all_heard, all_told, raised, same, sums

A0 = bytes([0xA0] + 7 * [0])
DATA = bytes.fromhex("04FFB8040301FFFF")
seen = set()


def refused(what, name, call, *words, **named):
    """A call is refused by this name, with its number."""
    error = raised(call, *words, **named)
    seen.add(name)
    number = [number for number, (called, _) in REFUSALS.items() if called == name]
    same(what, (type(error), getattr(error, "name", None), [getattr(error, "number", None)]), (Refused, name, number))
    same(f"{what}, a ValueError", isinstance(error, ValueError), True)
    same(f"{what}, in words", str(error).startswith(f"{name} ("), True)
    return error


def wrong(what, call, *words, **named):
    """A number that no type of the library holds."""
    same(what, type(raised(call, *words, **named)), ValueError)


def mistyped(what, told, call, *words, **named):
    """What is no number, or no bytes: it is told what was wanted."""
    error = raised(call, *words, **named)
    same(what, (type(error), str(error)[: len(told)]), (TypeError, told))


def no_copy(of, called):
    """It is in one place alone."""
    for call in (copy.copy, copy.deepcopy, pickle.dumps):
        mistyped(f"{call.__name__} of {called}", f"{called} cannot be copied", call, of)


def by_arguments(station):
    before = all_told(station)
    for id in (2**29, 2**32 - 1, 2**32, 2**70):
        refused(f"identifier {id}", "ID_TOO_LARGE", station.take, id, DATA)
        refused(f"identifier {id}, too long", "ID_TOO_LARGE", station.take, id, bytes(9))
    for length in (9, 255, 256, 70000):
        refused(f"{length} bytes", "TOO_LONG", station.take, 0x18FECA07, bytes(length))
    for pgn in (2**24, 2**32 - 1, 2**32, 2**70):
        refused(f"group {pgn}", "PGN_TOO_LARGE", station.ask, 0xA0, pgn)
        refused(f"group {pgn} of all", "PGN_TOO_LARGE", station.ask_all, pgn)
    refused("an unknown NAME", "NO_ADDRESS", station.ask, 0xA1, hidzgula.PGN_DM1)
    for address in (254, 255, 256, 2**70):
        refused(f"to address {address}", "NOT_AN_ADDRESS", station.command, 0xA0, address)
        refused(f"at address {address}", "BAD_SETTING", Station, 1, address)
    refused("grant 0", "BAD_SETTING", Station, 1, 1, grant=0)
    for kind in (0, 3, 4, 5, 7, 255, 256, 2**70):
        refused(f"kind {kind}", "NO_KIND", station.messages, 0xA0, kind)
        refused(f"kind {kind}", "NO_KIND", station.count, 0xA0, kind)
        refused(f"kind {kind}", "NO_KIND", station.newest, 0xA0, kind)
        refused(f"kind {kind}", "NO_KIND", station.message, 0xA0, kind, 0)
    for place in (4, 2**64 - 1, 2**64):
        refused(f"place {place}", "NO_PLACE", station.message, 0xA0, DM1, place)
    refused("kept no longer", "NOT_KEPT", station.message, 0xA0, DM1, 0)
    same("nothing is changed", all_told(station), before)


def beyond_types(station):
    before = all_told(station)
    for name in (2**64, -1):
        wrong(f"NAME {name}", Station, name, 1)
        wrong(f"NAME {name}", station.ask, name, 1)
        wrong(f"NAME {name}", station.command, name, 1)
        wrong(f"NAME {name}", station.messages, name, DM1)
    wrong("a negative identifier", station.take, -1, DATA)
    wrong("a negative address", Station, 1, -1)
    wrong("a negative kind", station.count, 0xA0, -1)
    wrong("a negative place", station.message, 0xA0, DM1, -1)
    wrong("a negative group", station.ask_all, -1)
    wrong("a negative identifier in a row", station.take_frames, [(0x18FECA07, DATA), (-1, DATA)])
    wrong("grant 256", Station, 1, 1, grant=256)
    wrong("keep 2^32", Station, 1, 1, keep=2**32)
    wrong("a negative gap", station.missed, -1)
    wrong("a gap of 2^32", station.missed, 2**32)
    wrong("from behind the end", station.take_frames, [], 1)
    for data in ("text", 5, None, [1, 2]):
        mistyped(f"data {data!r}", "data is bytes, and not ", station.take, 0x18FECA07, data)
        same(f"data {data!r} in a row", type(raised(station.take_frames, [(0x18FECA07, DATA), (0x18FECA07, data)])), TypeError)
    for what, call, words in (
        ("id", station.take, ("18FECA07", DATA)), ("count", station.missed, (1.0,)), ("name", station.ask, ("A0", 1)), ("pgn", station.ask, (0xA0, None)),
        ("pgn", station.ask_all, ("1",)), ("address", station.command, (0xA0, "9")), ("kind", station.messages, (0xA0, "DM1")),
        ("kind", station.count, (0xA0, [1])), ("place", station.message, (0xA0, DM1, 0.5)), ("name", Station, ("A0", 1)), ("address", Station, (1, None)),
        ("start", station.take_frames, ([], "0")),
    ):
        mistyped(f"{call.__name__} {words}", f"{what} is a whole number, and not ", call, *words)
    mistyped("grant", "grant is a whole number, and not ", Station, 1, 1, grant="9")
    mistyped("keep", "keep is a whole number, and not ", Station, 1, 1, keep="9")
    mistyped("a log for no listener", "listener is a Listener, and not ", hidzgula.take_log, 5, b"")
    mistyped("a log for a station", "listener is a Listener, and not ", hidzgula.take_log, station, b"")
    for listening in (True, False):
        mistyped("a station that only listens", "a station takes part in the bus; for one who only listens there is hidzgula.Listener()", Station, 1, 2, listening=listening)
    mistyped("another setting", "a station has no grants", Station, 1, 2, grants=3)
    mistyped("a log that is none", "a log is a file, its bytes or its lines, and not 5", hidzgula.read_log(5).__next__)
    for log in ("a.log", "(1.000000) can0 18FECA00#00\n"):
        mistyped("a log that is a text", "a log is a file, its bytes or its lines, and no text: open the file", hidzgula.read_log(log).__next__)
    mistyped("a bus that is none", "bus is a str, and not b'can0'", hidzgula.read_log(b"", b"can0").__next__)
    for bad in (5, (1,), (1, b"", 2)):
        mistyped(f"the pair {bad}", f"a frame is a pair of an identifier and bytes, and not {bad!r}", station.take_frames, [(0x18FECA07, DATA), bad])
    mistyped("frames that are none", "frames is a sequence of pairs of an identifier and bytes, and not 5", station.take_frames, 5)
    no_copy(station, "a station")
    same("nothing is changed", all_told(station), before)


def in_a_row():
    """The frames before the refused one are taken, and the error tells of them; the caller goes on behind it."""
    frames = [Frame(0x18EEFF07, A0), *[Frame(0x18FECA07, DATA)] * 5000]
    for place in (0, 1, 77, 4095, 4096, 4097, 5000):
        for name, bad in (("ID_TOO_LARGE", (2**29, DATA)), ("ID_TOO_LARGE", (2**33, bytes(300))), ("TOO_LONG", (1, bytes(9))), ("TOO_LONG", (1, bytes(300)))):
            with Station(1, 248, keep=5) as station, Station(1, 248, keep=5) as other:
                error = refused(f"at {place}", name, station.take_frames, [*frames[:place], bad, *frames[place:]])
                same("what is before it is taken", (error.taken.count, len(error.taken.changes)), (place, place))
                other.take_frames(frames[:place])
                same("and nothing else", all_told(station), all_told(other))
                same("it goes on", station.take_frames(frames, place).count, len(frames) - place)
                other.take_frames(frames, place)
                same("to the same end", all_told(station), all_told(other))


def without_address():
    with Station(1, 248) as station:
        station.take(0x18EEFF07, A0)
        station.take(0x18EEFFF8, bytes(8))
        same("it holds none", station.address, None)
        refused("asks", "NOT_HELD", station.ask, 0xA0, hidzgula.PGN_DM1)
        refused("asks all", "NOT_HELD", station.ask_all, hidzgula.PGN_DM1)
        refused("commands", "NOT_HELD", station.command, 0xA0, 9)
        refused("saves", "NOT_HELD", station.save)


def closed():
    station = Station(1, 248)
    station.close()
    station.close()
    for call, words in (
        (station.take, (0, b"")),
        (station.take_frames, ([],)),
        (station.take_frames, ([(0, b"")],)),
        (station.take_frames, ([(2**29, b"")],)),
        (station.missed, (1,)),
        (station.claim, ()),
        (station.ask, (0xA0, 1)),
        (station.ask_all, (1,)),
        (station.command, (0xA0, 9)),
        (station.units, ()),
        (station.count, (0xA0, DM1)),
        (station.messages, (0xA0, DM1)),
        (station.newest, (0xA0, DM1)),
        (station.message, (0xA0, DM1, 0)),
        (station.counts, ()),
        (lambda: station.address, ()),
        (station.save, ()),
    ):
        refused(f"closed {call}", "NO_STATION", call, *words)
    with Station(1, 248) as left:
        pass
    refused("left", "NO_STATION", left.counts)


def of_listeners():
    """What a listener refuses."""
    with Listener(keep=1) as listener:
        listener.take(0x18EEFF07, A0)
        for _ in range(3):
            listener.take(0x18FECA07, DATA)
        before = all_heard(listener)
        refused("an identifier", "ID_TOO_LARGE", listener.take, 2**29, DATA)
        refused("nine bytes", "TOO_LONG", listener.take, 0x18FECA07, bytes(9), 5)
        for kind in (0, 3, 255, 2**70):
            for call in (listener.messages, listener.count, listener.newest):
                refused(f"kind {kind}", "NO_KIND", call, 0xA0, kind)
            refused(f"kind {kind}", "NO_KIND", listener.message, 0xA0, kind, 0)
        refused("a place", "NO_PLACE", listener.message, 0xA0, DM1, 3)
        refused("kept no longer", "NOT_KEPT", listener.message, 0xA0, DM1, 1)
        for call, words in ((listener.take, (-1, DATA)), (listener.take, (1, DATA, -1)), (listener.take, (1, DATA, 2**64 - 1)), (listener.missed, (-1,)), (listener.missed, (1, -1)),
                            (listener.count, (2**64, DM1)), (listener.count, (Who(None, 256, 0), DM1)), (listener.count, (Who(None, 1, -1), DM1)),
                            (listener.take_frames, ([(1, DATA)], [])), (listener.take_frames, ([], None, 1))):
            wrong(f"{call} {words}", call, *words)
        for what, call, words in (("id", listener.take, ("1", DATA)), ("time", listener.take, (1, DATA, 0.5)), ("count", listener.missed, (1.0,)), ("who", listener.count, ("A0", DM1)),
                                  ("kind", listener.count, (0xA0, "DM1")), ("place", listener.message, (0xA0, DM1, 0.5)), ("name", listener.count, (Who("A0"), DM1)),
                                  ("time", listener.take_frames, ([(1, DATA)], ["0"]))):
            mistyped(f"{call} {words}", f"{what} is a whole number, and not ", call, *words)
        mistyped("keep", "keep is a whole number, and not ", Listener, keep="9")
        mistyped("data", "data is bytes, and not ", listener.take, 1, "00")
        error = refused("in a row", "TOO_LONG", listener.take_frames, [(0x18FECA07, DATA), (1, bytes(9))])
        same("what is before it is taken", (error.taken.count, len(error.taken.heard)), (1, 1))
        same("and nothing else", listener.count(0xA0, DM1), before[1][0][2] + 1)
        no_copy(listener, "a listener")
    for call, words in ((listener.take, (0, b"")), (listener.take_frames, ([],)), (listener.take_frames, ([(2**29, b"")],)), (listener.missed, (1,)), (listener.units, ()),
                        (listener.senders, ()), (listener.count, (1, 1)), (listener.messages, (1, 1)), (listener.newest, (1, 1)), (listener.message, (1, 1, 0)), (listener.counts, ())):
        refused(f"closed {call}", "NO_LISTENER", call, *words)
    listener.close()


def of_units():
    """What a simulated unit refuses."""
    for words in ({"address": 254}, {"address": 2**70}, {"address": 0, "gap": 9_999}, {"address": 0, "gap": 2**70}, {"address": 0, "settle": 1_000_001}):
        refused(f"a unit with {words}", "BAD_SETTING", SimulatedUnit, 1, **words)
    with SimulatedUnit(1, 128) as unit:
        before = unit.counts(), unit.address, unit.when(0)
        refused("an identifier", "ID_TOO_LARGE", unit.hear, 2**29, DATA, 0)
        refused("nine bytes", "TOO_LONG", unit.hear, 0x18FECA07, bytes(9), 0)
        for call in (unit.set, unit.heal, unit.pend, unit.unpend):
            refused("an SPN", "SPN_TOO_LARGE", call, 2**19, 32)
            refused("an FMI", "FMI_TOO_LARGE", call, 2**19 - 1, 2**70)
        refused("not active", "NOT_ACTIVE", unit.heal, 110, 0)
        refused("not pending", "NOT_PENDING", unit.unpend, 110, 0)
        refused("a kind", "NO_KIND", unit.begin, 3)
        same("nothing is changed", (unit.counts(), unit.address, unit.when(0)), before)
        for call, words in ((unit.next, (-1,)), (unit.when, (2**64,)), (unit.hear, (0, b"", 2**64)), (unit.lamps, (256,)), (unit.lamps, (0, 256))):
            wrong(f"{call} {words}", call, *words)
        for what, call, words in (("id", unit.hear, ("1", b"", 0)), ("now", unit.hear, (1, b"", 0.5)), ("now", unit.next, (None,)), ("now", unit.when, ("0",)),
                                  ("spn", unit.set, ("110", 0)), ("fmi", unit.heal, (110, "0")), ("states", unit.lamps, ("04",)), ("kind", unit.begin, ("DM1",)),
                                  ("name", SimulatedUnit, ("1", 128)), ("address", SimulatedUnit, (1, "128"))):
            mistyped(f"{call} {words}", f"{what} is a whole number, and not ", call, *words)
        mistyped("data", "data is bytes, and not ", unit.hear, 1, "00", 0)
        for spn in range(445):
            unit.set(spn, 1)
        refused("one code more", "MEMORY_FULL", unit.set, 445, 1)
        unit.hear(0x18EA80F9, bytes.fromhex("CAFE00"), 0)
        refused("in a session", "SESSION_OPEN", unit.begin, hidzgula.DM1)
        for _ in range(64):
            raised(unit.begin, hidzgula.DM2)
        refused("a full queue", "QUEUE_FULL", unit.begin, hidzgula.DM2)
        unit.hear(0x18EEFF80, bytes(8), 0)
        refused("without address", "NOT_HELD", unit.begin, hidzgula.DM2)
        no_copy(unit, "a unit")
    for call, words in ((unit.hear, (0, b"", 0)), (unit.next, (0,)), (unit.when, (0,)), (unit.set, (1, 1)), (unit.heal, (1, 1)), (unit.pend, (1, 1)),
                        (unit.unpend, (1, 1)), (unit.lamps, (0,)), (unit.begin, (1,)), (unit.counts, ()), (lambda: unit.address, ())):
        refused(f"closed {call}", "NO_UNIT", call, *words)
    unit.close()


def of_live_stations():
    with hidzgula.LiveStation(1, 249) as station:
        no_copy(station, "a station")
        refused("a group", "NO_GROUP", station.ask, 0xA0, 65260)
        refused("a group of the station's", "NO_GROUP", station.share, 65226)
        refused("a group of 25 bits", "PGN_TOO_LARGE", station.share, 2**24)
        refused("a group that is not shared", "NO_GROUP", station.request, 0, 65260)
        same("no message", station.shared_message, None)
        station.ask(0xA0, DM1)
        refused("a second order", "ORDER_OPEN", station.ask, 0xA0, DM1)
        refused("a second order, whatever it is", "ORDER_OPEN", station.command, 0xA0, 254)
    refused("a group of the protocol", "NO_GROUP", hidzgula.LiveStation, 1, 249, share=(65260, 60928))


BYTE, WORD, LONG, TIME = 2**8 - 1, 2**32 - 1, 2**64 - 1, 2**64 - 2
# Each number that a call takes: which it is by its name, the call with it, the greatest that the library's type holds, and by what one beyond is refused;
# where nothing stands it is a ValueError that tells what it may be.
NUMBERS = (
    ("name", lambda it: Station(it, 1), LONG, None), ("address", lambda it: Station(1, it), BYTE, "BAD_SETTING"), ("grant", lambda it: Station(1, 1, grant=it), BYTE, None),
    ("keep", lambda it: Station(1, 1, keep=it), WORD, None), ("most", lambda it: Station(1, 1, most=it), LONG, None),
    ("keep", lambda it: Listener(keep=it), WORD, None), ("most", lambda it: Listener(most=it), LONG, None),
    ("name", lambda it: SimulatedUnit(it, 1), LONG, None), ("address", lambda it: SimulatedUnit(1, it), BYTE, "BAD_SETTING"),
    ("gap", lambda it: SimulatedUnit(1, 1, gap=it), LONG, "BAD_SETTING"), ("settle", lambda it: SimulatedUnit(1, 1, settle=it), LONG, "BAD_SETTING"),
    ("name", lambda it: hidzgula.LiveStation(it, 1), LONG, None), ("address", lambda it: hidzgula.LiveStation(1, it), BYTE, "BAD_SETTING"),
    ("grant", lambda it: hidzgula.LiveStation(1, 1, grant=it), BYTE, None), ("keep", lambda it: hidzgula.LiveStation(1, 1, keep=it), WORD, None),
    ("gap", lambda it: hidzgula.LiveStation(1, 1, gap=it), LONG, "BAD_SETTING"), ("settle", lambda it: hidzgula.LiveStation(1, 1, settle=it), LONG, "BAD_SETTING"),
    ("most", lambda it: hidzgula.LiveStation(1, 1, most=it), LONG, None), ("now", lambda it: hidzgula.LiveStation.restore(hidzgula.LiveStation(1, 1).save(), it), LONG, None),
    ("pgn", lambda it: hidzgula.LiveStation(1, 1, share=[it]), WORD, "PGN_TOO_LARGE"),
)
OF_STATIONS = (
    ("id", lambda of, it: of.take(it, DATA), WORD, "ID_TOO_LARGE"), ("id", lambda of, it: of.take_frames([(it, DATA)]), WORD, "ID_TOO_LARGE"),
    ("count", lambda of, it: of.missed(it), WORD, None), ("name", lambda of, it: of.ask(it, 65226), LONG, None), ("pgn", lambda of, it: of.ask(0xA0, it), WORD, "PGN_TOO_LARGE"),
    ("pgn", lambda of, it: of.ask_all(it), WORD, "PGN_TOO_LARGE"), ("name", lambda of, it: of.command(it, 9), LONG, None),
    ("address", lambda of, it: of.command(0xA0, it), BYTE, "NOT_AN_ADDRESS"), ("name", lambda of, it: of.messages(it, DM1), LONG, None),
    ("kind", lambda of, it: of.count(0xA0, it), BYTE, "NO_KIND"), ("place", lambda of, it: of.message(0xA0, DM1, it), LONG, "NO_PLACE"),
)
OF_LISTENERS = (
    ("id", lambda of, it: of.take(it, DATA), WORD, "ID_TOO_LARGE"), ("time", lambda of, it: of.take(1, DATA, it), TIME, None), ("count", lambda of, it: of.missed(it), WORD, None),
    ("time", lambda of, it: of.missed(1, it), TIME, None), ("time", lambda of, it: of.take_frames([(1, DATA)], [it]), TIME, None),
    ("who", lambda of, it: of.count(it, DM1), LONG, None), ("name", lambda of, it: of.count(Who(it), DM1), LONG, None), ("address", lambda of, it: of.count(Who(None, it), DM1), BYTE, None),
    ("gaps", lambda of, it: of.count(Who(None, 1, it), DM1), LONG, None), ("kind", lambda of, it: of.messages(0xA0, it), BYTE, "NO_KIND"),
    ("place", lambda of, it: of.message(0xA0, DM1, it), LONG, "NO_PLACE"),
)
OF_UNITS = (
    ("id", lambda of, it: of.hear(it, DATA, 0), WORD, "ID_TOO_LARGE"), ("now", lambda of, it: of.hear(0, DATA, it), LONG, None), ("now", lambda of, it: of.next(it), LONG, None),
    ("now", lambda of, it: of.when(it), LONG, None), ("states", lambda of, it: of.lamps(it), BYTE, None), ("flashes", lambda of, it: of.lamps(0, it), BYTE, None),
    ("kind", lambda of, it: of.begin(it), BYTE, "NO_KIND"),
    *((what, lambda of, it, call=call, what=what: getattr(of, call)(**{"spn": 1, "fmi": 1, what: it}), most, name) for call in ("set", "heal", "pend", "unpend")
      for what, most, name in (("spn", WORD, "SPN_TOO_LARGE"), ("fmi", BYTE, "FMI_TOO_LARGE"))),
)
OF_LIVE_STATIONS = (
    ("id", lambda of, it: of.hear(it, DATA, 0), WORD, "ID_TOO_LARGE"), ("now", lambda of, it: of.hear(0, DATA, it), LONG, None), ("count", lambda of, it: of.missed(it, 0), WORD, None),
    ("now", lambda of, it: of.missed(0, it), LONG, None), ("now", lambda of, it: of.next(it), LONG, None), ("now", lambda of, it: of.when(it), LONG, None),
    ("now", lambda of, it: of.end(it), LONG, None), ("pgn", lambda of, it: of.share(it), WORD, "PGN_TOO_LARGE"), ("pgn", lambda of, it: of.request(0, it), WORD, "PGN_TOO_LARGE"),
    ("to", lambda of, it: of.request(it, 65280), BYTE, None), ("name", lambda of, it: of.request(pgn=65280, name=it), LONG, None),
    ("pgn", lambda of, it: of.send(0, it, b""), WORD, "PGN_TOO_LARGE"), ("to", lambda of, it: of.send(it, 65280, b""), BYTE, None),
    ("name", lambda of, it: of.ask(it, 65226), LONG, None), ("what", lambda of, it: of.ask(0xA0, it), WORD, "NO_GROUP"), ("what", lambda of, it: of.ask_all(it), WORD, "NO_GROUP"),
    ("name", lambda of, it: of.clear(it, 65228), LONG, None), ("pgn", lambda of, it: of.clear(0xA0, it), WORD, "NO_GROUP"), ("name", lambda of, it: of.command(it, 9), LONG, None),
    ("address", lambda of, it: of.command(0xA0, it), BYTE, "NOT_AN_ADDRESS"),
)


def ends_of_ranges():
    """Each number at both ends of what it may be, and what is no number."""
    makers = {Station: OF_STATIONS, Listener: OF_LISTENERS, SimulatedUnit: OF_UNITS, hidzgula.LiveStation: OF_LIVE_STATIONS}
    opened = {Listener: Listener, hidzgula.LiveStation: lambda: hidzgula.LiveStation(1, 1, share=[65280])}
    rows = [("an opening", what, call, most, name) for what, call, most, name in NUMBERS]
    for of, calls in makers.items():
        # (each of one that was opened for it)
        make = opened.get(of, lambda of=of: of(1, 1))
        rows += [(of.__name__, what, lambda it, call=call, make=make: call(make(), it), most, name) for what, call, most, name in calls]
    for place, (whose, what, call, most, name) in enumerate(rows):
        said = f"{whose}, call {place}, {what}"
        for number in (most + 1, 2**70):
            error = raised(call, number)
            wanted = ("Refused", name) if name else ("ValueError", f"{what} is {number}, and may be 0 to {most}")
            same(f"{said} {number}", (type(error).__name__, getattr(error, "name", str(error))), wanted)
        error = raised(call, -1)
        same(f"{said} -1", (type(error).__name__, str(error)), ("ValueError", f"{what} is -1, and may be 0 to {most}"))
        # (it may be refused for another reason than its type)
        same(f"{said} {most}", type(raised(call, most)) in (ValueError, TypeError), False)
        error = raised(call, "1")
        same(f"{said} '1'", (type(error).__name__, str(error)), ("TypeError", f"{what} is a whole number, and not '1'"))


def numbers():
    """Each refusal of the header stands here, under its number."""
    header = (TOP / "c/hidzgula_station.h").read_text()
    answers = header[header.index("HIDZGULA_DONE = 0") : header.index("/* The kinds of diagnostic messages")]
    wanted = {int(number): name for name, number in re.findall(r"HIDZGULA_(\w+) = (\d+)", answers) if name != "DONE"}
    same("the numbers", {number: name for number, (name, _) in REFUSALS.items()}, wanted)
    # HAS_STATION would be an open of a handle that a Station has open already, which no call does; the others likewise. Of NO_ROOM `save` asks again, and
    # NOT_SAVED is not known to come
    unseen = {"OUT_OF_MEMORY", "HAS_STATION", "HAS_UNIT", "HAS_LISTENER", "NO_ROOM", "NOT_SAVED"}
    same("each is seen", seen, set(wanted.values()) - unseen)
    same("of memory", (REFUSALS[OUT_OF_MEMORY][0], issubclass(hidzgula.OutOfMemory, MemoryError)), ("OUT_OF_MEMORY", True))
    same("an unknown one", Refused(99).name, "UNKNOWN")


with Station(1, 248, keep=3) as station:
    station.take(0x18EEFF07, A0)
    for _ in range(4):
        station.take(0x18FECA07, DATA)
    by_arguments(station)
    beyond_types(station)
in_a_row()
without_address()
closed()
of_listeners()
of_units()
of_live_stations()
ends_of_ranges()
numbers()
sums()
