"""What a station saves, and another one restores: of each log the same units without addresses, and the same messages, by a station and by a live one. As a
log it has those messages too. And what was cut, changed or saved by another is a ValueError that says so."""

import zlib

import hidzgula
from hidzgula import DM1, DM2, DM6, PGN_ADDRESS_CLAIMED, Listener, LiveStation, Missed, Station, Unit, What
from tries import LOGS, lines_of, raised, same, sums

KINDS = (DM1, DM2, DM6)
DATA = bytes.fromhex("04FFB8040301FFFF")
A0 = bytes.fromhex("A000000000000000")


def known_of(station):
    """What is restored: units without addresses, and what their messages say, without places."""
    lists = [[(it.lamps, it.codes) for it in station.messages(unit.name, kind)] for unit in station.units() for kind in KINDS]
    return [Unit(unit.name, None, unit.acknowledgment) for unit in station.units()], lists


def of_log(log, keep):
    """A station and a live one that heard a log."""
    station, live = Station(1, 248, keep=keep), LiveStation(1, 248, keep=keep, settle=0)
    for it in hidzgula.read_log(lines_of(log)):
        if isinstance(it, Missed):
            station.missed(it.count), live.missed(it.count, 0)
        else:
            station.take(*it[:2]), live.hear(*it[:2], 0)
        while live.next(10**6):
            pass
    return station, live


def restored():
    for log in LOGS:
        for keep in (None, 2, 0):
            station, live = of_log(log, keep)
            wanted = known_of(station)
            saved, saved_live = station.save(), live.save()
            with station, live, Station.restore(saved) as anew, LiveStation.restore(saved_live, 0, gap=20_000) as live_anew:
                what = f"{log}, {keep} kept"
                same(f"{what}: units", [known_of(it)[0] for it in (anew, live_anew)], [wanted[0], known_of(live)[0]])
                same(f"{what}: lists", [known_of(it)[1] for it in (anew, live_anew)], [wanted[1], known_of(live)[1]])
                same(f"{what}: no addresses", {unit.address for it in (anew, live_anew) for unit in it.units()} - {None}, set())
                same(f"{what}: counts", [tuple(it.counts()) for it in (anew, live_anew)], [(1, 0)] * 2)
                same(f"{what}: own addresses", [anew.address, live_anew.address], [248, 248])
                same(f"{what}: saved anew", [anew.save(), live_anew.save()], [saved, saved_live])
                same(f"{what}: by a live station", saved_live.split(b" name ")[0][:24], b"# hidzgula live station ")
            with Listener() as listener:
                hidzgula.take_log(listener, saved.splitlines(keepends=True), on_bad=lambda line: same(f"{what}: a bad line", line, None))
                told = [[(it.lamps, it.codes) for it in listener.messages(unit.name, kind)] for unit in listener.units() for kind in KINDS]
                same(f"{what}: as a log", told, wanted[1])


def goes_on():
    """What was restored goes on: a message is nobody's until its NAME claims, and then stands behind those that were restored."""
    with Station(1, 248, keep=4) as station:
        station.take(0x18EEFF07, A0)
        station.take(0x18FECA07, DATA)
        station.take(0x18E8FF07, bytes.fromhex("01FFFFFFF8CCFE00"))
        saved = station.save()
    with Station.restore(bytearray(saved), grant=9) as anew:
        same("an acknowledgment", anew.units()[0].acknowledgment, hidzgula.Acknowledgment(1, hidzgula.PGN_DM3))
        same("nobody's", anew.take(0x18FECA07, DATA).change.what, What.UNOWNED)
        same("its claim", str(anew.claim()), "18EEFFF8#0100000000000000")
        same("who is there", str(anew.ask_all(PGN_ADDRESS_CLAIMED).frames[0]), "18EAFFF8#00EE00")
        anew.take(0x18EEFF09, A0)
        anew.take(0x18FECA09, DATA)
        same("one more", [it.place for it in anew.messages(0xA0, DM1)], [0, 1])
    with LiveStation(1, 248) as live:
        saved = live.save()
    with LiveStation.restore(saved, 5 * 10**6) as live:
        same("its frames", [str(live.next(at)) for at in (5 * 10**6, 5_250_000)], ["18EEFFF8#0100000000000000", "18EAFFF8#00EE00"])


def refused():
    with Station(1, 248, keep=4) as station, LiveStation(1, 248) as live:
        station.take(0x18EEFF07, A0)
        station.take(0x18FECA07, DATA)
        saved, other = station.save(), live.save()
    whole = len(saved)
    same("saved", saved.startswith(b"# hidzgula station 1 ") and saved.endswith(b"18FECA00#04FFB8040301FFFF\n"), True)
    for at in range(whole):
        same(f"cut at {at}", type(raised(Station.restore, saved[:at])), ValueError)
        changed = saved[:at] + bytes([saved[at] ^ 1]) + saved[at + 1 :]
        same(f"changed at {at}", type(raised(Station.restore, changed)), ValueError)
    same("more behind", str(raised(Station.restore, saved + b"18FECA00#04FFB8040301FFFF\n")), "what was saved was cut or changed: its CRC-32 is another one")
    newer = saved.replace(b"station 1 ", b"station 2 ")
    same("another version", str(raised(Station.restore, newer)), "this was saved as version 2, and what is read here is version 1")
    same("of a live one", str(raised(Station.restore, other)), "this was saved of a live station, and is restored as one")
    same("as a live one", str(raised(LiveStation.restore, saved, 0)), "this was saved of a station, and is restored as one")
    same("no station's", "no station saved this" in str(raised(Station.restore, b"(1.0) can0 18FECA00#04FF\n")), True)
    rest = b" name 0000000000000001 address 248 keep 4\n18FECA00 04FF\n"
    same("no frame", "is no frame" in str(raised(Station.restore, b"# hidzgula station 1 %08X" % zlib.crc32(rest) + rest)), True)
    rest = b" name 0000000000000001 address 254 keep 4\n"
    same("no address", raised(Station.restore, b"# hidzgula station 1 %08X" % zlib.crc32(rest) + rest).name, "BAD_SETTING")
    same("a text", type(raised(Station.restore, saved.decode())), TypeError)
    same("a grant", raised(Station.restore, saved, grant=0).name, "BAD_SETTING")
    same("keep is saved", type(raised(LiveStation.restore, other, 0, keep=3)), TypeError)


restored()
goes_on()
refused()
sums()
