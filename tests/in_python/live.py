"""A live station and a simulated unit on a small bus of this program, whose time is handed in: each order has one verdict, with the message that shows
it; and what is refused."""

from hidzgula import (
    DM1,
    DM2,
    PGN_ADDRESS_CLAIMED,
    PGN_DM1,
    PGN_DM2,
    PGN_DM3,
    PGN_DM11,
    Code,
    Doubt,
    Finding,
    Frame,
    LiveStation,
    SharedMessage,
    SimulatedUnit,
    What,
)
from tries import raised, same, sums

ENGINE = 0x1000000001419907
OWN = 0x10000000000000FA


class Bus:
    """Each member hears all that is written, its own frames too."""

    def __init__(self, *members):
        self.members, self.now, self.written, self.deaf = members, 0, [], ()

    def run(self, seconds):
        until = self.now + int(seconds * 1_000_000)
        while self.now < until:
            for member in self.members:
                while (frame := member.next(self.now)) is not None:
                    self.written.append(str(frame))
                    for other in self.members:
                        if other not in self.deaf:
                            other.hear(*frame, self.now)
            times = [at for at in (member.when(self.now) for member in self.members) if at is not None]
            self.now = min([until, *times])


def orders():
    with LiveStation(OWN, 249, grant=16) as station, SimulatedUnit(ENGINE, 0) as unit:
        bus = Bus(station, unit)
        for spn in range(100, 140):
            unit.set(spn, 3)
            unit.heal(spn, 3)
        same("no order", (station.is_open, station.verdict), (False, None))
        bus.run(2)
        same("its address", station.address, 249)
        same("who is there", [(it.name, it.address) for it in station.units()], [(ENGINE, 0)])
        station.ask(ENGINE, DM2)
        same("it is open", (station.is_open, station.verdict), (True, None))
        same("one is", raised(station.ask, ENGINE, DM1).name, "ORDER_OPEN")
        bus.run(5)
        verdict = station.verdict
        same("it is answered", (station.is_open, verdict.finding, verdict.name, verdict.pgn, verdict.tries, verdict.address), (False, Finding.ANSWERED, ENGINE, PGN_DM2, 1, 0))
        same("by 40 codes", (len(verdict.message.codes), verdict.message.codes[39]), (40, Code(139, 3, 1)))
        same("and is cleared by nobody", verdict.is_cleared, False)
        station.clear(ENGINE, PGN_DM3)
        bus.run(5)
        verdict = station.verdict
        same("it is cleared", (verdict.finding, verdict.left, verdict.message.codes, verdict.is_cleared), (Finding.POSITIVE, Finding.ANSWERED, (), True))
        station.ask_all(PGN_DM1)
        bus.run(3)
        same("all are asked", (station.verdict.finding, station.verdict.name, station.verdict.message), (Finding.ANSWERED, None, None))
        station.command(ENGINE, 9)
        bus.run(3)
        same("it obeys", (station.verdict.finding, station.verdict.commanded, station.units()[0].address), (Finding.OBEYED, 9, 9))
        station.ask(ENGINE, PGN_ADDRESS_CLAIMED)
        bus.run(2)
        same("its claim", station.verdict.finding, Finding.ANSWERED)
        station.ask(0xA0, DM1)
        bus.run(3)
        same("nobody", (station.verdict.finding, station.verdict.tries), (Finding.NO_SUCH_UNIT, 0))
        bus.deaf = (unit,)
        station.ask(ENGINE, DM1)
        bus.run(5)
        same("silent", (station.verdict.finding, station.verdict.tries), (Finding.SILENT, 3))
        bus.run(2)
        station.clear(ENGINE, PGN_DM11)
        bus.run(0.1)
        same("frames are missed", station.missed(3, bus.now).what, What.MISSED)
        bus.deaf = ()
        bus.run(8)
        same("nobody knows", (station.verdict.finding, station.verdict.doubt, station.verdict.left), (Finding.IN_DOUBT, Doubt.MISSED, Finding.ANSWERED))
        station.ask(ENGINE, DM1)
        station.end(bus.now)
        same("cut off", (station.verdict.finding, station.verdict.was_sent), (Finding.CUT_OFF, False))
        same("a stranger", station.hear(0x18FECAF9, bytes.fromhex("00FF00000000FFFF"), bus.now).what, What.STRANGER)
        same("counts", tuple(station.counts()), (3, 0))
        same("in words", repr(station), f"<hidzgula.LiveStation {OWN:016X} at 249, units 1>")
    same("closed", repr(station), f"<hidzgula.LiveStation {OWN:016X}, closed>")


def guarded():
    with LiveStation(OWN, 249) as station, SimulatedUnit(ENGINE, 0, guarded=True) as unit:
        bus = Bus(station, unit)
        unit.set(110, 0)
        bus.run(2)
        station.clear(ENGINE, PGN_DM11)
        bus.run(3)
        verdict = station.verdict
        same("it refuses", (verdict.finding, verdict.control in (1, 2), verdict.left, verdict.is_cleared), (Finding.REFUSED, True, None, False))
    with LiveStation(OWN, 249, keep=0) as station, SimulatedUnit(ENGINE, 0) as unit:
        bus = Bus(station, unit)
        bus.run(2)
        station.ask(ENGINE, DM1)
        bus.run(3)
        same("nothing is kept", (station.verdict.finding, station.verdict.message, station.count(ENGINE, DM1)), (Finding.ANSWERED, None, 1))


VIN = b"HIDZGULA1VIN00001"


class Teller:
    """A unit at 7 that tells its VIN to who asks for it, in a session."""

    def __init__(self):
        self.written = [(0x18EEFF07, b"\xa1" + bytes(7))]

    def hear(self, id, data, now):
        if (id, data[:3]) == (0x18EA07F9, b"\xec\xfe\0"):
            self.written.append((0x1CECF907, bytes([16, len(VIN), 0, 3, 255]) + b"\xec\xfe\0"))
        elif id == 0x1CEC07F9 and data[0] == 17:
            for number in range(data[2], data[2] + data[1]):
                self.written.append((0x1CEBF907, bytes([number]) + VIN[7 * number - 7 : 7 * number].ljust(7, b"\xff")))

    def next(self, now):
        return Frame(*self.written.pop(0)) if self.written else None

    def when(self, now):
        return now if self.written else None


def shared():
    """A VIN comes at the station's own address, while a unit tells it a DM2 of 40 codes."""
    told = []
    with LiveStation(OWN, 249, grant=1, share=(65260,), on_message=told.append) as station, SimulatedUnit(ENGINE, 0) as unit:
        for spn in range(100, 140):
            unit.set(spn, 3)
            unit.heal(spn, 3)
        bus = Bus(station, unit, Teller())
        bus.run(2)
        station.ask(ENGINE, DM2)
        station.request(7, 65260)
        bus.run(8)
        same("the VIN", told, [SharedMessage(65260, 7, 0xA1, VIN)])
        same("the newest", station.shared_message, told[0])
        same("and the DM2", (station.verdict.finding, len(station.verdict.message.codes)), (Finding.ANSWERED, 40))
        same("another group is not shared", raised(station.request, 7, 65259).name, "NO_GROUP")


def refused():
    for words in ({"grant": 0}, {"gap": 9_999}, {"gap": 200_001}, {"settle": 1_000_001}, {"gap": 2**70}):
        same(f"a setting {words}", raised(LiveStation, OWN, 249, **words).name, "BAD_SETTING")
    same("an address", raised(LiveStation, OWN, 254).name, "BAD_SETTING")
    same("a NAME", type(raised(LiveStation, 2**64, 249)), ValueError)
    with LiveStation(OWN, 249) as station:
        for call, words, name in (
            (station.ask, (ENGINE, 65260), "NO_GROUP"),
            (station.ask, (ENGINE, PGN_DM3), "NO_GROUP"),
            (station.ask, (ENGINE, 2**40), "NO_GROUP"),
            (station.ask_all, (3,), "NO_GROUP"),
            (station.clear, (ENGINE, PGN_DM1), "NO_GROUP"),
            (station.command, (ENGINE, 254), "NOT_AN_ADDRESS"),
            (station.command, (ENGINE, 300), "NOT_AN_ADDRESS"),
            (station.hear, (2**29, b"", 0), "ID_TOO_LARGE"),
            (station.hear, (0, bytes(9), 0), "TOO_LONG"),
            (station.message, (ENGINE, DM1, 0), "NO_PLACE"),
            (station.count, (ENGINE, 3), "NO_KIND"),
        ):
            same(f"{call.__name__} {words}", raised(call, *words).name, name)
        same("no number", type(raised(station.ask, "A0", DM1)), TypeError)
        same("no time", type(raised(station.next, -1)), ValueError)
        same("no copy", type(raised(station.__reduce__)), TypeError)
    for call, words in ((station.ask, (ENGINE, DM1)), (station.end, (0,)), (station.next, (0,)), (station.when, (0,)), (station.units, ())):
        same(f"{call.__name__}, closed", raised(call, *words).name, "NO_STATION")
    station.close()


orders()
guarded()
shared()
refused()
sums()
