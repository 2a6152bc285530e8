"""A simulated unit and a station on a small bus of this program: what is set in the unit is what the station lists, by one frame, by a broadcast and by a
session; the unit tells each second, loses its address, and is a guarded one; two units hear each other."""

from hidzgula import DM1, DM2, PGN_DM2, PGN_DM11, Code, SimulatedUnit, Station
from tries import same, sums

NAME = 0x1000000001419907


def run(unit, station, until):
    """Has both talk from now on until a time; answers what the unit wrote, each frame with its time."""
    written, now = [], clock[0]
    while now <= until:
        frame = unit.next(now)
        while frame:
            written.append((now, str(frame)))
            for reply in station.take(*frame).reply.frames:
                unit.hear(*reply, now)
            frame = unit.next(now)
        now = max(unit.when(now) or until + 1, now + 1)
    clock[0] = until
    return written


clock = [0]
with SimulatedUnit(NAME, 128) as unit, Station(1, 249) as station:
    same("its address", unit.address, 128)
    same("its claim waits", tuple(unit.counts()), (1, 0, 0, 1))
    same("a claim", run(unit, station, 0), [(0, "18EEFF80#0799410100000010")])
    unit.set(110, 0)
    unit.lamps(0x04)
    same("when it has settled", unit.when(0), 250_000)
    dm1 = "18FECA80#04FF6E000001FFFF"
    same("a DM1 a second", run(unit, station, 2_500_000), [(250_000, dm1), (1_250_000, dm1), (2_250_000, dm1)])
    same("the station lists them", (station.count(NAME, DM1), station.newest(NAME, DM1).codes), (3, (Code(110, 0, 1),)))
    unit.set(190, 2)
    run(unit, station, 4_000_000)
    same("a broadcast", station.newest(NAME, DM1).codes, (Code(110, 0, 1), Code(190, 2, 1)))
    for code in ((110, 0), (190, 2)):
        unit.heal(*code)
    for frame in station.ask(NAME, PGN_DM2).frames:
        unit.hear(*frame, clock[0])
    run(unit, station, 5_000_000)
    same("a session", station.newest(NAME, DM2).codes, (Code(110, 0, 1), Code(190, 2, 1)))
    unit.begin(DM2)
    same("a message to all", len(run(unit, station, 5_500_000)) > 2, True)
    for frame in station.take(0x18EEFF80, bytes(8)).reply.frames:
        unit.hear(*frame, clock[0])
    unit.hear(0x18EEFF80, bytes(8), clock[0])
    same("its address is lost", unit.address, None)
    same("cannot claim", [text for _, text in run(unit, station, 6_000_000)], ["18EEFFFE#0799410100000010"])
    same("then it is silent", (unit.when(clock[0]), unit.counts().waiting), (None, 0))
    _, written, withdrawn, _ = unit.counts()
    same("in words", repr(unit), f"<hidzgula.SimulatedUnit {NAME:016X} without address, written {written}, withdrawn {withdrawn}, waiting 0>")
same("closed", repr(unit), f"<hidzgula.SimulatedUnit {NAME:016X}, closed>")
with SimulatedUnit(NAME, 128, guarded=True, gap=10_000, settle=0) as unit, Station(1, 249) as station:
    unit.set(110, 0)
    run(unit, station, clock[0])
    for frame in station.ask(NAME, PGN_DM11).frames:
        unit.hear(*frame, clock[0])
    same("a guarded unit denies", [text for _, text in run(unit, station, clock[0] + 2_000_000)], ["18E8FF80#01FFFFFFF9D3FE00"])
    unit.heal(110, 0)
with SimulatedUnit(2, 5, settle=0, always=True) as one, SimulatedUnit(1, 5, settle=0) as other:
    same("a DM1 without codes", [str(one.next(0)), str(one.next(0)), one.next(0)], ["18EEFF05#0200000000000000", "18FECA05#00FF00000000FFFF", None])
    one.hear(*other.next(0), 0)
    same("the lower NAME has the address", (one.address, other.address), (None, 5))


def told_when(unit, until):
    """Asks only when it says so, from 0 on: the times of its frames, and each time that it says."""
    frames, said, now = [], [], 0
    while now <= until:
        while unit.next(now):
            frames.append(now)
        said.append(unit.when(now))
        if said[-1] is None or said[-1] <= now:
            break
        now = said[-1]
    return frames, said


# A claim; behind the pause a broadcast of an announcement and two packets, a gap apart; and again a second after its beginning.
for words in ({}, {"gap": 10_000}, {"gap": 200_000, "settle": 0}, {"settle": 1_000_000}, {"gap": 60_000, "settle": 100_000}):
    gap, settle = words.get("gap", 50_000), words.get("settle", 250_000)
    with SimulatedUnit(NAME, 128, **words) as unit:
        unit.set(110, 0)
        unit.set(190, 2)
        times = [second + settle + place * gap for second in (0, 1_000_000) for place in range(3)]
        same(f"when frames go, {words}", told_when(unit, settle + 1_900_000), ([0, *times], [*([settle] if settle else []), *times[1 if settle else 1:], settle + 2_000_000]))
with SimulatedUnit(NAME, 128) as unit:
    unit.next(0)
    same("when nothing waits for its time", [unit.when(at) for at in (0, 10**6, 2**64 - 2)], [None, None, None])
sums()
