"""Whole scripts at a limit: of the journal, of seats, of a memory, of a count."""

from corners.values import MANY, STATIONS
from model.frames import KINDS


def at_the_limit(writer):
    """A journal that is soon full; all commands on it before and after."""
    writer.make_garage(limit=writer.random.choice([1, 2, 3, 4, 6, 10, 20, 40, 60, 100]))
    for _ in range(writer.random.randrange(40, 120)):
        if writer.chance(25):
            writer.random.choice([writer.session, writer.broadcast, writer.replace, writer.half_command])()
        elif writer.chance(6):
            writer.random.choice([writer.any_frame, writer.no_frame])()
        else:
            writer.any_line()
        if writer.is_long():
            return


def room(writer):
    """The events, leaves apart, that the journal still has room for."""
    return writer.garage.limit - writer.garage.events - len(writer.garage.live())


def session_at_the_limit(writer):
    """The journal is full while a session is open, a frame is queued or unread; then all that may still be answered."""
    writer.make_garage(limit=writer.random.randrange(50, 110))
    one = writer.first
    writer.join("00000000000000A0", writer.one_of(0, 0, 0, 249), "plain")
    writer.join()
    writer.say("set", one, 100, 1, writer.one_of(2, 3, 9))
    writer.say("pend", one, 300, 1, writer.one_of(0, 2, 3))
    writer.say("round", MANY)
    writer.tell("ask", "00000000000000A0", writer.one_of("dm1", "dm1", "dm2", "dm6"))
    writer.say("round", writer.random.choice([0, 1, 2, 2, 2, 3, 4, 5]))
    if writer.chance(40):
        writer.contend()
    if writer.chance(40):
        writer.say("dm1", one)
        writer.say("carry", writer.one_of("1", "3"))
    for _ in range(writer.random.randrange(6)):
        writer.any_line()
    if writer.chance(60):
        for _ in range(4):
            writer.dm1()
        writer.say("carry", writer.one_of(2, 3, 4))
        for _ in range(3):
            writer.dm1()
    left = writer.random.randrange(4)
    while room(writer) > left and writer.seats():
        writer.say("turn", writer.random.choice(writer.seats()))
    for _ in range(2):
        writer.aim()
        behind = min(writer.seats() or [one], key=lambda seat: writer.garage.seats[seat].heard)
        writer.tell(*writer.random.choice([("hear", behind, MANY), ("hear", behind, MANY), ("read", MANY), ("carry", MANY),
                                          ("round", MANY)]))
    for _ in range(30):
        seat = writer.seat()
        writer.aim()
        writer.tell(*writer.random.choice([("carry", MANY), ("hear", seat, MANY), ("read", MANY), ("round", MANY), ("dm1", seat),
                                          ("dm1", one)]))
        if writer.chance(40):
            writer.random.choice([writer.join, writer.command, writer.ask, writer.turn, writer.query, writer.leave])()


def cut_short(writer):
    """A repeating command has more to do than the journal has room for."""
    writer.make_garage(limit=writer.random.randrange(30, 36), more=8, name=STATIONS[0])
    one = writer.first
    for name, address in (("00000000000000A0", 0), ("00000000000000B0", 1)):
        writer.say("join", name, address, "plain")
    writer.say("round", MANY)
    for _ in range(5):
        writer.say("dm1", writer.one_of(one, one + 1))
    writer.say("hear", writer.one_of(one, one + 1), writer.one_of(0, 1))
    writer.say("carry", writer.one_of(1, 3))
    writer.say("dm1", one)
    writer.say("dm1", one + 1)
    left = writer.one_of(1, 1, 2)
    while room(writer) > left:
        writer.say("turn", one)
    behind = min(writer.seats(), key=lambda seat: writer.garage.seats[seat].heard)
    for _ in range(3):
        writer.aim()
        writer.tell(*writer.random.choice([("hear", behind, MANY), ("read", MANY), ("carry", MANY), ("round", MANY)]))
    for _ in range(6):
        writer.any_line()


def full_house(writer):
    """64 units, and what else would join."""
    writer.make_garage()
    base = writer.random.choice([0x10, 0x8000000000000010])
    for unit in range(63):
        writer.join("%016X" % (base + unit), writer.random.choice([unit, unit, 10, 130]), "plain")
        if writer.chance(20):
            writer.say("carry", 2)
    for _ in range(4):
        writer.join()
    writer.join("0000000000000007", 3, "plain")
    writer.leave()
    writer.join("0000000000000008", 3, "plain")
    writer.join("0000000000000009", 3, "plain")
    for _ in range(6):
        writer.random.choice([writer.ask, writer.dm1, writer.carry, writer.round, writer.leave, writer.join, writer.query])()


def full_memory(writer):
    """A memory of 445 codes, and messages of 255 packets in broadcasts and sessions, cut off here and there."""
    writer.make_garage()
    address = writer.random.choice([0, 10, 128])
    writer.join("00000000000000A0", address, writer.one_of("plain", "plain", "flicker 7 7", "flicker 1000 1"))
    seat = len(writer.garage.seats) - 1
    writer.say(writer.one_of("pend", "set"), seat, 2000, 1, writer.random.choice([0, 0, 1, 5, 440, 445]))
    writer.say(writer.one_of("set", "set", "pend"), seat, 1000, 1, writer.one_of(445, 445, 444, 446, MANY))
    if writer.chance(50):
        writer.say("heal", seat, 1000, 1, writer.random.choice([445, 440, 5, 446]))
    writer.change()
    writer.say("think", seat)
    for _ in range(4):
        writer.random.choice([writer.known_pair, lambda: writer.say(writer.one_of("set", "pend"), seat, 5000, 1)])()
    writer.say("pend", seat, writer.one_of(1000, 1004, 2000), 1)
    writer.say("round", 9)
    memory = writer.garage.unit(seat).memory
    asked = max(KINDS, key=lambda word: len(memory.payload(KINDS[word])))
    writer.aim()
    writer.tell(*writer.random.choice([("dm1", seat), ("ask", "all", asked)] + [("ask", "00000000000000A0", asked)] * 4))
    writer.say("round", writer.random.choice([MANY, MANY, MANY, 255, 256, 257, 258, 40, 300]))
    for _ in range(4):
        writer.disturb()
        writer.say("round", writer.random.choice([1, 2, 9]))
    writer.say("counts", seat)


def counted_out(writer):
    """Codes that come back again and again, up to the greatest count."""
    writer.make_garage()
    one = writer.first
    writer.join("00000000000000A0", 0, writer.one_of("plain", "flicker 100 1"))
    writer.say("pend", one, 100, 1, writer.one_of(0, 1))
    for _ in range(writer.random.randrange(118, 132)):
        writer.say("set", one, 100, 1)
        writer.say("heal", one, 100, 1)
    writer.say("think", one)
    writer.say("set", one, 100, 1)
    writer.say("dm1", one)
    writer.say("round", MANY)
