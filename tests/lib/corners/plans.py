"""Which kinds of script there are, and how often each comes."""

from corners.limits import at_the_limit, counted_out, cut_short, full_house, full_memory, session_at_the_limit
from corners.values import MANY, STATIONS
from corners.writer import Writer


def mixed(writer):
    """All corners in turn, on a bus of few units."""
    writer.make_garage()
    for _ in range(writer.random.randrange(1, 4)):
        writer.join()
        writer.fill(len(writer.garage.seats) - 1)
    aims = [writer.session, writer.session, writer.broadcast, writer.contend, writer.order, writer.gap, writer.replace,
            writer.stale_end, writer.half_command, writer.to_the_station, writer.foreign_session, writer.unowned_session,
            writer.shortened, writer.shortened, writer.clear, writer.clear, writer.answer_after_gap,
            writer.begun_again, writer.begun_again, writer.gap_in_session, writer.gap_in_session]
    if writer.first > 1:
        aims += [writer.between_stations, writer.same_address, writer.moves_onto_the_other, writer.gap_at_one_alone,
                 writer.both_ask, writer.source_is_claimed, writer.answer_behind_a_gap] * 2
    if writer.strangers:
        aims += [writer.in_a_session] * 6 + [writer.strange_session, writer.strange_broadcast, writer.claimed_before, writer.sessions_at_once] * 2
    while not writer.is_long():
        if len(writer.seats()) > 7:
            writer.leave()
        writer.aim()
        if writer.chance(40):
            writer.random.choice(aims)()
        else:
            writer.any_line()


def among_strangers(writer):
    """Frames from outside between all that units and the station do."""
    writer.strangers = True
    mixed(writer)


def lines_alone(writer):
    """Commands without aim, misspelt ones among them."""
    writer.make_garage()
    while not writer.is_long():
        writer.any_line()
        if writer.chance(30):
            writer.misspelt()


def no_free_address(writer):
    """All addresses that a unit may choose are claimed by others; then one that may choose loses its own."""
    writer.make_garage(window=writer.one_of(1, 64, 64, 4096), name=writer.random.choice(STATIONS[2:]))
    writer.join("80000000000000B0", writer.random.choice([10, 128, 200]), "plain")
    first = writer.random.choice([127, 128, 128])
    for address in range(first, writer.random.choice([245, 248, 248, 248, 248, 249])):
        writer.say("join", "00000000000000A0", address, "plain")
        writer.say("carry", 1)
        writer.say("leave", len(writer.garage.seats) - 1)
        if len(writer.garage.wire) % 40 == 0:
            writer.say("round", 1)
    writer.say("round", MANY)
    if writer.station.held is not None:
        writer.join("0000000000000000", writer.station.held, "plain")
    for _ in range(3):
        writer.say("round", MANY)
        writer.contend()
    writer.say("round", MANY)


def late_listening(writer):
    """Hundreds of frames are neither heard nor read, and then all are in one round, but for what the window does not hold."""
    writer.make_garage(window=writer.random.choice([100, 300, 1000, 4096]), name=STATIONS[0])
    one = writer.first
    for name, address in (("00000000000000A0", 0), ("00000000000000B0", 1)):
        writer.say("join", name, address, "plain")
    writer.say("round", MANY)
    writer.say("set", one, 1000, 1, writer.random.choice([100, 300, 445]))
    for _ in range(2):
        writer.say("dm1", one)
    writer.say("carry", writer.random.choice([20, 65, 70, 129, 200, 258, 300, MANY]))
    if writer.chance(30):
        writer.say("hear", one + 1, writer.random.choice([10, 66, 200, 300, MANY]))
    if writer.chance(30):
        writer.say("read", writer.random.choice([10, 66, 200, 300, MANY]))
    writer.say("round", writer.random.choice([0, 0, 1, 2, 301, 302, MANY]))
    for words in (("read", MANY), ("hear", one + 1, MANY), ("stats",), ("round", MANY), ("shown", "00000000000000A0", "dm1")):
        writer.say(*words)


def wide_window(writer):
    """The widest window, and as many frames as it holds or a few more."""
    writer.make_garage(window=4096)
    one = writer.first
    writer.say("join", "00000000000000B0", 1, "plain")
    writer.say("round", 9)
    writer.say("set", one, 1000, 1, 445)
    for _ in range(17):
        writer.say("dm1", one)
    writer.say("carry", writer.random.choice([4095, 4096, 4097, 4097, 4098, 4100, 4200, MANY]))
    writer.say("read", writer.one_of(1, 2, 3))
    writer.say("stats")
    writer.say("leave", one)
    writer.say("carry", 1)


PLANS = {mixed: 68, among_strangers: 24, lines_alone: 10, at_the_limit: 8, session_at_the_limit: 8, cut_short: 12, full_house: 2,
         full_memory: 13, counted_out: 2, no_free_address: 5, late_listening: 3, wide_window: 3, Writer.at_one_address: 6}


def script(seed):
    """The script with that seed, with the model's answers."""
    writer = Writer(str(seed))
    return writer.write(writer.random.choices(list(PLANS), list(PLANS.values()))[0])
