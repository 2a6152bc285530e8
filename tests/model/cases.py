"""What a run of random scripts must reach, and how often the model reached it.

Each rule of the unit, of the station, of the bus and of the script has its cases here, by the words with which the model
counts them. A word that is not here is an error. A case that a long run does not reach is one that the scripts do not test.
"""

import contextlib

from .frames import TITLES

UNIT = """
a unit hears a cannot-claim
a unit hears a claim of an address that it does not hold
a unit defends its address against a higher NAME
a unit moves, since it may take another address
a unit moves past an address that is noted for another NAME
a unit may take another address, but none is free
a unit loses its address to a lower NAME
a unit that claims anew ends its session
a unit that claims anew withdraws parts of messages
a unit ends its session since its destination is claimed
a unit withdraws the frames of its session alone
a unit is asked at its address for a claim
a unit is asked among all for a claim
a unit is asked among all for a claim that it cannot make
a unit is asked for a claim by one without an address
a unit without an address is asked for something else
a unit is asked from its own address for something else
a unit is asked at its address for a short message
a unit is asked at its address for a short message with a session of that kind open
a unit is asked at its address for a short message with a session of another kind open
a unit is asked at its address for a long message
a unit is asked at its address for a long message with a session of that kind open
a unit is asked at its address for a long message with a session of another kind open
a unit is asked among all for a short message
a unit is asked among all for a short message with a session of that kind open
a unit is asked among all for a short message with a session of another kind open
a unit is asked among all for a long message
a unit is asked among all for a long message with a session of that kind open
a unit is asked among all for a long message with a session of another kind open
a unit is asked at its address for what it does not know
a unit is asked among all for what it does not know
a unit is sent a request to send
a unit is sent a grant that is not of its session
a unit is sent an acknowledgment of the end that is not of its session
a unit is sent an abort that is not of its session
a unit is granted a part
a unit is granted the rest
a unit is granted packet 255
a unit is granted packets that are not the following ones
a unit's session is acknowledged
a unit's session is acknowledged before all is queued
a unit hears the announcement of a commanded address
a unit hears the announcement of another broadcast
a unit hears a packet to all that completes no command
a unit hears a command to another NAME
a unit is commanded and refuses
a unit obeys a command
a unit obeys a command without an address
a unit obeys a command to the address that it holds
a unit hears a request to another
a unit hears a control message to another
a unit hears a packet to one alone
a unit hears an acknowledgment
a unit hears a DM1, DM2 or DM6
a unit that is no flicker thinks
a flicker heals
a flicker sets
a flicker sets a pending code
a flicker's change is refused SpnTooLarge
a flicker's change is refused FmiTooLarge
a flicker's change is refused Full
"""
CLEARS = [
    f"a unit is asked {where} for {what}{answer}{codes}" for where in ("at its address", "among all") for what in ("DM3", "DM11")
    for answer in ("", " and refuses") for codes in ("", " with no code to clear", " with pending codes too", " with pending codes alone")
]
MESSAGES = [
    f"a unit is asked for {kind} and {answer}" for kind in TITLES.values()
    for answer in ("sends a single frame", "begins a broadcast", "begins a session")
] + [
    f"a unit with a session of {kind} open is asked for {other}" for kind in TITLES.values() for other in TITLES.values()
] + [f"a DM1 begins with a session of {kind} open" for kind in TITLES.values() if kind != "DM1"]

STATION = """
the station meets a gap
the station without an address meets a gap
the station meets a gap after a gap
the station withdraws frames after a gap
the station reads a claim of an address without owner
the station reads a claim by the owner again
the station reads a claim that takes an address from another NAME
the station reads a cannot-claim
the station drops a half joined broadcast since its source is claimed by another NAME
the station drops a half joined session since its source is claimed by another NAME
the station hears a cannot-claim
the station hears a claim of an address that it does not hold
the station defends its address against a higher NAME
the station moves, since it may take another address
the station moves past an address that is noted for another NAME
the station may take another address, but none is free
the station loses its address to a lower NAME
the station drops sessions since it has to claim anew
the station withdraws frames since it has to claim anew
the station keeps an acknowledgment
the station reads an acknowledgment for another
the station reads an acknowledgment from an address without owner
the station passes over a message from an address without owner
the station joins a broadcast
the station does not join a broadcast
the station drops a half joined broadcast for a new one
the station reads a further packet of a broadcast
the station reads a packet of a broadcast that it does not join
the station joins a session
the station replaces a session
the station aborts what it is asked to let send
the station grants further packets
the station reads a further packet of a session
the station reads a packet of a session that it does not join
the station is asked among all for its claim
the station is asked among all for a claim that it cannot make
the station is asked at its address for its claim
the station is asked for what it does not know
the station reads a request that it does not answer
the station reads a request to send to another
the station reads a grant to another
the station reads an acknowledgment of the end to another
the station reads an abort to another
the station reads a packet to another
"""
SHOWN = [f"the station shows a {kind} by {way}" for kind in TITLES.values() for way in ("a single frame", "a broadcast", "a session")]

# What no frame of the other station does: a station never sends such a frame.
NOT_BY_A_STATION = """
the station meets a gap
the station without an address meets a gap
the station meets a gap after a gap
the station withdraws frames after a gap
the station may take another address, but none is free
the station passes over a message from an address without owner
the station joins a broadcast
the station drops a half joined broadcast for a new one
the station reads a further packet of a broadcast
the station joins a session
the station replaces a session
the station aborts what it is asked to let send
the station grants further packets
the station reads a further packet of a session
the station reads a packet of a session that it does not join
the station reads a request to send to another
the station reads a packet to another
"""
# What the second station does as the first one does, beside that.
SECOND_STATION = """
the station keeps an acknowledgment
the station reads an acknowledgment for another
the station joins a broadcast
the station joins a session
the station grants further packets
the station aborts what it is asked to let send
the station reads a request to send to another
the station reads a packet to another
"""

# Where there are two stations.
STATIONS = """
both stations want to send
both stations want to send the same identifier
all stations wait for each other's readings
a station that has not read all is passed over
station 0 meets a gap while the other has missed none
station 0 meets a gap while the other has missed frames before
station 1 meets a gap while the other has missed none
station 1 meets a gap while the other has missed frames before
a station misses a frame of the other one
a station misses the other one's claim
a setting of the first station is refused
a setting of the second station is refused
the limit of two stations is refused
a setting is refused before one NAME for both stations
a unit may not join under the second station's NAME
garage2: ok
garage2: ok, both stations at one address
a garage2 again is a bad line
a command before the garage is a bad line, with its station
at: bad line, before another command
at: bad line, before no command
at: bad line, no such station among 1
at: bad line, no such station among 2
counts: of station 1
"""

BUS = """
several seats want to send
several seats want to send the same identifier
a seat that has not heard all is passed over
a window of 1 frame overflows
a window of 4096 frames overflows
a NAME joins again
a unit leaves with a session open
a unit leaves with frames of a message queued
hear: nothing, at the limit
carry: idle, at the limit
carry: waiting, at the limit
read: nothing, at the limit
dm1: held, at the limit
"""

ANSWERS = """
a garage again is a bad line
a command before the garage is a bad line
garage: ok
join: plain
join: guarded
join: flicker
set: new
set: active already
set: back
set: back at the greatest count
set: pending before
set: pending before, with no room for another
set: ok
set: ok, none
heal: ok
heal: ok, none
pend: new
pend: active already
pend: active already, with no room for another
pend: previous already
pend: previous already, with no room for another
pend: pending already
pend: pending already, with no room for another
pend: ok
pend: ok, none
unpend: ok
unpend: ok, none
lamps: ok
think: ok
turn: ok
leave: ok
dm1: begun
dm1: held
hear: until the count
hear: until nothing is left
hear: none
read: until the count
read: until nothing is left
read: none
carry: until the count
carry: idle
carry: waiting
carry: none
round: until the count
round: idle
round: none
ask: one
ask: all
ask: dm1
ask: dm2
ask: dm3
ask: dm6
ask: dm11
ask: claim
ask: a number
command: ok
shown: none
shown: one
shown: several
row: unknown
row: an address
row: no address
row: an acknowledgment
row: no acknowledgment
counts: of station 0
counts: of a live unit
counts: of a unit that is gone
stats: none missed
stats: some missed
frame: a frame
frame: no frame
inject: ok
injected: none
injected: some
report: no NAME
report: one NAME
report: several NAMEs
report: a NAME with an address
report: a NAME without an address
report: a newest DM1
report: no DM1
"""

REFUSALS = {
    "garage": "BadName BadSetting", "garage2": "BadName BadSetting NameInUse", "join": "BadName NotAnAddress NameInUse TooManySeats BookFull",
    "set": "SpnTooLarge FmiTooLarge Full", "heal": "SpnTooLarge FmiTooLarge", "pend": "SpnTooLarge FmiTooLarge Full",
    "unpend": "SpnTooLarge FmiTooLarge", "turn": "BookFull", "hear": "BookFull",
    "dm1": "Unclaimed BookFull", "carry": "BookFull", "read": "BookFull", "round": "BookFull",
    "ask": "BadName PgnTooLarge NotHeld NoAddress BookFull", "command": "BadName NotAnAddress NotHeld BookFull",
    "shown": "BadName", "row": "BadName", "inject": "IdTooLarge TooLong BookFull",
}
LISTS = {"heal: refused NotActive": "previous pending unknown", "unpend: refused NotPending": "active previous unknown"}
SEVERAL = ["set", "heal", "pend", "unpend", "hear", "carry", "read", "round"]  # a refusal leaves what was done before it
EARLIER = ["join", "dm1", "ask", "command", "inject"]  # these have refusals that come before the limit's
BAD_LINES = ["garage", "garage2", "at", "join", "set", "heal", "pend", "unpend", "lamps", "think", "turn", "leave", "hear", "dm1",
             "carry", "read", "round", "ask", "command", "shown", "row", "counts", "stats", "frame", "inject", "injected", "report",
             "fly"]  # `fly`: no command at all; `at`: the number of a station, or no command that may stand behind it
AT_STATIONS = ["read", "ask", "command", "shown", "row", "stats", "report"]
NO_SEAT = ["set", "heal", "pend", "unpend", "lamps", "think", "turn", "leave", "hear", "dm1", "counts"]

# Cases that need a frame from outside, since neither a unit nor a station of this bus ever sends such a one at that moment:
# a unit never hears its own NAME's claims; a station grants at least one packet, begins no session and answers its own
# requests by nobody; an unreadable frame has no sender; and a session's destination is claimed anew before it could be aborted.
FROM_OUTSIDE = """
a unit hears a claim of its own NAME
a unit moves to an address that it claimed before
a unit is asked by one without an address for something else
a unit's session is aborted
a unit is granted no packet
a unit is announced a broadcast to it alone
a unit hears no announcement in a control message to all
a unit is commanded an address that nobody can hold
a unit hears a frame of another kind
the station hears a claim of its own NAME
the station moves to an address that it claimed before
the station reads an announcement to another
the station reads a control message that says nothing to it
the station reads a request to send from nobody's address
the station reads a packet out of order
the station aborts a session for a packet out of order
the station reads an abort
the station reads a frame of another kind
"""
UNREAD = [f"the station can't read a {kind}" for kind in TITLES.values()]


def lines(text):
    return text.strip().splitlines()


WANTED = lines(UNIT) + CLEARS + MESSAGES + lines(STATION) + SHOWN + lines(FROM_OUTSIDE) + UNREAD + lines(BUS) + lines(ANSWERS) + [
    case + " by the other station" for case in lines(STATION) if case not in lines(NOT_BY_A_STATION)
] + [case + " at station 1" for case in lines(SECOND_STATION) + SHOWN] + lines(STATIONS) + [
    f"at: {command} at station {number} of {stations}" for command in AT_STATIONS for number, stations in ((0, 1), (0, 2), (1, 2))
] + [
    f"{command}: refused {refusal}" for command, refusals in REFUSALS.items() for refusal in refusals.split()
] + [f"{refused}, {which}" for refused, lists in LISTS.items() for which in lists.split()] + [f"{command}: refused after some" for command in SEVERAL] + [
    f"{command}: another refusal at the limit" for command in EARLIER
] + [f"{command}: bad line" for command in BAD_LINES] + [f"{command}: no seat" for command in NO_SEAT]

COUNTS = {case: 0 for case in WANTED}


ALSO = []  # what is true of what is under way: words that make a case of their own of each case below


@contextlib.contextmanager
def also(*words):
    """While this lasts, a case is counted with each of these words behind it, too, where that is listed."""
    ALSO.extend(words)
    try:
        yield
    finally:
        ALSO.clear()


def reach(case):
    COUNTS[case] += 1
    for words in ALSO:
        if words and case + words in COUNTS:
            COUNTS[case + words] += 1
