"""What a control unit does with a frame that it hears. The first of the rules below that fits decides.

A unit remembers nothing that it can look up: it has heard the frames of the wire since it joined, but for its own.
"""

from .cases import reach
from .frames import (ABORT, ACKNOWLEDGMENT, BAM, CLAIM, COMMANDED_ADDRESS, CONTROL, CTS, DM1, DM3, DM11, END_OF_MESSAGE, GLOBAL,
                     LAST_ADDRESS, NEGATIVE, NOT_NOW, PACKET, POSITIVE, REQUEST, RTS, TITLES, abort, acknowledgment, broadcast,
                     claim, claimed_name, control_of, control_pgn, control_size, in_order, joined, number, packet, packets_of,
                     requested, rts, to_all)
from .memory import Memory, Refused

ALL, SESSION = "all", "session"  # what is withdrawn from a queue
FIRST_OWN_CHOICE, LAST_OWN_CHOICE = 128, 247  # where an arbitrary address capable unit may move to (J1939-81)


def contend(who, name, held, frame, noted):
    """Address contention (J1939-81, 4.4): what a claim means to one with that NAME and address.

    Answers what to do and the address that is held from then on. `noted(address)` is the NAME in the last claim of an
    address that was heard, this one included.
    """
    other = claimed_name(frame)
    if frame.source > LAST_ADDRESS:
        reach(who + " hears a cannot-claim")
    elif other == name:
        reach(who + " hears a claim of its own NAME")
    elif frame.source != held:
        reach(who + " hears a claim of an address that it does not hold")
    elif name < other:
        reach(who + " defends its address against a higher NAME")
        return "defend", held
    elif name >> 63:
        for address in range(FIRST_OWN_CHOICE, LAST_OWN_CHOICE + 1):
            if noted(address) in (None, name):
                reach(who + " moves, since it may take another address")
                if address > FIRST_OWN_CHOICE:
                    reach(who + " moves past an address that is noted for another NAME")
                if noted(address) == name:
                    reach(who + " moves to an address that it claimed before")
                return "move", address
        reach(who + " may take another address, but none is free")
        return "cannot claim", None
    else:
        reach(who + " loses its address to a lower NAME")
        return "cannot claim", None
    return None, held


class Session:
    """A message on its way to one who asked for it: Rts, then packets as they are granted."""

    def __init__(self, kind, payload, dest):
        self.kind, self.payload, self.dest = kind, payload, dest
        self.following = 1  # the first packet that is not yet queued; 256 after the last of 255
        self.asked = self.asked_for = 0  # (on a real bus: how often a packet, or an earlier one, was asked for again, and which)

    def all_queued(self):
        return self.following > packets_of(len(self.payload))


class Unit:
    """A unit in its seat. `queue` holds pairs: a frame, and whether it belongs to the open session."""

    def __init__(self, name, address, kind, wire, seat):
        self.name, self.held, self.kind = name, address, kind
        self.memory, self.session, self.queue = Memory(), None, []
        self.wire, self.seat, self.joined = wire, seat, len(wire)
        self.withdrawn = 0
        self.put(claim(name, address))

    def put(self, *frames, session=False):
        self.queue.extend((frame, session) for frame in frames)

    def withdraw(self, which):
        kept = [] if which == ALL else [entry for entry in self.queue if not entry[1]]
        self.withdrawn += len(self.queue) - len(kept)
        self.queue[:] = kept

    # What kinds of units choose: a plain one obeys, a guarded one does not, a flicker does and thinks.

    def obeys(self):
        return self.kind[0] != "guarded"

    def think(self):
        """A flicker heals its code where it is active, else sets it; what is refused changes nothing."""
        if self.kind[0] != "flicker":
            reach("a unit that is no flicker thinks")
            return
        _, spn, fmi = self.kind
        try:
            if Memory.find(self.memory.active, spn, fmi):
                self.memory.heal(spn, fmi)
                reach("a flicker heals")
            else:
                before = self.memory.list_of(spn, fmi)
                self.memory.set(spn, fmi)
                reach("a flicker sets a pending code" if before == "pending" else "a flicker sets")
        except Refused as refused:
            reach("a flicker's change is refused " + refused.refusal)

    # Looking back over what was heard.

    def heard_before(self, place):
        """The frames heard before a place of the wire, each with its own place, the latest first."""
        for at in range(place - 1, self.joined - 1, -1):
            carried_by, frame = self.wire[at]
            if carried_by != self.seat:
                yield at, frame

    def noted(self, address, place):
        """The NAME in the last claim of an address heard before a place."""
        for _, frame in self.heard_before(place):
            if frame.source == address and frame.pgn == CLAIM and claimed_name(frame) is not None:
                return claimed_name(frame)
        return None

    def whole_command(self, place):
        """The nine bytes of a commanded address that are whole with the packet at that place, or None.

        Looking back there are that source's packets 2 and 1, then the announcement of nine bytes; between them no claim of
        the source's address under another NAME than the one that was noted for it then.
        """
        last = self.wire[place][1]
        packets, names = [last.data], []
        for at, frame in self.heard_before(place):
            if frame.source != last.source:
                continue
            if frame.pgn == PACKET and frame.dest == GLOBAL:
                packets.insert(0, frame.data)
            elif claimed_name(frame) is not None:
                names.insert(0, claimed_name(frame))
            elif frame.dest == GLOBAL and control_of(frame) == BAM:
                break
        else:
            return None
        before = self.noted(last.source, at)
        if before is not None:
            names.insert(0, before)
        if any(name != names[0] for name in names) or not in_order(packets, 2) or last.source > LAST_ADDRESS:
            return None
        return joined(packets, 9) if control_pgn(frame) == COMMANDED_ADDRESS and control_size(frame) == 9 else None

    # The rules.

    def hear(self, place):
        frame = self.wire[place][1]
        if claimed_name(frame) is not None:
            self.hear_claim(frame, place)
        elif requested(frame) is not None and frame.dest in (self.held, GLOBAL):
            self.hear_request(frame)
        elif frame.pgn == CONTROL and frame.dest == GLOBAL:
            self.hear_announcement(frame)
        elif frame.pgn == CONTROL and frame.dest == self.held and control_of(frame) is not None:
            self.hear_control(frame)
        elif frame.pgn == PACKET and frame.dest == GLOBAL:
            self.hear_packet(frame, place)
        elif frame.pgn == REQUEST:
            reach("a unit hears a request to another")
        elif frame.pgn == CONTROL:
            reach("a unit hears a control message to another")
        elif frame.pgn == PACKET:
            reach("a unit hears a packet to one alone")
        elif frame.pgn == ACKNOWLEDGMENT:
            reach("a unit hears an acknowledgment")
        elif frame.pgn in TITLES:
            reach("a unit hears a DM1, DM2 or DM6")
        else:
            reach("a unit hears a frame of another kind")

    def start_anew(self):
        """Whoever defends, moves or gives up, or obeys a command, withdraws all and says what it holds."""
        if self.session:
            reach("a unit that claims anew ends its session")
        if any(frame.pgn in (CONTROL, PACKET, *TITLES) for frame, _ in self.queue):
            reach("a unit that claims anew withdraws parts of messages")
        self.withdraw(ALL)
        self.session = None
        self.put(claim(self.name, self.held))

    def end_session(self):
        self.session = None
        self.withdraw(SESSION)

    def hear_claim(self, frame, place):
        """Rule: a claim. A session ends where its destination is claimed, by whatever NAME (J1939-81, 4.2, 4.4)."""
        step, held = contend("a unit", self.name, self.held, frame, lambda address: self.noted(address, place + 1))
        if step:
            self.held = held
            self.start_anew()
        elif self.session and frame.source == self.session.dest:
            reach("a unit ends its session since its destination is claimed")
            if any(of_session for _, of_session in self.queue) and not all(of_session for _, of_session in self.queue):
                reach("a unit withdraws the frames of its session alone")
            self.end_session()

    def hear_request(self, frame):
        """Rule: a request to the held address or to all (J1939-21, 5.4.2).

        From nobody's address, or from its own, a unit answers only who asks for claims. Without an address it answers
        nothing else either.
        """
        pgn, own = requested(frame), frame.dest != GLOBAL
        where = "a unit is asked at its address for " if own else "a unit is asked among all for "
        if pgn == CLAIM:
            reach(where + ("a claim" if self.held is not None else "a claim that it cannot make"))
            if frame.source > LAST_ADDRESS:
                reach("a unit is asked for a claim by one without an address")
            self.put(claim(self.name, self.held))
        elif self.held is None:
            reach("a unit without an address is asked for something else")
        elif frame.source == self.held:
            reach("a unit is asked from its own address for something else")
        elif frame.source > LAST_ADDRESS:
            reach("a unit is asked by one without an address for something else")
        elif pgn in TITLES:
            self.asked_for_message(pgn, frame.source, own, where)
        elif pgn in (DM3, DM11):
            self.asked_to_clear(pgn, frame.source, own, where)
        else:
            reach(where + "what it does not know")
            if own:
                self.put(acknowledgment(NEGATIVE, frame.source, pgn, self.held))

    def asked_for_message(self, kind, asked_by, own, where):
        """One frame goes to all; more go in a session to the one who asked, or to all where all were asked.

        Where a session of that kind is open, one who asks alone is told so, and all are told nothing. Where a session
        is open at all, there is none to spare for another.
        """
        payload = self.memory.payload(kind)
        short = len(payload) == 8
        if self.session:
            reach(f"a unit with a session of {TITLES[self.session.kind]} open is asked for {TITLES[kind]}")
        if self.session and self.session.kind == kind:
            reach(where + ("a short message" if short else "a long message") + " with a session of that kind open")
            if own:
                self.put(acknowledgment(NOT_NOW, asked_by, kind, self.held))
        elif short:
            reach(where + "a short message" + (" with a session of another kind open" if self.session else ""))
            reach(f"a unit is asked for {TITLES[kind]} and sends a single frame")
            self.put(to_all(6, kind, self.held, payload))
        elif not own:
            reach(where + "a long message" + (" with a session of another kind open" if self.session else ""))
            reach(f"a unit is asked for {TITLES[kind]} and begins a broadcast")
            self.put(*broadcast(payload, kind, self.held))
        elif self.session:
            reach(where + "a long message with a session of another kind open")
            self.put(acknowledgment(NOT_NOW, asked_by, kind, self.held))
        else:
            reach(where + "a long message")
            reach(f"a unit is asked for {TITLES[kind]} and begins a session")
            self.session = Session(kind, payload, asked_by)
            self.put(rts(len(payload), kind, asked_by, self.held), session=True)

    def asked_to_clear(self, pgn, asked_by, own, where):
        """DM3 clears the previous codes, DM11 the active and the pending ones. Only one who asks alone is answered (J1939-73)."""
        what = where + ("DM3" if pgn == DM3 else "DM11") + ("" if self.obeys() else " and refuses")
        codes, pending = self.memory.previous if pgn == DM3 else self.memory.active, self.memory.pending
        if pending:
            reach(what + (" with pending codes too" if codes else " with pending codes alone"))
        else:
            reach(what + ("" if codes else " with no code to clear"))
        if self.obeys() and pgn == DM3:
            self.memory.clear_previous()
        elif self.obeys():
            self.memory.clear_active()
        if own:
            self.put(acknowledgment(POSITIVE if self.obeys() else NEGATIVE, asked_by, pgn, self.held))

    def hear_control(self, frame):
        """Rules: a control message to the held address (J1939-21, 5.10.3)."""
        what, session = control_of(frame), self.session
        if what == RTS:
            reach("a unit is sent a request to send")
            if frame.source <= LAST_ADDRESS:
                self.put(abort(control_pgn(frame), frame.source, self.held))
        elif what == BAM:
            reach("a unit is announced a broadcast to it alone")
        elif session is None or frame.source != session.dest or control_pgn(frame) != session.kind:
            name = {CTS: "a grant", END_OF_MESSAGE: "an acknowledgment of the end", ABORT: "an abort"}[what]
            reach(f"a unit is sent {name} that is not of its session")
        elif what == CTS:
            self.hear_grant(frame.data[1], frame.data[2])
        elif what == END_OF_MESSAGE:
            if session.all_queued():
                reach("a unit's session is acknowledged")
                self.end_session()
            else:
                reach("a unit's session is acknowledged before all is queued")
        else:
            reach("a unit's session is aborted")
            self.end_session()

    def hear_grant(self, granted, following):
        """A grant is honoured where it begins at the first packet not yet queued. None keeps the session open."""
        session = self.session
        rest = packets_of(len(session.payload)) - session.following + 1
        if granted == 0:
            reach("a unit is granted no packet")
            return
        if following != session.following or rest == 0:
            reach("a unit is granted packets that are not the following ones")
            return
        reach("a unit is granted the rest" if granted >= rest else "a unit is granted a part")
        for which in range(following, following + min(granted, rest)):
            self.put(packet(session.payload, which, session.dest, self.held), session=True)
        session.following += min(granted, rest)
        if session.following == 256:
            reach("a unit is granted packet 255")

    def hear_announcement(self, frame):
        """Rule: a broadcast is announced. Only what it holds later matters, so there is nothing to do now."""
        if control_of(frame) != BAM:
            reach("a unit hears no announcement in a control message to all")
        elif control_pgn(frame) == COMMANDED_ADDRESS:
            reach("a unit hears the announcement of a commanded address")
        else:
            reach("a unit hears the announcement of another broadcast")

    def hear_packet(self, frame, place):
        """Rule: a packet to all. A commanded address that is whole is obeyed (J1939-81, 4.2), also without an address."""
        command = self.whole_command(place)
        if command is None:
            reach("a unit hears a packet to all that completes no command")
            return
        name, address = number(command[:8]), command[8]
        if name != self.name:
            reach("a unit hears a command to another NAME")
        elif address > LAST_ADDRESS:
            reach("a unit is commanded an address that nobody can hold")
        elif not self.obeys():
            reach("a unit is commanded and refuses")
        else:
            reach("a unit obeys a command without an address" if self.held is None else
                  "a unit obeys a command to the address that it holds" if self.held == address else "a unit obeys a command")
            self.obey(address)

    def obey(self, address):
        self.held = address
        self.start_anew()

    # What the unit is told to do.

    def begin_dm1(self):
        """Refused without an address; held back while a session of DM1 is open."""
        if self.held is None:
            raise Refused("Unclaimed")
        if self.session and self.session.kind == DM1:
            return "held"
        return "begun"

    def begun_dm1(self):
        if self.session:
            reach(f"a DM1 begins with a session of {TITLES[self.session.kind]} open")
        payload = self.memory.payload(DM1)
        if len(payload) == 8:
            self.put(to_all(6, DM1, self.held, payload))
        else:
            self.put(*broadcast(payload, DM1, self.held))
