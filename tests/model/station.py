"""What a station does with a reading, and what it can tell. Each does so by itself: another one's frames are readings like any.

It keeps its readings, the latest last, and looks back over them. A reading is a frame or a gap of missed frames. Who owns
an address, which message a packet completes and where a NAME stands are all said by looking back from a place.
"""

from .cases import reach
from .frames import (ABORT, ACKNOWLEDGMENT, BAM, CLAIM, COMMANDED_ADDRESS, CONTROL, CTS, END_OF_MESSAGE, GLOBAL, LAST_ADDRESS,
                     NEGATIVE, NULL, PACKET, RTS, TITLES, abort, acknowledgment, broadcast, claim, claimed_name, control_of, control_pgn,
                     control_size, cts, end_of_message, in_order, joined, number, request, requested)
from .memory import Refused, read_message
from .unit import contend

CONTROLS = {RTS: "a request to send", CTS: "a grant", END_OF_MESSAGE: "an acknowledgment of the end", BAM: "an announcement",
            ABORT: "an abort"}


class Reading:
    """A frame that was read, None for a gap; and whether the station had to claim its address anew, for which its sessions
    were dropped."""

    __slots__ = ("frame", "contested")

    def __init__(self, frame):
        self.frame, self.contested = frame, False


class Station:
    """`queue` holds the frames that it wants carried, as pairs like a unit's."""

    def __init__(self, name, address, grant):
        self.name, self.held, self.grant = name, address, grant
        self.readings, self.entries, self.acknowledged = [], [], []
        self.missed = self.unread = self.withdrawn = 0
        self.queue = []
        self.put(claim(name, address))

    def put(self, *frames):
        self.queue.extend((frame, False) for frame in frames)

    def withdraw(self):
        self.withdrawn += len(self.queue)
        self.queue.clear()

    # Looking back.

    def owner(self, source, place):
        """The NAME in the last claim of an address read before a place, where no gap stands after it."""
        readings = self.readings
        for at in range(place - 1, -1, -1):
            frame = readings[at].frame
            if frame is None:
                return None
            if frame.source == source and frame.pgn == CLAIM and source <= LAST_ADDRESS and claimed_name(frame) is not None:
                return claimed_name(frame)
        return None

    def noted(self, address, place):
        """The NAME in the last claim of an address read before a place, whatever was missed since."""
        for at in range(place - 1, -1, -1):
            frame = self.readings[at].frame
            if frame and frame.source == address and frame.pgn == CLAIM and claimed_name(frame) is not None:
                return claimed_name(frame)
        return None

    def starts(self, place):
        """Whether the reading at a place starts a message: a DM1, DM2 or DM6 from an owned address that is announced or asked to
        be let send."""
        frame = self.readings[place].frame
        return control_pgn(frame) in TITLES and self.owner(frame.source, place) is not None

    def message_under_way(self, source, dest, place):
        """The place of the start of the message from a source that is half joined before a place, and its packets' bytes
        so far; None where there is none.

        Back to the start there is no gap and no claim of the source under another NAME than its owner's at the start. For
        a broadcast the start is the last announcement to all. For a session it is the last request to send that starts
        one; since then there is no abort of it, and the station did not have to claim anew.
        """
        packets, names, aborted = [], [], []
        for at in range(place - 1, -1, -1):
            frame = self.readings[at].frame
            if frame is None or (dest != GLOBAL and self.readings[at].contested):
                return None
            if frame.source != source:
                continue
            if frame.pgn == CLAIM and claimed_name(frame) is not None:
                names.append(claimed_name(frame))
            elif frame.pgn == PACKET and frame.dest == dest:
                packets.append(frame.data)
            elif frame.pgn == CONTROL and frame.dest == dest:
                what = control_of(frame)
                if what == ABORT:
                    aborted.append(control_pgn(frame))
                elif what == BAM and dest == GLOBAL or what == RTS and dest != GLOBAL and self.starts(at):
                    packets.reverse()
                    break
        else:
            return None
        if not self.starts(at) or control_pgn(frame) in aborted and dest != GLOBAL:
            return None
        if any(name != self.owner(source, at) for name in names):
            return None
        # It ended before where its packets were whole, or broken.
        if len(packets) >= frame.data[3] or not in_order(packets, len(packets)):
            return None
        return at, packets

    def names(self):
        """The NAMEs of the claims read, in order of the first one."""
        seen = []
        for reading in self.readings:
            name = reading.frame and claimed_name(reading.frame)
            if name is not None and name not in seen:
                seen.append(name)
        return seen

    def is_known(self, name):
        return any(reading.frame and claimed_name(reading.frame) == name for reading in self.readings)

    def address_of(self, name):
        """The source of a NAME's last claim, unless that is a cannot-claim, or a gap or another NAME's claim of it follows."""
        later = set()
        for reading in reversed(self.readings):
            if reading.frame is None:
                return None
            other = claimed_name(reading.frame)
            if other == name:
                source = reading.frame.source
                return None if source == NULL or source in later else source
            if other is not None:
                later.add(reading.frame.source)
        return None

    def last_acknowledgment(self, name):
        return next(((control, pgn) for who, control, pgn in reversed(self.acknowledged) if who == name), None)

    def shown(self, name, kind):
        return [shown for who, of, shown in self.entries if who == name and of == kind]

    # Rules for a reading.

    def take_gap(self, missed):
        """Frames were missed: nobody is known to own an address, nothing half joined goes on. The station withdraws all,
        claims again and asks all for their claims (J1939-81, 4.2)."""
        reach("the station meets a gap" if self.held is not None else "the station without an address meets a gap")
        if self.queue:
            reach("the station withdraws frames after a gap")
        if self.readings and self.readings[-1].frame is None:
            reach("the station meets a gap after a gap")
        self.missed += missed
        self.readings.append(Reading(None))
        self.withdraw()
        self.put(claim(self.name, self.held), request(CLAIM, GLOBAL, NULL if self.held is None else self.held))

    def take(self, frame):
        place = len(self.readings)
        self.readings.append(Reading(frame))
        if claimed_name(frame) is not None:
            self.take_claim(frame, place)
        elif requested(frame) is not None:
            self.take_request(frame)
        elif frame.pgn == ACKNOWLEDGMENT and len(frame.data) == 8:
            self.take_acknowledgment(frame, place)
        elif frame.pgn in TITLES:
            self.take_message(self.owner(frame.source, place), frame.pgn, frame.data, "a single frame")
        elif control_of(frame) == BAM and frame.dest == GLOBAL:
            self.take_announcement(frame, place)
        elif control_of(frame) == RTS and frame.dest == self.held:
            self.take_request_to_send(frame, place)
        elif control_of(frame) == ABORT and frame.dest == self.held:
            reach("the station reads an abort")
        elif frame.pgn == PACKET and frame.dest == GLOBAL:
            self.take_packet(frame, place)
        elif frame.pgn == PACKET and frame.dest == self.held:
            self.take_packet_of_session(frame, place)
        elif frame.pgn == CONTROL and control_of(frame) is not None and frame.dest not in (self.held, GLOBAL):
            reach(f"the station reads {CONTROLS[control_of(frame)]} to another")
        elif frame.pgn == PACKET:
            reach("the station reads a packet to another")
        elif frame.pgn == CONTROL:
            reach("the station reads a control message that says nothing to it")
        else:
            reach("the station reads a frame of another kind")

    def take_claim(self, frame, place):
        """A NAME is heard of; by a claim it owns the address, by a cannot-claim it has none, and no address is freed."""
        name, source = claimed_name(frame), frame.source
        owner = self.owner(source, place)
        if source == NULL:
            reach("the station reads a cannot-claim")
        elif owner is None:
            reach("the station reads a claim of an address without owner")
        elif owner == name:
            reach("the station reads a claim by the owner again")
        else:
            reach("the station reads a claim that takes an address from another NAME")
            for what, dest in (("broadcast", GLOBAL), ("session", self.held)):
                if dest is not None and self.message_under_way(source, dest, place):
                    reach(f"the station drops a half joined {what} since its source is claimed by another NAME")
        step, held = contend("the station", self.name, self.held, frame, lambda address: self.noted(address, place + 1))
        if step:
            if self.held is not None and any(self.message_under_way(other, self.held, place) for other in self.sources_asked()):
                reach("the station drops sessions since it has to claim anew")
            if self.queue:
                reach("the station withdraws frames since it has to claim anew")
            self.held = held
            self.readings[place].contested = True
            self.withdraw()
            self.put(claim(self.name, held))

    def sources_asked(self):
        """The sources from which the station read a request to send."""
        return {reading.frame.source for reading in self.readings
                if reading.frame and reading.frame.pgn == CONTROL and control_of(reading.frame) == RTS}

    def take_request(self, frame):
        if requested(frame) == CLAIM and frame.dest in (self.held, GLOBAL):
            where = "among all" if frame.dest == GLOBAL else "at its address"
            reach(f"the station is asked {where} for " + ("its claim" if self.held is not None else "a claim that it cannot make"))
            self.put(claim(self.name, self.held))
        elif frame.dest == self.held and frame.source <= LAST_ADDRESS:
            reach("the station is asked for what it does not know")
            self.put(acknowledgment(NEGATIVE, frame.source, requested(frame), self.held))
        else:
            reach("the station reads a request that it does not answer")

    def take_acknowledgment(self, frame, place):
        """It is kept for the owner of its source where it answers the station (J1939-21, 5.4.4)."""
        owner = self.owner(frame.source, place)
        if owner is None:
            reach("the station reads an acknowledgment from an address without owner")
        elif self.held is None or self.held not in (frame.data[4], frame.dest):
            reach("the station reads an acknowledgment for another")
        else:
            reach("the station keeps an acknowledgment")
            self.acknowledged.append((owner, frame.data[0], number(frame.data[5:8])))

    def take_message(self, owner, kind, payload, how):
        shown = read_message(payload)
        if owner is None:
            reach("the station passes over a message from an address without owner")
        elif shown is None:
            reach(f"the station can't read a {TITLES[kind]}")
            self.unread += 1
        else:
            reach(f"the station shows a {TITLES[kind]} by {how}")
            self.entries.append((owner, kind, shown))

    def take_announcement(self, frame, place):
        if self.message_under_way(frame.source, GLOBAL, place):
            reach("the station drops a half joined broadcast for a new one")
        reach("the station joins a broadcast" if self.starts(place) else "the station does not join a broadcast")

    def take_request_to_send(self, frame, place):
        """Packets are granted at once; the sender's limit holds for each grant, 0 being none (J1939-21, 5.10.3)."""
        source, pgn, packets = frame.source, control_pgn(frame), frame.data[3]
        if source > LAST_ADDRESS:
            reach("the station reads a request to send from nobody's address")
        elif self.starts(place):
            older = self.message_under_way(source, self.held, place)
            reach("the station replaces a session" if older else "the station joins a session")
            self.put(cts(min(self.step(frame), packets), 1, pgn, source, self.held))
        else:
            reach("the station aborts what it is asked to let send")
            self.put(abort(pgn, source, self.held))

    def step(self, start):
        """The most packets of one grant in the session with that start."""
        return min(self.grant, start.data[4] or 255)

    def take_packet(self, frame, place):
        under_way = self.message_under_way(frame.source, GLOBAL, place)
        if under_way is None:
            reach("the station reads a packet of a broadcast that it does not join")
            return
        at, packets = under_way
        start = self.readings[at].frame
        packets = packets + [frame.data]
        if not in_order(packets, len(packets)):
            reach("the station reads a packet out of order")
        elif len(packets) == start.data[3]:
            payload = joined(packets, control_size(start))
            self.take_message(self.owner(frame.source, at), control_pgn(start), payload, "a broadcast")
        else:
            reach("the station reads a further packet of a broadcast")

    def take_packet_of_session(self, frame, place):
        """As for a broadcast; beside that an unexpected packet is answered by an abort, the last one by an end of message
        acknowledgment, and the last granted one by the next grant."""
        under_way = self.message_under_way(frame.source, self.held, place)
        if under_way is None:
            reach("the station reads a packet of a session that it does not join")
            return
        at, packets = under_way
        start, source = self.readings[at].frame, frame.source
        pgn, count, packets = control_pgn(start), start.data[3], packets + [frame.data]
        if not in_order(packets, len(packets)):
            reach("the station aborts a session for a packet out of order")
            self.put(abort(pgn, source, self.held))
        elif len(packets) == count:
            self.take_message(self.owner(source, at), pgn, joined(packets, control_size(start)), "a session")
            self.put(end_of_message(control_size(start), pgn, source, self.held))
        elif len(packets) % self.step(start) == 0:
            reach("the station grants further packets")
            self.put(cts(min(self.step(start), count - len(packets)), len(packets) + 1, pgn, source, self.held))
        else:
            reach("the station reads a further packet of a session")

    # What the station is told to do. Each answers the frames to queue.

    def ask(self, name, pgn):
        if self.held is None:
            raise Refused("NotHeld")
        address = self.address_of(name)
        if address is None:
            raise Refused("NoAddress")
        return [request(pgn, address, self.held)]

    def ask_all(self, pgn):
        if self.held is None:
            raise Refused("NotHeld")
        return [request(pgn, GLOBAL, self.held)]

    def command(self, name, address):
        """A commanded address goes to all, by a broadcast of nine bytes (J1939-81, 4.2)."""
        if address > LAST_ADDRESS:
            raise Refused("NotAnAddress")
        if self.held is None:
            raise Refused("NotHeld")
        return broadcast(name.to_bytes(8, "little") + bytes([address]), COMMANDED_ADDRESS, self.held)
