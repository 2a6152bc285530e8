"""What is heard on a bus by one who only reads: who owns an address, which message a packet completes, what a frame changes of that.

A reading is a frame or a gap of missed frames. Each question is answered by looking back over the readings: over those of one source for
a message, over the claims for an owner or a row. `listener` has one that takes no part.
"""

from .frames import (ABORT, ACKNOWLEDGMENT, BAM, CLAIM, CONTROL, GLOBAL, NULL, PACKET, RTS, TITLES, claimed_name, control_of, control_pgn,
                     control_size, in_order, joined, number)
from .log_cases import reach
from .memory import Part, read_at_all
from .words import UNREAD


class Claim:
    """The claim of an address under a NAME, or a cannot-claim, from the null address."""

    __slots__ = ("place", "name", "source")

    def __init__(self, place, name, source):
        self.place, self.name, self.source = place, name, source


class Heard:
    """The readings so far. A place is the number of a reading, from 1."""

    def __init__(self):
        self.place = self.last_gap = 0
        self.missed = self.unread = self.partly = 0
        self.of_name, self.of_source = {}, {}  # the last claim of each NAME and from each source
        self.read = {}  # of each source what was read since the last gap, each with its place
        self.aborts = {}  # of each source and destination the place of the last abort
        self.acknowledged = {}  # of each NAME the last one: its control and what was asked for

    # ---- looking back

    def owner(self, source, place=None):
        """The NAME in the last claim of an address that was read, before a place, where no gap stands after it (J1939-81, 4.2)."""
        last = self.of_source.get(source)
        if last is None or last.place < self.last_gap:
            return None
        if place is None or last.place < place:
            return last.name
        return next((claimed_name(frame) for at, frame in reversed(self.read[source]) if at < place and claimed_name(frame) is not None), None)

    def address_of(self, name):
        """The source of a NAME's last claim, unless that is a cannot-claim, or a gap or another NAME's claim of it follows."""
        last = self.of_name.get(name)
        if last is None or last.source == NULL or last.place < self.last_gap or self.of_source[last.source] is not last:
            return None
        return last.source

    def names(self):
        """The NAMEs that claimed, or that could not, in order of the first time."""
        return list(self.of_name)

    def under_way(self, source, dest):
        """The start of the message from a source to a destination that is half joined, with its place and the bytes of its packets so far; None
        where none is.

        A broadcast starts with the last announcement to all, a session with the last request to send of this pair of addresses, whatever
        group it is of. It is joined where that is a DM1, DM2 or DM6. It is over where its packets are whole, or one
        was not the next; where its source was claimed under another NAME since; and a session where either side aborted.
        """
        begins, packets, names = BAM if dest == GLOBAL else RTS, [], []
        for at, frame in reversed(self.read.get(source, ())):
            if frame.pgn == CLAIM and claimed_name(frame) is not None:
                names += [claimed_name(frame)] if source != NULL else []
            elif frame.dest != dest:
                continue
            elif frame.pgn == PACKET:
                packets.append(frame.data)
            elif control_of(frame) == begins:
                break
        else:
            return None
        packets.reverse()
        owner = self.owner(source, at)
        if control_pgn(frame) not in TITLES or any(name != owner for name in names):
            return None
        if len(packets) >= frame.data[3] or not in_order(packets, len(packets)):
            return None
        if dest != GLOBAL and self.is_ended(source, dest, at):
            return None
        return at, frame, packets

    def is_ended(self, source, dest, start):
        """Whether a session between two addresses was ended since its start."""
        return max(self.aborts.get((source, dest), 0), self.aborts.get((dest, source), 0)) > start

    # ---- what a reading changes: each answers what is told of it

    def take_gap(self, count):
        """Frames were missed: nobody is known to own an address, nothing half joined goes on."""
        reach("a gap")
        if any(self.address_of(name) is not None for name in self.of_name):
            reach("a gap after which nobody is known to hold an address")
        self.place += 1
        self.last_gap = self.place
        self.missed += count
        self.read.clear()
        return [("missed", count)]

    def take(self, frame):
        self.place += 1
        told = self.take_frame(frame)
        self.read.setdefault(frame.source, []).append((self.place, frame))
        if control_of(frame) == ABORT:
            self.tell_of_abort(frame)
            self.aborts[frame.source, frame.dest] = self.place
        return told

    def take_frame(self, frame):
        pgn, what = frame.pgn, control_of(frame)
        if claimed_name(frame) is not None:
            return self.take_claim(claimed_name(frame), frame.source)
        if pgn == ACKNOWLEDGMENT and len(frame.data) == 8:
            return self.take_acknowledgment(frame)
        if pgn in TITLES:
            return self.take_message(frame.source, GLOBAL, None, pgn, frame.data, "single frame")
        if what == BAM and frame.dest == GLOBAL:
            return self.take_announcement(frame)
        if what == RTS and self.joins_sessions_to(frame.dest):
            return self.take_request_to_send(frame)
        if pgn == PACKET and frame.dest == GLOBAL:
            return self.take_packet(frame, "broadcast")
        if pgn == PACKET and self.joins_sessions_to(frame.dest):
            return self.take_packet(frame, "session")
        return []

    def joins_sessions_to(self, dest):
        raise NotImplementedError

    def message_of(self, source, dest):
        """What tells the messages apart whose packets are looked at for being late."""
        raise NotImplementedError

    def take_claim(self, name, source):
        """A NAME is at an address from its claim on; it has none after a cannot-claim. Who claimed the address last has lost it, where it
        had it still."""
        has, known = self.address_of(name), name in self.of_name
        self.of_name.setdefault(name, None)
        claim = Claim(self.place, name, source)
        if source == NULL:
            reach("a cannot-claim of a NAME " + ("with an address" if has is not None else "without an address" if known else "that was not known"))
            self.of_name[name] = claim
            return [("lost", name, False)] if has is not None or not known else []
        owner = self.owner(source)
        had = owner is not None and owner != name and self.address_of(owner) == source
        self.end_messages(name, source, owner)
        self.of_name[name] = self.of_source[source] = claim
        if has == source:
            reach("a claim of the address that the NAME has")
            return []
        reach("a claim of an address without owner" if owner is None else "a claim by the last owner again, which went elsewhere since"
              if owner == name else "a claim that takes an address from who " + ("has it" if had else "had it"))
        told = [("lost", owner, True)] if had else []
        if owner not in (None, name):
            told.append(("displaced", source))
        return [*told, ("unit", name, source)]

    def end_messages(self, name, source, owner):
        """A claim under another NAME than the owner's ends what is half joined from there."""
        if owner != name:
            for dest in {frame.dest for _, frame in self.read.get(source, ()) if frame.pgn == CONTROL}:
                if (dest == GLOBAL or self.joins_sessions_to(dest)) and self.under_way(source, dest):
                    reach(f"a {'broadcast' if dest == GLOBAL else 'session'} ended by a claim of the source under another NAME")

    def take_acknowledgment(self, frame):
        """It is kept for the owner of its source (J1939-21, 5.4.4)."""
        owner, told = self.owner(frame.source), (frame.data[0], number(frame.data[5:8]))
        if owner is None:
            reach("an acknowledgment from an address without owner")
            return []
        again, self.acknowledged[owner] = self.acknowledged.get(owner) == told, told
        reach("an acknowledgment that " + ("was" if again else "is") + " told")
        return [] if again else [("ack", owner, *told, frame.source, frame.data[4], frame.dest)]

    def take_message(self, source, dest, place, kind, payload, how):
        """A message that ended, and began at a place: it is listed under the owner that its source had then, or can't be read."""
        who = self.whose(source, place)
        shown = read_at_all(payload)
        if shown is None:
            reach(f"a {how} cannot be read")
            self.unread += 1
            return [("unread", self.unread, who, kind, source, dest, UNREAD, how)]
        if isinstance(shown, Part):
            reach(f"a {how} is read in part")
            self.partly += 1
            return [("entry", who, kind, source, dest, shown, how)]
        reach(f"a {how} is listed")
        return [("entry", who, kind, source, dest, shown, how)]

    def take_announcement(self, frame):
        """A DM1, DM2 or DM6 to all from an address without owner is not attributed, and that is told of its announcement."""
        if control_pgn(frame) not in TITLES:
            reach("a broadcast of another group is announced")
            return []
        if self.owner(frame.source) is None:
            reach("a broadcast begins from an address without owner")
            return [("unowned", frame.source)]
        reach("a broadcast begins")
        return []

    def take_request_to_send(self, frame):
        older = self.under_way(frame.source, frame.dest)
        if control_pgn(frame) not in TITLES:
            reach("a session of another group is announced")
            if older:
                reach("a session ended by a request to send of another group")
        else:
            reach("a session begins" if self.owner(frame.source) is not None else "a session is asked for from an address without owner")
        return []

    def tell_of_abort(self, frame):
        """Counts the sessions that an abort ends."""
        for source, dest, who in ((frame.source, frame.dest, "sender"), (frame.dest, frame.source, "receiver")):
            if dest != GLOBAL and self.joins_sessions_to(dest) and self.under_way(source, dest):
                reach(f"a session ended by an abort of the {who}")

    def take_packet(self, frame, how):
        """The last packet shows the message, under the owner that its source had at the start (J1939-21, 5.10.2)."""
        under_way = self.under_way(frame.source, frame.dest)
        if under_way is None:
            reach(f"a {how} packet of nothing that is joined")
            return []
        at, start, packets = under_way
        packets = [*packets, frame.data]
        if not in_order(packets, len(packets)):
            reach(f"a {how} is broken by a packet that is not the next")
            return []
        if len(packets) < start.data[3]:
            reach(f"a {how} goes on")
            return []
        return self.take_message(frame.source, frame.dest, at, control_pgn(start), joined(packets, control_size(start)), how)
