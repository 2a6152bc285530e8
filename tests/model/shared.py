"""Groups that a program shares with a station at an address: what of the bus is the program's, which messages are whole, and what is answered
(J1939-21, 5.10), found by looking back over all that was heard."""

from . import frames
from .frames import ABORT, BAM, GLOBAL, NULL, PACKET, RTS


class Shared:
    """What a program has that shares groups at the address of its station."""

    def __init__(self, own, groups, grant):
        self.own, self.groups, self.grant = own, groups, grant
        self.heard = []  # each frame, oldest first; None is a gap
        self.since = 0  # (from which place on the station holds its address)
        self.sends_to = None  # to whom the packets go of the message that was sent last

    def follow(self, held):
        """The station holds another address, or none: what was begun with it is over."""
        self.own, self.since = held, len(self.heard)

    def newest(self, at, wanted):
        """The place of the newest frame before a place, none being a gap, that is wanted; None where there is none."""
        for place in range(at - 1, -1, -1):
            if self.heard[place] is None:
                return None
            if wanted(self.heard[place]):
                return place
        return None

    def owner(self, at, source):
        """The NAME in the newest claim of an address before a place."""
        place = self.newest(at, lambda it: it.source == source < NULL and frames.claimed_name(it) is not None)
        return None if place is None else frames.claimed_name(self.heard[place])

    def announced(self, at, source, dest):
        """The place of the newest announcement of a message from one to all or to the station."""
        first = BAM if dest == GLOBAL else RTS
        begun = self.newest(at, lambda it: it.source == source and it.dest == dest and frames.control_of(it) == first)
        return None if begun is not None and first == RTS and begun < self.since else begun

    def half(self, at, source, dest):
        """What is half joined before a place: its announcement and the packets since; None where nothing is."""
        begun = self.announced(at, source, dest)
        if begun is None or frames.control_pgn(self.heard[begun]) not in self.groups or (dest == self.own and source >= NULL):
            return None
        since = self.heard[begun + 1 : at]
        pgn, name = frames.control_pgn(self.heard[begun]), self.owner(begun, source)
        claims = [frames.claimed_name(it) for it in since if it.source == source < NULL and frames.claimed_name(it) is not None]
        if any(name is None or claim != name for claim in claims):
            return None
        if dest == self.own and any(it.source == source and it.dest == dest and frames.control_of(it) == ABORT and frames.control_pgn(it) == pgn for it in since):
            return None
        packets = [it.data for it in since if it.source == source and it.pgn == PACKET and it.dest == dest]
        count = frames.packets_of(frames.control_size(self.heard[begun]))
        if len(packets) >= count or not frames.in_order(packets, len(packets)):
            return None
        return self.heard[begun], packets, name

    def is_withheld(self, frame):
        """Whether a frame that is heard next is not for the station."""
        if frame.source == self.own and frame.pgn == PACKET and frame.dest == self.sends_to:
            return True
        if frame.source == self.own and frames.claimed_name(frame) is None:
            asked = frames.requested(frame)
            about = asked if asked is not None else frames.control_pgn(frame) if frames.control_of(frame) is not None else frame.pgn
            return about in self.groups
        if frame.dest != self.own:
            return False
        if frames.requested(frame) is not None:
            return frames.requested(frame) in self.groups
        if frames.control_of(frame) == RTS:
            return frames.control_pgn(frame) in self.groups
        if frame.pgn != PACKET:
            return False
        # (a gap ends what is half joined, and not whose the packets are)
        newest = [it for it in self.heard[self.since :] if it and it.source == frame.source and it.dest == self.own and frames.control_of(it) == RTS]
        return bool(newest) and frames.control_pgn(newest[-1]) in self.groups

    def hear(self, frame):
        """Hears a frame: the message that is whole with it, as (pgn, source, name, bytes), and what is answered; None where nothing is."""
        at, source, dest = len(self.heard), frame.source, frame.dest
        self.heard.append(frame)
        if source == self.own:
            return None, None
        if frame.pgn in self.groups and dest in (None, GLOBAL, self.own):
            return (frame.pgn, source, self.owner(at, source), frame.data), None
        if frames.control_of(frame) == RTS and dest == self.own and frames.control_pgn(frame) in self.groups and source < NULL:
            return None, frames.cts(min(self.at_once(frame), frame.data[3]), 1, frames.control_pgn(frame), source, self.own)
        if frame.pgn != PACKET or dest not in (GLOBAL, self.own):
            return None, None
        half = self.half(at, source, dest)
        return (None, None) if half is None else self.packet(frame, *half)

    def at_once(self, rts):
        return min(self.grant, rts.data[4]) if rts.data[4] else self.grant

    def packet(self, frame, begun, packets, name):
        """A packet of what is half joined."""
        size, pgn = frames.control_size(begun), frames.control_pgn(begun)
        count, packets = frames.packets_of(size), packets + [frame.data]
        to_one = frame.dest == self.own
        if not frames.in_order(packets, len(packets)):
            return None, frames.abort(pgn, frame.source, self.own) if to_one else None
        if len(packets) == count:
            whole = (pgn, frame.source, name, frames.joined(packets, size))
            return whole, frames.end_of_message(size, pgn, frame.source, self.own) if to_one else None
        if to_one and len(packets) % self.at_once(begun) == 0:
            return None, frames.cts(min(self.at_once(begun), count - len(packets)), len(packets) + 1, pgn, frame.source, self.own)
        return None, None

    def miss(self):
        self.heard.append(None)
