"""A station on a real bus: what it is told of what it hears, what it writes, and when.

Written from docs/TESTER.md and docs/DECISIONS.md ("Times on a real bus"). What a station owes to a reading is `model.station`'s, lanes and times are
`model.lanes`', what becomes of an order `model.orders`'. Here stand the ear, what the station does of its own accord, and a log of all that was heard and
written, over which the orders look back.
"""

from .frames import (ABORT, CLAIM, GLOBAL, PACKET, REQUEST, RTS, abort, claimed_name, control_of, control_pgn, cts, in_order, request, requested)
from .lanes import LANES, Lanes
from .station import Station

ANSWER_WITHIN = 1_250_000
ECHOES = 64
# Of sessions (J1939-21, from memory): T1 behind a packet, T2 behind a grant; how often a packet is asked for again, and how many are at once.
PACKET_WITHIN, GRANTED_WITHIN, AGAIN, AT_ONCE = 750_000, 1_250_000, 2, 16
ASKED_TOO_OFTEN, LEFT_ALONE = 5, 3


class Happened:
    """One thing that was heard, missed or written. `place` is the place of the reading, where the station was told it, or of the next one; `before` and `held` are the addresses
    that it held before and after; `order` is whose frame was written: an order and its part. `passed` is whether
    a packet was out of turn, so that the station was not told of it, and `again` from whom packets were asked for again."""

    __slots__ = ("what", "time", "frame", "place", "before", "held", "contested", "stranger", "order", "returned", "listed", "passed", "again")

    def __init__(self, what, time, frame=None, place=None, order=None):
        self.what, self.time, self.frame, self.place, self.order = what, time, frame, place, order
        self.before = self.held = self.listed = self.again = None
        self.contested = self.stranger = self.returned = self.passed = False


class LiveStation(Lanes, Station):
    """All frames of the bus are heard, its own too."""

    def __init__(self, name, address, grant, gap, settle):
        self.log, self.silent_at = [], []
        # (where in the log stand: what it wrote, for which part of which order; its own requests for claims; gaps)
        self.places, self.asks, self.gaps = {}, [], []
        # (and by source what was heard and written of its sessions)
        self.talks = {}
        self.stand(gap, settle)
        super().__init__(name, address, grant)

    # What `model.station` calls.

    def put(self, *frames):
        """A request for the claims of all waits in no lane: it goes when it may."""
        for frame in frames:
            if frame.pgn != REQUEST:
                self.wait_in("claims" if frame.pgn == CLAIM else "singles", [frame])

    def withdraw(self):
        self.withdraw_from(LANES)

    @property
    def queue(self):
        return [frame for lane in LANES for piece in self.lanes[lane] for frame, _ in piece]

    @queue.setter
    def queue(self, _):
        pass

    # The ear.

    def is_own(self, frame):
        """Whether a frame is one that the station wrote, or as good as one: of its NAME, or from its address but for a claim by another one."""
        name = claimed_name(frame)
        return name == self.name or name is None and self.held is not None and frame.source == self.held

    def is_echo(self, frame):
        """Whether a frame came back: it is one of the newest that were written behind the one that came back last."""
        written = [it for it in self.log if it.what == "wrote"]
        behind = max([at + 1 for at, it in enumerate(written) if it.returned], default=0)
        for it in written[behind:][-ECHOES:]:
            if it.frame.number == frame.number and it.frame.data == frame.data:
                it.returned = True
                return True
        return False

    def echoes(self):
        """Whether one has come back, and all that were written behind it are known."""
        written = [it for it in self.log if it.what == "wrote"]
        behind = max([at + 1 for at, it in enumerate(written) if it.returned], default=0)
        return 0 < behind and len(written) - behind <= ECHOES

    def needs_room(self, frame):
        """Whether a frame may have the station put something beside what waits."""
        return requested(frame) is not None or control_of(frame) is not None or frame.pgn == PACKET

    def listen(self, frame, now):
        """A frame is heard. What was noted of it."""
        note = Happened("heard", now, frame)
        note.before = note.held = self.held
        self.log.append(note)
        if self.is_own(frame):
            echoed = self.echoes()
            note.stranger = not self.is_echo(frame) and echoed
            self.heard += 1
            return note
        if self.needs_room(frame) and not self.has_room():
            self.unheard += 1
            return note
        self.heard += 1
        if frame.dest == self.held and (frame.pgn == PACKET or control_of(frame) == RTS):
            self.talks.setdefault(frame.source, []).append(len(self.log) - 1)
        if self.is_out_of_turn(frame):
            note.passed = True
            return note
        note.place, count = len(self.readings), len(self.entries)
        self.take(frame)
        note.held, note.contested = self.held, self.readings[note.place].contested
        note.listed = self.entries[count] if len(self.entries) > count else None
        self.has_held(note.before, now)
        return note

    def under_way(self, source):
        """The session from a source: the place of its start, and its packets so far."""
        return None if self.held is None else self.message_under_way(source, self.held, len(self.readings))

    def is_out_of_turn(self, frame):
        """Whether a frame is a packet of a session that came already, or one behind a packet that is missing."""
        if frame.pgn != PACKET or frame.dest != self.held:
            return False
        under_way = self.under_way(frame.source)
        return under_way is not None and not in_order(under_way[1] + [frame.data], len(under_way[1]) + 1)

    # Packets that are missing.

    def waits_for(self, source):
        """Of the session from a source: where in the log something came of it last, or was asked; until when a packet is waited for; whether the last one
        that was granted or asked for was heard, so that nothing more comes by itself; and what is written where a packet is missing then. None where none is
        open, or it was given up and nothing came in order since."""
        under_way = self.under_way(source)
        if under_way is None:
            return None
        at, packets = under_way
        start, have = self.readings[at].frame, len(packets)
        step, pgn, own = self.step(start), control_pgn(start), self.held
        end = min((have // step + 1) * step, start.data[3])
        places = [place for place in self.talks[source] if self.log[place].what == "wrote" or self.log[place].passed or self.log[place].place >= at]
        first = next(number for number, place in enumerate(places) if self.log[place].place == at and self.log[place].what == "heard" and not self.log[place].passed)
        places = places[first:]
        # (what was written before the session was given up counts no more)
        given_up = max([number for number, place in enumerate(places) if self.log[place].what == "wrote" and control_of(self.log[place].frame) == ABORT], default=-1)
        asks = [place for place in places[given_up + 1 :] if self.log[place].what == "wrote"]
        told = [place for place in places if self.log[place].what == "heard" and not self.log[place].passed and (control_of(self.log[place].frame) != RTS or self.log[place].place == at)]
        if given_up == len(places) - 1 or given_up >= 0 and told[-1] < places[given_up]:
            return None
        window = told[have - have % step]
        asked = self.log[asks[-1]].frame if asks and asks[-1] > window else None
        last = end if asked is None else asked.data[2] + asked.data[1] - 1
        since = max(told[-1], asks[-1] if asks else -1)
        numbers = [(self.log[place].frame.data or b"\0")[0] for place in places if self.log[place].passed and place > since]
        ended = max(numbers, default=-1) >= last or since == told[-1] and 0 < have and have % step != 0 and last <= have
        newest = self.log[max([place for place in places if self.log[place].passed or place in (told[-1], since)])]
        is_grant = newest.what == "wrote" or not newest.passed and have % step == 0
        until = newest.time + (GRANTED_WITHIN if is_grant else PACKET_WITHIN)
        times = sum(self.log[place].frame.data[2] == have + 1 for place in asks)
        if times < AGAIN:
            frame = cts(min(AT_ONCE, end - have), have + 1, pgn, source, own)
        else:
            frame = abort(pgn, source, own, ASKED_TOO_OFTEN if ended else LEFT_ALONE)
        return self.log.index(newest), until, ended, frame

    def missing(self, now):
        """What is written of a session of which a packet is missing: the one of which nothing came or was asked for the longest time is the first."""
        waits = [self.waits_for(source) for source in self.talks]
        due = [it for it in waits if it is not None and (it[2] or it[1] <= now)]
        return min(due, key=lambda it: it[0])[3] if due else None

    def miss(self, count, now):
        """So many frames were not heard."""
        note = Happened("gap", now, place=len(self.readings))
        self.gaps.append(len(self.log))
        note.before = note.held = self.held
        self.log.append(note)
        self.take_gap(count)
        return note

    # What it writes.

    def wrote(self, frame, now, order=None):
        note = Happened("wrote", now, frame, len(self.readings), order)
        note.before = note.held = self.held
        self.places.setdefault(order, []).append(len(self.log))
        if order is None and requested(frame) == CLAIM and frame.dest == GLOBAL:
            self.asks.append(len(self.log))
        self.log.append(note)
        return frame

    def asked_at(self):
        """When it last asked all for their claims of its own accord."""
        return self.log[self.asks[-1]].time if self.asks else None

    def wants_claims(self):
        """Whether all are still to be asked for their claims: at the start, and where frames were missed since they were."""
        return not self.asks or bool(self.gaps) and self.gaps[-1] > self.asks[-1]

    def may_ask_all(self, now):
        """All are asked for their claims from an address that is held, at most each 1,250 ms."""
        asked = self.asked_at()
        return self.held is not None and self.is_free(now) and (asked is None or asked + ANSWER_WITHIN <= now)

    def is_free(self, now):
        """Whether it has settled and nothing waits."""
        return self.is_settled(now) and not self.waiting()

    def write(self, now):
        """The frame that goes at this time: of a lane, or else what asks for packets again, or else a request for claims."""
        frame = self.lane_due(now)
        if frame is None and self.is_free(now):
            frame = self.missing(now)
            if frame is not None:
                self.wrote(frame, now)
                self.log[-1].again = frame.dest
                self.talks[frame.dest].append(len(self.log) - 1)
                return frame
        if frame is None and self.wants_claims() and self.may_ask_all(now):
            frame = request(CLAIM, GLOBAL, self.held)
        return None if frame is None else self.wrote(frame, now)

    def claimed_at(self):
        """When it first wrote a claim of the address that it holds, since it took it."""
        at = None
        for it in reversed(self.log):
            if it.before != it.held or it.held != self.held:
                break
            if it.what == "wrote" and it.frame.pgn == CLAIM:
                at = it.time
        return at

    def is_silent(self, time):
        """A clear found nothing but silence at this time."""
        if time not in self.silent_at:
            self.silent_at.append(time)

    def times(self):
        asked = self.asked_at()
        waits = [self.waits_for(source) for source in self.talks]
        return [self.claim_at, self.settled_at, self.packet_at, *(it[1] for it in waits if it is not None)] + ([] if asked is None else [asked + ANSWER_WITHIN])
