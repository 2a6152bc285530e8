"""Units on a real bus, by the times of the lines that they hear: what each writes, and when.

Written from docs/LIVE.md and docs/DECISIONS.md ("Times on a real bus" and those beside it). Times are microseconds. What a unit owes to a frame is
`model.unit`'s, the lanes in which it waits are `model.lanes`'.
"""

from .frames import (ABORT, CLAIM, CONTROL, CTS, DM1, DM2, DM6, END_OF_MESSAGE, GLOBAL, Frame, LAST_ADDRESS, PACKET, REQUEST, RTS, TITLES, abort, acknowledgment,
                     broadcast, claim, claimed_name, control_of, control_pgn, packet, packets_of, requested, rts, three, to_all, to_one)
from .lanes import ANSWER_WITHIN, DAY, HELD_FOR, LANES, ROOM, Lanes
from .memory import Code
from .unit import ALL, SESSION, Session, Unit

DM1_PERIOD = 1_000_000
MOST_CHANGES = 445
ECHOES, VIOLATION_PERIOD = 64, 5_000_000
LAMPS = "lamps"


def needs_room(frame):
    """Whether a frame may have a unit put something beside what waits: a request, a request to send, a clear to send."""
    return frame.pgn == REQUEST and requested(frame) is not None or frame.pgn == CONTROL and control_of(frame) in (RTS, CTS)


def parting(session, source, reason=3):
    """An abort: for want of an answer, reason 3; since packets were cleared that are on their way, 4; or asked for too often, 5 (J1939-21, 5.10.3)."""
    return abort(session.kind, session.dest, source, reason)


class Wire(list):
    """The frames of the bus; those of them that tell something to one who looks back; and the NAME in the last claim of each address."""

    def __init__(self):
        super().__init__()
        self.telling, self.names = [], {}

    def take(self, frame):
        self.append((None, frame))
        if frame.pgn in (CLAIM, CONTROL, PACKET):
            self.telling.append((len(self) - 1, frame))
        if claimed_name(frame) is not None:
            self.names[frame.source] = claimed_name(frame)


class Field:
    """Bits of a frame as a DBC file gives them, and what they say: a range or a list of values, of which one is said after the other."""

    def __init__(self, start, size, order, values=()):
        self.start, self.size, self.order, self.values = start, size, order, values

    def put(self, data, value):
        """The bytes with this number in the field. For Intel all of them are one number, the lowest byte first; for Motorola a row of bits, each byte's
        highest first."""
        if self.order == "intel":
            number = int.from_bytes(data, "little") & ~(((1 << self.size) - 1) << self.start) | value << self.start
            return number.to_bytes(len(data), "little")
        row, first = "".join(f"{byte:08b}" for byte in data), self.start // 8 * 8 + 7 - self.start % 8
        row = row[:first] + f"{value:0{self.size}b}" + row[first + self.size :]
        return bytes(int(row[at : at + 8], 2) for at in range(0, len(row), 8))

    def places(self):
        """The bits that it has, as a DBC file counts them."""
        zero, ones = bytes(64), self.put(bytes(64), (1 << self.size) - 1)
        return {bit for bit in range(512) if (zero[bit // 8] ^ ones[bit // 8]) >> bit % 8 & 1}


def ramp(least, most, step):
    """Up by the step, as long as it is at most `most`, and back."""
    up = range(least, most + 1, step)
    return up, up[-2:0:-1]


def said(values, count):
    """What is said where so many were said before."""
    lists = values if isinstance(values, tuple) else (values,)
    place = count % sum(map(len, lists))
    return lists[0][place] if place < len(lists[0]) else lists[1][place - len(lists[0])]


class Cyclic:
    """A group that goes again and again."""

    def __init__(self, pgn, priority, data, period, fields=(), checksum=None):
        self.pgn, self.priority, self.data, self.period, self.at = pgn, priority, data, 1000 * period, 0
        self.fields, self.checksum, self.gone = fields, checksum, 0

    def frame(self, source):
        """The next one."""
        data = self.data
        for field in self.fields:
            data = field.put(data, said(field.values, self.gone))
        self.gone += 1
        if self.checksum:
            # (the message checksum of J1939-71)
            data = self.checksum.put(data, 0)
            total = sum(data) + sum(to_all(self.priority, self.pgn, source, data).number.to_bytes(4, "big"))
            data = self.checksum.put(data, ((total >> 6 & 3) + (total >> 3) + total) & 7)
        return to_all(self.priority, self.pgn, source, data)


class Answer:
    """A group that goes where it is asked for; of more than 8 bytes in packets."""

    def __init__(self, pgn, priority, data):
        self.pgn, self.priority, self.data, self.asked = pgn, priority, data, False
        self.several = len(data) > 8


class Repeated(Answer):
    """A group of more than 8 bytes that goes to all again and again: each period it is asked for, so to say."""

    def __init__(self, pgn, priority, data, period):
        super().__init__(pgn, priority, data)
        self.period, self.at = 1000 * period, 0


class Fault:
    """What a unit does wrong on purpose. Times are milliseconds; `frame` and `address` are what it adds, each `period`."""

    def __init__(self, kind, after=0, count=None, time=None, group=None, share=100, seed=0, wait=0, frame=None, address=None, period=0):
        self.kind, self.after, self.time, self.group, self.share, self.wait = kind, after, time, group, share, wait
        self.left = 1 if count is None and time is None else count
        self.number, self.begun, self.next = seed + 1, None, None
        self.frame, self.address, self.period = frame, address, period

    def begin(self, now):
        if self.begun is None:
            self.begun = self.next = now + 1000 * self.after

    def is_on(self, now):
        return self.begun <= now and (self.time is None or now < self.begun + 1000 * self.time) and self.left != 0

    def happens(self):
        if self.left is not None:
            self.left -= 1

    def meets(self, frame, now):
        """Whether it changes this frame: of those that it can change, as the numbers of its seed have it (Park and Miller's generator)."""
        can = {"drop": True, "delay": True, "twice": True, "short": len(frame.data) > 0, "number": frame.pgn == PACKET and len(frame.data) == 8,
               "zeros": frame.pgn == DM1 and len(frame.data) == 8, "old": frame.pgn == DM1 and len(frame.data) == 8}
        if not (self.is_on(now) and self.group in (None, frame.pgn) and can.get(self.kind)):
            return False
        self.number = self.number % (2**31 - 1) * 48271 % (2**31 - 1)
        if self.number % 100 >= self.share:
            return False
        self.happens()
        return True

    def carried(self, frame):
        """What goes of it: pairs of a wait and a frame."""
        data = frame.data
        if self.kind in ("drop", "delay", "twice"):
            return {"drop": [], "delay": [(1000 * self.wait, frame)], "twice": [(0, frame), (0, frame)]}[self.kind]
        changed = {"number": bytes([data[0] + 1 & 255]) + data[1:], "short": data[:-1], "zeros": data[:6] + b"\0\0"}
        return [(0, Frame(frame.number, changed[self.kind] if self.kind in changed else data[:5] + bytes([data[5] | 128]) + data[6:]))]

    def added(self, unit, now):
        """A frame beside those of the rules."""
        if self.kind not in ("babble", "steal") or not self.is_on(now) or self.next > now or self.kind == "babble" and unit.held is None:
            return None
        self.happens()
        self.next = now + 1000 * self.period
        if self.kind == "steal":
            return claim(unit.name, self.address)
        return Frame(self.frame.number & ~255 | unit.held, self.frame.data)

    def times(self):
        return [self.begun, self.next] if self.begun is not None else []


MOST_LATE = 64


def identification(vin=None, component=None, software=None, ecu=None):
    """How a unit tells what it is (J1939-71, -73): fields, an asterisk behind each; before those of its software, how many they are."""
    texts = {65260: vin, 65259: component, 65242: software, 64965: ecu}
    answers = {pgn: Answer(pgn, 6, "".join(f"{field}*" for field in text.split("*")).encode()) for pgn, text in texts.items() if text is not None}
    if software is not None:
        answers[65242] = Answer(65242, 6, bytes([len(software.split("*"))]) + answers[65242].data)
    return list(answers.values())


class LiveUnit(Lanes, Unit):
    """A unit with its lanes and its times. All frames of the bus are heard, its own too."""

    # whether a frame for others needs no room, as in `live`, while none of its own groups goes in a session
    passes_over = True

    def __init__(self, name, address, kind, wire, gap, settle, always, cyclic=(), answers=(), repeated=(), faults=(), violations=False):
        self.stand(gap, settle)
        # whether it answers violations of its address; what it wrote, and so many of these before the one behind that which came back last
        self.violations, self.wrote, self.returned, self.violated, self.violated_at = violations, [], 0, 0, None
        self.told_violations = []
        self.always, self.sent, self.dm1_at = always, 0, 0
        # what its latest DM1 told: codes as (spn, fmi), and the lamps' byte; and when it told changes: (which, time), since the latest that was no change's
        self.codes_told, self.lamps_told, self.changes_told, self.lamps_changed = set(), 0, [], None
        self.cyclic, self.answers, self.answered = list(cyclic), list(answers), 0
        self.repeated, self.faults, self.late, self.told = list(repeated), list(faults), [], []
        # an own group on its way to one, with the frames that may go; and the packets of one to all that are left, and of which groups that is one
        self.own, self.own_frames, self.own_alone_at, self.telling, self.telling_at, self.telling_of = None, [], 0, [], 0, ()
        super().__init__(name, address, kind, wire, seat=-1)

    # What `model.unit` calls.

    def heard_before(self, place):
        """As there, but for frames that tell nothing to one who looks back: neither claims nor anything of messages of several packets."""
        for at, frame in reversed(self.wire.telling):
            if at < place:
                yield at, frame

    def noted(self, address, place):
        """As there."""
        return self.wire.names.get(address) if place >= len(self.wire) else super().noted(address, place)

    def put(self, *frames, session=False):
        if not frames:
            return
        first = frames[0]
        if session:
            lane = "session"
        elif first.pgn == CLAIM:
            lane = "claims"
        elif first.pgn in TITLES or first.pgn in (CONTROL, PACKET) and first.dest == GLOBAL:
            lane = "messages"
        else:
            lane = "singles"
        self.wait_in(lane, frames)

    def withdraw(self, which):
        self.withdraw_from(LANES if which == ALL else (which,))

    def obey(self, address):
        """A command to hold the address that is held is no change: the claim goes, in the place of those that wait, and nothing else is cut (J1939-81)."""
        if address != self.held:
            super().obey(address)
        else:
            self.withdraw("claims")
            self.put(claim(self.name, self.held))

    @property
    def queue(self):
        return [(frame, lane == "session") for lane in LANES for piece in self.lanes[lane] for frame, _ in piece]

    @queue.setter
    def queue(self, _):
        pass

    # Hearing.

    def is_violated(self, frame, now):
        """Whether somebody else sends from its address: what is no claim, and none of what it wrote, of which the newest 64 are known, behind the one
        that came back last. It is said once one came back, and while all behind that are known; and once in five seconds (J1939-81)."""
        if not self.violations or self.held is None or frame.source != self.held:
            return False
        behind = len(self.wrote) - self.returned
        for place in range(max(self.returned, len(self.wrote) - ECHOES), len(self.wrote)):
            if (self.wrote[place].number, self.wrote[place].data) == (frame.number, frame.data):
                self.returned = place + 1
                return False
        if self.returned == 0 or behind > ECHOES or frame.pgn == CLAIM or self.violated_at is not None and now < self.violated_at + VIOLATION_PERIOD:
            return False
        self.violated_at, self.violated = now, self.violated + 1
        return True

    def listen(self, place, now):
        frame = self.wire[place][1]
        if self.is_violated(frame, now):
            self.told_violations.append(frame)
            self.withdraw("claims")
            self.put(claim(self.name, self.held))
        mine = [it for it in self.answers if it.pgn == requested(frame)] if frame.pgn == REQUEST and self.held is not None and frame.dest in (self.held, GLOBAL) else []
        if mine:
            self.answer(mine[0], frame)
            return
        if self.own and self.wants_session(frame):
            self.refuse(frame)
            return
        if self.own and frame.pgn == CONTROL and control_of(frame) == RTS and frame.dest == self.held and frame.source <= LAST_ADDRESS:
            self.refuse_session(frame)
            return
        self.hear_of_own(frame, now)
        if needs_room(frame) and not self.has_room() and (self.own or not self.passes_over or frame.dest in (self.held, GLOBAL)):
            self.unheard += 1
            return
        self.heard += 1
        before, held_open, waited = self.held, self.is_held_open(frame), self.lanes["messages"]
        self.hear(place)
        if waited and not self.lanes["messages"]:
            self.dm1_at = now  # (its DM1 may have been cut, and begins anew)
        if held_open:
            self.alone_at = now + HELD_FOR
        self.has_held(before, now)
        if self.held != before:
            self.own, self.own_frames, self.telling = None, [], []
            for it in self.answers + self.repeated:
                it.asked = False

    def answer(self, it, frame):
        """A group of its own was asked for: it goes to all, or, in packets, to the one who asked for it alone. One session in all."""
        if not it.several or frame.dest == GLOBAL:
            it.asked = True
        elif self.may_serve(frame):
            if self.own or self.session:
                self.refuse(frame)
                return
            self.own, self.own_frames = Session(it.pgn, it.data, frame.source), [(0, rts(len(it.data), it.pgn, frame.source, self.held))]
            # (whether the packets that go went before; with which reason it ends)
            self.own.again, self.own.reason = False, 3
        self.heard += 1

    def may_serve(self, frame):
        """Whether a session may go to who asks: it is another one, who can hold an address."""
        return frame.source <= LAST_ADDRESS and frame.source != self.held

    def wants_session(self, frame):
        """Whether a frame asks for a diagnostic message that goes in a session."""
        pgn = requested(frame)
        return pgn in (DM1, DM2, DM6) and frame.dest == self.held and self.held is not None and self.may_serve(frame) and len(self.memory.payload(pgn)) > 8

    def refuse(self, frame):
        """Another session is open: control 3, cannot respond."""
        if self.has_room():
            self.heard += 1
            self.put(acknowledgment(3, frame.source, requested(frame), self.held))
        else:
            self.unheard += 1

    def refuse_session(self, frame):
        """It has a session of its own group: reason 1, already in one."""
        if self.has_room():
            self.heard += 1
            self.put(abort(control_pgn(frame), frame.source, self.held, 1))
        else:
            self.unheard += 1

    def hear_of_own(self, frame, now):
        """What the receiver of an own group says: the rules of a diagnostic session."""
        own = self.own
        if own is None:
            return
        over = claimed_name(frame) is not None and frame.source == own.dest
        if frame.pgn == CONTROL and (frame.dest, frame.source) == (self.held, own.dest) and control_of(frame) is not None and control_pgn(frame) == own.kind:
            granted, following = frame.data[1], frame.data[2]
            if control_of(frame) == CTS and own.reason == 3:
                self.clear_own(granted, following, now)
            over = control_of(frame) == ABORT or control_of(frame) == END_OF_MESSAGE and own.all_queued()
        if over:
            self.own, self.own_frames = None, []

    def clear_own(self, granted, first, now):
        """So many packets of the own group may go, from this one on: the first that never might, or, again, one that went."""
        own = self.own
        if granted == 0:
            self.own_alone_at = now + HELD_FOR
            return
        last = min(first + granted - 1, packets_of(len(own.payload)))
        packets = [(which, packet(own.payload, which, own.dest, self.held)) for which in range(first, last + 1)]
        if first == own.following:
            self.own_frames = packets if own.again else self.own_frames + packets
            own.again, own.following = False, last + 1
        elif 1 <= first < own.following and first not in [which for which, _ in self.own_frames]:
            own.asked = own.asked + 1 if first <= own.asked_for else 1
            own.asked_for = first
            if own.asked > 2:
                self.own_frames, self.own_alone_at, own.reason = [], now, 5
                return
            self.own_frames, own.following = packets, max(own.following, last + 1)
            own.again = last + 1 < own.following
        elif 1 <= first and first in [which for which, _ in self.own_frames]:
            self.own_frames, self.own_alone_at, own.reason = [], now, 4

    def hear_control(self, frame):
        """While a session is open, another is refused with reason 1: already in one."""
        if control_of(frame) == RTS and self.session and frame.source <= LAST_ADDRESS:
            self.put(abort(control_pgn(frame), frame.source, self.held, 1))
        else:
            super().hear_control(frame)

    def hear_grant(self, granted, first):
        """As there. And packets that went go again, with the rest of what is granted (J1939-21, 5.10.3): the same one twice at most, until a later one is. Of
        packets that wait it is too early, and ends the session."""
        session = self.session
        waiting = [frame.data[0] for piece in self.lanes["session"] for frame, _ in piece if frame.pgn == PACKET]
        if granted and 1 <= first < session.following and first not in waiting:
            session.asked = session.asked + 1 if first <= session.asked_for else 1
            session.asked_for = first
            if session.asked > 2:
                self.end_session()
                self.put(parting(session, self.held, 5))
                return
            self.withdraw(SESSION)
            again = range(first, min(first + granted, session.following))
            self.put(*(packet(session.payload, which, session.dest, self.held) for which in again), session=True)
            first, granted = session.following, granted - len(again)
        elif granted and first in waiting:
            self.end_session()
            self.put(parting(session, self.held, 4))
            return
        elif granted and first == session.following and waiting and waiting[-1] + 1 != first:
            self.withdraw(SESSION)  # (what was to go again is wanted no more)
        super().hear_grant(granted, first)

    def is_held_open(self, frame):
        """Whether the receiver of the open session says that it can take no packet yet."""
        session = self.session
        return (
            session is not None and frame.pgn == CONTROL and control_of(frame) == CTS and frame.data[1] == 0
            and self.held is not None and frame.dest == self.held and frame.source == session.dest and control_pgn(frame) == session.kind
        )

    # What it does of its own accord.

    def has_to_tell(self):
        return bool(self.memory.active) or self.memory.lamps[0] != 0

    def codes(self):
        return {(code.spn, code.fmi) for code in self.memory.active}

    def changes(self):
        """What is not as it was told: codes that became active or inactive, and the lamps."""
        return (self.codes() ^ self.codes_told) | ({LAMPS} if self.memory.lamps[0] != self.lamps_told else set())

    def is_change_due(self, now):
        """A change is told at once, of the same code once a second (J1939-73, 5.7.1)."""
        within = {which for which, time in self.changes_told if now < time + DM1_PERIOD}
        if self.lamps_changed is not None and now < self.lamps_changed + DM1_PERIOD:
            within.add(LAMPS)
        return len(self.changes_told) < MOST_CHANGES and bool(self.changes() - within)

    def is_second_over(self, now):
        return self.dm1_at <= now and (self.always or bool(self.codes_told) or self.lamps_told != 0 or self.has_to_tell())

    def act(self, now, most=8):
        for _ in range(most):
            if self.is_left_alone(now) and self.has_room():
                session = self.session
                self.end_session()
                self.put(parting(session, self.held))
            elif self.is_dm1_due(now) and self.has_room() and not (self.telling and len(self.memory.active) > 1):
                payload = self.memory.payload(DM1)
                if len(payload) == 8:
                    self.put(to_all(6, DM1, self.held, payload))
                else:
                    self.put(*broadcast(payload, DM1, self.held))
                self.tell(now)
            else:
                return

    def tell(self, now):
        if self.dm1_at <= now:
            self.changes_told = []
        if LAMPS in self.changes():
            self.lamps_changed = now
        self.changes_told += [(which, now) for which in self.changes() if which != LAMPS]
        self.codes_told, self.lamps_told, self.dm1_at = self.codes(), self.memory.lamps[0], now + DM1_PERIOD

    def is_left_alone(self, now):
        return self.session is not None and not self.lanes["session"] and self.alone_at <= now

    def is_dm1_due(self, now):
        return (
            self.obeys() and (self.is_second_over(now) or self.is_change_due(now)) and self.held is not None
            and self.settled_at <= now and not self.lanes["claims"] and not self.lanes["messages"]
            and not (self.session and self.session.kind == DM1)
        )

    # Writing.

    def due(self, now):
        """The frame that goes at this time."""
        frame = self.lane_due(now)
        return self.cyclic_due(now) if frame is None and self.is_settled(now) and self.held is not None else frame

    def may_begin(self, frame, now):
        """Not where a diagnostic message of several packets to all waits for the end of an own group."""
        return not self.telling or frame.pgn not in (CONTROL, PACKET)

    def own_due(self, now):
        """The frame of an own group that goes."""
        if self.own_frames:
            self.own_alone_at = now + ANSWER_WITHIN
            return self.own_frames.pop(0)[1]
        if self.own and self.own_alone_at <= now:
            own, self.own = self.own, None
            return parting(own, self.held, own.reason)
        return self.to_all_due(now, self.answers)

    def to_all_due(self, now, groups):
        """The next packet to all of one of these groups, or the first frame of one that was asked for: packets of two messages are never mixed."""
        if self.telling and self.telling_of is groups and self.telling_at <= now:
            self.telling_at = now + self.gap
            return self.telling.pop(0)
        for it in groups:
            if it.asked and not (it.several and (self.telling or self.lanes["messages"])):
                it.asked = False
                if not it.several:
                    return to_all(it.priority, it.pgn, self.held, it.data)
                first, *self.telling = broadcast(it.data, it.pgn, self.held)
                self.telling_at, self.telling_of = now + self.gap, groups
                return first
        return None

    def cyclic_due(self, now):
        frame = self.own_due(now)
        if frame:
            self.answered += 1
            return frame
        for it in self.repeated:
            if it.at <= now:
                it.at, it.asked = it.at + it.period if it.at + it.period > now else now + it.period, True
        frame = self.to_all_due(now, self.repeated)
        if frame:
            self.sent += 1
            return frame
        for it in self.cyclic:
            if it.at <= now:
                it.at = it.at + it.period if it.at + it.period > now else now + it.period
                self.sent += 1
                return it.frame(self.held)
        return None

    def goes(self, now):
        """The frame that goes behind its faults. `told` has each that happens, with the frame that it changed or added."""
        for it in self.faults:
            it.begin(now)
        for place, (at, frame) in enumerate(self.late):
            if at <= now:
                del self.late[place]
                return frame
        for it in self.faults:
            frame = it.added(self, now)
            if frame:
                self.told.append((it.kind, frame))
                return frame
        while True:
            frame = self.due(now)
            if frame is None or len(self.late) >= MOST_LATE:
                return frame
            met = next((it for it in self.faults if it.meets(frame, now)), None)
            if met is None:
                return frame
            self.told.append((met.kind, frame))
            carried = met.carried(frame)
            at_once = carried.pop(0)[1] if carried and carried[0][0] == 0 else None
            self.late += [(now + wait, frame) for wait, frame in carried]
            if at_once:
                return at_once
            self.act(now)  # (a frame that does not go holds nothing up)

    def times(self):
        """The times at which something may change by itself."""
        seconds = [time + DM1_PERIOD for _, time in self.changes_told] + ([] if self.lamps_changed is None else [self.lamps_changed + DM1_PERIOD])
        return [self.claim_at, self.settled_at, self.packet_at, self.alone_at, self.dm1_at, self.own_alone_at, self.telling_at] + seconds + [it.at for it in [*self.cyclic, *self.repeated]] + [at for at, _ in self.late] + [time for it in self.faults for time in it.times()]


class Playback:
    """Units, and the lines that they hear at the times of these. `out` has what was written: pairs of a time and a frame."""

    def __init__(self):
        self.units, self.turn, self.wire, self.out, self.clock, self.timed, self.notes = [], 0, Wire(), [], None, False, []

    def hear(self, frame, now):
        self.wire.take(frame)
        for place, unit in enumerate(self.units):
            unit.listen(len(self.wire) - 1, now)
            self.notes += [f"unit {place} claims again: not its own {its.number:08X}#{its.data.hex().upper()}\n" for its in unit.told_violations]
            unit.told_violations.clear()

    def step(self, now):
        count = len(self.units)
        for offset in range(count):
            place = (self.turn + offset) % count
            unit = self.units[place]
            unit.act(now)
            frame = unit.goes(now)
            self.notes += [f"unit {place} fails: {kind} {its.number:08X}#{its.data.hex().upper()}\n" for kind, its in unit.told]
            unit.told.clear()
            if frame:
                unit.wrote.append(frame)
                self.turn = (place + 1) % count
                return frame
        return None

    def write_until(self, until):
        now = until if self.clock is None else self.clock
        while True:
            frame = self.step(now)
            while frame:
                self.out.append((now, frame))
                self.hear(frame, now)
                frame = self.step(now)
            later = [time for unit in self.units for time in unit.times() if now < time <= until]
            if not later:
                break
            now = min(later)
        self.clock = until

    def take(self, frame, time):
        if time is not None and self.clock is not None and (not self.timed or time - self.clock > DAY):
            self.clock = None
        self.timed = self.timed or time is not None
        before = 0 if self.clock is None else self.clock
        now = before if time is None else max(time, before)
        self.write_until(now)
        self.hear(frame, now)

    def finish(self):
        if self.clock is not None:
            self.write_until(self.clock)

    def summary(self):
        """What is told: each fault on purpose, and a line for each unit."""
        lines = list(self.notes)
        for place, unit in enumerate(self.units):
            at = "without address" if unit.held is None else f"at {unit.held}"
            unheard = f" unheard {unit.unheard}" if unit.unheard else ""
            cyclic = (f" cyclic {unit.sent}" if unit.cyclic or unit.repeated else "") + (f" answered {unit.answered}" if unit.answers else "")
            cyclic += f" violated {unit.violated}" if unit.violated else ""
            lines.append(f"unit {place} {unit.name:016X} {at} heard {unit.heard}{unheard} written {unit.written} withdrawn {unit.withdrawn}"
                         f" waiting {unit.waiting()}{cyclic}\n")
        return "".join(lines)


def remember(unit, lamps, active, previous, pending):
    """The fault memory with which a unit begins: lists of (spn, fmi, count)."""
    unit.memory.lamps = lamps
    unit.memory.active = [Code(*it) for it in active]
    unit.memory.previous = [Code(*it) for it in previous]
    unit.memory.pending = [Code(*it) for it in pending]


def line(time, frame):
    """As candump writes it."""
    return f"({time // 1_000_000}.{time % 1_000_000:06d}) can0 {frame.number:08X}#{frame.data.hex().upper()}\n"
