"""Live stations in handles of the library for C beside those of the model: the testers of tests/run/random_tester, whose station is asked, told and handed
orders by both, at the same times; every other one shares groups (model/shared.py). Each frame, each verdict, and at the end all that is listed have to be the same, and
nothing goes before the time that the library told."""

import ctypes
import importlib.machinery
import importlib.util

from harness import TOP
from library_in_c import DONE, NEVER, QUEUE_FULL, InHandle
from model import frames, sent, tester
from model.frames import CLAIM, COMMANDED_ADDRESS, DM1, DM2, DM6, GLOBAL, NULL, TITLES, Frame
from model.orders import HANDS, MISSED, OWN, STRANGER, Order
from model.shared import Shared

loader = importlib.machinery.SourceFileLoader("random_tester", str(TOP / "tests/run/random_tester"))
random_tester = importlib.util.module_from_spec(importlib.util.spec_from_loader("random_tester", loader))
loader.exec_module(random_tester)

KEEP, STRANGER_HEARD = 16, 9
OPEN = 1
FOUND = {"answered": 2, "unread": 3, "positive": 4, "refused": 5, "busy": 6, "obeyed": 7, "no such unit": 8, "silent": 9, "in doubt": 10, "lost address": 11,
         "cut off": 12}
DOUBTS = {HANDS: 1, MISSED: 2, OWN: 3, STRANGER: 4}
KINDS = {DM1: 1, DM2: 2, DM6: 6}
VIN, PRIVATE, UNSHARED = 65260, 61184, 65242
REFUSED = {None: DONE, "NO_GROUP": 43, "NOT_HELD": 23, "TOO_LONG": 2, "NOT_AN_ADDRESS": 7, "SESSION_OPEN": 38}
SENT = ("NONE", "OPEN", "WRITTEN", "ACKNOWLEDGED", "ABORTED", "SILENT", "ASKED_TOO_OFTEN", "CUT_OFF")


class Settings(ctypes.Structure):
    _fields_ = [("gap", ctypes.c_uint64), ("settle", ctypes.c_uint64), ("keep", ctypes.c_uint32), ("grant", ctypes.c_uint8)]


class Verdict(ctypes.Structure):
    _fields_ = [("name", ctypes.c_uint64), ("after", ctypes.c_uint64), ("pgn", ctypes.c_uint32), *(
        (field, ctypes.c_uint8) for field in ("what", "detail", "left", "left_detail", "tries", "has_name", "has_address", "address", "has_after", "commanded"))]


class Change(ctypes.Structure):
    _fields_ = [("words", ctypes.c_uint64 * 3), ("what", ctypes.c_uint8), ("rest", ctypes.c_uint8 * 7)]


class Row(ctypes.Structure):
    _fields_ = [("name", ctypes.c_uint64), *((field, ctypes.c_uint8) for field in ("has_address", "address", "has_ack", "ack_control")), ("ack_pgn", ctypes.c_uint32)]


class Entry(ctypes.Structure):
    _fields_ = [("lamps", ctypes.c_uint8), ("flashes", ctypes.c_uint8), ("codes", ctypes.c_size_t)]


class Message(ctypes.Structure):
    _fields_ = [("name", ctypes.c_uint64), ("pgn", ctypes.c_uint32), ("size", ctypes.c_uint16), ("source", ctypes.c_uint8), ("has_name", ctypes.c_uint8),
                ("bytes", ctypes.c_uint8 * 1785)]


def counted(first, size):
    """Bytes that count on from the first one, as tests/in_c/again.c makes them too."""
    return bytes((first + at) % 256 for at in range(size))


def told_by(record):
    """The four numbers that a record tells."""
    return [int.from_bytes(bytes(record)[8 * at : 8 * at + 8], "little") for at in range(4)]


def finding(verdict):
    """The number of what was found, and what it says more."""
    if verdict is None:
        return 0, 0
    detail = {"refused": verdict.control, "in doubt": DOUBTS.get(verdict.why), "cut off": verdict.was_sent}.get(verdict.result)
    return FOUND[verdict.result], int(detail or 0)


def wanted_of(order, verdict):
    """What the record of a verdict has of an order."""
    pgn = COMMANDED_ADDRESS if order.what == "command" else order.group or CLAIM
    fields = {"name": order.name or 0, "has_name": int(order.name is not None), "pgn": pgn, "commanded": order.address if order.what == "command" else 0}
    what, detail = finding(verdict)
    left, left_detail = finding(verdict.left)
    return fields | {"what": what, "detail": detail, "left": left, "left_detail": left_detail, "tries": verdict.tries, "has_address": int(verdict.address is not None),
                     "address": verdict.address or 0, "has_after": int(verdict.after is not None), "after": verdict.after or 0}


class Station(InHandle):
    """A live station in a handle."""

    def __init__(self, library, name, address, grant, gap, settle):
        super().__init__(library, 0, "live")
        settings = Settings(gap, settle, KEEP, grant)
        self.ask("open", name, address, ctypes.byref(settings))
        self.note("open", (name, address, gap, settle), bytes([KEEP, grant]))
        self.rests_until = 0

    def order(self, order):
        """An order is given."""
        what = {"ask_claim": "ask", "ask_all_claims": "ask_all"}.get(order.what, order.what)
        words = [] if order.name is None else [order.name]
        self.call(what, *words, order.address if what == "command" else order.group or CLAIM)
        self.rests_until = 0

    def verdict(self):
        verdict = Verdict()
        self.ask("verdict", ctypes.byref(verdict))
        self.note("verdict", told=told_by(verdict))
        return {field: getattr(verdict, field) for field, _ in Verdict._fields_}

    def heard(self, call, words, noted, data=b""):
        """Whether something was heard, and by which number what it changed is told."""
        change = Change()
        answer = self.answer(call, *words, ctypes.byref(change))
        assert answer in (DONE, QUEUE_FULL), answer
        self.note(call, noted, data, answer, told_by(change) if answer == DONE else ())
        self.rests_until = 0
        return answer == DONE, change.what

    def hear(self, frame, now):
        room = (ctypes.c_uint8 * 8)(*frame.data)
        return self.heard("hear", (frame.number, room, len(frame.data), now), (frame.number, now), frame.data)

    def next(self, now):
        """The frame that goes now; None where nothing does, and then until when. What an order does beside frames is one thing at a time."""
        for _ in range(8):
            frame = self.pulled("next", now)
            self.rests_until = self.when_of("when", now)
            if frame or self.rests_until > now:
                return frame
        raise AssertionError("it does not rest")

    # What it lists.

    def row(self, place):
        row = Row()
        answer = self.answer("row", place, ctypes.byref(row))
        self.note("row", (place,), answer=answer, told=told_by(bytes(row) + bytes(16)) if answer == DONE else ())
        if answer != DONE:
            return None
        return row.name, row.address if row.has_address else None, (row.ack_control, row.ack_pgn) if row.has_ack else None

    def entries(self, name, kind):
        """How many came, and of the newest, the bytes of its lamps and how many codes it has."""
        count, entry = ctypes.c_uint64(), Entry()
        self.ask("entries", name, kind, ctypes.byref(count))
        self.note("entries", (name, kind), told=(count.value,))
        if not count.value:
            return 0, None
        self.ask("entry", name, kind, count.value - 1, ctypes.byref(entry))
        self.note("entry", (name, kind, count.value - 1), told=(entry.lamps, entry.flashes, entry.codes))
        return count.value, (bytes([entry.lamps, entry.flashes]), entry.codes)

    def counts(self):
        missed, unread = ctypes.c_uint64(), ctypes.c_uint64()
        self.ask("counts", ctypes.byref(missed), ctypes.byref(unread))
        self.note("counts", told=(missed.value, unread.value))
        return missed.value, unread.value

    # Groups that are shared.

    def hear_shared(self, frame):
        room, withheld, whole = (ctypes.c_uint8 * 8)(*frame.data), ctypes.c_uint8(9), ctypes.c_uint8(9)
        self.ask("shared_hear", frame.number, room, len(frame.data), ctypes.byref(withheld), ctypes.byref(whole))
        self.note("shared_hear", (frame.number,), frame.data, told=(withheld.value, whole.value))
        return withheld.value, whole.value

    def send(self, to, pgn, data):
        answer = self.answer("shared_send", to, pgn, (ctypes.c_uint8 * max(len(data), 1))(*data), len(data))
        self.note("shared_send", (to, pgn, len(data), data[0] if data else 0), answer=answer)
        return answer

    def sent(self):
        what, reason = ctypes.c_uint8(9), ctypes.c_uint8(9)
        self.ask("shared_sent", ctypes.byref(what), ctypes.byref(reason))
        self.note("shared_sent", told=(what.value, reason.value))
        return what.value, reason.value

    def message(self):
        """The newest message that is whole, as the model has it."""
        message = Message()
        self.ask("shared_message", ctypes.byref(message))
        told = bytes(message.bytes[: message.size])
        self.note("shared_message", told=(message.name, message.pgn << 32 | message.size << 16 | message.source << 8 | message.has_name, sum(told), told[-1] if told else 0))
        return message.pgn, message.source, message.name if message.has_name else None, told


class Beside(tester.Tester):
    """A tester, and its station in a handle. `faults` has what was otherwise there."""

    def __init__(self, library, groups, name, address, grant, gap, settle, *words):
        self.in_c, self.given, self.found, self.faults = Station(library, name, address, grant, gap, settle), None, None, []
        self.shared, self.waiting, self.outgoing = Shared(address, groups, grant), [], None
        for group in groups:
            self.in_c.call("share", group)
        super().__init__(name, address, grant, gap, settle, *words)

    def same(self, what, told, wanted):
        if told != wanted:
            self.faults.append(f"line {self.count}: {what}: {told}, wanted {wanted}")

    # What goes.

    def carry_out(self, order, now, close):
        if order is not self.given:
            self.given = order
            self.in_c.order(order.order)
        return super().carry_out(order, now, close)

    def with_units(self, order, verdict):
        self.found = order.order, verdict
        return super().with_units(order, verdict)

    def step(self, now):
        count, self.found = len(self.out), None
        did, again = super().step(now)
        rests_until = self.in_c.rests_until
        if len(self.out) > count:
            frame = self.out[-1][1]
            self.same("next", self.in_c.next(now), (frame.number, bytes(frame.data)))
            self.same("when", now < rests_until, False)
        elif self.found:
            self.same("next, of a verdict", self.in_c.next(now), None)
            self.same("when, of a verdict", now < rests_until, False)
            self.same_verdict()
        elif not did:
            self.same("next, of nothing", self.in_c.next(now), None)
            did, of_shared = self.step_shared(now)
            again = min((it for it in (again, of_shared) if it is not None), default=None)
        return did, again

    def same_verdict(self):
        self.same("verdict", self.in_c.verdict(), wanted_of(*self.found))

    def step_shared(self, now):
        """A frame of a group that is shared goes. Whether one did; and when to look again."""
        if not self.shared.groups:
            return False, None
        frame = None
        if self.station.held is not None and self.station.is_settled(now):
            frame = self.waiting.pop(0) if self.waiting else self.outgoing.next(now) if self.outgoing else None
        self.same("next of shared groups", self.in_c.pulled("shared_next", now), (frame.number, bytes(frame.data)) if frame else None)
        self.same_sent()
        if frame is None:
            at = self.in_c.when_of("shared_when", now)
            again = self.outgoing.when(now) if self.outgoing else None
            if not self.waiting and again is None:
                self.same("when of shared groups", at, NEVER)
            return False, again
        self.hear_shared(frame)
        return True, None

    def same_sent(self):
        state, reason = (self.outgoing.state, self.outgoing.reason) if self.outgoing else ("NONE", None)
        self.same("sent", self.in_c.sent(), (SENT.index(state), reason or 0))

    def send(self, to, pgn, data):
        """A message of the program's own is given to be sent, or refused."""
        held, name = self.station.held, self.shared.owner(len(self.shared.heard), to)
        why = sent.refusal(held, self.shared.groups, pgn, to, len(data), self.outgoing is not None and self.outgoing.is_open())
        self.same(f"send to {to} {pgn} {len(data)} bytes", self.in_c.send(to, pgn, data), REFUSED[why])
        if why is None:
            self.outgoing = sent.Sent(held, self.station.gap, pgn, to, data, name)
            self.shared.sends_to = to if len(data) >= frames.SMALLEST else None

    # What is heard.

    def hear_shared(self, frame):
        """What a frame does to groups that are shared. Whether the station does not hear it."""
        withheld = self.shared.is_withheld(frame)
        whole, answer = self.shared.hear(frame)
        self.waiting += [answer] if answer else []
        self.same("withheld, whole", self.in_c.hear_shared(frame), (int(withheld), int(whole is not None)))
        if whole:
            self.same("message", self.in_c.message(), (*whole[:3], bytes(whole[3])))
        if self.outgoing:
            self.outgoing.hear(frame)
            self.same_sent()
        return withheld

    def take(self, frame, time, count=1):
        if self.is_over:
            return
        self.found = None
        if frame is not None and self.shared.groups:
            self.write_until(self.time_of(time))
            if self.is_over:
                return
            if self.hear_shared(frame):
                self.count += 1
                return
        unheard = self.station.unheard
        super().take(frame, time, count)
        now = self.clock or 0
        if frame is None:
            self.shared.miss()
            self.waiting.clear()
            self.same("missed", self.in_c.heard("missed", (count, now), (count, now)), (True, 7))
        else:
            done, what = self.in_c.hear(frame, now)
            self.same("heard", done, self.station.unheard == unheard)
            self.same("a stranger", what == STRANGER_HEARD, self.station.log[-1].stranger)
            if self.shared.own != self.station.held:
                self.shared.follow(self.station.held)
                self.waiting.clear()
                if self.outgoing:
                    self.outgoing.move()
        if self.found:
            self.same_verdict()

    def finish(self):
        if self.clock is not None:
            self.write_until(self.clock)
        order = self.open.open if isinstance(self.open, tester.Clears) else self.open
        if isinstance(order, tester.Open):
            now = self.clock or 0
            if order is self.given:
                self.in_c.call("end", now)
                self.found = order.order, order.cut_off(now)
                self.same_verdict()
        super().finish()
        self.same_lists()

    def same_lists(self):
        station, in_c = self.station, self.in_c
        self.same("held", in_c.held(), station.held)
        self.same("counts", in_c.counts(), (station.missed, station.unread))
        for place, name in enumerate([*station.names(), None]):
            wanted = None if name is None else (name, station.address_of(name), station.last_acknowledgment(name))
            self.same("row", in_c.row(place), wanted)
            for kind in TITLES if name is not None else ():
                shown = station.shown(name, kind)
                newest = (bytes(shown[-1][0]), len(shown[-1][1])) if shown else None
                self.same("entries", in_c.entries(name, KINDS[kind]), (len(shown), newest))


class Run(random_tester.Run):
    """A tester, its orders and lines, which a seed chooses, heard by both; with groups that are shared also what is about those."""

    def __init__(self, library, seed, most):
        self.library, self.groups, self.of_shared = library, (VIN, PRIVATE) if seed % 2 else (), []
        super().__init__(seed, most)

    def made(self, *words):
        return Beside(self.library, self.groups, *words)

    def of_others(self):
        return self.of_groups() if self.groups and self.chance(50) else super().of_others()

    def of_groups(self):
        """What is about groups that are shared, and now and then about one that is not: single messages, broadcasts, sessions, each a packet at a time."""
        it, held = self.random, self.tester.station.held
        own = 249 if held is None else held
        if self.of_shared and self.chance(75):
            place = it.randrange(len(self.of_shared))
            (source, to, data), number = self.of_shared[place]
            self.of_shared[place : place + 1] = [] if 7 * number >= len(data) else [((source, to, data), number + 1)]
            made = [frames.packet(data, number, to, source)]
            return made * it.choice([1] * 18 + [0, 2])
        source, to, pgn = it.choice([0, 1, 3, 11, 40, NULL]), it.choice([own, own, GLOBAL, 5]), it.choice([VIN, VIN, PRIVATE, UNSHARED])
        which, open_one = it.randrange(10), self.tester.outgoing if self.tester.outgoing and self.tester.outgoing.is_open() else None
        if self.chance(10 if open_one else 30):
            # (a broadcast would keep a command waiting, of which the model knows nothing)
            self.tester.send(it.choice([0, 1, 3, own, NULL]), it.choice([VIN, PRIVATE, PRIVATE, UNSHARED]), counted(it.randrange(256), it.choice([0, 1, 8, 9, 14, 30, 70, 1785, 1786])))
            return []
        if open_one and self.chance(80):
            return [self.receiver(open_one)]
        if which < 6:
            data = it.randbytes(it.choice([9, 14, 15, 17, 30]))
            self.of_shared.append(((source, to, data), 1))
            if to == GLOBAL:
                return [frames.bam(len(data), pgn, source)]
            begun = frames.rts(len(data), pgn, to, source)
            return [Frame(begun.number, begun.data[:4] + bytes([it.choice([0, 1, 3, 255])]) + begun.data[5:])]
        if which < 8:
            return [frames.to_one(6, PRIVATE, to, source, it.randbytes(it.randrange(9))) if self.chance(50) else frames.to_all(6, VIN, source, it.randbytes(8))]
        return [frames.request(pgn, to, source)] if which < 9 else [frames.abort(pgn, own, source)]

    def receiver(self, sent):
        """What the receiver of a message that the program sends may say, or somebody who is none."""
        it, newest = self.random, len(sent.packets())
        source, dest = sent.to if self.chance(95) else it.choice([0, 3, 40]), sent.own if self.chance(95) else GLOBAL
        pgn = sent.pgn if self.chance(95) else VIN
        which = it.randrange(20)
        if which < 15:
            first = newest + 1 if self.chance(75) else max(0, newest + 1 - it.choice([0, 1, 1, 2, 3, 5]))
            return frames.cts(it.choice([0, 1, 1, 2, 3, 16, 255]), min(first, 255), pgn, dest, source)
        if which < 19:
            return frames.end_of_message(len(sent.data) if len(sent.data) > 8 and self.chance(95) else 100, pgn, dest, source)
        return frames.abort(pgn, dest, source, it.randrange(256))

    def differs(self):
        faults = self.tester.faults
        return "; ".join(faults[:3]) if faults else None

    def heard(self):
        return len(self.lines)

    def close(self):
        self.tester.in_c.close()
