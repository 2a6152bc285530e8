"""A tester by the times of the lines that it hears: a station, its orders one after the other, and what is told of them.

Written from docs/TESTER.md. `out` has what was written, pairs of a time and a frame. `told` has what happened, in order: what, the number and the time of the
line with a frame that was heard last, and more: ("order", mark, number), ("sent", mark, frame, number), ("own", mark, address, why), ("part", mark, number, name,
told), ("verdict", mark, number, verdict).
"""

from .frames import CLAIM, NULL, claimed_name
from .lanes import DAY
from .live_station import ANSWER_WITHIN, LiveStation
from .memory import read_message
from .orders import ITSELF, Open, Order, Verdict


class Wait:
    """An order to wait, in microseconds."""

    def __init__(self, micros):
        self.micros = micros


class End:
    """An order to end the run."""


class Held:
    """Who holds this address when its order begins."""

    def __init__(self, address):
        self.address = address


class Looks:
    """An order that waits until it is known for whom it is, or who holds which address."""

    def __init__(self, order):
        self.order = order


class Clears:
    """A clear of all units that have an address, one after the other, the lowest NAME first."""

    def __init__(self, order, names):
        self.order, self.names, self.open, self.verdicts = order, names, None, []


class Tester:
    def __init__(self, name, address, grant, gap, settle, orders, yes=True):
        self.station = LiveStation(name, address, grant, gap, settle)
        self.orders, self.number, self.open, self.yes = list(orders), 0, None, yes
        self.out, self.told, self.clock, self.timed, self.is_over = [], [], None, False, False
        self.own, self.is_contested, self.count, self.mark, self.units = None, False, 0, (0, None), []

    # Orders, one after the other.

    def tell(self, what, *more):
        self.told.append((what, self.mark, *more))

    def begin_next(self, now):
        """The next one begins where none is open. Whether one did."""
        if self.open is not None or self.is_over or self.number == len(self.orders):
            return False
        order = self.orders[self.number]
        self.number += 1
        self.tell("order", self.number)
        if isinstance(order, Wait):
            self.open = (order, now)
        elif isinstance(order, End):
            self.is_over = True
            self.close(Verdict("done", by_itself=True))
        elif isinstance(order.name, Held) or order.what in ("command", "clear_all"):
            self.open = Looks(order)
        else:
            self.open = Open(order, self.station, now)
        return True

    def close(self, verdict):
        self.tell("verdict", self.number, verdict)
        self.open, self.units = None, []
        self.is_over = self.is_over or self.number == len(self.orders)

    def known_from(self):
        """From when on it is known who holds which address; None while all are still to be asked."""
        asked = self.station.asked_at()
        return None if asked is None or self.station.wants_claims() else asked + ANSWER_WITHIN

    def known(self):
        """The NAMEs that have an address, in the order in which they were first heard of."""
        return [name for name in self.station.names() if self.station.address_of(name) is not None]

    def look(self, now):
        """What is done for orders now: whether something was; and when to look again."""
        if self.begin_next(now):
            return True, None
        if isinstance(self.open, tuple):
            wait, since = self.open
            if now < since + wait.micros:
                return False, since + wait.micros
            self.close(Verdict("done", by_itself=True))
            return True, None
        if isinstance(self.open, Looks):
            return self.look_for(self.open.order, now)
        if isinstance(self.open, Clears):
            return self.clear(self.open, now)
        return self.carry_out(self.open, now, self.close) if self.open else (False, None)

    def look_for(self, order, now):
        """For whom an order is."""
        from_when = self.known_from()
        is_known = from_when is not None and from_when <= now
        holders = {self.station.address_of(name): name for name in self.known()}
        if self.station.held is None:
            self.close(Verdict("lost address", by_itself=True))
        elif isinstance(order.name, Held) and order.name.address in holders:
            self.open = Open(order.of(holders[order.name.address]), self.station, now)
        elif not is_known:
            return False, from_when
        elif isinstance(order.name, Held):
            self.close(Verdict("no such unit", why=f"nobody claims {order.name.address}", by_itself=True))
        elif order.what == "clear_all":
            self.open = Clears(order, sorted(self.known()))
        elif self.yes or holders.get(order.address, None if self.station.held != order.address else self.station.name) in (None, order.name):
            self.open = Open(order, self.station, now)
        else:
            self.close(Verdict("withheld", by_itself=True))
        return True, None

    def clear(self, clears, now):
        """The clear of the next unit."""
        if clears.open is None and len(clears.verdicts) == len(clears.names):
            self.close(Verdict("cleared all", units=clears.verdicts))
            return True, None
        if clears.open is None:
            clears.open = Open(Order("clear", clears.names[len(clears.verdicts)], clears.order.group), self.station, now)
        return self.carry_out(clears.open, now, self.cleared)

    def cleared(self, verdict):
        """One of all was cleared."""
        clears = self.open
        name, clears.open = clears.open.order.name, None
        clears.verdicts.append((name, verdict))
        self.tell("part", self.number, name, verdict)

    def carry_out(self, order, now, close):
        """What the station does for the order that it has, where it is free."""
        if not self.station.is_free(now):
            return False, None
        what, told = order.look(now)
        if what == "wait":
            return False, told
        if what == "verdict":
            close(self.with_units(order, told))
        else:
            frame, part = told
            self.sent(self.station.wrote(frame, now, (order, part)), now, self.number)
        return True, None

    def with_units(self, order, verdict):
        """A verdict of an order to all, with the units that it knows of."""
        if order.order.name is None:
            named = [name for name, _ in self.units]
            verdict.units = self.units + [(name, "silent") for name in self.known() if name not in named]
        elif order.order.what == "ask_claim":
            verdict.holds = self.station.address_of(order.order.name)
        return verdict

    # Lines.

    def sent(self, frame, now, number=None):
        self.out.append((now, frame))
        self.tell("sent", frame, number)
        if frame.pgn == CLAIM and self.station.held == frame.source != self.own:
            self.own, self.is_contested = frame.source, False
            self.tell("own", self.own, "claimed")

    def step(self, now):
        """One thing that is done at this time; and when to look again where there is none."""
        frame = self.station.write(now)
        if frame:
            self.sent(frame, now)
            return True, None
        return self.look(now)

    def write_until(self, until):
        now = until if self.clock is None else self.clock
        while True:
            did, again = self.step(now)
            while did:
                did, again = self.step(now)
            later = [time for time in [*self.station.times(), again] if time is not None and now < time <= until]
            if not later:
                break
            now = min(later)
        self.clock = until

    def time_of(self, time):
        if time is not None and self.clock is not None and (not self.timed or time - self.clock > DAY):
            self.clock = None
        self.timed = self.timed or time is not None
        before = 0 if self.clock is None else self.clock
        return before if time is None else max(time, before)

    def take(self, frame, time, count=1):
        """A line: a frame with its time, if it has one; or None, where so many frames were missed. Behind the last verdict none is read."""
        if self.is_over:
            return
        self.count += 1
        if frame is None:
            if self.clock is not None:
                self.write_until(self.clock)
            now = self.clock or 0
            note = self.station.miss(count, now)
        else:
            now = self.time_of(time)
            self.write_until(now)
            self.mark = (self.count, time)
            note = self.station.listen(frame, now)
        if note.stranger and not self.is_contested:
            self.is_contested = True
            self.tell("own", self.station.held, "contested")
        self.notice(note, now)
        if self.station.held is None and self.own != "none":
            self.own = "none"
            self.tell("own", None, "lost")

    def notice(self, note, now):
        """Who answered what was asked of all is noted; an order whose verdict is in what was heard ends with it."""
        order = self.open.open if isinstance(self.open, Clears) else self.open
        if not isinstance(order, Open):
            return
        if order.order.name is None and order.writes() and note.place is not None and note.frame is not None:
            self.note_answer(order, note)
        what, told = order.look(now)
        if what == "verdict" and told.heard:
            (self.cleared if isinstance(self.open, Clears) else self.close)(self.with_units(order, told))

    def note_answer(self, order, note):
        group, name = order.order.group, claimed_name(note.frame)
        if group is None and name is not None and note.frame.source != NULL:
            self.note_unit(name, "answered", note.frame.source)
        ended = order.ended(note, group) if group is not None else None
        if ended:
            shown = read_message(ended[2])
            self.note_unit(ended[0], "unread" if shown is None else "answered", shown)

    def note_unit(self, name, what, told):
        if name not in [known for known, _ in self.units]:
            self.units.append((name, what))
            self.tell("part", self.number, name, told)

    def finish(self):
        """The lines ended, or the last verdict was told."""
        if self.clock is not None:
            self.write_until(self.clock)
        now = self.clock or 0
        if isinstance(self.open, Clears):
            clears = self.open
            if clears.open:
                self.cleared(clears.open.cut_off(now))
            done = [name for name, _ in clears.verdicts]
            self.close(Verdict("cleared all", units=clears.verdicts + [(name, None) for name in clears.names if name not in done]))
        elif isinstance(self.open, Open):
            self.close(self.with_units(self.open, self.open.cut_off(now)))
        elif self.open is not None:
            self.close(Verdict("cut off", was_sent=False, by_itself=True))
        while self.number < len(self.orders):
            self.number += 1
            self.tell("verdict", self.number, Verdict("cut off", was_sent=False, by_itself=True))
