"""The bus with its seats, the wire and the stations' windows; what may be done, and when it is refused.

The stations have the seats from 0 on, in their order. Units get the seats behind them as they join; no number is used again.
"""

from .cases import also, reach
from .frames import LAST_ADDRESS, claimed_name
from .memory import Refused
from .station import Station
from .unit import ALL, Unit

MOST_UNITS, MOST_WINDOW, MOST_LIMIT = 64, 4096, 16777216


class Seat:
    """What a seat's place on the bus is: how far it has heard the wire, and its counts."""

    def __init__(self, who, heard):
        self.who, self.heard, self.carried, self.live = who, heard, 0, True

    def counts(self):
        """Queued is always carried, withdrawn and waiting together."""
        waiting = len(self.who.queue)
        return self.carried + self.who.withdrawn + waiting, self.carried, self.who.withdrawn, waiting


class Garage:
    """`settings` has a NAME, an address, a window and a grant for each station."""

    def __init__(self, settings, limit):
        in_range = [address <= LAST_ADDRESS and 1 <= window <= MOST_WINDOW and grant for _, address, window, grant in settings]
        if not (all(in_range) and 1 <= limit <= MOST_LIMIT):
            reach_refused_settings(settings, in_range)
            raise Refused("BadSetting")
        if len({name for name, *_ in settings}) < len(settings):
            raise Refused("NameInUse")
        self.stations = [Station(name, address, grant) for name, address, _, grant in settings]
        self.windows, self.limit = [window for _, _, window, _ in settings], limit
        self.wire = []  # pairs: the seat, None for a frame from outside, and the frame
        self.seats = [Seat(station, 0) for station in self.stations]
        self.events = self.injected = 0

    def live(self):
        """The seats of the units that are there."""
        return [seat for seat in self.seats[len(self.stations) :] if seat.live]

    def unit(self, seat):
        """The unit in a seat, None where there is none."""
        return self.seats[seat].who if len(self.stations) <= seat < len(self.seats) and self.seats[seat].live else None

    def is_full(self, more=0):
        """Each event but a leave needs room for itself and for the leaves of all live units; a join for its own too."""
        return self.events + 1 + more + len(self.live()) > self.limit

    def count_event(self, more=0):
        if self.is_full(more):
            raise Refused("BookFull")
        self.events += 1

    def no_event(self, answer):
        """An answer that is no event is given at the limit too."""
        if self.is_full():
            reach(answer + ", at the limit")

    # Units.

    def join(self, name, address, kind):
        if address > LAST_ADDRESS:
            raise Refused("NotAnAddress")
        if any(seat.live and seat.who.name == name for seat in self.seats):
            reach_name_in_use(name, self.stations)
            raise Refused("NameInUse")
        if len(self.live()) == MOST_UNITS:
            raise Refused("TooManySeats")
        self.count_event(more=1)
        if any(seat.who.name == name for seat in self.seats):
            reach("a NAME joins again")
        number = len(self.seats)
        self.seats.append(Seat(Unit(name, address, kind, self.wire, number), len(self.wire)))
        return number

    def leave(self, number):
        """The unit's frames are withdrawn; its counts stay. A leave always has room."""
        seat = self.seats[number]
        if seat.who.session:
            reach("a unit leaves with a session open")
        if len(seat.who.queue) > 1:
            reach("a unit leaves with frames of a message queued")
        seat.who.withdraw(ALL)
        seat.live = False
        self.events += 1

    def hear(self, number):
        """One frame that the seat has not heard; False where there is none. A seat does not hear its own."""
        seat = self.seats[number]
        if seat.heard == len(self.wire):
            self.no_event("hear: nothing")
            return False
        self.count_event()
        seat.heard += 1
        seat.who.hear(seat.heard - 1)
        return True

    def begin_dm1(self, number):
        unit = self.seats[number].who
        answer = unit.begin_dm1()
        if answer == "begun":
            self.count_event()
            unit.begun_dm1()
        else:
            self.no_event("dm1: held")
        return answer

    def turn(self, number):
        self.count_event()

    # The wire.

    def carry(self):
        """Of the seats that have a frame queued and have heard the whole wire, the one whose first frame has the lowest
        identifier; among equal ones the lowest seat. Answers "frame", "idle" (no frame queued) or "waiting"."""
        with_frames = [number for number, seat in enumerate(self.seats) if seat.who.queue]
        if not with_frames:
            self.no_event("carry: idle")
            return "idle"
        ready = [number for number in with_frames if self.has_heard_all(number)]
        if not ready:
            if with_frames == list(range(len(self.stations))) and len(with_frames) > 1:
                reach("all stations wait for each other's readings")
            self.no_event("carry: waiting")
            return "waiting"
        first = min(ready, key=lambda number: self.seats[number].who.queue[0][0].number)
        self.count_event()
        self.reach_carried(with_frames, ready, first)
        seat = self.seats[first]
        frame, _ = seat.who.queue.pop(0)
        self.wire.append((first, frame))
        seat.carried += 1
        seat.heard = len(self.wire)
        return "frame"

    def reach_carried(self, with_frames, ready, first):
        """Counts the cases of a carry: who has frames, who of them has heard all, and whose frame is carried."""
        identifiers = [self.seats[number].who.queue[0][0].number for number in ready]
        same = [number for number, it in zip(ready, identifiers) if it == self.seats[first].who.queue[0][0].number]
        stations = range(1, len(self.stations))
        if len(ready) > 1:
            reach("several seats want to send")
            if len(same) > 1:
                reach("several seats want to send the same identifier")
        if first == 0 and any(number in stations for number in same):
            reach("both stations want to send the same identifier")
        elif {0, 1} <= set(ready) and len(self.stations) > 1:
            reach("both stations want to send")
        if len(ready) < len(with_frames):
            reach("a seat that has not heard all is passed over")
        if any(number < len(self.stations) and number not in ready for number in with_frames):
            reach("a station that has not read all is passed over")

    def inject(self, frame):
        """A frame from outside stands on the wire at once. No seat sent it, so every seat hears it and every station reads it."""
        self.count_event()
        self.wire.append((None, frame))
        self.injected += 1

    def has_heard_all(self, number):
        return not self.unread(number) if number < len(self.stations) else self.seats[number].heard == len(self.wire)

    def unread(self, y):
        """The places of the frames that station y has not read. Its own frames are no readings; another station's are."""
        return [at for at in range(self.seats[y].heard, len(self.wire)) if self.wire[at][0] != y]

    def read(self, y):
        """The oldest frame that station y has not read, or first of all a gap where more are unread than its window holds; False
        where none is."""
        unread, window, station = self.unread(y), self.windows[y], self.stations[y]
        if not unread:
            self.no_event("read: nothing")
            return False
        self.count_event()
        missed = max(0, len(unread) - window)
        if missed:
            if window in (1, MOST_WINDOW):
                reach(f"a window of {window} frame{'s' if window > 1 else ''} overflows")
            if len(self.stations) == 2:
                self.reach_gap(y, unread[:missed])
            self.seats[y].heard = unread[missed]
            station.take_gap(missed)
        else:
            place = unread[0]
            self.seats[y].heard = place + 1
            by_other = self.wire[place][0] is not None and self.wire[place][0] < len(self.stations)
            with also(" by the other station" * by_other, f" at station {y}"):
                station.take(self.wire[place][1])
        return True

    def reach_gap(self, y, missed):
        """Counts the cases of a gap of these frames at station y, where there are two."""
        other = self.stations[1 - y]
        reach(f"station {y} meets a gap while the other " + ("has missed frames before" if other.missed else "has missed none"))
        if any(self.wire[at][0] == 1 - y for at in missed):
            reach("a station misses a frame of the other one")
        if any(self.wire[at][0] == 1 - y and claimed_name(self.wire[at][1]) is not None for at in missed):
            reach("a station misses the other one's claim")

    # What a station is told to do.

    def tell_station(self, y, frames):
        self.count_event()
        self.stations[y].put(*frames)


def reach_refused_settings(settings, in_range):
    """Counts the cases of settings that are refused, where there are two stations."""
    if len(settings) > 1:
        reach("a setting of the first station is refused" if not in_range[0] else
              "a setting of the second station is refused" if not in_range[1] else "the limit of two stations is refused")
        if settings[0][0] == settings[1][0]:
            reach("a setting is refused before one NAME for both stations")


def reach_name_in_use(name, stations):
    """Counts the case of a NAME that may not join, since the second station has it."""
    if any(station.name == name for station in stations[1:]):
        reach("a unit may not join under the second station's NAME")
