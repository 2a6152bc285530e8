"""What becomes of an order to a station: which frame goes for it and when, and its one verdict.

Written from docs/TESTER.md. Nothing is kept but the log of what was heard, missed and written, with times: each question is answered by looking back over
it. What comes first after the order's latest frame, and fits a sentence below, decides.
"""

from .frames import (ACKNOWLEDGMENT, BAM, CLAIM, COMMANDED_ADDRESS, CONTROL, CTS, DM1, DM2, DM3, GLOBAL, LAST_ADDRESS, NULL, PACKET, RTS, TITLES, broadcast,
                     claimed_name, control_of, control_pgn, control_size, in_order, joined, number, request)
from .live_station import ANSWER_WITHIN
from .memory import read_message

BUSY_FOR, AT_MOST, TRIES, COMMAND = 500_000, 60_000_000, 3, 3  # (a command has three frames)
ITSELF, LEFT = "itself", "left"
READ_AFTER = {DM3: DM2}  # which list shows what a clear left; DM1 behind a DM11
HANDS, MISSED, OWN, STRANGER = "its address changed hands", "frames were missed", "own address lost", "a stranger at the own address"


class Order:
    """`what` is ask, ask_claim, ask_all, ask_all_claims, clear or command."""

    def __init__(self, what, name=None, group=None, address=None):
        self.what, self.name, self.group, self.address = what, name, group, address

    def of(self, name):
        """The same for this NAME."""
        return Order(self.what, name, self.group, self.address)


class Verdict:
    """`result` is answered, unread, positive, refused, busy, obeyed, no such unit, silent, in doubt, lost address or cut off; of a tester also done, withheld
    or cleared all. `by_itself` is whether the station never had the order."""

    def __init__(self, result, tries=0, **more):
        self.result, self.tries, self.heard = result, tries, False
        self.shown = self.control = self.why = self.address = self.after = self.left = self.holds = self.name = None
        self.units, self.was_sent, self.by_itself = [], None, False
        for key, value in more.items():
            setattr(self, key, value)


class Open:
    """The order that is open."""

    def __init__(self, order, station, now):
        self.order, self.station, self.begun_at, self.silent_at = order, station, now, None

    # Looking back.

    def writes(self, part=ITSELF):
        """The places in the log of the frames that were written for a part of this order."""
        return self.station.places.get((self, part), [])

    def behind(self, at):
        """What was heard or missed behind a place in the log, and where packets were asked for again."""
        return (it for it in self.station.log[at + 1 :] if it.what != "wrote" or it.again is not None)

    def is_late(self, it, until):
        """Whether something came behind the time until which an answer was waited for. Packets are asked for again before an order looks at the time."""
        return until < it.time or until == it.time and it.what != "wrote"

    def address_at(self, place):
        """The address of the NAME before the reading at a place."""
        later = set()
        for reading in reversed(self.station.readings[:place]):
            if reading.frame is None:
                return None
            other = claimed_name(reading.frame)
            if other == self.order.name:
                return None if reading.frame.source in later | {NULL} else reading.frame.source
            if other is not None:
                later.add(reading.frame.source)
        return None

    def part_of(self, it):
        """Of which message a frame is a part: who sends it, its kind, the place of its first frame, and its bytes where they are whole."""
        station, frame, place = self.station, it.frame, it.place
        if frame.pgn in TITLES:
            return station.owner(frame.source, place), frame.pgn, place, frame.data
        if (control_of(frame) == BAM and frame.dest == GLOBAL or control_of(frame) == RTS and frame.dest == it.before) and station.starts(place):
            return station.owner(frame.source, place), control_pgn(frame), place, None
        if frame.pgn == PACKET and frame.dest in (GLOBAL, it.before):
            under_way = station.message_under_way(frame.source, frame.dest, place)
            if under_way is not None and in_order(under_way[1] + [frame.data], len(under_way[1]) + 1):
                at, packets = under_way
                start, packets = station.readings[at].frame, packets + [frame.data]
                whole = joined(packets, control_size(start)) if len(packets) == start.data[3] else None
                return station.owner(frame.source, at), control_pgn(start), at, whole
        return None

    def ended(self, it, kind):
        """Who sent a message of this kind that a frame ended, where its first frame stands, and its bytes."""
        part = self.part_of(it) if it.what == "heard" and it.place is not None else None
        return (part[0], part[2], part[3]) if part and part[0] is not None and part[1] == kind and part[3] is not None else None

    def announces(self, at, it):
        """To whom a frame announces a message, behind a request: to all, or to who asked; and its group."""
        frame, own = it.frame, self.station.log[at].held
        if it.what != "heard" or it.place is None:
            return None
        if control_of(frame) == BAM and frame.dest == GLOBAL or control_of(frame) == RTS and frame.dest == own:
            return frame.dest, control_pgn(frame)
        return None

    def goes_on(self, at, it, kind, source):
        """Whether a frame begins or goes on with a message of this kind that was announced behind a request: by this source, whose newest announcement
        counts; or, where all were asked, by whomever."""
        if it.what == "wrote":
            return it.frame.data[0] == CTS and self.goes_on_in(at, it, kind, source, it.again, self.station.log[at].held)
        if it.what != "heard" or it.place is None and not it.passed or source not in (None, it.frame.source):
            return False
        announced = self.announces(at, it)
        if announced:
            return announced[1] == kind
        if it.frame.pgn != PACKET or it.frame.dest not in (GLOBAL, self.station.log[at].held):
            return False
        return self.goes_on_in(at, it, kind, source, it.frame.source, it.frame.dest)

    def goes_on_in(self, at, it, kind, source, sender, dest):
        """Whether a message of this kind that was announced behind a request goes on with a packet from a sender, or one that it is asked for."""
        if source not in (None, sender):
            return False
        before = self.station.log[at + 1 : self.station.log.index(it)]
        groups = [found[1] for other in before if source in (None, other.frame and other.frame.source) and (found := self.announces(at, other)) and found[0] == dest]
        return kind in groups if source is None else bool(groups) and groups[-1] == kind

    def acknowledged(self, at, it, group):
        """The control of an acknowledgment of a request that was written at a place in the log (J1939-21, 5.4.4)."""
        asked, frame, station = self.station.log[at], it.frame, self.station
        if it.what != "heard" or it.place is None or frame.pgn != ACKNOWLEDGMENT or len(frame.data) != 8:
            return None
        is_from_it = frame.source == asked.frame.dest and station.owner(frame.source, it.place) == self.order.name
        is_to_own = asked.held in (frame.data[4], frame.dest)
        return frame.data[0] if is_from_it and is_to_own and number(frame.data[5:8]) == group else None

    def changes_hands(self, at, it):
        """Whether the NAME is no longer at the address to which a request went."""
        return it.what == "heard" and it.place is not None and claimed_name(it.frame) is not None and self.address_at(it.place + 1) != self.station.log[at].frame.dest

    # What came of a frame that was written.

    def of_ask(self, at, group, now):
        """Of a request for a message of the NAME, or for its claim: what came of it, when, and what of it is told; or until when it is waited."""
        asked, last = self.station.log[at], self.station.log[at].time
        for it in self.behind(at):
            if self.is_late(it, min(last + ANSWER_WITHIN, asked.time + AT_MOST)):
                break
            if it.what == "gap":
                return "again", it.time, None
            if group == CLAIM and it.place is not None and claimed_name(it.frame) == self.order.name and it.frame.source != NULL:
                return "answered", it.time, None
            if self.changes_hands(at, it) or it.contested or it.held != asked.held or it.stranger:
                return "again", it.time, None
            ended, goes_on = self.ended(it, group), group != CLAIM and self.goes_on(at, it, group, asked.frame.dest)
            # (a message in whose place another one was announced is no answer, though it ends)
            is_asked = goes_on or it.frame is not None and it.frame.pgn != PACKET
            if ended and ended[0] == self.order.name and ended[1] >= asked.place and it.frame.source == asked.frame.dest and is_asked:
                shown = read_message(ended[2])
                return "unread" if shown is None else "answered", it.time, shown
            if goes_on:
                last = it.time
            control = self.acknowledged(at, it, group)
            if control == 3:
                return "busy", it.time, None
            if control:
                return "refused", it.time, control
        until = min(last + ANSWER_WITHIN, asked.time + AT_MOST)
        return ("silent" if until <= now else None), until, None

    def of_clear(self, at, now):
        """Of a request to clear."""
        asked = self.station.log[at]
        for it in self.behind(at):
            if asked.time + ANSWER_WITHIN <= it.time:
                break
            if it.what == "gap":
                return "in doubt", it.time, MISSED
            control = self.acknowledged(at, it, self.order.group)
            if control == 0:
                return "positive", it.time, None
            if control == 3:
                return "busy", it.time, None
            if control is not None:
                return "refused", it.time, control
            if self.changes_hands(at, it):
                return "in doubt", it.time, HANDS
            if it.contested or it.held != asked.held:
                return "in doubt", it.time, OWN
            if it.stranger:
                return "in doubt", it.time, STRANGER
        until = asked.time + ANSWER_WITHIN
        return ("silent" if until <= now else None), until, None

    def of_command(self, now):
        """Of a commanded address, whose frames go one after the other."""
        places = self.writes()
        first, last = self.station.log[places[0]], self.station.log[places[-1]]
        for it in self.behind(places[0]):
            if len(places) == COMMAND and last.time + ANSWER_WITHIN <= it.time:
                break
            if it.what == "heard" and it.place is not None and self.address_at(it.place + 1) == self.order.address:
                return "obeyed", it.time, None
            if it.held != first.held or it.stranger:
                return "lost address", it.time, None
        until = last.time + ANSWER_WITHIN
        return ("silent" if len(places) == COMMAND and until <= now else None), until, None

    def of_all(self, at, now):
        """Of a request to all: whether somebody answered, whether it has to be written again, and until when it is waited."""
        asked, last, answers, group = self.station.log[at], self.station.log[at].time, False, self.order.group
        for it in self.behind(at):
            if self.is_late(it, min(last + ANSWER_WITHIN, asked.time + AT_MOST)):
                break
            if it.what == "gap" or it.contested or it.held != asked.held or it.stranger:
                return answers, "again", it.time
            if group is None:
                is_answer = it.place is not None and claimed_name(it.frame) is not None and it.frame.source != NULL
            else:
                ended = self.ended(it, group)
                is_answer = ended is not None and read_message(ended[2]) is not None
                if ended or self.goes_on(at, it, group, None):
                    last = it.time
            if is_answer:
                answers, last = True, it.time
        until = min(last + ANSWER_WITHIN, asked.time + AT_MOST)
        return answers, "over" if until <= now else None, until

    # What is to be done now: ("write", frame), ("wait", until), or ("verdict", verdict), of which those with `heard` are found where a frame is heard.

    def look(self, now):
        """At this time, where nothing waits and the pause is over; or behind what was heard, for what it says alone."""
        what, told = self.looked(now)
        if what == "verdict":
            told.name = self.order.name
        return what, told

    def looked(self, now):
        return {"ask": self.ask, "ask_claim": self.ask, "clear": self.clear, "command": self.command}.get(self.order.what, self.ask_all)(now)

    def asking(self, part, group, since, now):
        """An ask, by itself or behind a clear: it is written up to three times. A verdict, or what is done now."""
        places, again_from, upset_at = self.writes(part), since, since if part == LEFT else None
        if places:
            result, time, told = self.of_ask(places[-1], group, now)
            if result is None:
                return "wait", time
            asked = self.station.log[places[-1]]
            verdict = Verdict(result, len(places), address=asked.frame.dest, after=time - asked.time, heard=True)
            if result == "silent" and len(places) == TRIES and self.station.held is not None:
                verdict.after, verdict.heard = now - asked.time, False
                return "verdict", verdict
            if result in ("answered", "unread"):
                verdict.shown = told
                return "verdict", verdict
            if result == "refused":
                verdict.control = told
                return "verdict", verdict
            if len(places) == TRIES and result == "busy":
                return "verdict", verdict
            again_from = time + BUSY_FOR if result == "busy" else time
            upset_at = time
        return self.to_write(part, group, again_from, upset_at, len(places), now)

    def to_write(self, part, group, since, upset_at, tries, now, clear_from=0):
        """A request to the NAME's address that goes from some time on, as soon as the address is known and the station is free."""
        station = self.station
        if now < since:
            return "wait", since
        if station.held is None:
            return "verdict", Verdict("lost address", tries)
        if tries == TRIES:
            return "verdict", Verdict("silent", tries)
        if now < clear_from:
            return "wait", clear_from
        address = station.address_of(self.order.name)
        if address is None:
            until = self.unknown_until(upset_at)
            if until is None or now < until:
                return "wait", until
            return "verdict", Verdict("no such unit", tries)
        return "write", (request(group, address, station.held), part)

    def unknown_until(self, upset_at=None):
        """Until when an address of the NAME is waited for: 1,250 ms since all were asked for their claims, and since a request of this order came to
        nothing; without an end while they are still to be asked."""
        asked = self.station.asked_at()
        if asked is None or self.station.wants_claims():
            return None
        return max(asked, 0 if upset_at is None else upset_at) + ANSWER_WITHIN

    def ask(self, now):
        return self.asking(ITSELF, CLAIM if self.order.what == "ask_claim" else self.order.group, self.begun_at, now)

    def clear(self, now):
        places = self.writes()
        since, upset_at = self.begun_at, None
        if places:
            result, time, told = self.of_clear(places[-1], now)
            if result is None:
                return "wait", time
            asked = self.station.log[places[-1]]
            verdict = Verdict(result, len(places), address=asked.frame.dest, after=time - asked.time, heard=True)
            if result == "refused":
                verdict.control = told
                return "verdict", verdict
            if result != "busy":
                if result == "silent":
                    # (it is told where the station may do something)
                    if self.silent_at is None and not self.station.is_free(now):
                        return "wait", None
                    self.silent_at = time = now if self.silent_at is None else self.silent_at
                    self.station.is_silent(time)
                    verdict.after = time - asked.time
                verdict.why = told
                what, left = self.asking(LEFT, READ_AFTER.get(self.order.group, DM1), time, now)
                if what != "verdict":
                    return what, left
                verdict.left, verdict.heard = left, left.heard
                return "verdict", verdict
            if len(places) == TRIES:
                return "verdict", verdict
            since, upset_at = time + BUSY_FOR, time
        return self.to_write(ITSELF, self.order.group, since, upset_at, len(places), now, self.clear_from())

    def clear_from(self):
        """No clear goes within 1,250 ms of the first claim of the own address, of a stranger at it, or of a silent clear."""
        station = self.station
        times = [it.time for it in station.log if it.stranger] + station.silent_at
        if station.claimed_at() is not None:
            times.append(station.claimed_at())
        return max([time + ANSWER_WITHIN for time in times], default=0)

    def command(self, now):
        """Three frames, so far apart from each other; replies may go in between."""
        station, places = self.station, self.writes()
        data = self.order.name.to_bytes(8, "little") + bytes([self.order.address])
        if places:
            result, time, _ = self.of_command(now)
            if result is not None:
                last = station.log[places[-1]].time
                time = now if result == "silent" else time
                return "verdict", Verdict(result, 1, after=time - last if len(places) == COMMAND else None, heard=result != "silent")
            if len(places) == COMMAND:
                return "wait", time
            since = station.log[places[-1]].time + station.gap
            if now < since:
                return "wait", since
            return "write", (broadcast(data, COMMANDED_ADDRESS, station.held)[len(places)], ITSELF)
        if station.address_of(self.order.name) == self.order.address:
            return "verdict", Verdict("obeyed", heard=True)
        if station.held is None:
            return "verdict", Verdict("lost address")
        until = self.unknown_until()
        if station.address_of(self.order.name) is None and (until is None or now < until):
            # (frames were missed, and all are asked for their claims again)
            return "wait", until
        return "write", (broadcast(data, COMMANDED_ADDRESS, station.held)[0], ITSELF)

    def cut_off(self, now):
        """The verdict where the input ends. What was found of a clear stands, and what is left was not heard."""
        places, log, name = self.writes(), self.station.log, self.order.name
        if not places:
            return Verdict("cut off", was_sent=False, name=name)
        asked, is_out = log[places[-1]], True
        if self.order.what == "clear":
            result, time, told = self.of_clear(places[-1], now)
            if result in ("positive", "in doubt", "silent") and (result != "silent" or self.silent_at is not None):
                left = Verdict("cut off", len(self.writes(LEFT)), was_sent=bool(self.writes(LEFT)))
                time = self.silent_at if result == "silent" else time
                return Verdict(result, len(places), address=asked.frame.dest, after=time - asked.time, why=told, left=left, name=name)
            is_out = result in (None, "silent")
        elif self.order.what in ("ask", "ask_claim"):
            is_out = self.of_ask(places[-1], CLAIM if self.order.what == "ask_claim" else self.order.group, now)[0] in (None, "silent")
        elif self.order.what == "command":
            is_out = len(places) == COMMAND
        else:
            is_out = self.of_all(places[-1], now)[1] != "again"
        to = None if self.order.name is None or self.order.what == "command" else asked.frame.dest
        tries = 1 if self.order.what == "command" else len(places)
        return Verdict("cut off", tries, was_sent=True, name=name, address=to if is_out else None, after=now - asked.time if is_out else None)

    def ask_all(self, now):
        """Up to three times, until somebody answers."""
        station, places = self.station, self.writes()
        if places:
            answers, result, time = self.of_all(places[-1], now)
            if result is None:
                return "wait", time
            after = now - station.log[places[-1]].time
            if result == "over" and answers:
                return "verdict", Verdict("answered", len(places), after=after)
            if result == "over" and len(places) == TRIES and station.held is not None:
                return "verdict", Verdict("silent", len(places), after=after)
        if station.held is None:
            return "verdict", Verdict("lost address", len(places))
        if len(places) == TRIES:
            return "verdict", Verdict("silent", len(places))
        return "write", (request(self.order.group or CLAIM, GLOBAL, station.held), ITSELF)
