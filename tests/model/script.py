"""The words of a script: one answer for each line that is neither empty nor begins with `#`. That of `report` has several lines.

Looked at in this order: the line itself (`bad line`: its words, numbers and kinds, and the station it is for), the text of a NAME,
a PGN, a frame's identifier and then its number of bytes, whether the seat has a unit (`no seat`), and then what the call refuses.

`at S` before a command says which station it is for. Without it that is station 0.
"""

import contextlib
import re

from .cases import EARLIER, reach
from .frames import CLAIM, DM1, DM3, DM11, KINDS, Frame
from .garage import Garage
from .memory import Refused, entry_text

NUMBERS = {
    "IdTooLarge": 1, "TooLong": 2, "BadName": 4, "NotAnAddress": 7, "SpnTooLarge": 9, "FmiTooLarge": 10, "Full": 13,
    "NotActive": 14, "NameInUse": 19, "TooManySeats": 20, "BookFull": 21, "NoAddress": 22, "NotHeld": 23, "BadSetting": 24,
    "Unclaimed": 26, "PgnTooLarge": 28, "NotPending": 29,
}
ASKED = {**KINDS, "dm3": DM3, "dm11": DM11, "claim": CLAIM}
BYTE, WORD = 8, 32  # the bits of a number
MOST_INPUT = 1048576  # bytes


class BadLine(Exception):
    """The line is no command."""


class NoSeat(Exception):
    """The seat has no unit, or was never given."""


def lines_of(text):
    """Lines end with LF, which the last one may lack; a CR right before the LF is dropped."""
    lines = text.split("\n")
    last = lines.pop()
    return [line[:-1] if line.endswith("\r") else line for line in lines] + ([last] if last else [])


def number_of(word, bits):
    """Decimal digits alone; leading zeros are read."""
    if not re.fullmatch("[0-9]+", word):
        raise BadLine
    digits = word.lstrip("0")
    if len(digits) > 10 or int(digits or "0") >= 1 << bits:
        raise BadLine
    return int(digits or "0")


def name_of(word):
    if not re.fullmatch("[0-9A-Fa-f]{16}", word):
        raise Refused("BadName")
    return int(word, 16)


class Script:
    """A garage, once one was accepted, and the commands on it. `at` is the number of the station that a command is for."""

    def __init__(self):
        self.garage, self.at = None, 0

    @property
    def station(self):
        return self.garage.stations[self.at]

    def answer(self, line):
        """The answer to a line; None where it has none."""
        if line == "" or line.startswith("#"):
            return None
        words = [word for word in line.split(" ") if word]
        command = words[0] if words else ""
        form, self.at = command if command in COMMANDS or command == "at" else "fly", 0
        if (self.garage is None) != (command in GARAGES):
            reach(f"a {command} again is a bad line" if command in GARAGES else
                  f"a command before the garage is a bad line{', with its station' * (command == 'at')}")
            return "bad line"
        try:
            if command == "at":
                self.at, words = self.station_of(words)
                form = command = words[0]
            if command not in COMMANDS:
                raise BadLine
            return COMMANDS[command](self, words[1:])
        except BadLine:
            reach(form + ": bad line")
            return "bad line"
        except NoSeat:
            reach(form + ": no seat")
            return "no seat"
        except Refused as refused:
            reach(f"{form}: refused {refused.refusal}" + (f", {refused.of}" if refused.of else ""))
            if form in EARLIER and self.garage.is_full() and refused.refusal not in ("BookFull", "BadName", "PgnTooLarge"):
                reach(form + ": another refusal at the limit")
            return f"refused {NUMBERS[refused.refusal]} {refused.refusal}"

    def station_of(self, words):
        """The number of the station that a command is for, and the words of the command behind it."""
        if len(words) < 3:
            raise BadLine
        number = number_of(words[1], WORD)
        if words[2] not in AT_A_STATION:
            reach("at: bad line, before another command" if words[2] in COMMANDS else "at: bad line, before no command")
            raise BadLine
        if number >= len(self.garage.stations):
            reach(f"at: bad line, no such station among {len(self.garage.stations)}")
            raise BadLine
        reach(f"at: {words[2]} at station {number} of {len(self.garage.stations)}")
        return number, words[2:]

    @staticmethod
    def words(given, *counts):
        if len(given) not in counts:
            raise BadLine
        return given

    def seat_of(self, seat):
        if self.garage.unit(seat) is None:
            raise NoSeat
        return seat

    def make_garage(self, given):
        name, *numbers = self.words(given, 5)
        address, window, grant, limit = map(number_of, numbers, (BYTE, WORD, BYTE, WORD))
        self.garage = Garage([(name_of(name), address, window, grant)], limit)
        reach("garage: ok")
        return "ok"

    def make_garage2(self, given):
        """The setting of each station, then the limit that holds for both."""
        self.words(given, 9)
        settings = [(name, *map(number_of, numbers, (BYTE, WORD, BYTE))) for name, *numbers in (given[:4], given[4:8])]
        limit = number_of(given[8], WORD)
        self.garage = Garage([(name_of(name), *numbers) for name, *numbers in settings], limit)
        reach("garage2: ok")
        if settings[0][1] == settings[1][1]:
            reach("garage2: ok, both stations at one address")
        return "ok"

    def join(self, given):
        self.words(given, 3, 5)
        name, address, kind = given[0], number_of(given[1], BYTE), given[2:]
        if kind[0] == "flicker" and len(kind) == 3:
            kind = ("flicker", number_of(kind[1], WORD), number_of(kind[2], BYTE))
        elif kind not in (["plain"], ["guarded"]):
            raise BadLine
        seat = self.garage.join(name_of(name), address, kind)
        reach("join: " + kind[0])
        return f"seat {seat}"

    def change(self, given, command):
        """A change of the memory for each of N SPNs from one on. What came before a refusal is kept."""
        self.words(given, 3, 4)
        seat, spn, fmi = map(number_of, given, (WORD, WORD, BYTE))
        count = number_of(given[3], WORD) if len(given) == 4 else 1
        memory = self.garage.unit(self.seat_of(seat)).memory
        with self.several(command) as done:
            for at in range(spn, spn + count):
                case = {"set": memory.set, "heal": memory.heal, "pend": memory.pend, "unpend": memory.unpend}[command](at, fmi)
                if case:
                    reach(f"{command}: {case}")
                done.append(at)
        reach(command + (": ok" if count else ": ok, none"))
        return "ok"

    def set(self, given):
        return self.change(given, "set")

    def heal(self, given):
        return self.change(given, "heal")

    def pend(self, given):
        return self.change(given, "pend")

    def unpend(self, given):
        return self.change(given, "unpend")

    def lamps(self, given):
        seat, lamps = self.words(given, 2)
        seat = number_of(seat, WORD)
        if not re.fullmatch("[0-9A-Fa-f]{4}", lamps):
            raise BadLine
        self.garage.unit(self.seat_of(seat)).memory.lamps = bytes.fromhex(lamps)
        reach("lamps: ok")
        return "ok"

    def one_seat(self, given):
        return self.seat_of(number_of(self.words(given, 1)[0], WORD))

    def think(self, given):
        self.garage.unit(self.one_seat(given)).think()
        reach("think: ok")
        return "ok"

    def turn(self, given):
        self.garage.turn(self.one_seat(given))
        reach("turn: ok")
        return "ok"

    def leave(self, given):
        self.garage.leave(self.one_seat(given))
        reach("leave: ok")
        return "ok"

    def dm1(self, given):
        answer = self.garage.begin_dm1(self.one_seat(given))
        reach("dm1: " + answer)
        return answer

    @staticmethod
    @contextlib.contextmanager
    def several(command):
        """Within a repeating command: a refusal ends it and is its whole answer; what was done before it stays done."""
        done = []
        try:
            yield done
        except Refused:
            if done:
                reach(command + ": refused after some")
            raise

    def repeat(self, command, count, step):
        """How often a step could be done, at most that often."""
        with self.several(command) as done:
            while len(done) < count and step():
                done.append(step)
        reach(command + (": none" if count == 0 else ": until the count" if len(done) == count else ": until nothing is left"))
        return len(done)

    @staticmethod
    def count_of(given, at):
        return number_of(given[at], WORD) if len(given) > at else 1

    def hear(self, given):
        self.words(given, 1, 2)
        seat, count = number_of(given[0], WORD), self.count_of(given, 1)
        self.seat_of(seat)
        return "heard %d" % self.repeat("hear", count, lambda: self.garage.hear(seat))

    def read(self, given):
        count = self.count_of(self.words(given, 0, 1), 0)
        return "read %d" % self.repeat("read", count, lambda: self.garage.read(self.at))

    def carry(self, given):
        return self.carry_until("carry", self.count_of(self.words(given, 0, 1), 0), lambda: None)

    def round(self, given):
        """Rounds of hearing, reading and one carrying. At the end all hear and read once more."""
        return self.carry_until("round", number_of(self.words(given, 1)[0], WORD), self.all_hear)

    def carry_until(self, command, count, before):
        """Carries at most that many frames, or until no frame can be carried; something is done before each and at the end."""
        end = ""
        with self.several(command) as done:
            while len(done) < count and not end:
                before()
                answer = self.garage.carry()
                if answer == "frame":
                    done.append(answer)
                else:
                    end = " " + answer
            before()
        reach(command + ": " + (end.strip() or ("until the count" if count else "none")))
        return f"carried {len(done)}{end}"

    def all_hear(self):
        """Each live unit, in order of seat, hears all; then each station, in order, reads all."""
        for seat in self.garage.live():
            while self.garage.hear(seat.who.seat):
                pass
        for y in range(len(self.garage.stations)):
            while self.garage.read(y):
                pass

    def ask(self, given):
        name, what = self.words(given, 2)
        pgn = ASKED[what] if what in ASKED else number_of(what, WORD)
        name = name if name == "all" else name_of(name)
        if pgn >= 1 << 24:
            raise Refused("PgnTooLarge")
        self.garage.tell_station(self.at, self.station.ask_all(pgn) if name == "all" else self.station.ask(name, pgn))
        reach("ask: all" if name == "all" else "ask: one")
        reach("ask: " + (what if what in ASKED else "a number"))
        return "ok"

    def command(self, given):
        name, address = self.words(given, 2)
        address = number_of(address, BYTE)
        self.garage.tell_station(self.at, self.station.command(name_of(name), address))
        reach("command: ok")
        return "ok"

    def shown(self, given):
        name, kind = self.words(given, 2)
        if kind not in KINDS:
            raise BadLine
        entries = self.station.shown(name_of(name), KINDS[kind])
        reach("shown: none" if not entries else "shown: one" if len(entries) == 1 else "shown: several")
        return f"shown {len(entries)}" + (": " + " | ".join(map(entry_text, entries)) if entries else "")

    def row(self, given):
        name, station = name_of(self.words(given, 1)[0]), self.station
        if not station.is_known(name):
            reach("row: unknown")
            return "row unknown"
        address, acknowledged = station.address_of(name), station.last_acknowledgment(name)
        reach("row: no address" if address is None else "row: an address")
        reach("row: no acknowledgment" if acknowledged is None else "row: an acknowledgment")
        return "row {} ack {}".format("none" if address is None else address,
                                      "none" if acknowledged is None else "%d %d" % acknowledged)

    def counts(self, given):
        seat = number_of(self.words(given, 1)[0], WORD)
        if seat >= len(self.garage.seats):
            raise NoSeat
        reach(f"counts: of station {seat}" if seat < len(self.garage.stations) else
              "counts: of a live unit" if self.garage.seats[seat].live else "counts: of a unit that is gone")
        return "counts %d %d %d %d" % self.garage.seats[seat].counts()

    def stats(self, given):
        self.words(given, 0)
        station = self.station
        reach("stats: some missed" if station.missed else "stats: none missed")
        return f"missed {station.missed} unread {station.unread}"

    def report(self, given):
        """A line for each NAME, in order of the first claim read: its address right in 4 places, its numbers of DM1, DM2 and DM6
        entries right in 6, of the newest DM1 the lamps and the number of codes right in 4. At the end what `stats` tells."""
        self.words(given, 0)
        station, lines = self.station, []
        for name in station.names():
            address, dm1 = station.address_of(name), station.shown(name, DM1)
            newest = "%s %4d" % (dm1[-1][0].hex().upper(), len(dm1[-1][1])) if dm1 else "----    -"
            held = "none" if address is None else "%4d" % address
            numbers = " ".join("%6d" % len(station.shown(name, kind)) for kind in KINDS.values())
            lines.append("%016X %s %s %s" % (name, held, numbers, newest))
            reach("report: a NAME without an address" if address is None else "report: a NAME with an address")
            reach("report: a newest DM1" if dm1 else "report: no DM1")
        reach("report: no NAME" if not lines else "report: one NAME" if len(lines) == 1 else "report: several NAMEs")
        return "\n".join(lines + [f"missed {station.missed} unread {station.unread}"])

    def frame(self, given):
        at = number_of(self.words(given, 1)[0], WORD)
        if at >= len(self.garage.wire):
            reach("frame: no frame")
            return "no frame"
        reach("frame: a frame")
        return self.garage.wire[at][1].text()

    def inject(self, given):
        """Eight hexadecimal digits of an identifier, then two of each byte."""
        if not re.fullmatch("[0-9A-Fa-f]{8}( [0-9A-Fa-f]{2})*", " ".join(given)):
            raise BadLine
        identifier, data = int(given[0], 16), bytes.fromhex("".join(given[1:]))
        if identifier >= 1 << 29:
            raise Refused("IdTooLarge")
        if len(data) > 8:
            raise Refused("TooLong")
        self.garage.inject(Frame(identifier, data))
        reach("inject: ok")
        return "ok"

    def injected(self, given):
        self.words(given, 0)
        reach("injected: some" if self.garage.injected else "injected: none")
        return f"injected {self.garage.injected}"


COMMANDS = {
    "garage": Script.make_garage, "garage2": Script.make_garage2, "join": Script.join, "set": Script.set, "heal": Script.heal,
    "pend": Script.pend, "unpend": Script.unpend, "lamps": Script.lamps, "think": Script.think, "turn": Script.turn,
    "leave": Script.leave, "hear": Script.hear, "dm1": Script.dm1, "carry": Script.carry, "read": Script.read, "round": Script.round,
    "ask": Script.ask, "command": Script.command, "shown": Script.shown, "row": Script.row, "counts": Script.counts,
    "stats": Script.stats, "frame": Script.frame, "inject": Script.inject, "injected": Script.injected, "report": Script.report,
}
GARAGES = ["garage", "garage2"]
AT_A_STATION = ["read", "ask", "command", "shown", "row", "stats", "report"]  # what may stand behind `at S`


def answers(text):
    """The lines of the answers to a whole script, in order."""
    script = Script()
    return [line for answer in map(script.answer, lines_of(text)) if answer is not None for line in answer.split("\n")]
