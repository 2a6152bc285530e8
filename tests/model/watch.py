"""`watch`: what the lines of a log tell, line by line and in a report at the end, as text, JSON and CSV.

One bus is watched: the one that is given, or else the first that a line names; or with `all` each of them, by a watch of its own. Of its lines a frame is read, but for a packet that comes too
late; frames that were dropped, an overflow, and a bad line are missed frames. What a reading changes (`heard`) is told where it is news.
Equal entries that come one after the other under a NAME are a run.
"""

from .ever_reported import HEADER as EVER_HEADER
from .ever_reported import EverInLog
from .frames import ABORT, BAM, CONTROL, CTS, GLOBAL, KINDS, NULL, PACKET, RTS, claim, claimed_name, control_of, control_pgn
from .listener import Listener, Unclaimed
from .log_cases import reach
from .memory import Part
from .log_line import ERROR, FD, REMOTE, SHORT
from .pacing import Pacing
from .identifications import WORDS as IDENTIFIED, Identifications, told_of, words_of
from .notices import Absence, BadLines, Clock, without_frames
from .clocks import Clocks
from .words import ABORTS, ANSWERS, FAILURE_MODES, NOT_AVAILABLE, address_words, dumped, group_words, lamp_words, meaning_words, name_fields, name_text, seen, seen_json, shown_object, shown_words, time_text, trouble_object, trouble_words

MOST_PAIRS = 4096  # between which messages may be half joined
CONTEST = 250_000  # microseconds: as long as a unit waits for a contender before it sends (J1939-81, 4.4)
WORD_OF = {kind: word for word, kind in KINDS.items()}
FOREIGN = {SHORT: "short", REMOTE: "remote", FD: "fd", ERROR: "error"}
COUNTS = ["all", "frame", "bad", "short", "remote", "fd", "error", "other_bus", "drop", "note", "withheld"]
HEADER = "name,address,kind,first_time,last_time,entries,lamps,spn,fmi,count,contested"
NO_UNIT = "no unit's address"  # 254 and 255 (J1939-81)
UNITS_CLAIM = "cansend can0 18EAFFFE#00EE00"


class Options:
    """How a bus is watched. The silence is in milliseconds, or the standard's; 0 lets a packet come at any time. The address says whose sessions are
    shown, and without one all are; an address that nobody claimed has a row, or is told of where that is hidden."""

    def __init__(self):
        self.lists_unclaimed = True
        self.bus, self.address, self.assumed = None, None, []
        self.methods = {}  # of the units whose older codes are read
        self.each, self.unit, self.first, self.last, self.clock = False, None, None, None, Clocks.of("log")
        self.skips_bad, self.silence, self.strict = False, None, False
        self.most, self.keep = 65_536, 1_000_000  # of how many NAMEs is known at once, and how many runs are kept

    @staticmethod
    def of(words):
        """What the words behind `watch` mean."""
        given, words, asked = Options(), iter(words), [None, None]
        for word in words:
            if word == "--strict":
                given.strict = True
                continue
            word, _, value = word.partition("=")
            value = value or next(words)
            if word == "--bus":
                given.each, given.bus = value == "all", None if value == "all" else value
            elif word == "--unit":
                given.unit = ("name", int(value, 16)) if len(value) == 16 else ("address", int(value))
            elif word == "--from":
                asked[0] = value
            elif word == "--to":
                asked[1] = value
            elif word == "--clock":
                given.clock = Clocks.of(value)
            elif word == "--address":
                given.address = int(value)
            elif word == "--name":
                pass  # (it says nothing any more)
            elif word == "--assume":
                address, _, name = value.partition("=")
                given.assumed.append((int(address), int(name, 16)))
            elif word == "--conversion":
                name, _, method = value.partition("=")
                given.methods.setdefault(int(name, 16), int(method))  # of two the first counts
            elif word == "--bad":
                given.skips_bad = value == "skip"
            elif word == "--silence":
                given.silence = int(value)
            elif word == "--most":
                given.most = int(value)
            elif word == "--keep":
                given.keep = int(value)
            elif word == "--unclaimed":
                given.lists_unclaimed = value == "show"
            else:
                assert word == "--format", word
        given.first, given.last = (None if word is None else time_asked(word, given.clock) for word in asked)
        return given

    def shows(self, to):
        """Where one address is shown, what went to all or to it."""
        return self.address is None or to in (GLOBAL, self.address)

    def is_of_unit(self, who, source):
        """Whether what a unit sends from an address is of the unit of which alone it is told."""
        if self.unit is None:
            return True
        what, value = self.unit
        return value == (who if what == "name" and not isinstance(who, Unclaimed) else None if what == "name" else source)

    def is_in_time(self, now):
        """Whether it is told of a time; before any time it is."""
        return now is None or (self.first is None or self.first <= now) and (self.last is None or now <= self.last)


def unit_keys(name):
    """What a NAME says of its unit, under the keys of JSON."""
    fields = name_fields(name)
    return {"function": fields["function"], "instance": fields["function_instance"], "manufacturer": fields["manufacturer"], "identity": fields["identity"]}


def unit_values(who):
    """The same in a row of CSV, the shop's texts for the unit and for the code, of which there are none, and the NAME, which is no number there."""
    return [""] * 7 if isinstance(who, Unclaimed) else [*map(str, unit_keys(who).values()), "", "", "0x" + name_text(who)]


def csv_text(text):
    """A text from outside in a row of CSV: no terminal obeys it, and no spreadsheet, which takes one that begins so for a formula. In quotes where it has to be."""
    text = ("'" if text[:1] in tuple("=+-@") else "") + seen(text)
    return '"' + text.replace('"', '""') + '"' if any(mark in text for mark in ',"') else text


def field_words(name):
    """The same in words; of a function from 128 on with the industry group and the vehicle system, on which it depends (J1939-81)."""
    keys, fields = unit_keys(name), name_fields(name)
    of = f" (industry group {fields['industry_group']}, vehicle system {fields['vehicle_system']})" if keys["function"] > 127 else ""
    return f"function {keys['function']}{of} instance {keys['instance']}, manufacturer {keys['manufacturer']}, identity {keys['identity']}"


def source_words(address):
    """An address that a message came from; 255 is not all then."""
    return "255(FF)" if address == GLOBAL else address_words(address, True)


def time_asked(word, clock):
    """In microseconds: of seconds, whole or with a fraction of three, six or nine digits; of a date by the clock."""
    if "-" in word:
        return clock.asked(word)
    seconds, _, fraction = word.partition(".")
    return int(seconds) * 1_000_000 + int((fraction or "0").ljust(6, "0")[:6])


class Run:
    """Equal entries that came one after the other: what they show, where they went, how many, when the first and the last were complete."""

    def __init__(self, shown, to, contested, time):
        self.shown, self.to, self.contested, self.first, self.last, self.times = shown, to, contested, time, time, 1

    def words(self):
        """To whom it went, where that is not to all."""
        to = f" to {address_words(self.to, True)}" if self.to != GLOBAL else ""
        return shown_words(self.shown, True) + (" contested" if self.contested else "") + to + "".join(meaning_words(code.spn, code.fmi) for code in self.shown[1]) + (
            f"; {trouble_words(self.shown.trouble())}" if isinstance(self.shown, Part) else "")

    def object(self):
        to = {"to": self.to} if self.to != GLOBAL else {}
        return shown_object(self.shown) | {"contested": self.contested} | to


def is_same(one, other):
    return one[0] == other[0] and [code.data() for code in one[1]] == [code.data() for code in other[1]] and trouble_object(one) == trouble_object(other)


class Watch:
    """What was read, and what is written of it, in text and in JSON."""

    def __init__(self, options, name=None, told=None, ever=None, starts=()):
        """The name is that of one bus of several; `told` is where its text and its objects go then, `ever` what units of all buses told at any time;
        `starts` has the time of the first line that has one."""
        self.ever, self.starts = ever or EverInLog(), starts
        self.options, self.bus, self.name, self.heard = options, name or options.bus, name, Listener()
        self.pacing, self.broken = Pacing(options.silence), 0
        self.counts = dict.fromkeys([*COUNTS, "not_attributed"], 0)
        self.now = None  # the time of the newest line of the bus that has one
        self.runs = {}  # of each NAME and kind
        self.taken_over = {}  # of each address the time at which a claim last took it from another NAME
        self.told_unowned = set()
        self.kept, self.pairs, self.missed_before, self.unread_before, self.partly_before = 0, set(), 0, 0, 0
        self.identified = Identifications()
        self.text, self.objects = told or ([], [])
        for address, name in options.assumed:
            reach("an owner is assumed")
            self.tell(0, self.heard.take(claim(name, address)))

    # ---- how much is kept

    def held(self):
        """How many NAMEs with rows, units with lists, runs, and pairs between which messages were announced there are. A run of several codes counts as many."""
        return len(self.heard.names()), len({who for who, _ in self.runs}), self.kept, len(self.pairs)

    def owners(self):
        """Each claim that tells who owns an address, and then which one that NAME holds: NAMEs that hold one first, in their order."""
        heard, of = self.heard, {}
        for address in range(NULL):
            of.setdefault(heard.owner(address), []).append(address)
        for name in dict.fromkeys([*(name for name in heard.names() if heard.address_of(name) is not None), *of]):
            for address in [*of[name], heard.address_of(name)] if name is not None else []:
                yield name, address

    def start_over(self):
        """All that was heard is let go, but for who owns which address, and how many gaps there were; and what is contested."""
        reach("more is heard than is kept at once")
        owners = list(self.owners())
        if any(address is None for _, address in owners):
            reach("begun anew with the owner of an address that holds none")
        if len({address for _, address in owners}) > len({name for name, _ in owners}):
            reach("begun anew with the owner of an address that it has left")
        if self.heard.gaps:
            reach("begun anew behind a gap")
        self.missed_before, self.unread_before, self.partly_before = self.missed(), self.unread(), self.partly()
        self.heard, self.pacing, self.now = Listener(self.heard.gaps), Pacing(self.options.silence), None
        self.runs, self.told_unowned, self.kept, self.pairs = {}, set(), 0, set()
        self.identified.forget()
        if self.identified.of:
            reach("begun anew with an identification")
        for name, address in owners:
            self.heard.take(claim(name, address))

    def missed(self):
        return self.missed_before + self.heard.missed

    def unread(self):
        return self.unread_before + self.heard.unread

    def partly(self):
        """How many messages were read in part."""
        return self.partly_before + self.heard.partly

    def partly_object(self):
        return {"partly": self.partly()} if self.partly() else {}

    # ---- what a line is to the bus

    def is_watched(self, bus):
        """A line without a bus is of none. The first one that is named is watched where none was given."""
        if bus is None:
            reach("a line of no bus")
            self.counts["note"] += 1
            return False
        if self.bus is None:
            reach("the first bus that a line names is watched")
            self.bus = bus
        if bus != self.bus:
            reach("a line of another bus")
            self.counts["other_bus"] += 1
        return bus == self.bus

    def pass_time(self, time):
        if time is not None:
            if self.now is not None and time <= self.now:
                reach("a time that " + ("jumped back" if time < self.now else "is as before"))
            self.now = time

    def hear(self, number, line):
        self.counts["all"] += 1
        self.fate = "bus"
        if line.kind == "frame" and self.is_watched(line.bus):
            self.counts["frame"] += 1
            self.pass_time(line.time)
            self.fate = "told" if self.options.is_in_time(self.now) else self.now
            self.hear_frame(number, line.what, line.time)
        elif line.kind == "overflow" and self.is_watched(line.bus):
            self.counts["error"] += 1
            self.pass_time(line.time)
            self.tell(number, self.heard.take_gap(1))
        elif line.kind == "foreign" and self.is_watched(line.bus):
            self.counts[FOREIGN[line.what]] += 1
        elif line.kind == "dropped":
            self.hear_drops(number, line)
        elif line.kind == "note":
            self.counts["note"] += 1
        elif line.kind == "bad":
            self.hear_bad(number, line.what)

    def hear_drops(self, number, line):
        """They may have been of the watched bus unless another one is named."""
        if None not in (self.bus, line.bus) and line.bus != self.bus:
            reach("frames were dropped on another bus")
            return
        self.counts["drop"] += 1
        self.tell(number, self.heard.take_gap(line.what))

    def hear_bad(self, number, reason):
        """It may have been a claim, of any bus: a missed frame, unless bad lines are to be passed over."""
        self.counts["bad"] += 1
        reach("a bad line is " + ("passed over" if self.options.skips_bad else "a missed frame"))
        if not self.options.skips_bad:
            self.tell(number, self.heard.take_gap(1))

    def hear_frame(self, number, frame, time):
        """A packet that comes too late is withheld, and one that comes again, as it was asked for, is passed over."""
        before = {pair: found for pair in self.touched(frame) if (found := self.half_joined(*pair))}
        key, fate = self.heard.message_of(frame.source, frame.dest), "read"
        if frame.pgn == PACKET and self.is_followed(frame.dest):
            fate = self.pacing.packet(key, frame.data, time, before[frame.source, frame.dest][2] if (frame.source, frame.dest) in before else [])
        if fate != "late":
            self.hear_identification(number, frame, key)
        changes = self.heard.take(frame) if fate == "read" else []
        self.counts["withheld"] += fate == "late"
        what = control_of(frame)
        if what in (BAM, RTS):
            self.pairs.add((frame.source, frame.dest))
        if what == (BAM if frame.dest == GLOBAL else RTS) and self.is_followed(frame.dest):
            self.pacing.announce(key, frame.dest == GLOBAL, time)
        elif what == CTS and frame.source != GLOBAL and self.is_followed(frame.source):
            self.pacing.clear_to_send(self.heard.message_of(frame.dest, frame.source), frame.data[1], frame.data[2], time)
        self.tell(number, changes)
        if not any(what in ("entry", "unread") for what, *_ in changes):
            self.tell_broken(number, frame, fate, before)

    def hear_identification(self, number, frame, key):
        """It is kept where an entry of the same unit, from the same address to the same one, would be shown."""
        owner = self.heard.owner(frame.source)
        told = self.identified.take(frame, Unclaimed(frame.source, self.heard.gaps) if owner is None else owner, lambda number: self.pacing.asks_for(key, number))
        if told is None:
            return
        who, pgn, source, dest, payload = told
        shown = self.options.lists_unclaimed or not isinstance(who, Unclaimed)
        if shown and self.options.shows(dest) and self.options.is_in_time(self.now) and self.options.is_of_unit(who, source):
            if self.identified.tell(who, pgn, payload):
                word, text = IDENTIFIED[pgn], self.identified.of[who, pgn]
                self.write(number, word, f"{word} {self.who_words(who)}{':' if isinstance(who, Unclaimed) else ''} {words_of(pgn, text)}", **self.who_object(who), **{word: told_of(pgn, text)})
        else:
            reach("an identification that is not shown")

    def is_followed(self, dest):
        return dest == GLOBAL or self.heard.joins_sessions_to(dest)

    # ---- what is half joined

    def touched(self, frame):
        """Between which addresses a frame may end a message: of packets and of connection management the two, of a claim all from its source."""
        if claimed_name(frame) is not None and frame.source != NULL:
            return dict.fromkeys((frame.source, other.dest) for _, other in self.heard.read.get(frame.source, ()) if other.pgn == CONTROL)
        if frame.pgn == PACKET:
            return [(frame.source, frame.dest)]
        return [] if control_of(frame) is None else dict.fromkeys([(frame.source, frame.dest), (frame.dest, frame.source)])

    def half_joined(self, source, dest):
        if not self.is_followed(dest) or self.pacing.is_over(self.heard.message_of(source, dest)):
            return None
        return self.heard.under_way(source, dest)

    def open(self):
        """How many messages are half joined."""
        pairs = {(source, frame.dest) for source, read in self.heard.read.items() for _, frame in read if frame.pgn == CONTROL}
        return sum(self.half_joined(*pair) is not None for pair in pairs)

    def tell_broken(self, number, frame, fate, before):
        """What was half joined before a frame and is not behind it, or is another message, was broken by it."""
        for (source, dest), (at, start, packets) in sorted(before.items(), key=lambda item: item[0][1] if claimed_name(frame) is not None else 0):
            after = self.half_joined(source, dest)
            if after is not None and after[0] == at:
                continue
            self.broken += 1
            who, kind, of = self.heard.whose(source, at), control_pgn(start), start.data[3]
            shown = self.options.lists_unclaimed or not isinstance(who, Unclaimed)
            if not shown or not self.options.shows(dest) or not self.is_told((who, source)):
                continue
            why, by = self.why_broken(frame, fate, packets)
            to, word = f" to {address_words(dest, True)}" if dest != GLOBAL else "", WORD_OF[kind]
            self.write(number, "broken", f"broken {self.broken}: {word} of {self.who_words(who)}{to}, {len(packets)} of {of} packets: {why}", count=self.broken, **self.who_object(who),
                       kind=word, **({"to": dest} if to else {}), read=len(packets), of=of, why=why, **({} if by is None else {"by": by}))

    def why_broken(self, frame, fate, packets):
        """In words, and who aborted it."""
        if claimed_name(frame) is not None:
            return "claimed by another", None
        if control_of(frame) == ABORT:
            reason = f"{frame.data[1]} ({ABORTS[frame.data[1]]})" if frame.data[1] in ABORTS else f"{frame.data[1]}"
            return f"abort {reason} by {address_words(frame.source, True)}", frame.source
        if control_of(frame) in (BAM, RTS):
            return "announced anew", None
        if fate == "late" or control_of(frame) == CTS:
            return "late", None
        found, wanted = frame.data[0] if frame.data else 0, len(packets) + 1
        if 1 <= found < wanted and self.pacing.asks_for(self.heard.message_of(frame.source, frame.dest), found):
            return f"packet {found} came again with other bytes", None
        return f"packet {found} not of 8 bytes" if found == wanted else f"packet {found} for {wanted}", None

    # ---- what is told

    def tell(self, number, changes):
        self.loser = None
        for what, *of in changes:
            {"displaced": self.displaced, "unit": self.tell_unit, "lost": self.tell_lost, "entry": self.tell_entry, "missed": self.tell_missed,
             "unowned": self.tell_unowned, "ack": self.tell_ack, "unread": self.tell_unread}[what](number, *of)

    def time_told(self, micros):
        """A time by the clock that is asked for."""
        return self.options.clock.text(micros, self.starts[0] if self.starts else micros)

    def write(self, number, event, words, unit=None, behind={}, **told):
        """A change, and behind all else what the NAME says of a unit that claims or loses an address, or what of an entry is not read."""
        if self.now is None:
            reach("an event before any time")
        time = None if self.now is None else time_text(self.now)
        shown = "-" if self.now is None else self.time_told(self.now)
        self.text.append(f"{shown} {self.place()}{words}\n")
        self.objects.append(seen_json(dumped({"line": number, "time": time, "event": event, **told, **self.bus_object(),
                                              **({} if unit is None else unit_keys(unit)), **behind})) + "\n")

    def place(self):
        """A line says its bus where each is watched."""
        return f"{seen(self.name)} " if self.name else ""

    def bus_object(self):
        return {"bus": self.name} if self.name else {}

    def is_told(self, *whose):
        """Whether it is told of a change at this time of one of these units, each with the address."""
        if not self.options.is_in_time(self.now):
            reach("a change at a time of which it is not told")
            return False
        if not any(self.options.is_of_unit(*of) for of in whose):
            reach("a change of another unit than the one of which it is told")
            return False
        return True

    def displaced(self, _, source):
        """Told of by the entries that come soon after."""
        self.taken_over[source] = self.now

    def tell_unit(self, number, name, source):
        self.told_unowned.discard(source)
        losers = [] if self.loser is None else [(self.loser, source)]
        if not self.is_told((name, source), *losers):
            return
        if losers:
            self.write_lost(number, self.loser)
        self.write(number, "unit", f"unit {name_text(name)} ({field_words(name)}) at {address_words(source, True)}", name, name=name_text(name), address=source)

    def tell_lost(self, number, name, by_claim):
        """Who loses its address to a claim is told of with it; who cannot claim one is, where it is told of an address, told of too."""
        if by_claim:
            self.loser = name
        elif self.is_told((name, self.options.unit[1] if self.options.unit else None)):
            self.write_lost(number, name)

    def write_lost(self, number, name):
        self.write(number, "unit", f"unit {name_text(name)} has no address", name, name=name_text(name), address=None)

    def tell_missed(self, number, count):
        """With the owners all is forgotten that was told of addresses."""
        if count:
            self.taken_over.clear()
        self.told_unowned.clear()
        self.identified.forget()
        if not self.options.is_in_time(self.now):
            return
        self.write(number, "missed", f"missed {count}: no owner is known until units claim again ({UNITS_CLAIM})", count=count)

    def tell_unowned(self, number, source, counts=True):
        """Once of an address, until somebody claims it or frames are missed; not where what it sends is shown."""
        self.counts["not_attributed"] += counts
        if self.options.lists_unclaimed or not self.is_told((Unclaimed(source, 0), source)):
            return
        reach(("not told again" if source in self.told_unowned else "told") + " of an address without owner")
        if source not in self.told_unowned:
            reach("an address that nobody claimed is told of, and has no row")
            self.told_unowned.add(source)
            self.write(number, "unowned", f"unowned DM from {source_words(source)}, which nobody has claimed in what was read: not shown", address=source)

    def tell_ack(self, number, name, control, pgn, source, requester, to):
        """All, or those to the one address whose messages are shown."""
        if self.options.address not in (None, requester, to):
            reach("an acknowledgment to another address than the one that is shown")
            return
        if not self.is_told((name, source)):
            return
        answer = ANSWERS.get(control, f"control {control}")
        self.write(number, "ack", f"ack {name_text(name)}: {answer}, to {address_words(requester, True)}, of {group_words(pgn, True)}", name=name_text(name),
                   control=control, pgn=pgn, answer=answer, requester=requester)

    def tell_unread(self, number, count, who, kind, source, to, why, how):
        """Whose it is, too."""
        self.counts["not_attributed"] += isinstance(who, Unclaimed) and how == "single frame"
        count += self.unread_before
        if not self.is_told((who, source)):
            return
        word, sent = WORD_OF[kind], f" to {address_words(to, True)}" if to != GLOBAL else ""
        self.write(number, "unread", f"unread {count}: {word} of {self.who_words(who)}{sent}: {why}", count=count, **self.who_object(who), kind=word,
                   **({"to": to} if sent else {}), why=why)

    def is_contested(self, source):
        """Whether a claim took the address from another NAME less than 250 ms before."""
        if source not in self.taken_over:
            return False
        if self.taken_over[source] is None:
            reach("an entry of an address that was taken over by a line without a time")
            return False
        contested = self.now is not None and self.now - self.taken_over[source] < CONTEST
        reach("a contested entry" if contested else "an entry of an address that was taken over 250 ms ago or more")
        return contested

    def tell_entry(self, number, who, kind, source, to, shown, how):
        """Only where it is not equal to the one before it, or of those two one alone is contested, or they went to different addresses."""
        if isinstance(who, Unclaimed) and not self.options.lists_unclaimed:
            self.tell_unowned(number, source, how == "single frame")
            return
        self.counts["not_attributed"] += isinstance(who, Unclaimed) and how == "single frame"
        if not self.options.shows(to):
            reach("an entry to another address than the one that is shown")
            return
        if not self.is_told((who, source)):
            return
        if isinstance(shown, Part) and who in self.options.methods:
            shown = shown.by(self.options.methods[who])
            reach("an older code is read by its unit's method" if shown.trouble()["converted"] else "a unit's method reads no code")
        runs, contested = self.runs.setdefault((who, kind), []), self.is_contested(source)
        begins = not (runs and is_same(runs[-1].shown, shown) and runs[-1].contested == contested and runs[-1].to == to)
        self.ever.hear((self.name, who), kind, shown, self.now, begins)
        if not runs or not is_same(runs[-1].shown, shown):
            reach("an entry is another one than the one before it" if runs else "an entry begins a list")
        elif runs[-1].to != to:
            reach("an entry is equal to the one before it, but went elsewhere")
        elif runs[-1].contested != contested:
            reach("an entry is equal to the one before it, " + ("but contested" if contested else "which was contested"))
        else:
            reach("an entry is equal to the one before it")
            runs[-1].times += 1
            runs[-1].last = self.now
            return
        runs.append(Run(shown, to, contested, self.now))
        self.kept += max(1, len(shown[1]))
        word = WORD_OF[kind]
        unit = self.who_words(who) + (":" if isinstance(who, Unclaimed) else "")
        self.write(number, word, f"{word} {unit} {runs[-1].words()}", **self.who_object(who), **runs[-1].object(),
                   entry=self.entries(who, kind), behind=trouble_object(shown))

    # ---- whose a message is

    def address_of(self, who):
        return who.address if isinstance(who, Unclaimed) else self.heard.address_of(who)

    def who_words(self, who):
        """An address that nobody claimed is another unit behind each gap, and is told apart."""
        if not isinstance(who, Unclaimed):
            return name_text(who)
        return self.unclaimed_words(who, source_words(who.address))

    @staticmethod
    def unclaimed_words(who, address):
        return f"address {address}, {'no claim seen' if who.address < NULL else NO_UNIT}" + (f" since gap {who.gaps}" if who.gaps else "")

    def who_object(self, who):
        if isinstance(who, Unclaimed):
            return {"name": None, "address": who.address, "gaps": who.gaps}
        return {"name": name_text(who), "address": self.address_of(who)}

    def rows(self):
        """The NAMEs in the order of their first claims, then the addresses that nobody claimed, in the order of their first entries."""
        unclaimed = dict.fromkeys(who for who, _ in self.runs if isinstance(who, Unclaimed))
        for who in unclaimed:
            reach("a row of an address that nobody claimed" + (" since a gap" if who.gaps else ""))
        alone = [who for who in self.identified.units() if isinstance(who, Unclaimed) and who not in unclaimed]
        for who in alone:
            reach("a row of an address that nobody claimed and that told an identification alone")
        return [who for who in [*self.heard.names(), *unclaimed, *alone] if self.has_row(who)]

    def has_row(self, who):
        """The unit of which alone it is told has one, and each that has or had the address of which it is."""
        if self.options.unit is None:
            return True
        what, value = self.options.unit
        if what == "name":
            return who == value and not isinstance(who, Unclaimed)
        return self.address_of(who) == value or who in self.identified.units() or any(self.runs_of(who, kind) for kind in KINDS.values())

    def entries(self, name, kind):
        return sum(run.times for run in self.runs_of(name, kind))

    def runs_of(self, name, kind):
        return self.runs.get((name, kind), [])

    # ---- the report

    @staticmethod
    def time(micros):
        return None if micros is None else time_text(micros)

    def is_assumed(self, who):
        return any(assumed == who for _, assumed in self.options.assumed)

    def text_row(self, who):
        """The NAME, its address, how many messages of each kind, and of the newest DM1 the lamps and how many codes."""
        address, newest = self.address_of(who), self.runs_of(who, KINDS["dm1"])[-1:]
        if address is None:
            reach("a row without an address")
        if not newest:
            reach("a row without a DM1")
        if self.is_assumed(who):
            reach("a row of a NAME that was assumed")
        entries = " ".join(f"{self.entries(who, kind):6}" for kind in KINDS.values())
        last = f"{len(newest[0].shown[1]):4} {lamp_words(newest[0].shown[0])} ({newest[0].shown[0].hex().upper()})" + (" in part" if isinstance(newest[0].shown, Part) else "") if newest else "   - -"
        vin = self.identified.vin(who)
        if isinstance(who, Unclaimed):
            return f"{self.who_words(who)} {entries} {last}{vin}"
        held = "none" if address is None else address_words(address, True)
        return f"{name_text(who)} {held:>7} {entries} {last}" + (" assumed" if self.is_assumed(who) else "") + f"; {field_words(who)}{vin}"

    def rows_text(self):
        """Units whose red stop lamp was on at any time stand before the others."""
        rows = [[self.text_row(who), *self.identified.lines(who), *self.ever.text((self.name, who), self.time_told)] for who in sorted(self.rows(), key=lambda who: not self.ever.was_red((self.name, who)))]
        return "".join(f"{self.place()}{line}\n" for lines in rows for line in lines) + f"{self.place()}missed {self.missed()} unread {self.unread()}" + (
            f" partly {self.partly()}" if self.partly() else "") + "\n" + (
            f"{self.place()}broken {self.broken} open {self.open()}\n" if self.broken or self.open() else "")

    @staticmethod
    def report_text(watches, counts):
        return "".join(watch.rows_text() for watch in watches) + "".join(watch.ever.left_out_text() for watch in watches[:1]) + (
            f"lines {counts['all']} frames {counts['frame']} bad {counts['bad']}; "
            f"not J1939: 11-bit {counts['short']}, remote {counts['remote']}, CAN FD {counts['fd']}, error {counts['error']}; "
            f"other bus {counts['other_bus']}; not attributed {counts['not_attributed']}"
        ) + (f"; withheld {counts['withheld']}" if counts["withheld"] else "") + "\n"

    def row_object(self, who):
        row = self.who_object(who) | ({"assumed": True} if self.is_assumed(who) else {})
        for word, kind in KINDS.items():
            row[word] = [{"times": run.times, "first": self.time(run.first), "last": self.time(run.last), **run.object(), **trouble_object(run.shown)}
                         for run in self.runs_of(who, kind)]
        return row | self.bus_object() | ({} if isinstance(who, Unclaimed) else unit_keys(who)) | self.ever.object((self.name, who)) | self.identified.object(who)

    @staticmethod
    def report_object(watches, counts, options, head={"event": "report"}):
        buses = [watch.bus_object() | {"missed": watch.missed(), "unread": watch.unread()} | watch.partly_object() for watch in watches]
        partly = sum(watch.partly() for watch in watches)
        return seen_json(dumped(head | {"rows": [watch.row_object(who) for watch in watches for who in watch.rows()],
                       "missed": sum(bus["missed"] for bus in buses), "unread": sum(bus["unread"] for bus in buses),
                       "lines": {key: counts[key] for key in COUNTS}, "not_attributed": counts["not_attributed"],
                       "not_sent": 0}
                      | ({"buses": buses} if options.each else {}) | ({"ever_left_out": watches[0].ever.left_out} if watches and watches[0].ever.left_out else {}) | ({"partly": partly} if partly else {})
                      | {"broken": sum(watch.broken for watch in watches), "open": sum(watch.open() for watch in watches)})) + "\n"

    @staticmethod
    def header(options):
        return HEADER + ",to" + (",bus" if options.each else "") + ",function,instance,manufacturer,identity,unit_text,code_text,name_hex" + EVER_HEADER + ",fmi_text,not_read" + "".join(f",{word}" for word in IDENTIFIED.values()) + "\n"

    @staticmethod
    def report_rows(watches, options):
        """A row for each code of each run; without a code one for the run, and without entries one for the NAME."""
        return "".join(",".join([*row, *([watch.csv_bus()] if options.each else []), *unit_values(who), *ever, *map(csv_text, watch.identified.values(who))]) + "\n"
                                for watch in watches for who in watch.rows() for row, ever in watch.rows_of(who))

    def csv_bus(self):
        return csv_text(self.name)

    def rows_of(self, who):
        address, found = self.address_of(who), False
        before = [f'"{self.unclaimed_words(who, who.address)}"' if isinstance(who, Unclaimed) else name_text(who), "" if address is None else str(address)]
        for word, kind in KINDS.items():
            for run in self.runs_of(who, kind):
                found = True
                times = ["" if time is None else time_text(time) for time in (run.first, run.last)]
                to = "" if run.to == GLOBAL else str(run.to)
                for code in run.shown[1] or [None]:
                    yield [*before, word, *times, str(run.times), run.shown[0].hex().upper(), *self.code_values(code), "true" if run.contested else "false", to], self.ever.values(
                        (self.name, who), kind, code) + [csv_text(FAILURE_MODES[code.fmi]) if code else "", f'"{trouble_words(run.shown.trouble())}"' if isinstance(run.shown, Part) else ""]
        if not found:
            reach("a row without entries")
            yield before + [""] * 10, [""] * 11

    @staticmethod
    def code_values(code):
        if code is None:
            return ["", "", ""]
        if code.count == NOT_AVAILABLE:
            reach("a count that is not available")
        return [str(code.spn), str(code.fmi), "" if code.count == NOT_AVAILABLE else str(code.count)]


class Buses:
    """A watch of one bus, or of each that a line names, up to 16. Each hears the lines that name its bus, from the first on, and those that tell
    of missed frames of no bus that is named."""

    MOST = 16

    def __init__(self, options):
        self.options, self.told, self.rows = options, ([], []), []
        self.ever, self.starts = EverInLog(), []
        self.one = None if options.each else Watch(options, told=self.told, ever=self.ever, starts=self.starts)
        self.of = {}
        self.counts = dict.fromkeys(COUNTS, 0)

    def watches(self):
        return list(self.of.values()) if self.one is None else [self.one]

    def fate_of(self, line):
        """What a frame that was just heard is to whom the lines are read for."""
        watch = self.of.get(line.bus) if self.one is None else self.one
        return watch.fate if watch else "bus"

    def hear(self, number, line):
        if line.kind == "frame" and line.time is not None and not self.starts:
            self.starts.append(line.time)
        self.ever.pass_line(line, self.options.last)
        if self.one is not None:
            self.one.hear(number, line)
            return
        self.counts["all"] += 1
        if line.kind == "bad" or line.kind == "dropped" and line.bus is None:
            reach("missed frames of each bus")
            self.counts["bad" if line.kind == "bad" else "drop"] += 1
            for watch in self.of.values():
                watch.hear(number, line)
        elif line.kind == "dropped":
            self.counts["drop"] += 1
            if line.bus in self.of:
                self.of[line.bus].hear(number, line)
        elif line.kind == "note" or line.bus is None:
            self.counts["note"] += 1
        else:
            self.hear_of(number, line)

    def hear_of(self, number, line):
        if line.bus not in self.of and len(self.of) < self.MOST:
            reach("one more of several buses")
            self.of[line.bus] = Watch(self.options, line.bus, self.told, self.ever, self.starts)
        if line.bus not in self.of:
            self.counts["other_bus"] += 1
            return
        self.counts[{"frame": "frame", "overflow": "error"}.get(line.kind) or FOREIGN[line.what]] += 1
        self.of[line.bus].hear(number, line)

    def is_full(self):
        """All buses together have as much as may be kept. Each has room for a NAME at each address."""
        names, units, runs, pairs = map(sum, zip(*(watch.held() for watch in self.watches()))) if self.watches() else (0, 0, 0, 0)
        most = max(self.options.most, 512 * len(self.watches()))
        return names >= most or units >= most or runs >= self.options.keep or pairs >= MOST_PAIRS

    def make_room(self, number):
        """Before a line is heard: where there is as much as may be kept, all that was heard so far is reported, and each bus is begun anew. Tells what
        is told of it the first time."""
        if not self.is_full():
            return ""
        watches, counts = self.watches(), self.all_counts()
        self.told[0].append(f"over at line {number}, so far:\n" + Watch.report_text(watches, counts))
        self.told[1].append(Watch.report_object(watches, counts, self.options, {"line": number, "event": "over"}))
        self.rows.append(Watch.report_rows(watches, self.options))
        for watch in watches:
            watch.start_over()
        return "" if len(self.rows) > 1 else (
            f"line {number}: more than is kept at once, {self.options.most} NAMEs (--most) and {self.options.keep} runs (--keep): what was heard so far "
            "is reported, and it is begun anew with the units that hold addresses\n")

    def all_counts(self):
        if self.one is not None:
            return self.one.counts
        return self.counts | {key: sum(watch.counts[key] for watch in self.of.values()) for key in ("withheld", "not_attributed")}


def watched(lines, options):
    """What is written of lines in text, JSON and CSV, what is told of bad ones, and the status."""
    buses, errors, bad, clock, absence, unread = Buses(options), [], BadLines(), Clock(), Absence(), ""
    for number, line in enumerate(lines, 1):
        heard, told = clock.heard(number, line)
        errors += [bad.told(number, line), buses.make_room(number), told]
        buses.hear(number, heard)
        absence.take(heard, buses.fate_of(heard))
        if line.kind == "bad" and options.strict:
            reach("a bad line ends a strict run")
            break
    else:
        errors.append(clock.rest())
        unread = without_frames(lines) or absence.rest(None if options.each else options.bus or "", options.first, options.last)
    errors += [bad.rest(), unread]
    watches, counts = buses.watches(), buses.all_counts()
    text = "".join(buses.told[0]) + Watch.report_text(watches, counts)
    status = 3 if counts["bad"] or unread or buses.rows else 0
    report = {"text": text, "json": "".join(buses.told[1]) + Watch.report_object(watches, counts, options), "csv": Watch.header(options) + "".join(buses.rows) + Watch.report_rows(watches, options)}
    return report, "".join(errors), status
