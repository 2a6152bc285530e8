"""What must stand on a page, from the events of `watch --format json` over the same log, by the rules of docs/WATCH.md.

It knows what the log's last time is, the rows of unit and code texts as they were written, and the JSON; nothing of how a page is made.
"""
import html
import re

from model.ever import Told, codes_ever, lamps_ever, rank, silence
from model.ever_reported import duration
from model.identifications import FIELDS
from model.words import FAILURE_MODES, trouble_words

WORST = ["stop", "amber", "mil", "protect"]
PLACES = {"mil": 6, "stop": 4, "amber": 2, "protect": 0}
FLASHES = {0: " flashing slowly", 1: " flashing fast"}
ACKNOWLEDGED = ["acknowledged a request of group", "refused a request of group", "denied access to group", "cannot respond now to a request of group"]
LISTED, IN_A_ROW = 20, 8
LEAST = 0.3  # how wide a bar is at least, in percent
# How far the marks of the axis may be apart, up to a day.
STEPS = [it * 1000 for it in (1, 2, 5, 10, 20, 50, 100, 200, 500, *(1000 * it for it in (1, 2, 5, 10, 15, 30, 60, 120, 300, 600, 900, 1800, 3600, 7200, 14_400)))]
ROWS, HANDOVERS, CHANGES, LANES = 1000, 50, 500, 64
# Of each identification but the VIN its key in JSON, its word on the page, and the names of its fields.
IDENTIFIED = {"component": ("component", FIELDS[65259]), "software": ("software", []), "ecu": ("ECU", FIELDS[64965])}


def micros(time):
    seconds, _, parts = time.partition(".")
    return int(seconds) * 1_000_000 + int(parts)


def clock(time, thousandths=False):
    """A time of day by UTC."""
    seconds = time // 1_000_000 % 86_400
    return f"{seconds // 3600:02}:{seconds // 60 % 60:02}:{seconds % 60:02}" + (f".{time // 1000 % 1000:03}" if thousandths else "")


def shortened(text, most):
    """A text of so many bytes at most, and a mark where it has more."""
    return text if len(text.encode()) <= most else text.encode()[:most].decode(errors="ignore") + "…"


def identification_words(fields, names):
    """Fields that are not empty, each behind its name; of a text that is cut the front, and dots."""
    text = "*".join(fields)
    is_cut = len(re.sub(r"\\x[0-9A-F]{2}", "?", text)) > 200
    told = [(names[at] + " " if at < len(names) else "") + field for at, field in enumerate((text[:-3] if is_cut else text).split("*")) if field]
    return (", ".join(told) or "-") + ("..." if is_cut else "")


def counted(count, one, many):
    return f"{count} {one if count == 1 else many}"


def lamps_on(lamps):
    """The lamps that are on, from the worst, each with how it flashes (J1939-73, 5.7.1)."""
    on, flash = bytes.fromhex(lamps)
    return [(word, FLASHES.get(flash >> PLACES[word] & 3, "")) for word in WORST if on >> PLACES[word] & 3 == 1]


class Name:
    """What a NAME says (J1939-81, 4.1.1)."""

    def __init__(self, name):
        number = int(name, 16)
        self.identity, self.manufacturer = number & 0x1FFFFF, number >> 21 & 0x7FF
        self.instance, self.function = number >> 35 & 31, number >> 40 & 255
        self.vehicle_system, self.industry_group = number >> 49 & 127, number >> 60 & 7

    def words(self):
        system = f" (industry group {self.industry_group}, vehicle system {self.vehicle_system})" if self.function >= 128 else ""
        return f"function {self.function}{system} instance {self.instance}, manufacturer {self.manufacturer}, identity {self.identity}"


class Texts:
    """The shop's texts: rows of units, by columns, and of codes. Of those that fit the most exact counts, of equally exact ones the last."""

    COLUMNS = ("name", "function", "industry_group", "vehicle_system", "manufacturer")

    def __init__(self, units=(), codes=()):
        self.units, self.codes = units, codes

    def unit(self, name):
        said = Name(name)
        own = {"name": name, **{it: getattr(said, it) for it in self.COLUMNS[1:]}}
        fitting = [row for row in self.units if all(own[it] == row[it] for it in self.COLUMNS if it in row)]
        best = max(enumerate(fitting), key=lambda it: ([column in it[1] for column in self.COLUMNS], it[0]), default=None)
        return best[1]["text"] if best else None

    def code(self, spn, fmi):
        """The text of both; else that of the SPN, and that of the FMI behind it."""
        def last(**wanted):
            return next((row["text"] for row in reversed(self.codes) if {it: row[it] for it in row if it != "text"} == wanted), None)

        return last(spn=spn, fmi=fmi) or ", ".join(it for it in (last(spn=spn), last(fmi=fmi)) if it) or None

    def meaning(self, spn, fmi):
        return self.shown(spn, fmi) or FAILURE_MODES[fmi]

    def shown(self, spn, fmi):
        """The text as a page shows it."""
        text = self.code(spn, fmi)
        return text and shortened(text, 120)


class Page:
    """The page that the events and the report of a log make."""

    def __init__(self, events, times, texts, with_buses):
        """`times` has of each line the last time that was told up to it."""
        self.events, self.report = events[:-1], events[-1]
        self.times, self.end, self.texts = times, times[-1], texts
        self.start = next(it for it in times if it is not None)
        buses = [it["bus"] for it in self.report["buses"]] if "buses" in self.report else []
        self.names_buses = with_buses and len(buses) > 1
        self.follow()
        self.units = [Unit(self, row) for row in self.report["rows"]]
        # (a sort that keeps the order of equal ones)
        self.ordered = sorted(self.units, key=Unit.order)

    def key(self, event):
        return event.get("bus"), event["name"] or (event.get("address"), event.get("gaps", 0))

    def label(self, key):
        bus, who = key
        if isinstance(who, str):
            said = Name(who)
            text, identity = shortened(self.texts.unit(who) or "", 80) or f"Function {said.function} instance {said.instance}", who
        else:
            text, identity = f"Address {who[0]}", "no claim seen" + (f" since gap {who[1]}" if who[1] else "")
        return f"{text} {identity}" + (f" on {bus}" if self.names_buses else "")

    def follow(self):
        """Follows claims and gaps: who lost what to whom, the spans of each address, and the changes as they are told."""
        self.handed, self.changes, self.spans, holding = [], [], {}, {}
        # (of units: how they stand; unclaimed addresses whose sender may be another one now)
        self.known, self.passed, self.seen, heard, left = {}, set(), {}, set(), None
        for event in self.events:
            told = event["event"]
            bus = event.get("bus")
            at = self.times[event["line"] - 1]
            if told in ("unit", "dm1", "dm2", "dm6"):
                self.seen.setdefault(self.key(event), len(self.seen))
            if told == "unit" and event["address"] is None:
                key = self.key(event)
                left = (event["line"], bus, key, holding.pop(key, None))
                self.end_span(key, at)
                self.known[key] = "gone"
                self.changes.append([event, f"{self.label(key)}", "holds no address"])
            elif told == "unit":
                key = self.key(event)
                lost_by = left[2] if left and left[:2] == (event["line"], bus) and left[3] == event["address"] else None
                words = f"holds address {event['address']}"
                if lost_by:
                    self.changes.pop()
                    self.handed.append((at, lost_by, event["address"], key))
                    words += f", which was lost by {self.label(lost_by)}"
                self.changes.append([event, self.label(key), words])
                self.end_span(key, at)
                holding[key] = event["address"]
                self.known[key] = "on"
                self.spans.setdefault(key, []).append([at, self.end, event["address"]])
                self.passed |= {it for it in heard if it[0] == bus and it[1][0] == event["address"]}
            elif told == "missed":
                for key in [it for it in holding if it[0] == bus]:
                    holding.pop(key)
                    self.known[key] = "unknown"
                    self.end_span(key, at)
                self.passed |= {it for it in heard if it[0] == bus}
                on = f"on {bus}" if self.names_buses else ""
                self.changes.append([event, on, f"{event['count']} frames missed: who holds which address is not known until units claim again"])
            elif told == "ack":
                self.changes.append([event, self.label(self.key(event)), f"{ACKNOWLEDGED[event['control']]} {event['pgn']}"])
            elif told == "unread":
                self.changes.append([event, self.label(self.key(event)), f"a {event['kind'].upper()} that could not be read"])
            elif told in ("dm1", "dm2", "dm6"):
                self.changes.append([event, self.label(self.key(event)), f"{told.upper()}: {self.brief(event)}"])
            if told not in ("unit", "missed", "vin", "component", "software", "ecu") and event["name"] is None:
                heard.add(self.key(event))

    def end_span(self, key, at):
        if self.spans.get(key) and self.spans[key][-1][1] == self.end:
            self.spans[key][-1][1] = at

    def brief(self, event):
        """A message in a line."""
        codes = event["codes"]
        lamps = ", ".join(word + flash for word, flash in lamps_on(event["lamps"])) or "no lamp"
        count = len(codes) if len(codes) <= IN_A_ROW else IN_A_ROW - 1
        told = []
        for code in codes[:count]:
            text = self.texts.shown(code["spn"], code["fmi"])
            told.append(f"{code['spn']}/{code['fmi']}" + (f" {text}" if text else ""))
        more = f" and {len(codes) - count} more" if len(codes) > count else ""
        partly = " (read in part)" if "not_read" in event else ""
        return f"{lamps}; " + (", ".join(told) or no_code(event)) + more + partly + (" (in doubt)" if event["contested"] else "")

    # ---- its parts, as text

    def chips(self):
        on = [it for it in self.units if it.presence == "on"]
        faulty = [it for it in on if it.rank_now() >= 1]
        ever = sum(1 for it in self.units if it.rank_ever())
        words = f"{len(faulty)} of {counted(len(on), 'unit on the bus reports faults', 'units on the bus report faults')}"
        found = [words + (f" at the end, {counted(ever, 'unit had', 'units had')} faults in this log" if ever else "")]
        for lamp in WORST:
            had = sum(1 for it in self.units if lamp in lamps_ever(it.told("dm1")))
            now = sum(1 for it in faulty if lamp in dict(lamps_on(it.newest("dm1")["lamps"])))
            found += [f"lamp {lamp} on: {counted(now, 'unit', 'units')} at the end, {had} in this log"] if had else []
        partly = sum(1 for it in on if it.silence() is None and "not_read" in (it.newest("dm1") or {}))
        found += [f"DM1 read in part: {counted(partly, 'unit', 'units')}"] if partly else []
        silent = sum(1 for it in self.units if it.silence() is not None)
        found += [f"DM1 fell silent: {counted(silent, 'unit', 'units')}"] if silent else []
        handed = list(dict.fromkeys(address for _, _, address, _ in self.handed))
        more = f" and {len(handed) - 8} more" if len(handed) > 8 else ""
        found.append("changed hands: address " + ", ".join(map(str, handed[:8])) + more if handed else "no address changed hands")
        missed = self.report["missed"]
        return [*found, counted(missed, "frame missed", "frames missed") if missed else "no frame missed"]

    def rows(self):
        more = len(self.ordered) - ROWS
        return [it.row() for it in self.ordered[:ROWS]] + ([[f"and {more} more units"]] if more > 0 else [])

    def handovers(self):
        return [f"{clock(at, True)}: {self.label(lost)} lost address {address} to {self.label(took)}" for at, lost, address, took in self.handed[:HANDOVERS]]

    def left_out(self):
        """What is told of that is not there."""
        more = len(self.handed) - HANDOVERS
        drawn = set(sorted(self.seen, key=self.seen.get)[:LANES])
        undrawn = sum(1 for event in self.events if event["event"] in ("unit", "dm1", "dm2", "dm6") and self.key(event) not in drawn)
        return [*([f"and {more} more times"] if more > 0 else []), *([f"Not drawn: {undrawn} changes of further units."] if undrawn else [])]

    def changes_told(self):
        told = [[clock(self.times[event["line"] - 1], True), str(event["line"]), " ".join(unit.split()), what] for event, unit, what in self.changes]
        more = len(told) - 2 * CHANGES
        return told if more <= 0 else [*told[:CHANGES], [f"{more} changes are left out here"], *told[-CHANGES:]]

    def lanes(self):
        """Of each unit the titles of the bars in its lane."""
        return [(whose, [title for title, *_ in bars]) for whose, bars in self.bars()]

    def bars(self):
        """The same with the times from which and to which each bar is."""
        found = []
        by_lane = sorted((it for it in self.units if it.key in self.seen), key=lambda it: self.seen[it.key])
        for unit in sorted(by_lane[:LANES], key=Unit.lane_order):
            bars = [(f"address {address}, {span(first, last)}", first, last) for first, last, address in self.spans.get(unit.key, [])]
            for kind in ("dm1", "dm2", "dm6"):
                for run in unit.row_of[kind]:
                    times = f", {run['times']} times" if run["times"] > 1 else ""
                    first, last = micros(run["first"]), micros(run["last"])
                    bars.append((f"{kind.upper()}, {span(first, last)}{times}: {self.brief(run)}", first, last))
            found.append((self.label(unit.key), bars))
        return found

    def head(self):
        buses = ", ".join(it["bus"] for it in self.report.get("buses", []) if it["bus"])
        return f"{duration(self.end - self.start)}), {self.report['lines']['all']} lines" + (f", bus {buses}" if buses else "") + "</p>"

    def vins(self):
        """Those that units told, of which the page has up to three in its head."""
        return {" ".join(row["vin"].split()) for row in self.report["rows"] if "vin" in row}

    def place(self, time):
        """Where a time stands, in percent of the width."""
        return 100 * (time - self.start) / max(1, self.end - self.start)

    def misplaced(self, page):
        """Bars of a page that stand elsewhere than their times are, by more than what a bar is wide at least; and marks of the axis."""
        found = []
        for (_, told), (_, wanted) in zip(bars_of(page), self.bars()):
            told = [it for it in told if "missed" not in it[2]]
            for (at, width, title), (_, first, last) in zip(told, wanted):
                begun, ended = self.place(first), self.place(last)
                if not (begun - LEAST - 0.02 <= at <= begun + 0.02 and max(LEAST, ended - begun) - 0.02 <= width <= max(LEAST, ended - begun) + LEAST + 0.02 and at + width <= 100.01):
                    found.append(f"{title} stands at {at} and is {width} wide, and is of {begun:.2f} to {ended:.2f}")
        return found[:3]

    def axis(self, page):
        return misdrawn_axis(page, self.start, self.end)


def misdrawn_axis(page, start, end, is_relative=False):
    """What is wrong with the marks of the axis: they stand at round times of the clock, one step apart, from the first to the last that there is; each
    second one is left out of a narrow page, the words of the outermost stay on the page, and each lane has a line at each mark."""
    body = re.search(r'(?s)<svg [^>]*class="axis"[^>]*>(.*?)</svg>', page)[1]
    marks = re.findall(r'<text x="([0-9.]+)%" y="14" class="mark( odd)?( left)?( right)?">([^<]*)</text>', body)
    found = [] if body == "".join(f'<text x="{at}%" y="14" class="mark{"".join(more)}">{text}</text>' for at, *more, text in marks) else [f"the axis is {body!r}"]
    # (a step that is the least by which there are eight at most; by relative times from the start on)
    step = next((it for it in STEPS if (end - start) // it <= 8), STEPS[-1])
    first = start if is_relative else -(-start // step) * step
    times = range(first, end + 1, step)
    wanted = [relative(it - start, step < 1_000_000) if is_relative else clock(it, step < 1_000_000) for it in times]
    found += [] if [text for *_, text in marks] == wanted else [f"the marks are {[text for *_, text in marks]}, wanted {wanted}"]
    for number, ((at, odd, left, right, text), time) in enumerate(zip(marks, times)):
        at, place = float(at), 100 * (time - start) / max(1, end - start)
        found += [f"the mark {text} stands at {at}"] if abs(at - place) > 0.02 else []
        if (odd, left, right) != (" odd" * (number % 2), " left" * (at < 5), " right" * (at > 95)):
            found.append(f"the mark {text} at {at} is{odd}{left}{right}")
    for lane in re.findall(r'(?s)<svg [^>]*class="lane"[^>]*>(.*?)</svg>\n', page):
        lines = re.findall(r'<line x1="([0-9.]+)%" x2="([0-9.]+)%" y1="0" y2="100%" class="mark"/>', lane)
        if lines != [(at, at) for at, *_ in marks]:
            found.append(f"a lane has the lines {lines}")
    return found[:3]


def relative(time, thousandths):
    """How long after the start."""
    seconds = time // 1_000_000
    return f"+{seconds // 3600}:{seconds // 60 % 60:02}:{seconds % 60:02}" + (f".{time // 1000 % 1000:03}" if thousandths else "")


class Unit:
    """A unit of the report."""

    def __init__(self, page, row):
        self.page, self.row_of = page, row
        self.key = row.get("bus"), row["name"] or (row["address"], row.get("gaps", 0))
        self.presence = self.is_on()

    def is_on(self):
        if self.row_of["name"] is None:
            return "past" if self.key in self.page.passed else "on"
        if self.row_of["address"] is not None:
            return "on"
        return self.page.known.get(self.key, "gone")

    def newest(self, kind):
        runs = self.row_of[kind]
        return runs[-1] if runs else None

    def told(self, kind):
        """Its messages, as far as what is told of ever wants them: the first and the last of equal ones."""
        found = []
        for run in self.row_of[kind]:
            codes = [(it["spn"], it["fmi"]) for it in run["codes"]]
            found += [Told(micros(run[at]), bytes.fromhex(run["lamps"])[0], codes) for at in ("first", "last")]
        return found

    def silence(self):
        return silence(self.told("dm1"), self.page.end)

    def rank_ever(self):
        return rank(self.told("dm1"))

    def rank_now(self):
        newest = self.newest("dm1")
        if newest is None or self.silence() is not None:
            return 0
        on = lamps_on(newest["lamps"])
        # (what could not be read may be a code)
        return 5 - WORST.index(on[0][0]) if on else 1 if newest["codes"] else 0.5 if "not_read" in newest else 0

    def order(self):
        """The worst at any time first, then the worst at the end; those that are gone behind them."""
        is_gone = self.presence in ("gone", "past")
        return -self.rank_ever(), is_gone, 0 if is_gone else -self.rank_now()

    def lane_order(self):
        """The same of lanes; to them a DM1 of which not all could be read is worse than one without a fault, at any time."""
        partly = any("not_read" in run for run in self.row_of["dm1"])
        return max(self.rank_ever(), 0.5 if partly else 0) * -1, *self.order()[1:]

    def row(self):
        """Its row of the table: what it is called, then each cell."""
        said = f" {Name(self.row_of['name']).words()}" if self.row_of["name"] else ""
        said += f" VIN {' '.join(self.row_of['vin'].split())}" if "vin" in self.row_of else ""
        said += "".join(f" {word}: {' '.join(identification_words(self.row_of[key], names).split())}" for key, (word, names) in IDENTIFIED.items() if key in self.row_of)
        address = self.row_of["address"] if self.row_of["address"] is not None else "not known" if self.presence == "unknown" else "none"
        counts = [str(sum(run["times"] for run in self.row_of[kind])) for kind in ("dm1", "dm2", "dm6")]
        return [self.page.label(self.key) + said, str(address), self.lamps(), self.faults(), self.ever(), *counts]

    def lamps(self):
        newest = self.newest("dm1")
        if newest is None:
            return ""
        return "not known" if self.silence() is not None else " ".join(word + flash for word, flash in lamps_on(newest["lamps"]))

    def faults(self):
        newest, found = self.newest("dm1"), []
        if self.silence() is not None:
            found.append(f"not heard for the last {duration(self.silence())}, so not current; last told:")
        if newest is None:
            found.append("sent no DM1")
        else:
            found += [] if newest["codes"] else ["no readable code" if "not_read" in newest else "no active code"]
            for code in newest["codes"][:LISTED]:
                count = "" if code["count"] is None else f"; seen {counted(code['count'], 'time', 'times')}"
                found.append(f"SPN {code['spn']} FMI {code['fmi']} {self.page.texts.meaning(code['spn'], code['fmi'])}{count}")
            found += [f"and {len(newest['codes']) - LISTED} more codes"] if len(newest["codes"]) > LISTED else []
            if newest["contested"]:
                found.append("in doubt: sent less than 250 ms after another unit lost this address, so it may be of that one")
            found += read_in_part(newest)
        for kind, words in (("dm2", "DM2, previously active"), ("dm6", "DM6, pending")):
            if self.newest(kind):
                codes = self.newest(kind)["codes"]
                told = ", ".join(f"{it['spn']}/{it['fmi']} {self.page.texts.meaning(it['spn'], it['fmi'])}" for it in codes[:LISTED])
                found.append(f"{words}: {told or no_code(self.newest(kind))}" + (" and more" if len(codes) > LISTED else ""))
                found += read_in_part(self.newest(kind))
        last = f"; last DM1 {clock(micros(newest['last']))}" if newest else ""
        standing = {"gone": "gone: it holds no address any more", "past": "earlier: frames were missed since, or somebody claimed this address",
                    "unknown": "frames were missed since it was heard, and it has not claimed an address again"}
        return " ".join(found + ([standing[self.presence] + last] if self.presence != "on" else []))

    def ever(self):
        messages, found = self.told("dm1"), []
        found += [f"{lamp} {appearance_words(one)}" for lamp, one in lamps_ever(messages).items()]
        found += self.codes_ever(messages, "")
        found += [f"DM1 last heard {clock(messages[-1].time)}"] if messages else []
        return " ".join(found + self.codes_ever(self.told("dm6"), "DM6, pending: "))

    def codes_ever(self, messages, before):
        codes = list(codes_ever(messages).items())
        found = [f"{before}{spn}/{fmi} {self.page.texts.meaning(spn, fmi)}: {appearance_words(one)}" for (spn, fmi), one in codes[:LISTED]]
        kept = min(len(codes), 64)
        found += [f"and {kept - LISTED} more codes"] if kept > LISTED else []
        most = max((sum(code not in dict(codes[:64]) for code in dict.fromkeys(it.codes)) for it in messages), default=0)
        return found + ([f"and further codes, up to {most} in one message"] if most else [])


def no_code(run):
    """That a message has no code; of one that was read in part that is not known."""
    return "no readable code" if "not_read" in run else "no code"


def read_in_part(run):
    """What is told of a message that is not as the standard has it: what of it is not read, or is read in an older way."""
    return [f"read in part; {trouble_words(run['not_read'])}"] if "not_read" in run else []


def span(first, last):
    return clock(first) + (f" to {clock(last)}" if last > first else "")


def appearance_words(one):
    times, first, last = one
    return ("once" if times == 1 else f"{times} times") + f", {span(first, last)}"


# ---- what stands on a page


def text_of(markup):
    """The text of some markup, with one blank between words."""
    return " ".join(html.unescape(re.sub("<[^>]*>", " ", markup)).split())


def tight(text):
    """The same text where the page has elements that touch."""
    return re.sub(r" ([;:,.])", r"\1", text)


def vins_of(page):
    """The VINs in its head."""
    return [text_of(it) for it in re.findall(r'<p class="vin text">VIN <b>(.*?)</b></p>', page)]


def rows_of(page):
    """The rows of the units, cell by cell."""
    body = page.split("<tbody", 1)[1].split("</tbody>", 1)[0]
    return [[tight(text_of(cell)) for cell in re.findall(r"<td[^>]*>(.*?)</td>", row)] for row in body.split("<tr ")[1:]]


def changes_of(page):
    body = page.split("<details>", 1)[1].split("<tbody", 1)[1].split("</tbody>", 1)[0]
    return [[tight(text_of(cell)) for cell in re.findall(r"<td[^>]*>(.*?)</td>", row)] for row in body.split("<tr ")[1:]]


def items_of(page, name):
    """The items of a list of this class."""
    found = re.search(rf'(?s)<[uo]l class="{name}">(.*?)</[uo]l>', page)
    return [tight(text_of(it)) for it in re.findall(r"(?s)<li[^>]*>(.*?)</li>", found[1])] if found else []


def lanes_of(page):
    """The lanes: whose each is, and the titles of its bars by kind."""
    return [(whose, [title for *_, title in bars]) for whose, bars in bars_of(page)]


def bars_of(page):
    """The lanes with their bars: where each stands, how wide it is, and its title."""
    found = []
    for heading, body in re.findall(r"(?s)<h3>(.*?)</h3>\n(<svg.*?)(?=<h3>|<ul class=|<p )", page):
        bars = re.findall(r'<svg x="([0-9.]+)%" width="([0-9.]+)%"[^>]*><title>([^<]*)</title>', body)
        found.append((tight(text_of(heading)), [(float(at), float(width), html.unescape(title)) for at, width, title in bars]))
    return found


def crowded(page):
    """What is wrong within lanes: bars of one kind that do not stand in one row, rows that overlap or leave their lane, and words in a bar that are not
    its first code, or how bad it is."""
    found = []
    for height, body in re.findall(r'(?s)<svg [^>]*class="lane"[^>]* height="(\d*)" role="group">(.*?)</svg>\n', page):
        rows = {}
        for top, high, title, rest in re.findall(r'(?s)<svg x="[^"]*" width="[^"]*" y="(\d+)" height="(\d+)" role="img"><title>([^<]*)</title>(.*?)</svg>', body):
            kind = title[:3] if title.startswith("DM") else "address"
            rows.setdefault(kind, set()).add((int(top), int(top) + int(high)))
            found += [f"{title} has the words {it!r}" for it in re.findall("<text[^>]*>([^<]*)</text>", rest) if kind != "address" and not is_label(kind, title, it)]
        placed = [rows[kind] for kind in ("address", "DM1", "DM2", "DM6") if kind in rows]
        if any(len(it) != 1 for it in placed):
            found.append(f"rows stand at {rows}")
            continue
        edges = [edge for row in placed for edge in min(row)]
        found += [] if edges == sorted(edges) and edges and height and edges[-1] <= int(height) else [f"rows stand at {rows} in a lane of {height!r}"] if edges else []
    return found[:3]


def is_label(kind, title, text):
    """Whether these words may stand in the bar of a message."""
    lamps, codes = title.partition(": ")[2].partition("; ")[::2]
    first = re.match(r"\d+/\d+", codes)
    text = text if kind == "DM1" or text == ".." else text.removeprefix(f"{kind} ") if text.startswith(f"{kind} ") else "?"
    if first:
        return text in ("..", "") or text.split()[0] == first[0]
    worst = next((it for it in WORST if re.search(rf"\b{it}\b", lamps)), "in part" if "read in part" in codes else "no fault")
    return text in ("..", worst)


# What an element of a page may have.
ATTRIBUTES = set("aria-hidden charset class colspan content data-l height http-equiv id lang name patternTransform patternUnits role width x x1 x2 xmlns y y1 y2".split())

ROLES = {"cell", "columnheader", "group", "img", "row", "rowgroup", "table"}


def undressed(page):
    """What of a page has no look: classes that its style does not know, and attributes and roles that mean nothing."""
    style, body = re.search(r"(?s)<style>(.*?)</style>(.*)", page).groups()
    known = set(re.findall(r"\.([a-z]\w*)", style))
    used = {word for words in re.findall(r' class="([^"]*)"', body) for word in words.split()}
    attributes = {name for tag in re.findall(r"<[a-z]\w*((?: [\w-]+=\"[^\"]*\")*)", body) for name in re.findall(r" ([\w-]+)=", re.sub('"[^"]*"', '""', tag))}
    roles = set(re.findall(r' role="([^"]*)"', body)) - ROLES
    return [f"no style has the class {it}" for it in sorted(used - known)] + [f"an attribute {it}" for it in sorted(attributes - ATTRIBUTES)] + [f"a role {it}" for it in sorted(roles)]


def left_out_of(page):
    """What a page tells of that it leaves out of lanes and of addresses that changed hands."""
    return [text_of(it) for it in re.findall(r"<p(?: class=\"quiet\")?>((?:and|Not drawn:) .*?)</p>", page)]
