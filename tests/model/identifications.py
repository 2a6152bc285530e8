"""What units tell of themselves (vehicle, component, software and ECU identification; SAE J1939-71 and -73, from memory): what each told last in a
message whose frames were all read.

Each message is found by looking back over what came from its source since the last gap. It is joined as a DM1 is (`heard`): between any two
addresses, under whoever held the source when it began.
"""

from .diagnostics import MOST_SHOWN, ascii_text, identification
from .frames import ABORT, BAM, GLOBAL, NULL, PACKET, RTS, claimed_name, control_of, control_pgn, control_size, in_order, joined
from .log_cases import reach
from .words import IDENTIFICATIONS

VIN = 65260
WORDS = {VIN: "vin", 65259: "component", 65242: "software", 64965: "ecu"}
FIELDS = {65259: ["make", "model", "serial number", "unit number"], 64965: ["part number", "serial number", "location", "type", "manufacturer", "hardware"]}
ROOM = MOST_SHOWN + 1  # of so many bytes of a text it is kept
TEXTS = 1024  # and of so many texts


def text_of(pgn, payload):
    """Of a VIN what stands before the first `*`, or before the first byte that is not used; of the others what `decode` tells."""
    if pgn == VIN:
        ends = [at for at, byte in enumerate(payload) if byte in b"*\xff"]
        text = payload[: ends[0]] if ends else payload
        if not ends:
            reach("a VIN without a star")
    else:
        text = identification(pgn, payload)
    return text[:ROOM]


def words_of(pgn, text):
    """For people: each field that is not empty behind its name."""
    names = FIELDS.get(pgn, [])
    fields = [(names[at] + " " if at < len(names) else "") + ascii_text(field) for at, field in enumerate(text[:MOST_SHOWN].split(b"*")) if field]
    if not fields:
        reach("an identification of empty fields")
    return (", ".join(fields) or "-") + ("..." if len(text) > MOST_SHOWN else "")


def told_of(pgn, text):
    """In JSON."""
    return ascii_text(text) if pgn == VIN else ascii_text(text).split("*")


class Identifications:
    def __init__(self):
        self.of = {}  # of each unit and group
        self.read = {}  # of each source what was read since the last gap

    def forget(self):
        """Frames were missed, or it is begun anew."""
        self.read = {}

    def half(self, source, dest):
        """The announcement of the identification that is half read from a source to a destination, whose it is, and its packets; None where there is none."""
        packets, names = [], []
        for what, *of in reversed(self.read.get(source, [])):
            if what == "claim":
                names += of
            elif of[0] != dest:
                continue
            elif what == "packet":
                packets.insert(0, of[1])
            elif what == "end":
                return None
            else:
                break
        else:
            return None
        start, who = of[1:]
        if control_pgn(start) not in IDENTIFICATIONS or len(packets) >= start.data[3] or not in_order(packets, len(packets)):
            return None
        if any(name != who for name in names):
            reach(f"{IDENTIFICATIONS[control_pgn(start)]} is not told whose address changed hands on the way")
            return None
        return start, who, packets

    def take(self, frame, who, asks_for):
        """Whose identification a frame tells, of which group, from where, to whom, and the payload; None where it tells none. `who` holds the source; `asks_for` says which packets
        were asked for again."""
        source, dest, what = frame.source, frame.dest, control_of(frame)
        read = self.read.setdefault(source, [])
        if claimed_name(frame) is not None and source != NULL:
            read.append(("claim", claimed_name(frame)))
        elif what == (BAM if dest == GLOBAL else RTS):
            read.append(("begin", dest, frame, who))
        elif what == ABORT:
            for one, other in ((source, dest), (dest, source)):
                if other != GLOBAL:
                    self.read.setdefault(one, []).append(("end", other))
        elif frame.pgn in IDENTIFICATIONS:
            reach(f"{IDENTIFICATIONS[frame.pgn]} in one frame")
            return who, frame.pgn, source, GLOBAL, frame.data
        elif frame.pgn == PACKET and (half := self.half(source, dest)):
            return self.take_packet(frame, *half, asks_for)
        return None

    def take_packet(self, frame, start, who, packets, asks_for):
        number = frame.data[0] if frame.data else 0
        if 1 <= number <= len(packets) and asks_for(number) and packets[number - 1][1:] == frame.data[1:]:
            reach("a packet of an identification comes again as it was asked for")
            return None
        self.read[frame.source].append(("packet", frame.dest, frame.data))
        packets = [*packets, frame.data]
        if not in_order(packets, len(packets)):
            reach("an identification is broken by a packet that is not the next")
            return None
        if len(packets) < start.data[3]:
            return None
        reach(f"{IDENTIFICATIONS[control_pgn(start)]} by " + ("broadcast" if frame.dest == GLOBAL else "session"))
        return who, control_pgn(start), frame.source, frame.dest, joined(packets, control_size(start))

    def tell(self, who, pgn, payload):
        """Whether a unit told another text than before."""
        text, key = text_of(pgn, payload), (who, pgn)
        if not text:
            reach("an identification without characters")
            return False
        if key not in self.of and len(self.of) >= TEXTS:
            return False
        before, self.of[key] = self.of.get(key), text
        reach("a unit's first identification" if before is None else "an identification that was told before" if before == text else "another identification than before")
        return before != text

    def units(self):
        """In the order of their first ones."""
        return dict.fromkeys(who for who, _ in self.of)

    def texts(self, who):
        """Of each group, in their order."""
        return {pgn: self.of[who, pgn] for pgn in WORDS if (who, pgn) in self.of}

    def object(self, who):
        return {WORDS[pgn]: told_of(pgn, text) for pgn, text in self.texts(who).items()}

    def values(self, who):
        """For each group."""
        return [ascii_text(self.of.get((who, pgn), b"")) for pgn in WORDS]

    def lines(self, who):
        """Below the row of a unit: all but the VIN, which stands in it."""
        return [f"  {WORDS[pgn]}: {words_of(pgn, text)}" for pgn, text in self.texts(who).items() if pgn != VIN]

    def vin(self, who):
        return f"; VIN {words_of(VIN, self.of[who, VIN])}" if (who, VIN) in self.of else ""
