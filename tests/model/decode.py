"""`decode`: each line of a log in words, or as a JSON object. No line is read with another in mind, but where packets are joined: then each message that is
whole has a line behind that of its last packet."""

import csv
import io

from .frames import ABORT, BAM, CTS, GLOBAL, PACKET, RTS, claimed_name, control_of, control_pgn, control_size, packets_of
from . import diagnostics
from .log_cases import reach
from .memory import read_at_all
from .notices import Absence, BadLines, without_frames
from .pacing import Pacing
from .signal_values import SignalFile, with_numbers
from .words import DATA_GROUPS, LISTS, address_words, code_object, dumped, meaning_words, message_words, name_fields, name_text, payload_words, seen, seen_json, time_text, trouble_object

MOST_BUSES = 16  # of which packets are joined


class Texts:
    """A shop's own texts, of a file of comma-separated values with the line `spn,fmi,text` first: of an SPN, of an FMI, of both."""

    def __init__(self, text=""):
        self.texts = {}
        for spn, fmi, words in list(csv.reader(io.StringIO(text)))[1:]:
            self.texts[int(spn) if spn.strip() else None, int(fmi) if fmi.strip() else None] = words  # of two for the same the later stays

    def of(self, code):
        """That of both goes before those of one; with a comma between them where each has one."""
        both, spn, fmi = (self.texts.get(key) for key in ((code.spn, code.fmi), (code.spn, None), (None, code.fmi)))
        if both is not None:
            reach("a code has a text of its own")
            return both
        if spn is None and fmi is None:
            reach("a code has no text")
            return None
        reach("a code has the text" + ("s of its SPN and of its FMI" if None not in (spn, fmi) else " of its SPN" if fmi is None else " of its FMI"))
        return ", ".join(text for text in (spn, fmi) if text is not None)


def words_of(line):
    """What a line says that is no frame of J1939."""
    return {"dropped": lambda: f"dropped {line.what} frames", "overflow": lambda: "dropped a frame or more",
            "foreign": lambda: f"not J1939: {line.what}", "note": lambda: "-", "bad": lambda: f"bad: {seen(line.what)}"}[line.kind]()


def shown_by(frame):
    """Lamps and codes of a list in one frame, where it can be read."""
    return read_at_all(frame.data) if frame.pgn in LISTS else None


def place_words(line):
    """The time and the bus, each where the line has it."""
    return (f"({time_text(line.time)}) " if line.time is not None else "") + (f"{seen(line.bus)} " if line.bus is not None else "")


def place_object(line):
    return ({} if line.time is None else {"time": time_text(line.time)}) | ({} if line.bus is None else {"bus": line.bus})


def texts_behind(shown, texts):
    """What each code means, in parentheses."""
    return "".join(meaning_words(code.spn, code.fmi, texts.of(code)) for code in (shown[1] if shown else []))


def in_words(line, texts, signals):
    if line.kind != "frame":
        return words_of(line)
    frame = line.what
    dest = GLOBAL if frame.dest is None else frame.dest
    return (f"{place_words(line)}p{frame.number >> 26} {address_words(frame.source, True)}>{address_words(dest, True)} {frame.pgn} {message_words(frame, True)}"
            + texts_behind(shown_by(frame), texts) + signals.words(frame.pgn, frame.source, frame.data))


def in_json(number, line, texts, signals):
    told = {"line": number}
    if line.kind != "frame":
        return told | {"says": words_of(line)}
    frame, name, shown = line.what, claimed_name(line.what), shown_by(line.what)
    told |= place_object(line)
    told |= {"priority": frame.number >> 26, "source": frame.source, "destination": GLOBAL if frame.dest is None else frame.dest, "pgn": frame.pgn,
             "data": frame.data.hex().upper(), "says": message_words(frame, False)}
    if frame.pgn in DATA_GROUPS:
        told["group"] = DATA_GROUPS[frame.pgn]
    if shown:
        told |= {"lamps": shown[0].hex().upper(), "codes": [code_object(code, texts.of(code)) for code in shown[1]]} | trouble_object(shown)
    if name is not None:
        told |= {"name": name_text(name), "fields": name_fields(name)}
    return told | diagnostics.objects(frame.pgn, frame.data) | signals.objects(frame.pgn, frame.source, frame.data)


class Joining:
    """What was read of each bus since the last line that may stand for a lost frame; a message is found by going back from its last packet (J1939-21, 5.10)."""

    def __init__(self):
        self.buses = {}

    def take(self, line):
        """The message that a line makes whole, (source, destination, group, payload); None where it makes none whole."""
        if line.kind in ("bad", "dropped", "overflow"):
            self.buses = {}
        if line.kind != "frame" or control_of(line.what) is None and line.what.pgn != PACKET:
            return None
        if line.bus not in self.buses and len(self.buses) == MOST_BUSES:
            reach("decode: a bus too many")
            return None
        frames, pacing = self.buses.setdefault(line.bus, ([], Pacing(None)))
        return self.take_frame(frames, pacing, line.what, line.time)

    def take_frame(self, frames, pacing, frame, time):
        """A packet that comes too late, or again as it was asked for, is no part of a message."""
        ends, what = (frame.source, frame.dest), control_of(frame)
        if frame.pgn == PACKET:
            half = self.half(frames, *ends)
            if pacing.packet(ends, frame.data, time, half[1] if half else []) != "read":
                return None
            frames.append(frame)
            return self.whole(half, frame)
        frames.append(frame)
        if what == (BAM if frame.dest == GLOBAL else RTS):
            pacing.announce(ends, frame.dest == GLOBAL, time)
        elif what == CTS and frame.source != GLOBAL:
            pacing.clear_to_send(ends[::-1], frame.data[1], frame.data[2], time)
        return None

    @staticmethod
    def half(frames, source, dest):
        """The announcement of what is half joined from a source to a destination, and its packets so far."""
        packets = []
        for frame in reversed(frames):
            what, ends = control_of(frame), (frame.source, frame.dest)
            if frame.pgn == PACKET:
                packets += [frame.data] if ends == (source, dest) else []
            elif what == ABORT and dest != GLOBAL and ends in ((source, dest), (dest, source)):
                reach("decode: packets of a message that was ended")
                return None
            elif ends == (source, dest) and what == (BAM if dest == GLOBAL else RTS):
                packets.reverse()
                if [len(data) for data in packets] != [8] * len(packets) or [data[0] for data in packets] != [*range(1, len(packets) + 1)] or len(packets) >= packets_of(control_size(frame)):
                    reach("decode: packets out of order")
                    return None
                return frame, packets
        reach("decode: packets of nothing")
        return None

    @staticmethod
    def whole(half, packet):
        if half is None:
            return None
        frame, packets = half
        if len(packet.data) != 8 or packet.data[0] != len(packets) + 1 or packet.data[0] < packets_of(control_size(frame)):
            return None
        reach("decode: a broadcast is joined" if frame.dest == GLOBAL else "decode: a session is joined")
        return frame.source, frame.dest, control_pgn(frame), b"".join(data[1:] for data in [*packets, packet.data])[: control_size(frame)]


def joined_words(line, joined, texts, signals):
    source, dest, pgn, payload = joined
    shown = read_at_all(payload) if pgn in LISTS else None
    return f"{place_words(line)}joined {address_words(source, True)}>{address_words(dest, True)} {pgn} {payload_words(pgn, payload, True)}" + texts_behind(shown, texts) + signals.words(pgn, source, payload)


def joined_object(number, line, joined, texts, signals):
    source, dest, pgn, payload = joined
    shown = read_at_all(payload) if pgn in LISTS else None
    told = {"line": number, "joined": True} | place_object(line)
    told |= {"source": source, "destination": dest, "pgn": pgn, "data": payload.hex().upper(), "says": payload_words(pgn, payload, False)}
    if shown:
        told |= {"lamps": shown[0].hex().upper(), "codes": [code_object(code, texts.of(code)) for code in shown[1]]} | trouble_object(shown)
    if pgn in DATA_GROUPS:
        reach("decode: a joined message has a group's name")
        told["group"] = DATA_GROUPS[pgn]
    return told | diagnostics.objects(pgn, payload) | signals.objects(pgn, source, payload)


def decoded(lines, texts="", join=False, signals=b""):
    """What is written of lines in text and in JSON, what is told of bad ones, and the status."""
    texts, signals, text, objects, bad, absence, errors, joining = Texts(texts), SignalFile(signals), [], [], BadLines(), Absence(), [], Joining()
    for number, line in enumerate(lines, 1):
        errors.append(bad.told(number, line))
        absence.take(line, "told")
        text.append(in_words(line, texts, signals) + "\n")
        objects.append(with_numbers(seen_json(dumped(in_json(number, line, texts, signals)))) + "\n")
        joined = joining.take(line) if join else None
        if joined:
            text.append(joined_words(line, joined, texts, signals) + "\n")
            objects.append(with_numbers(seen_json(dumped(joined_object(number, line, joined, texts, signals)))) + "\n")
    errors = "".join([*errors, bad.rest(), without_frames(lines), absence.rest()])
    return {"text": "".join(text), "json": "".join(objects)}, errors, 3 if errors else 0
