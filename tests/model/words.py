"""What a frame says in words, and what stands of it in JSON: lamps, codes, NAMEs, groups (J1939-21, -73, -81)."""

import json
import re

from .frames import (ABORT, ACKNOWLEDGMENT, BAM, CLAIM, COMMANDED_ADDRESS, CONTROL, CTS, DM3, DM11, END_OF_MESSAGE, GLOBAL, NULL, PACKET, REQUEST, RTS,
                     TITLES, claimed_name, control_of, control_pgn, control_size, number, requested)
from .log_cases import reach
from .memory import Part, code_of_group, is_older, read_at_all

UNREAD = "bad length"  # why a message cannot be read at all: not even its lamps are whole
NOT_AVAILABLE = 127  # the occurrence count that says so
LAMPS = [("mil", 6), ("stop", 4), ("amber", 2), ("protect", 0)]  # where the two bits of each stand, in the lamps' byte and in that of flashes
FLASHES = {0: " flashing slowly", 1: " flashing fast"}
LISTS = {**TITLES, 65236: "DM12", 64949: "DM23", 64896: "DM28"}  # lamps, then codes (J1939-73, those from DM12 on from memory)
VALUE_MESSAGES = {65229: "DM4", 65230: "DM5", 54016: "DM19", 49664: "DM20", 49408: "DM21", 64950: "DM24", 64951: "DM25", 64952: "DM26"}
IDENTIFICATIONS = {65260: "VI", 65259: "CI", 65242: "SOFT", 64965: "ECUID"}
GROUPS = {ACKNOWLEDGMENT: "ack", REQUEST: "request", PACKET: "TP.DT", CONTROL: "TP.CM", CLAIM: "claim", **LISTS, **VALUE_MESSAGES, DM3: "DM3", DM11: "DM11",
          COMMANDED_ADDRESS: "commanded address"}
# Groups of engine, vehicle and driveline data (J1939-71), by the names of public documents.
DATA_GROUPS = {
    0: "TSC1 torque/speed control 1", 256: "TC1 transmission control 1", 61440: "ERC1 electronic retarder controller 1",
    61441: "EBC1 electronic brake controller 1", 61442: "ETC1 electronic transmission controller 1", 61443: "EEC2 electronic engine controller 2",
    61444: "EEC1 electronic engine controller 1", 61445: "ETC2 electronic transmission controller 2", 64965: "ECUID ECU identification", 65132: "TCO1 tachograph",
    65215: "EBC2 wheel speed information", 65217: "VDHR high resolution vehicle distance", 65242: "SOFT software identification",
    65247: "EEC3 electronic engine controller 3", 65248: "VD vehicle distance", 65251: "EC1 engine configuration 1",
    65253: "HOURS engine hours, revolutions", 65254: "TD time/date", 65257: "LFC fuel consumption (liquid)", 65259: "CI component identification",
    65260: "VI vehicle identification", 65262: "ET1 engine temperature 1", 65263: "EFL/P1 engine fluid level/pressure 1",
    65265: "CCVS1 cruise control/vehicle speed 1", 65266: "LFE1 fuel economy (liquid)", 65267: "VP vehicle position", 65269: "AMB ambient conditions",
    65270: "IC1 intake/exhaust conditions 1", 65271: "VEP1 vehicle electrical power 1", 65272: "TRF1 transmission fluids 1", 65276: "DD1 dash display 1",
}
# What each FMI says, from 0 to 31 (J1939-73, Appendix A, from memory).
FAILURE_MODES = [
    "above normal, most severe", "below normal, most severe", "erratic or incorrect data", "voltage above normal or shorted high",
    "voltage below normal or shorted low", "current below normal or open circuit", "current above normal or grounded", "mechanical system not responding",
    "abnormal frequency or pulse width", "abnormal update rate", "abnormal rate of change", "failure mode not identifiable", "bad device",
    "out of calibration", "special instructions", "above normal, least severe", "above normal, moderately severe", "below normal, least severe",
    "below normal, moderately severe", "received network data in error", "data drifted high", "data drifted low", "reserved failure mode",
    "reserved failure mode", "reserved failure mode", "reserved failure mode", "reserved failure mode", "reserved failure mode", "reserved failure mode",
    "reserved failure mode", "reserved failure mode", "condition exists",
]
# Why a session was aborted (J1939-21, 5.10.3, from memory).
ABORTS = {1: "already in another session", 2: "resources needed elsewhere", 3: "timeout", 4: "CTS while sending", 5: "too many retransmissions", 6: "unexpected packet", 7: "bad sequence number", 8: "duplicate sequence number", 9: "message too long"}
ANSWERS = {0: "positive", 1: "negative", 2: "access denied", 3: "cannot respond now"}

HIDDEN = "[\x00-\x1f\x7f-\x9f\u061c\u200e\u200f\u202a-\u202e\u2066-\u2069]"  # control characters, and marks that turn the direction of text


def seen(text):
    """Text from outside in a line that is told: what a terminal obeys, or turns the direction of text, stands by its number."""
    return re.sub(HIDDEN, lambda found: f"\\x{ord(found[0]):02X}" if ord(found[0]) < 256 else f"\\u{ord(found[0]):04X}", text)


def seen_json(text):
    """The same in JSON without line feeds."""
    return re.sub(HIDDEN, lambda found: f"\\u{ord(found[0]):04X}", text)


dumped = json.JSONEncoder(ensure_ascii=False, separators=(",", ":")).encode


def lamp_words(lamps):
    """The lamps that are on (01), each with how it flashes (00 slowly, 01 fast), or that of those that are said to be off or on none is on; then those that are
    not available (11), and those in a state that is reserved (10) (J1939-73, 5.7.1)."""
    lamps_in = [[word for word, at in LAMPS if lamps[0] >> at & 3 == state] for state in range(4)]
    if len(lamps_in[3]) == 4:
        reach("lamps that are not available")
        return "lamps not available"
    told = [word + FLASHES.get(lamps[1] >> at & 3, "") for word, at in LAMPS if lamps[0] >> at & 3 == 1]
    if not told and lamps_in[0]:
        told = ["no lamp"]
    for state, what in ((3, "not available"), (2, "reserved")):
        if lamps_in[state]:
            reach(f"a lamp that is {what}")
            told.append("/".join(lamps_in[state]) + f" {what}")
    return ", ".join(told)


def code_words(codes):
    return " ".join(code.text() for code in codes) or "-"


def code_object(code, text=None):
    own = {} if text is None else {"text": text}
    return {"spn": code.spn, "fmi": code.fmi, "count": None if code.count == NOT_AVAILABLE else code.count, **own, "fmi_text": FAILURE_MODES[code.fmi]}


def meaning_words(spn, fmi, text=None):
    """Behind the codes: the shop's text for one, or else what its FMI says."""
    return f" ({spn}/{fmi}: {FAILURE_MODES[fmi] if text is None else seen(text)})"


def shown_words(shown, people):
    lamps, codes = shown
    return lamp_words(lamps) + (f" ({lamps.hex().upper()})" if people else "") + f"; {code_words(codes)}"


def shown_object(shown):
    lamps, codes = shown
    return {"lamps": lamps.hex().upper(), "codes": [code_object(code) for code in codes]}


def trouble_object(shown):
    """What of a message is not read, where it was read in part."""
    return {"not_read": shown.trouble()} if isinstance(shown, Part) else {}


def counted(count, word):
    return f"{count} {word}" + ("" if count == 1 else "s")


def trouble_words(trouble):
    """What of a message is not read, and what is read by an older conversion method."""
    of = {"padding": ("group", "of padding"), "zeros": ("group", "of zeros"), "older": ("code", "of an older conversion method"),
          "bytes_behind": ("byte", "behind the last code")}
    unread = ", ".join(f"{counted(trouble[key], word)} {rest}" for key, (word, rest) in of.items() if trouble[key])
    converted = f"{counted(trouble['converted'], 'code')} by an older conversion method" if trouble["converted"] else ""
    return "; ".join(words for words in (f"not read: {unread}" if unread else "", missing_words(trouble), converted) if words)


def missing_words(trouble):
    return f"{trouble['bytes_missing']} of 8 bytes missing" if trouble["bytes_missing"] else ""


def part_words(part, people):
    """Each group in order, what is no code in parentheses; and how many bytes are too many or too few."""
    told, groups = [], list(part.groups)
    while groups:
        group = groups.pop(0)
        if group in (bytes(4), b"\xff" * 4):
            count = 1
            while groups and groups[0] == group:
                count += 1
                groups.pop(0)
            reach("says: groups of " + ("zeros" if group == bytes(4) else "padding"))
            told.append(f"({counted(count, 'group')} of {'zeros' if group == bytes(4) else 'padding'})")
        elif is_older(group):
            reach("says: an older code")
            told.append(f"(4 bytes of an older conversion method: FMI {group[2] & 31}, count {group[3] & 127})")
        else:
            told.append(code_of_group(group, None).text())
    trouble = part.trouble()
    amiss = [counted(trouble["bytes_behind"], "byte") + " behind the last code"] if trouble["bytes_behind"] else []
    amiss += [missing_words(trouble)] if trouble["bytes_missing"] else []
    if amiss:
        reach("says: bytes too many or too few")
    return (lamp_words(part[0]) + (f" ({part[0].hex().upper()})" if people else "") + "; " + (" ".join(told) or "-")
            + "".join(f"; {words}" for words in amiss))


def name_text(name):
    return f"{name:016X}"


def name_fields(name):
    """The fields of a NAME, from its highest bit on (J1939-81, 4.1.1); one bit between system and function is reserved."""
    fields, at = {}, 64
    for key, bits in (("arbitrary_capable", 1), ("industry_group", 3), ("system_instance", 4), ("vehicle_system", 7), (None, 1), ("function", 8),
                      ("function_instance", 5), ("ecu_instance", 3), ("manufacturer", 11), ("identity", 21)):
        at -= bits
        if key:
            fields[key] = name >> at & (1 << bits) - 1
    return fields


def name_words(word, name):
    fields = name_fields(name)
    return (f"{word}: NAME {name_text(name)}, function {fields['function']}.{fields['function_instance']}, ECU {fields['ecu_instance']}, "
            f"manufacturer {fields['manufacturer']}, identity {fields['identity']}, industry {fields['industry_group']}, "
            f"system {fields['vehicle_system']}.{fields['system_instance']}" + (", takes any address" if fields["arbitrary_capable"] else ""))


def group_name(pgn, people):
    """The name of a group; those of data are told to people alone, since programs know the words that stood there before."""
    return (DATA_GROUPS.get(pgn) if people else None) or GROUPS.get(pgn)


def group_words(pgn, people):
    name = group_name(pgn, people)
    return f"{pgn} ({name})" if name else str(pgn)


def address_words(address, people):
    """For people in decimal, with the two hexadecimal digits behind where they differ; for programs these digits alone."""
    if address == GLOBAL:
        return "all"
    return f"{address:02X}" if not people else str(address) if address < 10 else f"{address}({address:02X})"


def byte_words(data):
    return "".join(f" {byte:02X}" for byte in data)


def control_words(frame, people):
    """A connection management message that can be read (J1939-21, 5.10.3)."""
    data, what = frame.data, control_of(frame)
    if what == RTS:
        reach("says: RTS")
        told = f"RTS {control_size(frame)} bytes in {data[3]} packets, at most {data[4]} at once,"
    elif what == CTS:
        reach("says: CTS")
        told = f"CTS {data[1]} packets from {data[2]} on,"
    elif what == END_OF_MESSAGE:
        reach("says: the end")
        told = f"all {control_size(frame)} bytes in {data[3]} packets came,"
    elif what == BAM:
        reach("says: BAM")
        told = f"BAM {control_size(frame)} bytes in {data[3]} packets"
    else:
        assert what == ABORT
        reach("says: abort")
        told = f"abort for reason {data[1]}" + (f" ({ABORTS[data[1]]})" if people and data[1] in ABORTS else "") + ","
    return f"TP.CM: {told} of {group_words(control_pgn(frame), people)}"


def packet_words(data):
    if not data:
        reach("says: empty packet")
        return "TP.DT: empty"
    reach("says: packet")
    return f"TP.DT: packet {data[0]}:{byte_words(data[1:])}"


def payload_words(pgn, data, people):
    """The payload of a group, which came in one frame or in several: lamps and codes, values, the text of an identification; of any other its bytes."""
    from . import diagnostics  # (it stands on this) pylint: disable=import-outside-toplevel,cyclic-import
    if pgn in VALUE_MESSAGES:
        return diagnostics.words(pgn, data)
    if pgn in IDENTIFICATIONS:
        return diagnostics.identification_words(pgn, data, DATA_GROUPS[pgn] if people else IDENTIFICATIONS[pgn])
    if pgn not in LISTS:
        reach("says: data of a group with" + ("" if pgn in GROUPS else "out") + " a name")
        return f"{group_name(pgn, people) or '-'}: data{byte_words(data)}"
    shown = read_at_all(data)
    if shown is None:
        reach("says: cannot be read, " + UNREAD)
        return f"{LISTS[pgn]}: cannot be read: {UNREAD}"
    if isinstance(shown, Part):
        reach("says: read in part")
        return f"{LISTS[pgn]}: {part_words(shown, people)}"
    reach("says: " + LISTS[pgn])
    return f"{LISTS[pgn]}: {shown_words(shown, people)}"


def message_words(frame, people):
    """The name of a frame's group, and what it tells; of any other frame its data. For people or for programs."""
    pgn, data = frame.pgn, frame.data
    if claimed_name(frame) is not None:
        word = "cannot claim" if frame.source == NULL else "claim"
        reach("says: " + word)
        return name_words(word, claimed_name(frame))
    if requested(frame) is not None:
        reach("says: request")
        return f"request: of {group_words(requested(frame), people)}"
    if pgn == ACKNOWLEDGMENT and len(data) == 8:
        reach("says: acknowledgment")
        return f"ack: {ANSWERS.get(data[0], f'control {data[0]}')}, to {address_words(data[4], people)}, of {group_words(number(data[5:8]), people)}"
    if control_of(frame) is not None:
        return control_words(frame, people)
    if pgn == PACKET:
        return packet_words(data)
    return payload_words(pgn, data, people)


def time_text(micros):
    return f"{micros // 1000000}.{micros % 1000000:06d}"
