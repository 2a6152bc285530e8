"""The library for C by ctypes: its structs, its calls and its numbers. Private; `hidzgula` has what programs use.

Each struct and call is one of `c/hidzgula_station.h`, under the header's names. Sizes are looked at here, when the module is imported,
as the header does when it is compiled.
"""

import ctypes
import os
import pathlib
from ctypes import POINTER, Structure, c_bool, c_char_p, c_size_t, c_uint8, c_uint16, c_uint32, c_uint64, c_void_p


class StationRecord(Structure):
    """Room for a station: all bytes 0 at first. It is never copied or moved, and only the library reads or writes it."""

    _fields_ = [("at", c_void_p), ("full", c_bool)]


class FrameRecord(Structure):
    """A frame: 29 bits of identifier, 0 to 8 bytes."""

    _fields_ = [("id", c_uint32), ("length", c_uint8), ("bytes", c_uint8 * 8)]


class ReplyRecord(Structure):
    """What the station replies: whether to withdraw, and up to three frames to send."""

    _fields_ = [("withdraw", c_uint8), ("count", c_uint8), ("frames", FrameRecord * 3)]


class ChangeRecord(Structure):
    """What a frame or a gap changed."""

    _fields_ = [
        ("name", c_uint64),
        ("displaced", c_uint64),
        ("pgn", c_uint32),
        ("count", c_uint32),
        ("what", c_uint8),
        ("address", c_uint8),
        ("kind", c_uint8),
        ("control", c_uint8),
        ("again", c_uint8),
        ("has_displaced", c_uint8),
        ("lost", c_uint8),
    ]


class RowRecord(Structure):
    """What is known of a NAME."""

    _fields_ = [
        ("name", c_uint64),
        ("has_address", c_uint8),
        ("address", c_uint8),
        ("has_ack", c_uint8),
        ("ack_control", c_uint8),
        ("ack_pgn", c_uint32),
    ]


class EntryRecord(Structure):
    """A message of a NAME."""

    _fields_ = [("lamps", c_uint8), ("flashes", c_uint8), ("codes", c_size_t)]


class CodeRecord(Structure):
    """A trouble code."""

    _fields_ = [("spn", c_uint32), ("fmi", c_uint8), ("count", c_uint8)]


class LoggedRecord(Structure):
    """When a frame of a log was seen, and in which line it stands."""

    _fields_ = [("time", c_uint64), ("line", c_uint64)]


class ReadRecord(Structure):
    """How far lines of a log were read, and what the last one told beside frames."""

    _fields_ = [
        ("bytes", c_size_t),
        ("frames", c_size_t),
        ("lines", c_uint64),
        ("missed", c_uint32),
        ("what", c_uint8),
        ("why", c_uint8),
    ]


class UnitRecord(Structure):
    """Room for a simulated unit: all bytes 0 at first. It is never copied or moved, and only the library reads or writes it."""

    _fields_ = [("at", c_void_p), ("full", c_bool)]


class UnitSettingsRecord(Structure):
    """What a simulated unit keeps to."""

    _fields_ = [("gap", c_uint64), ("settle", c_uint64), ("always", c_uint8), ("guarded", c_uint8)]


class UnitCountsRecord(Structure):
    """What became of the frames that a simulated unit put."""

    _fields_ = [("put", c_uint64), ("written", c_uint64), ("withdrawn", c_uint64), ("waiting", c_uint64)]


class LiveRecord(Structure):
    """Room for a live station: all bytes 0 at first. It is never copied or moved, and only the library reads or writes it."""

    _fields_ = [("at", c_void_p), ("full", c_bool)]


class LiveSettingsRecord(Structure):
    """What a live station keeps to."""

    _fields_ = [("gap", c_uint64), ("settle", c_uint64), ("keep", c_uint32), ("grant", c_uint8)]


class MessageRecord(Structure):
    """A message of a group that a program shares with a live station."""

    _fields_ = [
        ("name", c_uint64),
        ("pgn", c_uint32),
        ("size", c_uint16),
        ("source", c_uint8),
        ("has_name", c_uint8),
        ("bytes", c_uint8 * 1785),
    ]


class VerdictRecord(Structure):
    """The open order, or what came of the newest one."""

    _fields_ = [
        ("name", c_uint64),
        ("after", c_uint64),
        ("pgn", c_uint32),
        ("what", c_uint8),
        ("detail", c_uint8),
        ("left", c_uint8),
        ("left_detail", c_uint8),
        ("tries", c_uint8),
        ("has_name", c_uint8),
        ("has_address", c_uint8),
        ("address", c_uint8),
        ("has_after", c_uint8),
        ("commanded", c_uint8),
    ]


class ListenerRecord(Structure):
    """Room for a listener: all bytes 0 at first. It is never copied or moved, and only the library reads or writes it."""

    _fields_ = [("at", c_void_p), ("full", c_bool)]


class WhoRecord(Structure):
    """Whose a message is: a NAME's, or that of an address with the gaps before."""

    _fields_ = [("name", c_uint64), ("gaps", c_uint64), ("has_name", c_uint8), ("address", c_uint8)]


class HeardRecord(Structure):
    """What a frame or a gap changed of what a listener shows."""

    _fields_ = [
        ("who", WhoRecord),
        ("displaced", c_uint64),
        ("pgn", c_uint32),
        ("count", c_uint32),
        ("what", c_uint8),
        ("kind", c_uint8),
        ("source", c_uint8),
        ("to", c_uint8),
        ("why", c_uint8),
        ("control", c_uint8),
        ("requester", c_uint8),
        ("again", c_uint8),
        ("has_displaced", c_uint8),
        ("lost", c_uint8),
        ("read", c_uint8),
        ("of", c_uint8),
        ("number", c_uint8),
        ("reason", c_uint8),
        ("by", c_uint8),
        ("broken", c_uint8),
    ]


class SentRecord(Structure):
    """A message that a listener listed."""

    _fields_ = [
        ("lamps", c_uint8),
        ("flashes", c_uint8),
        ("to", c_uint8),
        ("in_part", c_uint8),
        ("padding", c_uint16),
        ("zeros", c_uint16),
        ("older", c_uint16),
        ("bytes_behind", c_uint8),
        ("bytes_missing", c_uint8),
        ("codes", c_size_t),
    ]


# The struct, its name in the header, and its size there.
RECORDS = (
    (StationRecord, "hidzgula_station", 16),
    (FrameRecord, "hidzgula_frame", 16),
    (ReplyRecord, "hidzgula_reply", 52),
    (ChangeRecord, "hidzgula_change", 32),
    (RowRecord, "hidzgula_row_out", 16),
    (EntryRecord, "hidzgula_entry_out", 16),
    (CodeRecord, "hidzgula_code_out", 8),
    (LoggedRecord, "hidzgula_logged", 16),
    (ReadRecord, "hidzgula_read", 32),
    (LiveRecord, "hidzgula_live", 16),
    (LiveSettingsRecord, "hidzgula_live_settings", 24),
    (MessageRecord, "hidzgula_message", 1808),
    (VerdictRecord, "hidzgula_verdict", 32),
    (ListenerRecord, "hidzgula_listener", 16),
    (WhoRecord, "hidzgula_who", 24),
    (HeardRecord, "hidzgula_heard", 56),
    (SentRecord, "hidzgula_sent_out", 24),
    (UnitRecord, "hidzgula_unit", 16),
    (UnitSettingsRecord, "hidzgula_unit_settings", 24),
    (UnitCountsRecord, "hidzgula_unit_counts_out", 32),
)

for record, called, size in RECORDS:
    if ctypes.sizeof(record) != size:
        raise ImportError(f"{called} has {ctypes.sizeof(record)} bytes here and {size} in the library, which is for 64-bit Linux")

_STATION = POINTER(StationRecord)
_REPLY = POINTER(ReplyRecord)
_CHANGE = POINTER(ChangeRecord)
_UNIT = POINTER(UnitRecord)
_LIVE = POINTER(LiveRecord)
_LISTENER = POINTER(ListenerRecord)
_WHO = POINTER(WhoRecord)
_HEARD = POINTER(HeardRecord)

# Each call but those of `ANSWERS_NOTHING` answers a number: 0, or why it was refused.
CALLS = {
    "hidzgula_open": (_STATION, c_uint64, c_uint8, c_uint8, c_uint32),
    "hidzgula_close": (_STATION,),
    "hidzgula_make_room": (_STATION, c_size_t, POINTER(c_uint8)),
    "hidzgula_take_frame_telling": (_STATION, c_uint32, c_char_p, c_size_t, _REPLY, _CHANGE),
    "hidzgula_take_frames": (_STATION, c_void_p, c_size_t, c_void_p, c_size_t, _REPLY, POINTER(c_size_t)),
    "hidzgula_take_gap_telling": (_STATION, c_uint32, _REPLY, _CHANGE),
    "hidzgula_claim": (_STATION, POINTER(FrameRecord)),
    "hidzgula_held": (_STATION, POINTER(c_uint8), POINTER(c_uint8)),
    "hidzgula_ask": (_STATION, c_uint64, c_uint32, _REPLY),
    "hidzgula_ask_all": (_STATION, c_uint32, _REPLY),
    "hidzgula_command": (_STATION, c_uint64, c_uint8, _REPLY),
    "hidzgula_rows": (_STATION, POINTER(c_size_t)),
    "hidzgula_row": (_STATION, c_size_t, POINTER(RowRecord)),
    "hidzgula_entries": (_STATION, c_uint64, c_uint8, POINTER(c_uint64)),
    "hidzgula_entry": (_STATION, c_uint64, c_uint8, c_uint64, POINTER(EntryRecord)),
    "hidzgula_code": (_STATION, c_uint64, c_uint8, c_uint64, c_size_t, POINTER(CodeRecord)),
    "hidzgula_counts": (_STATION, POINTER(c_uint64), POINTER(c_uint64)),
    "hidzgula_save": (_STATION, c_void_p, c_size_t, POINTER(c_size_t)),
    "hidzgula_read_log": (c_void_p, c_size_t, c_char_p, c_size_t, c_void_p, c_size_t, c_void_p, c_size_t, POINTER(ReadRecord)),
    "hidzgula_live_open": (_LIVE, c_uint64, c_uint8, POINTER(LiveSettingsRecord)),
    "hidzgula_live_close": (_LIVE,),
    "hidzgula_live_make_room": (_LIVE, c_size_t, POINTER(c_uint8)),
    "hidzgula_live_hear": (_LIVE, c_uint32, c_char_p, c_size_t, c_uint64, _CHANGE),
    "hidzgula_live_missed": (_LIVE, c_uint32, c_uint64, _CHANGE),
    "hidzgula_live_save": (_LIVE, c_void_p, c_size_t, POINTER(c_size_t)),
    "hidzgula_live_next": (_LIVE, c_uint64, POINTER(FrameRecord), POINTER(c_uint8)),
    "hidzgula_live_when": (_LIVE, c_uint64, POINTER(c_uint64)),
    "hidzgula_live_ask": (_LIVE, c_uint64, c_uint32),
    "hidzgula_live_ask_all": (_LIVE, c_uint32),
    "hidzgula_live_clear": (_LIVE, c_uint64, c_uint32),
    "hidzgula_live_command": (_LIVE, c_uint64, c_uint8),
    "hidzgula_live_end": (_LIVE, c_uint64),
    "hidzgula_live_verdict": (_LIVE, POINTER(VerdictRecord)),
    "hidzgula_live_share": (_LIVE, c_uint32),
    "hidzgula_live_shared_ask": (_LIVE, c_uint8, c_uint32),
    "hidzgula_live_shared_send": (_LIVE, c_uint8, c_uint32, c_char_p, c_size_t),
    "hidzgula_live_shared_sent": (_LIVE, POINTER(c_uint8), POINTER(c_uint8)),
    "hidzgula_live_shared_hear": (_LIVE, c_uint32, c_char_p, c_size_t, POINTER(c_uint8), POINTER(c_uint8)),
    "hidzgula_live_shared_next": (_LIVE, c_uint64, POINTER(FrameRecord), POINTER(c_uint8)),
    "hidzgula_live_shared_when": (_LIVE, c_uint64, POINTER(c_uint64)),
    "hidzgula_live_shared_message": (_LIVE, POINTER(MessageRecord)),
    "hidzgula_live_held": (_LIVE, POINTER(c_uint8), POINTER(c_uint8)),
    "hidzgula_live_counts": (_LIVE, POINTER(c_uint64), POINTER(c_uint64)),
    "hidzgula_live_rows": (_LIVE, POINTER(c_size_t)),
    "hidzgula_live_row": (_LIVE, c_size_t, POINTER(RowRecord)),
    "hidzgula_live_row_of": (_LIVE, c_uint64, POINTER(RowRecord)),
    "hidzgula_live_entries": (_LIVE, c_uint64, c_uint8, POINTER(c_uint64)),
    "hidzgula_live_entry": (_LIVE, c_uint64, c_uint8, c_uint64, POINTER(EntryRecord)),
    "hidzgula_live_code": (_LIVE, c_uint64, c_uint8, c_uint64, c_size_t, POINTER(CodeRecord)),
    "hidzgula_listener_open": (_LISTENER, c_uint32),
    "hidzgula_listener_close": (_LISTENER,),
    "hidzgula_listener_make_room": (_LISTENER, c_size_t, POINTER(c_uint8)),
    "hidzgula_listener_take_at": (_LISTENER, c_uint64, c_uint32, c_char_p, c_size_t, _HEARD),
    "hidzgula_listener_take_frames_at": (_LISTENER, c_void_p, c_size_t, c_void_p, c_size_t, c_void_p, c_size_t, POINTER(c_size_t)),
    "hidzgula_listener_missed_at": (_LISTENER, c_uint64, c_uint32, _HEARD),
    "hidzgula_listener_broken": (_LISTENER, c_size_t, _HEARD),
    "hidzgula_listener_counts": (_LISTENER, POINTER(c_uint64), POINTER(c_uint64)),
    "hidzgula_listener_rows": (_LISTENER, POINTER(c_size_t)),
    "hidzgula_listener_row": (_LISTENER, c_size_t, POINTER(RowRecord)),
    "hidzgula_listener_units": (_LISTENER, POINTER(c_size_t)),
    "hidzgula_listener_unit": (_LISTENER, c_size_t, _WHO),
    "hidzgula_listener_entries": (_LISTENER, _WHO, c_uint8, POINTER(c_uint64)),
    "hidzgula_listener_entry": (_LISTENER, _WHO, c_uint8, c_uint64, POINTER(SentRecord)),
    "hidzgula_listener_code": (_LISTENER, _WHO, c_uint8, c_uint64, c_size_t, POINTER(CodeRecord)),
    "hidzgula_unit_open": (_UNIT, c_uint64, c_uint8, POINTER(UnitSettingsRecord)),
    "hidzgula_unit_close": (_UNIT,),
    "hidzgula_unit_hear": (_UNIT, c_uint32, c_char_p, c_size_t, c_uint64),
    "hidzgula_unit_next": (_UNIT, c_uint64, POINTER(FrameRecord), POINTER(c_uint8)),
    "hidzgula_unit_when": (_UNIT, c_uint64, POINTER(c_uint64)),
    "hidzgula_unit_set": (_UNIT, c_uint32, c_uint8),
    "hidzgula_unit_heal": (_UNIT, c_uint32, c_uint8),
    "hidzgula_unit_pend": (_UNIT, c_uint32, c_uint8),
    "hidzgula_unit_unpend": (_UNIT, c_uint32, c_uint8),
    "hidzgula_unit_lamps": (_UNIT, c_uint8, c_uint8),
    "hidzgula_unit_begin": (_UNIT, c_uint8),
    "hidzgula_unit_held": (_UNIT, POINTER(c_uint8), POINTER(c_uint8)),
    "hidzgula_unit_counts": (_UNIT, POINTER(UnitCountsRecord)),
}

ANSWERS_NOTHING = {"hidzgula_close", "hidzgula_listener_close", "hidzgula_live_close", "hidzgula_read_log", "hidzgula_unit_close"}

# The library in the wheel, or the one that the environment names.
PATH = os.environ.get("HIDZGULA_LIBRARY") or str(pathlib.Path(__file__).with_name("libhidzgula_station.so"))


def _loaded(path: str) -> ctypes.CDLL:
    """The library with the type of each call."""
    library = ctypes.CDLL(path)
    for called, takes in CALLS.items():
        call = getattr(library, called)
        call.argtypes = takes
        call.restype = None if called in ANSWERS_NOTHING else c_uint32
    return library


library = _loaded(PATH)
