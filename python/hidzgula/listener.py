"""A listener over the library: one who hears all messages on a bus, and takes no part."""

import ctypes
import struct
import threading
from typing import Any, Dict, List, Optional, Sequence, Tuple, Union

from ._library import (
    CodeRecord,
    FrameRecord,
    HeardRecord,
    ListenerRecord,
    LoggedRecord,
    RowRecord,
    SentRecord,
    WhoRecord,
    library,
)
from .records import BrokenBy, Code, Counts, Heard, HeardFrames, Kind, Lamps, Message, NotRead, Unit, What, Who, Why
from .refusals import refuse
from .station import AT_ONCE, FRAME, KEEP_ALL, Ceiling, Octets, done, number_of, octets_of, packed_frames, said_by, unit_of

NO_TIME = 2**64 - 1
_NO_PLACE = 31
_HEARD = struct.Struct("<QQBB6xQII16B")
_LOGGED = struct.Struct("<QQ")
_WHATS = {what.value: what for what in What}
_KINDS: Dict[int, Optional[Kind]] = {0: None, **{kind.value: kind for kind in Kind}}

Whose = Union[int, Who]


class Listener:
    """One who hears the messages between any two addresses of one bus, sends nothing and has no place on the bus: no NAME, no address. It lists
    each message under its unit: the NAME that owned its source address when it began, or that address, where no NAME had claimed it.

    Each call may be made from any thread: a lock lets in one at a time. A refused call raises `Refused`, one that was refused memory
    `MemoryError`, and has then changed nothing. A number that no C type of the library holds, as a NAME of 65 bits, is a ValueError; what is
    no whole number, or no bytes, is a TypeError that tells what was wanted.

        with Listener() as listener:
            listener.take(0x18EEFF00, bytes.fromhex("A000000000000000"))
            listener.take(0x18FECA00, bytes.fromhex("04FFB8040301FFFF"))
            print(*listener.messages(0xA0, DM1))
    """

    def __init__(self, *, keep: Optional[int] = None, most: Optional[int] = None) -> None:
        """Opens a listener that has heard nothing.

        keep: of each list the newest so many messages are kept, 0 to 2^32 - 1, and all are counted; None for all.
        most: how many NAMEs it has at most, and how many units that have lists, 1 or more; None for all. Where it has as many, the next frame begins
            it anew: it goes on with the NAMEs that hold addresses, if these are fewer, and without any other row, list or count (`begun_anew`). It
            counts a gap then, so that a `Who` without a NAME is one unit.

        Raises Refused BAD_SETTING for `most` 0, and MemoryError.
        """
        self._listener = ListenerRecord()
        self._lock = threading.Lock()
        self._heard = HeardRecord()
        kept = number_of("keep", KEEP_ALL if keep is None else keep, KEEP_ALL)
        self._ceiling = Ceiling(most, library.hidzgula_listener_make_room, library.hidzgula_listener_rows, library.hidzgula_listener_units)
        done(library.hidzgula_listener_open(self._listener, kept))
        self._keep = kept

    def close(self) -> None:
        """Closes the listener and frees its memory; every other call is then Refused, NO_LISTENER. Closing twice does nothing."""
        with self._lock:
            library.hidzgula_listener_close(self._listener)

    def __enter__(self) -> "Listener":
        return self

    def __exit__(self, *_: object) -> None:
        self.close()

    def __del__(self) -> None:
        if hasattr(self, "_keep"):
            self.close()

    def __reduce__(self) -> Any:
        raise TypeError("a listener cannot be copied")

    def __repr__(self) -> str:
        """Its counts; or that it is closed, or in a call of another thread."""
        return f"<hidzgula.Listener{said_by(self._lock, self._said)}>"

    def _said(self) -> str:
        rows, missed, unread = ctypes.c_size_t(), ctypes.c_uint64(), ctypes.c_uint64()
        done(library.hidzgula_listener_rows(self._listener, rows))
        done(library.hidzgula_listener_counts(self._listener, missed, unread))
        return f", units {rows.value}, missed {missed.value}, unread {unread.value}"

    # ---- what was read of the bus

    def take(self, id: int, data: Octets, time: Optional[int] = None) -> Heard:
        """Takes a frame that was read of the bus: its 29-bit identifier, 0 to 8 bytes, and when it was read.

        Frames with 11-bit identifiers, remote frames, error frames and frames of CAN FD are not handed over.

        time: in microseconds of any one clock, 0 to 2^64 - 2. A packet that came too late for its message is not read (SAE J1939-21, 5.10.3).
        None where it is not known: then nothing is late, so that a loss of which nobody tells can make one message of two.

        Raises Refused ID_TOO_LARGE, TOO_LONG, NO_LISTENER, and MemoryError: then the frame may be handed over again, or be counted as missed.
        """
        id = number_of("id", id, 2**32 - 1, most_is_refused=True)
        data = octets_of(data)
        now = _time_of(time)
        with self._lock:
            done(self._ceiling.make_room(self._listener))
            done(library.hidzgula_listener_take_at(self._listener, now, id, data, len(data), self._heard))
            return _heard_of(self._heard)

    def take_frames(self, frames: Sequence[Tuple[int, Octets]], times: Optional[Sequence[Optional[int]]] = None, start: int = 0) -> HeardFrames:
        """Takes frames, each an identifier and its bytes, from the place `start` on, as `take` does one after the other.

        times: of each frame its time, as `take` has it; None where none is known.

        Raises Refused ID_TOO_LARGE, TOO_LONG, NO_LISTENER, and MemoryError, at the first frame that is refused: those before it are taken,
        and the error's `taken` tells of them, so `start + taken.count` is the place of the one that was refused. Where a frame is no
        pair of a number and bytes, or has no time, a TypeError or ValueError is raised before any is taken.
        """
        packed = packed_frames(frames, start)
        count = len(packed) // FRAME.size
        if times is not None and len(times) != len(frames):
            raise ValueError(f"{len(times)} times of {len(frames)} frames")
        moments = [NO_TIME] * count if times is None else [_time_of(time) for time in times[start:]]
        logged = bytearray(b"".join(_LOGGED.pack(moment, 0) for moment in moments))
        records = (FrameRecord * count).from_buffer(packed)
        return self.take_records(records, (LoggedRecord * count).from_buffer(logged), count, start)

    def take_records(self, frames: Any, logged: Any, count: int, start: int = 0) -> HeardFrames:
        """Takes frames that stand in the library's layout already, with their times, from the first on, as `take_frames` does; the first has
        the place `start`. For the modules of this package.

        Raises what `take_frames` raises.
        """
        first, times = ctypes.addressof(frames), ctypes.addressof(logged)
        heard: List[Tuple[int, Heard]] = []
        records = (HeardRecord * min(AT_ONCE, max(count, 1)))()
        taken = 0
        with self._lock:
            while True:
                one = ctypes.c_size_t(0)
                status = self._ceiling.make_room(self._listener) or library.hidzgula_listener_take_frames_at(
                    self._listener,
                    first + taken * FRAME.size,
                    count - taken,
                    times + taken * _LOGGED.size,
                    count - taken,
                    records,
                    min(len(records), self._ceiling.room(self._listener)),
                    one,
                )
                self._add_heard(heard, records, one.value, start + taken)
                taken += one.value
                if status:
                    refuse(status, HeardFrames(taken, heard))
                if taken == count:
                    return HeardFrames(taken, heard)

    def missed(self, count: int, time: Optional[int] = None) -> Heard:
        """Tells the listener that `count` frames of the bus were missed, 0 to 2^32 - 1: it forgets which NAME owns which address, and all
        messages that are half read, until units claim again.

        Raises Refused NO_LISTENER, and MemoryError.
        """
        count = number_of("count", count, 2**32 - 1)
        now = _time_of(time)
        with self._lock:
            done(library.hidzgula_listener_missed_at(self._listener, now, count, self._heard))
            return _heard_of(self._heard)

    def broken(self) -> List[Heard]:
        """The messages of several packets that the newest frame broke, each as BROKEN. A gap breaks none: what was half read is let go.

        Raises Refused NO_LISTENER.
        """
        with self._lock:
            return self._broken(0)

    def _broken(self, first: int) -> List[Heard]:
        """Those from a place on."""
        messages: List[Heard] = []
        while True:
            status = library.hidzgula_listener_broken(self._listener, first + len(messages), self._heard)
            if status == _NO_PLACE:
                return messages
            done(status)
            messages.append(_heard_of(self._heard))

    def _add_heard(self, heard: List[Tuple[int, Heard]], records: Any, count: int, first: int) -> None:
        """Adds what each of so many frames changed, where it changed something; and what the last one broke and did not tell."""
        told = None
        for at, fields in enumerate(_HEARD.iter_unpack(ctypes.string_at(records, count * _HEARD.size))):
            if fields[7]:
                told = _heard(fields)
                heard.append((first + at, told))
        if told is not None and fields[-1] > (fields[7] == What.BROKEN):
            heard += ((first + count - 1, one) for one in self._broken(fields[7] == What.BROKEN))

    # ---- what it knows

    @property
    def begun_anew(self) -> int:
        """How often it was begun anew, since it had as many NAMEs, or units that have lists, as it may have (`most`)."""
        return self._ceiling.begun_anew

    def units(self) -> List[Unit]:
        """What is known of each NAME whose claim was read, in the order of their first claims.

        Raises Refused NO_LISTENER.
        """
        count, row = ctypes.c_size_t(), RowRecord()
        units = []
        with self._lock:
            done(library.hidzgula_listener_rows(self._listener, count))
            for place in range(count.value):
                done(library.hidzgula_listener_row(self._listener, place, row))
                units.append(unit_of(row))
        return units

    def senders(self) -> List[Who]:
        """The units that have lists, in the order of their first messages: NAMEs, and addresses that no NAME had claimed, each from one gap to
        the next.

        Raises Refused NO_LISTENER.
        """
        count, who = ctypes.c_size_t(), WhoRecord()
        senders = []
        with self._lock:
            done(library.hidzgula_listener_units(self._listener, count))
            for place in range(count.value):
                done(library.hidzgula_listener_unit(self._listener, place, who))
                senders.append(_who(who.name, who.gaps, who.has_name, who.address))
        return senders

    def count(self, who: Whose, kind: int) -> int:
        """How many messages of a kind came from a unit, a NAME or a `Who`, whatever is kept of them, up to 2^64 - 1.

        Raises Refused NO_KIND, NO_LISTENER.
        """
        with self._lock:
            return self._count(*_list_of(who, kind))

    def messages(self, who: Whose, kind: int) -> List[Message]:
        """The messages of a kind that came from a unit and are kept, the oldest first; none from one that is not known.

        Raises Refused NO_KIND, NO_LISTENER.
        """
        record, kind = _list_of(who, kind)
        with self._lock:
            count = self._count(record, kind)
            return [self._message(record, kind, place) for place in range(max(0, count - self._keep), count)]

    def message(self, who: Whose, kind: int, place: int) -> Message:
        """The message at a place among all of its list that came, from 0. A message keeps its place while others come.

        Raises Refused NO_KIND, NO_LISTENER, NOT_KEPT where it came and is kept no longer, NO_PLACE where it never came.
        """
        record, kind = _list_of(who, kind)
        place = number_of("place", place, 2**64 - 1, most_is_refused=True)
        with self._lock:
            return self._message(record, kind, place)

    def newest(self, who: Whose, kind: int) -> Optional[Message]:
        """The newest message of a kind from a unit; None where none came, or none is kept.

        Raises Refused NO_KIND, NO_LISTENER.
        """
        record, kind = _list_of(who, kind)
        with self._lock:
            count = self._count(record, kind)
            return self._message(record, kind, count - 1) if count and self._keep else None

    def counts(self) -> Counts:
        """How many frames were missed, and how many messages ended that could not be read whole; each up to 2^64 - 1.

        Raises Refused NO_LISTENER.
        """
        missed, unread = ctypes.c_uint64(), ctypes.c_uint64()
        with self._lock:
            done(library.hidzgula_listener_counts(self._listener, missed, unread))
        return Counts(missed.value, unread.value)

    def _count(self, who: WhoRecord, kind: int) -> int:
        count = ctypes.c_uint64()
        done(library.hidzgula_listener_entries(self._listener, who, kind, count))
        return count.value

    def _message(self, who: WhoRecord, kind: int, place: int) -> Message:
        entry, code = SentRecord(), CodeRecord()
        done(library.hidzgula_listener_entry(self._listener, who, kind, place, entry))
        codes = []
        for at in range(entry.codes):
            done(library.hidzgula_listener_code(self._listener, who, kind, place, at, code))
            codes.append(Code(code.spn, code.fmi, code.count))
        not_read = NotRead(entry.padding, entry.zeros, entry.older, entry.bytes_behind, entry.bytes_missing) if entry.in_part else None
        return Message(place, Lamps(entry.lamps, entry.flashes), tuple(codes), entry.to, not_read)


def _time_of(time: Optional[int]) -> int:
    """A time as the library has it."""
    return NO_TIME if time is None else number_of("time", time, NO_TIME - 1)


def _list_of(who: Whose, kind: int) -> Tuple[WhoRecord, int]:
    """The unit and the kind of a list."""
    kind = number_of("kind", kind, 255, most_is_refused=True)
    if not isinstance(who, Who):
        return WhoRecord(name=number_of("who", who, 2**64 - 1), has_name=1), kind
    if who.name is not None:
        return WhoRecord(name=number_of("name", who.name, 2**64 - 1), has_name=1), kind
    return WhoRecord(address=number_of("address", who.address or 0, 255), gaps=number_of("gaps", who.gaps, 2**64 - 1)), kind


def _who(name: int, gaps: int, has_name: int, address: int) -> Who:
    return Who(name) if has_name else Who(None, address, gaps)


def _heard_of(record: HeardRecord) -> Heard:
    """What a record of the library tells."""
    return _heard(_HEARD.unpack_from(record))


def _heard(fields: Tuple[Any, ...]) -> Heard:
    """What the fields of a record tell: those that `what` does not name are 0 there."""
    name, gaps, has_name, address, displaced, pgn, count, what, kind, source, to, why, control, requester, again, has_displaced, lost = fields[:17]
    read, of, number, reason, by, broken = fields[17:]
    told = _WHATS[what]
    if told in (What.NOTHING, What.MISSED):
        return Heard(told, count=count)
    if told is What.UNOWNED:
        return Heard(told, source=source, kind=_KINDS[kind], broken=broken)
    who = _who(name, gaps, has_name, address)
    if told is What.GAVE_UP:
        return Heard(told, who)
    if told is What.CLAIMED:
        return Heard(told, who, source, displaced=displaced if has_displaced else None, lost=bool(lost), broken=broken)
    if told is What.ACKNOWLEDGED:
        return Heard(told, who, source, to, control=control, requester=requester, pgn=pgn, again=bool(again))
    if told is What.BROKEN:
        aborted = why == BrokenBy.ABORT
        return Heard(told, who, source, to, _KINDS[kind], BrokenBy(why), read=read, of=of, number=number, reason=reason, by=by if aborted else None, broken=broken)
    return Heard(told, who, source, to, _KINDS[kind], Why(why) if why else None)
