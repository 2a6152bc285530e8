"""A diagnostic station over the library."""

import ctypes
import operator
import re
import struct
import threading
from typing import Any, Callable, Dict, List, NamedTuple, Optional, Sequence, Tuple, Union

from ._library import (
    ChangeRecord,
    CodeRecord,
    EntryRecord,
    FrameRecord,
    ReplyRecord,
    RowRecord,
    StationRecord,
    library,
)
from .records import (
    SILENT,
    Acknowledgment,
    Change,
    Code,
    Counts,
    Frame,
    Kind,
    Lamps,
    Message,
    Reply,
    Taken,
    TakenFrames,
    Unit,
    What,
)
from .refusals import NO_ROOM, Refused, refuse
from .saving import Saved, read, written

Octets = Union[bytes, bytearray, memoryview]

KEEP_ALL = 2**32 - 1

# How many frames the library is handed at once: what each changed takes 32 bytes, or 56.
AT_ONCE = 4096
# A frame in the library's layout.
FRAME = struct.Struct("<IB8s3x")
_CHANGE = struct.Struct("<QQIIBBBBBBBx")
_BAD_SETTING = 24
_WHAT_AT = ChangeRecord.what.offset
_LISTED = What.LISTED.value
_SOMETHING = re.compile(rb"[^\x00]")
_WHATS = {what.value: what for what in What}
_KINDS: Dict[int, Optional[Kind]] = {0: None, **{kind.value: kind for kind in Kind}}


class Ceiling:
    """How many NAMEs a station or a listener has at most, if that is bounded, and how often it was begun anew for it."""

    def __init__(self, most: Optional[int], make_room: Callable[..., int], *counts: Callable[..., int]) -> None:
        """make_room: the library's call. counts: those that tell how many there are.

        Raises Refused BAD_SETTING for 0.
        """
        self.most = None if most is None else number_of("most", most, 2**64 - 1)
        if self.most == 0:
            refuse(_BAD_SETTING)
        self.begun_anew = 0
        self._make_room, self._counts = make_room, counts

    def make_room(self, of: Any, times: int = 1) -> int:
        """Makes room for one more NAME in a record of the library, of so many times the most; answers 0, or why that was refused."""
        if self.most is None:
            return 0
        anew = ctypes.c_uint8()
        status = self._make_room(of, min(self.most * times, 2**64 - 1), anew)
        self.begun_anew += anew.value
        return status

    def room(self, of: Any) -> int:
        """For how many frames there is room: each adds one NAME at most."""
        if self.most is None:
            return AT_ONCE
        there, room = ctypes.c_size_t(), AT_ONCE
        for count in self._counts:
            count(of, there)
            room = min(room, max(0, self.most - there.value))
        return room


class Queries(NamedTuple):
    """The calls by which a station tells what it knows."""

    held: Any
    rows: Any
    row: Any
    counts: Any
    entries: Any
    entry: Any
    code: Any
    save: Any


class Known:
    """What a station knows of units, of its own address, and of what it could not read."""

    _calls: Queries
    _is_live = False
    _name: int
    _station: Any
    _lock: Any
    _keep: int
    _ceiling: Ceiling

    @property
    def begun_anew(self) -> int:
        """How often it was begun anew, since it had as many NAMEs as it may have (`most`)."""
        return self._ceiling.begun_anew

    @property
    def address(self) -> Optional[int]:
        """Its own address, 0 to 253, where it holds one.

        Raises Refused NO_STATION.
        """
        has, address = ctypes.c_uint8(), ctypes.c_uint8()
        with self._lock:
            done(self._calls.held(self._station, has, address))
        return address.value if has.value else None

    def units(self) -> List[Unit]:
        """What is known of each NAME whose claim was read, in the order of their first claims.

        Raises Refused NO_STATION.
        """
        count, row = ctypes.c_size_t(), RowRecord()
        units = []
        with self._lock:
            done(self._calls.rows(self._station, count))
            for place in range(count.value):
                done(self._calls.row(self._station, place, row))
                units.append(unit_of(row))
        return units

    def count(self, name: int, kind: int) -> int:
        """How many messages of a kind came under a NAME, whatever is kept of them, up to 2^64 - 1; 0 for a NAME that is not known.

        Raises Refused NO_KIND, NO_STATION.
        """
        with self._lock:
            return self._count(*_list_of(name, kind))

    def messages(self, name: int, kind: int) -> List[Message]:
        """The messages of a kind that came under a NAME and are kept, the oldest first; none for a NAME that is not known.

        Raises Refused NO_KIND, NO_STATION.
        """
        name, kind = _list_of(name, kind)
        with self._lock:
            count = self._count(name, kind)
            return [self._message(name, kind, place) for place in range(max(0, count - self._keep), count)]

    def message(self, name: int, kind: int, place: int) -> Message:
        """The message at a place among all of its list that came, from 0. A message keeps its place while others come.

        Raises Refused NO_KIND, NO_STATION, NOT_KEPT where it came and is kept no longer, NO_PLACE where it never came.
        """
        name, kind = _list_of(name, kind)
        place = number_of("place", place, 2**64 - 1, most_is_refused=True)
        with self._lock:
            return self._message(name, kind, place)

    def newest(self, name: int, kind: int) -> Optional[Message]:
        """The newest message of a kind under a NAME; None where none came, or none is kept.

        Raises Refused NO_KIND, NO_STATION.
        """
        name, kind = _list_of(name, kind)
        with self._lock:
            count = self._count(name, kind)
            return self._message(name, kind, count - 1) if count and self._keep else None

    def counts(self) -> Counts:
        """How many frames were missed, and how many messages ended that could not be read; each up to 2^64 - 1.

        Raises Refused NO_STATION.
        """
        missed, unread = ctypes.c_uint64(), ctypes.c_uint64()
        with self._lock:
            done(self._calls.counts(self._station, missed, unread))
        return Counts(missed.value, unread.value)

    def save(self) -> bytes:
        """What it knows, for `restore` when the program is started again: NAMEs in their order, their last acknowledgments, and the messages that are kept of
        each list. Addresses are not saved: they come back by claims. It is a text of a line for each frame that a station reads of a bus on which it came to
        know that, with a CRC-32.

        Raises Refused NO_STATION, NOT_HELD where it holds no address, NOT_SAVED, and MemoryError.
        """
        has, address, count = ctypes.c_uint8(), ctypes.c_uint8(), ctypes.c_size_t()
        with self._lock:
            done(self._calls.held(self._station, has, address))
            records = (FrameRecord * AT_ONCE)()
            status = self._calls.save(self._station, records, len(records), count)
            if status == NO_ROOM:
                records = (FrameRecord * count.value)()
                status = self._calls.save(self._station, records, len(records), count)
            done(status)
        return written(self._is_live, Saved(self._name, address.value, self._keep, records[: count.value]))

    def _count(self, name: int, kind: int) -> int:
        count = ctypes.c_uint64()
        done(self._calls.entries(self._station, name, kind, count))
        return count.value

    def _message(self, name: int, kind: int, place: int) -> Message:
        entry, code = EntryRecord(), CodeRecord()
        done(self._calls.entry(self._station, name, kind, place, entry))
        codes = []
        for at in range(entry.codes):
            done(self._calls.code(self._station, name, kind, place, at, code))
            codes.append(Code(code.spn, code.fmi, code.count))
        return Message(place, Lamps(entry.lamps, entry.flashes), tuple(codes))


class Station(Known):
    """A diagnostic station for SAE J1939 on one bus: it is handed the frames that are read of that bus, says what is to be sent, and lists what
    they tell by NAME. Who only listens is a `Listener`.

    Each call may be made from any thread: a lock lets in one at a time. A refused call raises `Refused`, one that was refused memory
    `MemoryError`, and has then changed nothing. A number that no C type of the library holds, as a NAME of 65 bits, is a ValueError; what is
    no whole number, or no bytes, is a TypeError that tells what was wanted.

        with Station(name=1, address=248) as station:
            station.take(0x18EEFF00, bytes.fromhex("A000000000000000"))
            station.take(0x18FECA00, bytes.fromhex("04FFB8040301FFFF"))
            print(*station.messages(0xA0, DM1))
    """

    _calls = Queries(
        library.hidzgula_held,
        library.hidzgula_rows,
        library.hidzgula_row,
        library.hidzgula_counts,
        library.hidzgula_entries,
        library.hidzgula_entry,
        library.hidzgula_code,
        library.hidzgula_save,
    )

    def __init__(
        self, name: int, address: int, *, grant: int = 255, keep: Optional[int] = None, most: Optional[int] = None, **more: Any
    ) -> None:
        """Opens a station that has read nothing.

        name: its NAME, 64 bits (SAE J1939-81).
        address: which it holds, 0 to 253.
        grant: how many packets it lets a sender send at once, 1 to 255 (SAE J1939-21).
        keep: of each list the newest so many messages are kept, 0 to 2^32 - 1, and all are counted; None for all.
        most: how many NAMEs it has at most, 1 or more; None for all. Where it has as many, the next frame begins it anew: it goes on at its
            address with the NAMEs that hold others, if these are fewer, and without any other row, list or count (`begun_anew`). Where it
            holds no address then, the frame is refused, NOT_HELD: it is to be closed, and opened at another one.

        Raises Refused BAD_SETTING for an address above 253, a grant of 0 or `most` 0, and MemoryError.
        """
        if "listening" in more:
            raise TypeError("a station takes part in the bus; for one who only listens there is hidzgula.Listener()")
        if more:
            raise TypeError(f"a station has no {', '.join(more)}")
        self._station = StationRecord()
        self._lock = threading.Lock()
        self._reply = ReplyRecord()
        self._change = ChangeRecord()
        self._name = name = number_of("name", name, 2**64 - 1)
        address = number_of("address", address, 255, most_is_refused=True)
        kept = number_of("keep", KEEP_ALL if keep is None else keep, KEEP_ALL)
        self._ceiling = Ceiling(most, library.hidzgula_make_room, library.hidzgula_rows)
        done(library.hidzgula_open(self._station, name, address, number_of("grant", grant, 255), kept))
        self._keep = kept

    @classmethod
    def restore(cls, saved: Octets, *, grant: int = 255) -> "Station":
        """Opens a station that knows what another one saved, of the same NAME, address and `keep`: units without addresses, which come back by claims, and
        the messages that were kept; their places and the counts begin anew, with one frame missed. Behind it go `claim` and, to all, a request for their
        claims: `ask_all(PGN_ADDRESS_CLAIMED)`.

        Raises ValueError for what was not saved of a station, in another version, or was cut or changed; Refused BAD_SETTING for a grant of 0; and
        MemoryError. Then nothing is open.
        """
        it = read(False, saved)
        station = cls(it.name, it.address, grant=grant, keep=it.keep)
        try:
            station._take_saved((FrameRecord * len(it.frames))(*it.frames))
        except BaseException:
            station.close()
            raise
        return station

    def _take_saved(self, frames: Any) -> None:
        first, taken = ctypes.addressof(frames), 0
        changes = (ChangeRecord * AT_ONCE)()
        with self._lock:
            while taken < len(frames):
                one = ctypes.c_size_t()
                place = first + taken * FRAME.size
                done(library.hidzgula_take_frames(self._station, place, len(frames) - taken, changes, len(changes), self._reply, one))
                taken += one.value
            done(library.hidzgula_take_gap_telling(self._station, 1, self._reply, self._change))

    def close(self) -> None:
        """Closes the station and frees its memory; every other call is then Refused, NO_STATION. Closing twice does nothing."""
        with self._lock:
            library.hidzgula_close(self._station)

    def __enter__(self) -> "Station":
        return self

    def __exit__(self, *_: object) -> None:
        self.close()

    def __del__(self) -> None:
        if hasattr(self, "_keep"):
            self.close()

    def __reduce__(self) -> Any:
        raise TypeError("a station cannot be copied")

    def __repr__(self) -> str:
        """Its NAME, its address, and counts; or that it is closed, or in a call of another thread."""
        return f"<hidzgula.Station {self._name:016X}{said_by(self._lock, self._said)}>"

    def _said(self) -> str:
        rows, missed, unread, has, address = ctypes.c_size_t(), ctypes.c_uint64(), ctypes.c_uint64(), ctypes.c_uint8(), ctypes.c_uint8()
        done(library.hidzgula_held(self._station, has, address))
        done(library.hidzgula_rows(self._station, rows))
        done(library.hidzgula_counts(self._station, missed, unread))
        return f"{at_address(has, address)}, units {rows.value}, missed {missed.value}, unread {unread.value}"

    # ---- what was read of the bus

    def take(self, id: int, data: Octets) -> Taken:
        """Takes a frame that was read of the bus: its 29-bit identifier, and 0 to 8 bytes.

        Frames with 11-bit identifiers, remote frames, error frames and frames of CAN FD are not handed over; nor are the station's own.

        Raises Refused ID_TOO_LARGE, TOO_LONG, NO_STATION, NOT_HELD (`most`), and MemoryError: then the frame may be handed over again, or be
        counted as missed.
        """
        id = number_of("id", id, 2**32 - 1, most_is_refused=True)
        data = octets_of(data)
        with self._lock:
            done(self._ceiling.make_room(self._station))
            done(library.hidzgula_take_frame_telling(self._station, id, data, len(data), self._reply, self._change))
            return Taken(_reply_of(self._reply), change_of(self._change))

    def take_frames(self, frames: Sequence[Tuple[int, Octets]], start: int = 0) -> TakenFrames:
        """Takes frames, each an identifier and its bytes, from the place `start` on, as `take` does one after the other.

        It stops behind the first one that the station replies to, so that the reply can be sent before the next is taken. `count` tells how many were taken: `start + count` is the next place.

        Raises Refused ID_TOO_LARGE, TOO_LONG, NO_STATION, NOT_HELD (`most`), and MemoryError, at the first frame that is refused: those before it
        are taken, and the error's `taken` tells of them, so `start + taken.count` is the place of the one that was refused. Where a frame is
        no pair of a number and bytes, a TypeError or ValueError is raised before any is taken.
        """
        packed = packed_frames(frames, start)
        held = (FrameRecord * (len(packed) // FRAME.size)).from_buffer(packed)
        return self.take_records(held, len(held), start)

    def take_records(self, frames: Any, count: int, start: int = 0) -> TakenFrames:
        """Takes frames that stand in the library's layout already, from the first on, as `take_frames` does; the first has the place
        `start`. For the modules of this package.

        Raises what `take_frames` raises.
        """
        first = ctypes.addressof(frames)
        changes: List[Tuple[int, Change]] = []
        records = (ChangeRecord * min(AT_ONCE, max(count, 1)))()
        taken = 0
        with self._lock:
            while True:
                one = ctypes.c_size_t(0)
                status = self._ceiling.make_room(self._station) or library.hidzgula_take_frames(
                    self._station,
                    first + taken * FRAME.size,
                    count - taken,
                    records,
                    min(len(records), self._ceiling.room(self._station)),
                    self._reply,
                    one,
                )
                _add_changes(changes, records, one.value, start + taken)
                taken += one.value
                reply = _reply_of(self._reply) if one.value else SILENT
                if status:
                    refuse(status, TakenFrames(taken, changes, reply))
                if taken == count or reply is not SILENT:
                    return TakenFrames(taken, changes, reply)

    def missed(self, count: int) -> Taken:
        """Tells the station that `count` frames of the bus were missed, 0 to 2^32 - 1: it forgets which NAME owns which address, and all
        messages that are half read, until units claim again. It replies with its claim and a request for the claims of all.

        Raises Refused NO_STATION, and MemoryError.
        """
        count = number_of("count", count, 2**32 - 1)
        with self._lock:
            done(library.hidzgula_take_gap_telling(self._station, count, self._reply, self._change))
            return Taken(_reply_of(self._reply), change_of(self._change))

    # ---- what it sends

    def claim(self) -> Frame:
        """Its claim of its address, or its cannot claim where it holds none: what a station sends first.

        Raises Refused NO_STATION.
        """
        record = FrameRecord()
        with self._lock:
            done(library.hidzgula_claim(self._station, record))
        return frame_of(record)

    def ask(self, name: int, pgn: int) -> Reply:
        """Asks the unit of a NAME for a parameter group, below 2^24: the request to send. A group to clear codes clears them at units that
        agree.

        Raises Refused PGN_TOO_LARGE, NO_STATION, NOT_HELD, NO_ADDRESS, and MemoryError.
        """
        name, pgn = number_of("name", name, 2**64 - 1), number_of("pgn", pgn, 2**32 - 1, most_is_refused=True)
        return self._ordered(library.hidzgula_ask, name, pgn)

    def ask_all(self, pgn: int) -> Reply:
        """Asks all units for a parameter group, below 2^24: the request to send.

        Raises Refused PGN_TOO_LARGE, NO_STATION, NOT_HELD, and MemoryError.
        """
        return self._ordered(library.hidzgula_ask_all, number_of("pgn", pgn, 2**32 - 1, most_is_refused=True))

    def command(self, name: int, address: int) -> Reply:
        """Commands the unit of a NAME to hold an address, 0 to 253: the three frames of a broadcast, of which the standard wants the last
        two 50 to 200 ms behind the one before (SAE J1939-21; 10 to 200 ms by ISO 11783-3 and later editions, from memory).

        Raises Refused NO_STATION, NOT_AN_ADDRESS, NOT_HELD, and MemoryError.
        """
        name, address = number_of("name", name, 2**64 - 1), number_of("address", address, 255, most_is_refused=True)
        return self._ordered(library.hidzgula_command, name, address)

    def _ordered(self, call: Any, *words: int) -> Reply:
        with self._lock:
            done(call(self._station, *words, self._reply))
            return _reply_of(self._reply)


def done(status: int) -> None:
    """Raises where a call was not done."""
    if status:
        refuse(status)


def number_of(what: str, value: int, most: int, most_is_refused: bool = False) -> int:
    """A number that the library's type holds. ctypes would cut a larger one, so that is a ValueError; or, where the library refuses the
    type's greatest number for being too large, that one in its place, so that both are refused alike. What is no whole number is a
    TypeError."""
    try:
        value = operator.index(value)
    except TypeError:
        raise TypeError(f"{what} is a whole number, and not {value!r}") from None
    if value > most and most_is_refused:
        return most
    if not 0 <= value <= most:
        raise ValueError(f"{what} is {value}, and may be 0 to {most}")
    return value


def instance_of(what: str, value: Any, wanted: type) -> None:
    """Raises a TypeError where a value is of another type."""
    if not isinstance(value, wanted):
        raise TypeError(f"{what} is a {wanted.__name__}, and not {value!r}")


def said_by(lock: Any, says: Callable[[], str]) -> str:
    """What a station or a unit says of itself; it does not wait for its lock, since a debugger may ask in the middle of a call."""
    if not lock.acquire(blocking=False):
        return ", in a call"
    try:
        return says()
    except Refused:
        return ", closed"
    finally:
        lock.release()


def at_address(has: ctypes.c_uint8, address: ctypes.c_uint8) -> str:
    """Where it is, in words."""
    return f" at {address.value}" if has.value else " without address"


def _list_of(name: int, kind: int) -> Tuple[int, int]:
    """The NAME and the kind of a list."""
    return number_of("name", name, 2**64 - 1), number_of("kind", kind, 255, most_is_refused=True)


def octets_of(data: Octets) -> bytes:
    """The bytes of a frame."""
    if type(data) is bytes:
        return data
    try:
        return bytes(memoryview(data))
    except TypeError:
        raise TypeError(f"data is bytes, and not {data!r}") from None


def packed_frames(frames: Sequence[Tuple[int, Octets]], start: int) -> bytearray:
    """The frames from a place on, in the library's layout."""
    if not hasattr(frames, "__len__") or not hasattr(frames, "__getitem__"):
        raise TypeError(f"frames is a sequence of pairs of an identifier and bytes, and not {frames!r}")
    start = number_of("start", start, len(frames))
    packed = bytearray()
    for at in range(start, len(frames), AT_ONCE):
        part = frames[at : at + AT_ONCE]
        try:
            packed += _packed_part(part)
        except (struct.error, TypeError, ValueError):
            packed += b"".join(map(_packed_frame, part))
    return packed


def _packed_part(part: Sequence[Tuple[int, Octets]]) -> bytes:
    """Some frames, by columns, which takes half the time of one after the other. Raises struct.error where one does not fit its place."""
    ids, contents = zip(*((id, data) for id, data in part))
    words: List[Any] = [None] * (3 * len(ids))
    words[0::3], words[1::3], words[2::3] = ids, map(len, contents), contents
    return struct.pack("<" + "IB8s3x" * len(ids), *words)


def _packed_frame(frame: Tuple[int, Octets]) -> bytes:
    """One frame whose numbers may be beyond the library's types: an identifier or a length that is too large stays so."""
    try:
        id, data = frame
    except (TypeError, ValueError):
        raise TypeError(f"a frame is a pair of an identifier and bytes, and not {frame!r}") from None
    data = octets_of(data)
    return FRAME.pack(number_of("id", id, 2**32 - 1, most_is_refused=True), min(len(data), 255), data)


def _add_changes(changes: List[Tuple[int, Change]], records: Any, count: int, first: int) -> None:
    """Adds what each of so many frames changed, where it changed something."""
    told = ctypes.string_at(records, count * _CHANGE.size)
    for found in _SOMETHING.finditer(told[_WHAT_AT :: _CHANGE.size]):
        at = found.start()
        changes.append((first + at, _change(_CHANGE.unpack_from(told, at * _CHANGE.size))))


def change_of(record: ChangeRecord) -> Change:
    """What a record of the library tells."""
    return _change(_CHANGE.unpack_from(record))


def _change(fields: Tuple[Any, ...]) -> Change:
    """What the fields of a record tell: those that `what` does not name are 0 there."""
    name, displaced, pgn, count, what, address, kind, control, again, has_displaced, lost = fields
    if what == _LISTED:
        # nearly every change of a bus is one, so it is made without the cost of a call with names
        return tuple.__new__(Change, (What.LISTED, name, address, _KINDS[kind], None, False, None, None, False, 0))
    told = _WHATS[what]
    if told is What.UNREADABLE:
        return Change(told, name, address, _KINDS[kind])
    if told is What.NOTHING:
        return Change(told)
    if told is What.CLAIMED:
        return Change(told, name, address, displaced=displaced if has_displaced else None, lost=bool(lost))
    if told is What.GAVE_UP:
        return Change(told, name)
    if told is What.ACKNOWLEDGED:
        return Change(told, name, control=control, pgn=pgn, again=bool(again))
    if told is What.UNOWNED:
        return Change(told, address=address, kind=_KINDS[kind])
    return Change(told, count=count)


def _reply_of(record: ReplyRecord) -> Reply:
    """What a record of the library replies; `SILENT` itself where that is nothing."""
    if not record.count and not record.withdraw:
        return SILENT
    return Reply(bool(record.withdraw), tuple(frame_of(frame) for frame in record.frames[: record.count]))


def frame_of(record: FrameRecord) -> Frame:
    return Frame(record.id, bytes(record.bytes[: record.length]))


def unit_of(row: RowRecord) -> Unit:
    address = row.address if row.has_address else None
    return Unit(row.name, address, Acknowledgment(row.ack_control, row.ack_pgn) if row.has_ack else None)
