"""A station that takes part in a bus, and carries out orders, over the library."""

import ctypes
import threading
from typing import Any, Callable, Iterable, Optional

from ._library import ChangeRecord, FrameRecord, LiveRecord, LiveSettingsRecord, MessageRecord, RowRecord, VerdictRecord, library
from .records import Change, Delivery, Doubt, Finding, Frame, Kind, Sent, SharedMessage, Verdict, What
from .refusals import refuse
from .saving import read
from .station import KEEP_ALL, Ceiling, Known, Octets, Queries, at_address, change_of, done, frame_of, number_of, octets_of, said_by

_NEVER = 2**64 - 1
_OPEN = 1
_NO_PLACE, _NO_ADDRESS = 31, 22
_ORDER_OPEN = 42
_GROUPS = {Kind.DM1: 65226, Kind.DM2: 65227, Kind.DM6: 65231}
# the kind of the message that answers a request for a group; of a clear the one that shows what is left
_KINDS = {65226: Kind.DM1, 65227: Kind.DM2, 65231: Kind.DM6, 65228: Kind.DM2, 65235: Kind.DM1}


class LiveStation(Known):
    """A diagnostic station for SAE J1939 that takes part in one bus: it hears the frames that are read of that bus, is asked for the frames that it
    writes, and carries out one order at a time.

    It claims its address, asks all for their claims once, answers what it is asked, and grants the packets of sessions. It writes no clear and no command without
    its order. It has no clock: `now` is a time in microseconds of any clock that does not go back, as `time.monotonic_ns() // 1000`.

    Each call may be made from any thread: a lock lets in one at a time. A refused call raises `Refused`, one that was refused memory
    `MemoryError`, and has then changed nothing. A number that no C type of the library holds is a ValueError; what is no whole number, or no
    bytes, is a TypeError that tells what was wanted.

        with LiveStation(name=1, address=249) as station:
            station.ask(0xA0, DM2)
            while (frame := station.next(now=0)) is not None:
                print(frame)
    """

    _calls = Queries(
        library.hidzgula_live_held,
        library.hidzgula_live_rows,
        library.hidzgula_live_row,
        library.hidzgula_live_counts,
        library.hidzgula_live_entries,
        library.hidzgula_live_entry,
        library.hidzgula_live_code,
        library.hidzgula_live_save,
    )
    _is_live = True

    def __init__(
        self,
        name: int,
        address: int,
        *,
        grant: int = 255,
        keep: Optional[int] = 16,
        most: Optional[int] = None,
        gap: int = 50_000,
        settle: int = 250_000,
        share: Iterable[int] = (),
        on_message: Optional[Callable[[SharedMessage], Any]] = None,
    ) -> None:
        """Opens a station whose claim waits; it has heard nothing.

        name: its NAME, 64 bits (SAE J1939-81).
        address: which it holds, 0 to 253.
        grant: how many packets it lets a sender send at once, 1 to 255 (SAE J1939-21).
        keep: of each list the newest so many messages are kept, 0 to 2^32 - 1, and all are counted; None for all.
        most: how many NAMEs it has at most, 1 or more; None for all. Where it has as many, the next frame begins it anew, as it begins a `Station`: it
            claims its address again and asks all for their claims, and what waits is let go. While an order is open it may have twice as many;
            with these the order is cut off.
        gap: microseconds at least from a frame of a command, or of a broadcast, to the next, 10,000 to 200,000: 50 to 200 ms by SAE J1939-21, 10 to 200 ms by
            ISO 11783-3 and later editions (from memory).
        settle: microseconds from the claim of a new address to anything but a claim, up to 1,000,000 (SAE J1939-81: 250,000).
        share: groups whose messages the program has at this address; each that is whole is handed to `on_message` by the call of `hear` that made it so.

        Raises Refused BAD_SETTING for an address above 253, a grant of 0, `most` 0 or a time out of its range, NO_GROUP for a group of the protocol or of
        diagnostics in `share`, and MemoryError.
        """
        self._station = LiveRecord()
        self._lock = threading.Lock()
        self._change = ChangeRecord()
        self._verdict: Optional[Verdict] = None
        self._is_open = False
        self._shares = False
        self.on_message = on_message
        self._keep = number_of("keep", KEEP_ALL if keep is None else keep, KEEP_ALL)
        self._ceiling = Ceiling(most, library.hidzgula_live_make_room)
        self._name = name = number_of("name", name, 2**64 - 1)
        settings = LiveSettingsRecord(
            number_of("gap", gap, _NEVER, most_is_refused=True),
            number_of("settle", settle, _NEVER, most_is_refused=True),
            self._keep,
            number_of("grant", grant, 255),
        )
        done(library.hidzgula_live_open(self._station, name, number_of("address", address, 255, most_is_refused=True), settings))
        self._is_there = True
        for pgn in share:
            self.share(pgn)

    @classmethod
    def restore(cls, saved: Octets, now: int, **settings: Any) -> "LiveStation":
        """Opens a station that knows what another live one saved, of the same NAME, address and `keep`: units without addresses, which come back by claims,
        and the messages that were kept; their places and the counts begin anew, with one frame missed. Orders and groups that are shared are not saved;
        `settings` are the others of the opening. Its claim waits, and behind it a request for the claims of all.

        Raises ValueError for what was not saved of a live station, in another version, or was cut or changed; and what the opening raises. Then nothing is
        open.
        """
        it = read(True, saved)
        now = number_of("now", now, _NEVER)
        station = cls(it.name, it.address, keep=it.keep, **settings)
        station._hear_saved(it.frames, now)
        return station

    def _hear_saved(self, frames: Iterable[FrameRecord], now: int) -> None:
        """Hears frames that were saved, and a gap; closes the station where one is refused."""
        try:
            with self._lock:
                for frame in frames:
                    done(library.hidzgula_live_hear(self._station, frame.id, bytes(frame.bytes), frame.length, now, self._change))
                done(library.hidzgula_live_missed(self._station, 1, now, self._change))
        except BaseException:
            LiveStation.close(self)
            raise

    def close(self) -> None:
        """Closes the station and frees its memory; every other call is then Refused, NO_STATION. Closing twice does nothing."""
        with self._lock:
            library.hidzgula_live_close(self._station)

    def __enter__(self) -> "LiveStation":
        return self

    def __exit__(self, *_: object) -> None:
        self.close()

    def __del__(self) -> None:
        if hasattr(self, "_is_there"):
            library.hidzgula_live_close(self._station)

    def __reduce__(self) -> Any:
        raise TypeError("a station cannot be copied")

    def __repr__(self) -> str:
        """Its NAME, its address, and how many units it knows; or that it is closed, or in a call of another thread."""
        return f"<hidzgula.{type(self).__name__} {self._name:016X}{said_by(self._lock, self._said)}>"

    def _said(self) -> str:
        rows, has, address = ctypes.c_size_t(), ctypes.c_uint8(), ctypes.c_uint8()
        done(self._calls.held(self._station, has, address))
        done(self._calls.rows(self._station, rows))
        return f"{at_address(has, address)}, units {rows.value}{', an order is open' if self._is_open else ''}"

    # ---- the bus

    def hear(self, id: int, data: Octets, now: int) -> Change:
        """Hears a frame that was read of the bus: its 29-bit identifier, and 0 to 8 bytes. Its own frames may be among them: they change nothing.

        Frames with 11-bit identifiers, remote frames, error frames and frames of CAN FD are not handed over.

        Raises Refused ID_TOO_LARGE, TOO_LONG, NO_STATION, NOT_HELD where it has `most` NAMEs and holds no address, QUEUE_FULL where as much waits as
        there is room for, and MemoryError: then the frame was not heard, and may be handed over again.
        """
        id = number_of("id", id, 2**32 - 1, most_is_refused=True)
        data = octets_of(data)
        now = number_of("now", now, _NEVER)
        message = None
        with self._lock:
            withheld, whole = ctypes.c_uint8(), ctypes.c_uint8()
            if self._shares:
                done(library.hidzgula_live_shared_hear(self._station, id, data, len(data), withheld, whole))
            if whole.value:
                message = self._newest_shared()
            if withheld.value:
                change = Change(What.NOTHING)
            else:
                self._make_room(now)
                done(library.hidzgula_live_hear(self._station, id, data, len(data), now, self._change))
                self._look()
                change = change_of(self._change)
        if message is not None and self.on_message is not None:
            self.on_message(message)
        return change

    def _make_room(self, now: int) -> None:
        """Makes room for the NAME of one more frame."""
        status = self._ceiling.make_room(self._station)
        if status == _ORDER_OPEN:
            status = self._ceiling.make_room(self._station, times=2)
        if status == _ORDER_OPEN:
            done(library.hidzgula_live_end(self._station, now))
            self._look()
            status = self._ceiling.make_room(self._station)
        done(status)

    def missed(self, count: int, now: int) -> Change:
        """Tells the station that `count` frames of the bus were missed, 0 to 2^32 - 1: it forgets which NAME owns which address, and all messages that
        are half read, until units claim again.

        Raises Refused NO_STATION, QUEUE_FULL, and MemoryError.
        """
        count, now = number_of("count", count, 2**32 - 1), number_of("now", now, _NEVER)
        with self._lock:
            done(library.hidzgula_live_missed(self._station, count, now, self._change))
            self._look()
            return change_of(self._change)

    def next(self, now: int) -> Optional[Frame]:
        """The frame that goes now, to be written at once, since it counts as written; None where none does: then `when` says when to ask again, which may
        be at once.

        Raises Refused NO_STATION.
        """
        record, has = FrameRecord(), ctypes.c_uint8()
        with self._lock:
            now = number_of("now", now, _NEVER)
            done(library.hidzgula_live_next(self._station, now, record, has))
            self._look()
            if self._shares and not has.value:
                done(library.hidzgula_live_shared_next(self._station, now, record, has))
        return frame_of(record) if has.value else None

    def when(self, now: int) -> Optional[int]:
        """When to ask again, at `now` or later: before that nothing goes, unless a frame is heard or an order is given. None where nothing waits for its
        time.

        Raises Refused NO_STATION.
        """
        at, shared_at = ctypes.c_uint64(), ctypes.c_uint64(_NEVER)
        now = number_of("now", now, _NEVER)
        with self._lock:
            done(library.hidzgula_live_when(self._station, now, at))
            if self._shares:
                done(library.hidzgula_live_shared_when(self._station, now, shared_at))
        first = min(at.value, shared_at.value)
        return first if first != _NEVER else None

    # ---- groups that the program shares with the station

    def share(self, pgn: int) -> None:
        """Shares a group from now on: the program has its messages at the station's address, as `shared_message` and by `on_message`. NAMEs are known by claims
        that are heard since the first group was shared, so that is best done by the opening (`share`).

        Raises Refused NO_GROUP for a group of the protocol or of diagnostics, PGN_TOO_LARGE, NO_STATION, and MemoryError.
        """
        with self._lock:
            done(library.hidzgula_live_share(self._station, number_of("pgn", pgn, 2**32 - 1, most_is_refused=True)))
            self._shares = True

    def request(self, to: Optional[int] = None, pgn: Any = None, *, name: Optional[int] = None) -> None:
        """Asks for a group that is shared, the unit at an address, all (255), or the unit of a NAME: `next` gives the request.

        Raises Refused NO_GROUP where it is not shared, NOT_HELD, QUEUE_FULL, NO_STATION, NO_ADDRESS where the NAME's is not known.
        """
        pgn = number_of("pgn", pgn, 2**32 - 1, most_is_refused=True)
        with self._lock:
            done(library.hidzgula_live_shared_ask(self._station, self._address(to, name), pgn))

    def send(self, to: Optional[int] = None, pgn: Any = None, data: Octets = b"", *, name: Optional[int] = None) -> Any:
        """Gives a message of a group that is shared to be sent, of 0 to 1,785 bytes, to an address, to all (255), or to the unit of a NAME: `next` gives
        its frames, and `sent` tells what came of it. Up to eight bytes go in one frame, more by a broadcast or a session. One goes at a time.

        Raises Refused NO_GROUP where it is not shared or no identifier carries it, NOT_HELD, TOO_LONG, NOT_AN_ADDRESS where it cannot go there,
        SESSION_OPEN while another, or for a broadcast a command, is under way, NO_STATION, NO_ADDRESS where the NAME's is not known, and MemoryError.
        """
        pgn, data = number_of("pgn", pgn, 2**32 - 1, most_is_refused=True), octets_of(data)
        with self._lock:
            done(library.hidzgula_live_shared_send(self._station, self._address(to, name), pgn, data, len(data)))

    @property
    def sent(self) -> Sent:
        """What came of the newest message that was given to be sent.

        Raises Refused NO_STATION.
        """
        what, reason = ctypes.c_uint8(), ctypes.c_uint8()
        with self._lock:
            done(library.hidzgula_live_shared_sent(self._station, what, reason))
        delivery = Delivery(what.value)
        return Sent(delivery, reason.value if delivery == Delivery.ABORTED else None)

    def _address(self, to: Optional[int], name: Optional[int]) -> int:
        """The address that is given, or that of a NAME."""
        if (to is None) == (name is None):
            raise TypeError("either an address or a NAME is to be given")
        if name is None:
            return number_of("to", to, 255)
        row = RowRecord()
        status = library.hidzgula_live_row_of(self._station, number_of("name", name, 2**64 - 1), row)
        if status not in (0, _NO_PLACE):
            refuse(status)
        if status or not row.has_address:
            refuse(_NO_ADDRESS)
        return row.address

    @property
    def shared_message(self) -> Optional[SharedMessage]:
        """The newest message of a group that is shared which is whole."""
        with self._lock:
            return self._newest_shared()

    def _newest_shared(self) -> Optional[SharedMessage]:
        record = MessageRecord()
        if library.hidzgula_live_shared_message(self._station, record):
            return None
        return SharedMessage(record.pgn, record.source, record.name if record.has_name else None, bytes(record.bytes[: record.size]))

    # ---- orders

    def ask(self, name: int, what: int) -> None:
        """Asks the unit of a NAME for a message, DM1, DM2 or DM6, or for its claim, PGN_ADDRESS_CLAIMED. The order is open from now on.

        Raises Refused NO_GROUP for any other group, NO_STATION, ORDER_OPEN.
        """
        self._order(library.hidzgula_live_ask, number_of("name", name, 2**64 - 1), _group_of(what))

    def ask_all(self, what: int) -> None:
        """Asks all units for it.

        Raises Refused NO_GROUP, NO_STATION, ORDER_OPEN.
        """
        self._order(library.hidzgula_live_ask_all, _group_of(what))

    def clear(self, name: int, pgn: int) -> None:
        """Has the unit of a NAME clear, by PGN_DM3 its previously active codes, by PGN_DM11 its active ones, and asks it what is left.

        Raises Refused NO_GROUP for any other group, NO_STATION, ORDER_OPEN.
        """
        pgn = number_of("pgn", pgn, 2**32 - 1, most_is_refused=True)
        self._order(library.hidzgula_live_clear, number_of("name", name, 2**64 - 1), pgn)

    def command(self, name: int, address: int) -> None:
        """Commands the unit of a NAME to hold an address, 0 to 253.

        Raises Refused NO_STATION, ORDER_OPEN, NOT_AN_ADDRESS.
        """
        address = number_of("address", address, 255, most_is_refused=True)
        self._order(library.hidzgula_live_command, number_of("name", name, 2**64 - 1), address)

    def end(self, now: int) -> None:
        """Ends the open order, if one is open: it is cut off.

        Raises Refused NO_STATION.
        """
        with self._lock:
            done(library.hidzgula_live_end(self._station, number_of("now", now, _NEVER)))
            self._look()

    @property
    def is_open(self) -> bool:
        """Whether an order is open."""
        return self._is_open

    @property
    def verdict(self) -> Optional[Verdict]:
        """What came of the newest order; None while it is open, and where none was given."""
        return self._verdict

    def _order(self, call: Any, *words: int) -> None:
        with self._lock:
            done(call(self._station, *words))
            self._verdict, self._is_open = None, True

    def _look(self) -> None:
        """Whether the open order ended; its verdict has the message of this moment."""
        if not self._is_open:
            return
        record = VerdictRecord()
        done(library.hidzgula_live_verdict(self._station, record))
        if record.what != _OPEN:
            self._verdict, self._is_open = self._verdict_of(record), False

    def _verdict_of(self, record: VerdictRecord) -> Verdict:
        finding, left = Finding(record.what), Finding(record.left) if record.left else None
        message = None
        if record.has_name and record.pgn in _KINDS and Finding.ANSWERED in (finding, left) and self._keep:
            kind = _KINDS[record.pgn]
            count = self._count(record.name, kind)
            message = self._message(record.name, kind, count - 1) if count else None
        return Verdict(
            finding,
            record.name if record.has_name else None,
            record.pgn,
            record.tries,
            record.address if record.has_address else None,
            record.after if record.has_after else None,
            record.detail if finding == Finding.REFUSED else None,
            Doubt(record.detail) if finding == Finding.IN_DOUBT else None,
            bool(record.detail) if finding == Finding.CUT_OFF else None,
            record.commanded if record.pgn == 65240 else None,
            left,
            message,
        )


def _group_of(what: int) -> int:
    """The group of a kind of message, or the group that it is."""
    what = number_of("what", what, 2**32 - 1, most_is_refused=True)
    return next((group for kind, group in _GROUPS.items() if kind == what), what)
