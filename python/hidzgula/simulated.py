"""A simulated control unit over the library."""

import ctypes
import threading
from typing import Any, Optional

from ._library import FrameRecord, UnitCountsRecord, UnitRecord, UnitSettingsRecord, library
from .records import Frame, UnitCounts
from .station import Octets, at_address, done, frame_of, number_of, octets_of, said_by

_NEVER = 2**64 - 1


class SimulatedUnit:
    """A simulated control unit for SAE J1939, on one bus: it hears the frames that are read of that bus, and is asked for the frames that it writes.

    It claims and defends its address, answers requests (claim, DM1, DM2, DM6, DM3, DM11), serves sessions, obeys commanded addresses, and sends its
    DM1 each second while a code is active or a lamp is lit. It has no clock: `now` is a time in microseconds of any clock that does not go back, as
    `time.monotonic_ns() // 1000`.

    Each call may be made from any thread: a lock lets in one at a time. A refused call raises `Refused`, one that was refused memory
    `MemoryError`, and has then changed nothing. A number that no C type of the library holds is a ValueError; what is no whole number, or no
    bytes, is a TypeError that tells what was wanted.

        with SimulatedUnit(name=0x1000000001419907, address=128) as unit:
            unit.set(110, 0)
            while (frame := unit.next(now=0)) is not None:
                print(frame)
    """

    def __init__(
        self, name: int, address: int, *, gap: int = 50_000, settle: int = 250_000, always: bool = False, guarded: bool = False
    ) -> None:
        """Opens a unit whose claim waits, without trouble code, its lamps off.

        name: its NAME, 64 bits (SAE J1939-81).
        address: which it holds, 0 to 253.
        gap: microseconds at least from a packet of a broadcast to the next, 10,000 to 200,000: 50 to 200 ms by SAE J1939-21, 10 to 200 ms by
            ISO 11783-3 and later editions (from memory).
        settle: microseconds from the claim of a new address to anything but a claim, up to 1,000,000 (SAE J1939-81: 250,000).
        always: whether it sends its DM1 each second also while it has nothing to tell.
        guarded: whether it neither clears its codes nor holds a commanded address when the bus asks it to, and sends no DM1 of its own accord.

        Raises Refused BAD_SETTING for an address above 253 or a time out of its range, and MemoryError.
        """
        self._unit = UnitRecord()
        self._lock = threading.Lock()
        settings = UnitSettingsRecord(
            number_of("gap", gap, _NEVER, most_is_refused=True), number_of("settle", settle, _NEVER, most_is_refused=True), bool(always), bool(guarded)
        )
        self._name = name = number_of("name", name, 2**64 - 1)
        done(library.hidzgula_unit_open(self._unit, name, number_of("address", address, 255, most_is_refused=True), settings))
        self._is_open = True

    def close(self) -> None:
        """Closes the unit and frees its memory; every other call is then Refused, NO_UNIT. Closing twice does nothing."""
        with self._lock:
            library.hidzgula_unit_close(self._unit)

    def __enter__(self) -> "SimulatedUnit":
        return self

    def __exit__(self, *_: object) -> None:
        self.close()

    def __del__(self) -> None:
        if hasattr(self, "_is_open"):
            self.close()

    def __reduce__(self) -> Any:
        raise TypeError("a unit cannot be copied")

    def __repr__(self) -> str:
        """Its NAME, its address, and what became of its frames; or that it is closed, or in a call of another thread."""
        return f"<hidzgula.SimulatedUnit {self._name:016X}{said_by(self._lock, self._said)}>"

    def _said(self) -> str:
        has, address, counts = ctypes.c_uint8(), ctypes.c_uint8(), UnitCountsRecord()
        done(library.hidzgula_unit_held(self._unit, has, address))
        done(library.hidzgula_unit_counts(self._unit, counts))
        return f"{at_address(has, address)}, written {counts.written}, withdrawn {counts.withdrawn}, waiting {counts.waiting}"

    # ---- the bus

    def hear(self, id: int, data: Octets, now: int) -> None:
        """Hears a frame that was read of the bus: its 29-bit identifier, and 0 to 8 bytes. Its own frames may be among them.

        Frames with 11-bit identifiers, remote frames, error frames and frames of CAN FD are not handed over.

        Raises Refused ID_TOO_LARGE, TOO_LONG, NO_UNIT, QUEUE_FULL where as much waits as there is room for, and MemoryError: then the frame was not
        heard, and may be handed over again.
        """
        id = number_of("id", id, 2**32 - 1, most_is_refused=True)
        data = octets_of(data)
        now = number_of("now", now, _NEVER)
        with self._lock:
            done(library.hidzgula_unit_hear(self._unit, id, data, len(data), now))

    def next(self, now: int) -> Optional[Frame]:
        """The frame that goes now, to be written at once, since it counts as written; None where none does. Where none is due the unit first does of
        its own accord what is due.

        Raises Refused NO_UNIT, and MemoryError.
        """
        record, has = FrameRecord(), ctypes.c_uint8()
        with self._lock:
            done(library.hidzgula_unit_next(self._unit, number_of("now", now, _NEVER), record, has))
        return frame_of(record) if has.value else None

    def when(self, now: int) -> Optional[int]:
        """When to ask again, at `now` or later: before that nothing is due, unless a frame is heard, a fault changes or a message is begun. None where
        nothing waits for its time.

        Raises Refused NO_UNIT.
        """
        at = ctypes.c_uint64()
        with self._lock:
            done(library.hidzgula_unit_when(self._unit, number_of("now", now, _NEVER), at))
        return at.value if at.value != _NEVER else None

    # ---- its fault memory

    def set(self, spn: int, fmi: int) -> None:
        """A fault is there: its code becomes active; one that is active stays as it is. SPN 0 to 524,287, FMI 0 to 31.

        Raises Refused NO_UNIT, SPN_TOO_LARGE, FMI_TOO_LARGE, MEMORY_FULL where it has 445 codes, and MemoryError.
        """
        self._changed(library.hidzgula_unit_set, spn, fmi)

    def heal(self, spn: int, fmi: int) -> None:
        """A fault has gone: its active code becomes a previously active one.

        Raises Refused NO_UNIT, SPN_TOO_LARGE, FMI_TOO_LARGE, NOT_ACTIVE, and MemoryError.
        """
        self._changed(library.hidzgula_unit_heal, spn, fmi)

    def pend(self, spn: int, fmi: int) -> None:
        """A fault was seen and is not confirmed yet: a new code becomes pending; one that the unit has stays as it is.

        Raises Refused NO_UNIT, SPN_TOO_LARGE, FMI_TOO_LARGE, MEMORY_FULL where it has 445 codes, and MemoryError.
        """
        self._changed(library.hidzgula_unit_pend, spn, fmi)

    def unpend(self, spn: int, fmi: int) -> None:
        """A pending fault was not seen again: its code goes away.

        Raises Refused NO_UNIT, SPN_TOO_LARGE, FMI_TOO_LARGE, NOT_PENDING.
        """
        self._changed(library.hidzgula_unit_unpend, spn, fmi)

    def lamps(self, states: int, flashes: int = 0xFF) -> None:
        """All lamps are replaced: the first two bytes of a DM1, as `Lamps` has them.

        Raises Refused NO_UNIT.
        """
        states, flashes = number_of("states", states, 255), number_of("flashes", flashes, 255)
        with self._lock:
            done(library.hidzgula_unit_lamps(self._unit, states, flashes))

    def begin(self, kind: int) -> None:
        """Begins a message of a kind to all now, of the fault memory as it is.

        Raises Refused NO_KIND, NO_UNIT, QUEUE_FULL, NOT_HELD, SESSION_OPEN, and MemoryError.
        """
        kind = number_of("kind", kind, 255, most_is_refused=True)
        with self._lock:
            done(library.hidzgula_unit_begin(self._unit, kind))

    def _changed(self, call: Any, spn: int, fmi: int) -> None:
        spn, fmi = number_of("spn", spn, 2**32 - 1, most_is_refused=True), number_of("fmi", fmi, 255, most_is_refused=True)
        with self._lock:
            done(call(self._unit, spn, fmi))

    # ---- what it is

    @property
    def address(self) -> Optional[int]:
        """Its address, 0 to 253, where it holds one.

        Raises Refused NO_UNIT.
        """
        has, address = ctypes.c_uint8(), ctypes.c_uint8()
        with self._lock:
            done(library.hidzgula_unit_held(self._unit, has, address))
        return address.value if has.value else None

    def counts(self) -> UnitCounts:
        """What became of the frames that it put.

        Raises Refused NO_UNIT.
        """
        record = UnitCountsRecord()
        with self._lock:
            done(library.hidzgula_unit_counts(self._unit, record))
        return UnitCounts(record.put, record.written, record.withdrawn, record.waiting)
