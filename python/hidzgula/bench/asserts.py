"""What a test asserts of the messages of a unit, and how it differs."""

from typing import FrozenSet, Iterable, List, NamedTuple, Optional, Sequence, Tuple, Union

from ..listener import Listener
from ..records import Kind, Lamps, Message, Who
from ..station import Station
from .bus import Bench
from .members import BenchStation, BenchUnit
from .since import Since

Source = Union[Bench, Station, Listener]
Named = Union[int, Who, BenchUnit]
Wanted = Union[Tuple[int, int], Tuple[int, int, int]]
WantedLamps = Union[None, str, Iterable[str], Lamps]

LAST_FRAMES = 20
"""How many frames a difference shows."""
_LAMPS = ("mil", "stop", "amber", "protect")


def assert_dm1(of: Source, name: Named, codes: Optional[Iterable[Wanted]] = (), lamps: WantedLamps = None) -> Optional[Message]:
    """Asserts what the newest DM1 of a unit tells, its active codes, and answers it.

    of: a station, a listener, or a bench, whose listener hears all.
    name: the unit's NAME, 64 bits, its `Who`, or the unit.
    codes: each (SPN, FMI) that it tells, in any order, with its occurrence count as a third where that is to be looked at; none: it tells that there is
    none; None: no DM1 came at all.
    lamps: those that are on, "amber", "mil, stop" or "no lamp", or their names; or `Lamps`, whose states and flashes it has. None: not looked at.

    Raises an AssertionError that tells which codes lack and which are too many, the lamps, since when, and the last 20 frames of the bus; a ValueError
    for a code or a lamp that is none; and what the station or the listener raises.
    """
    __tracebackhide__ = True
    return _asserted(Kind.DM1, of, name, codes, lamps)


def assert_dm2(of: Source, name: Named, codes: Optional[Iterable[Wanted]] = (), lamps: WantedLamps = None) -> Optional[Message]:
    """Asserts what the newest DM2 of a unit tells, its previously active codes, as `assert_dm1` does. A unit tells it when it is asked."""
    __tracebackhide__ = True
    return _asserted(Kind.DM2, of, name, codes, lamps)


def assert_dm6(of: Source, name: Named, codes: Optional[Iterable[Wanted]] = (), lamps: WantedLamps = None) -> Optional[Message]:
    """Asserts what the newest DM6 of a unit tells, its pending codes, as `assert_dm1` does. A unit tells it when it is asked."""
    __tracebackhide__ = True
    return _asserted(Kind.DM6, of, name, codes, lamps)


class _View(NamedTuple):
    """What is looked at."""

    lists: Union[Station, Listener]
    bench: Optional[Bench]
    since: Optional[Since]
    """Since when, where that is known of this message."""


def _asserted(kind: Kind, of: Source, name: Named, codes: Optional[Iterable[Wanted]], lamps: WantedLamps) -> Optional[Message]:
    __tracebackhide__ = True
    who = _who_of(name)
    wanted = None if codes is None else [_code_of(code) for code in codes]
    view = _view_of(of, who, kind)
    message = view.lists.newest(who, kind)  # type: ignore[arg-type]
    wanted_lamps = _lamps_of(lamps)
    faults = _faults(message, wanted, wanted_lamps, view.since)
    if faults:
        raise AssertionError(_told(kind, who, view, message, faults))
    return message


def _who_of(name: Named) -> Union[int, Who]:
    """Whose messages: a NAME, or one who has none."""
    if isinstance(name, BenchUnit):
        return name.name
    return name.name if isinstance(name, Who) and name.name is not None else name


def _view_of(of: Source, who: Union[int, Who], kind: Kind) -> _View:
    bench = of if isinstance(of, Bench) else of.bench if isinstance(of, BenchStation) else None
    lists = of.listener if isinstance(of, Bench) else of
    if not isinstance(lists, (Station, Listener)):
        raise TypeError(f"codes are asserted of a bench, a station or a listener, and not of {of!r}")
    since = bench.since(who, kind) if bench else None
    newest = lists.newest(who, kind)  # type: ignore[arg-type]
    # (a station may have missed what the bench's listener heard, or have it otherwise)
    known = since is not None and newest is not None and since.message[1:3] == newest[1:3]
    return _View(lists, bench, since if known else None)


def _faults(message: Optional[Message], wanted: Optional[Sequence[Wanted]], lamps: Union[None, FrozenSet[str], Lamps], since: Optional[Since]) -> List[str]:
    """How a message differs from what is wanted, a line each."""
    if message is None:
        return [] if wanted is None else ["none came" + (", wanted was one without codes" if not wanted else "")]
    if wanted is None:
        return ["one came, and none was wanted"]
    left = list(message.codes)
    lack: List[Wanted] = []
    for code in wanted:
        found = next((it for it in left if tuple(it[: len(code)]) == tuple(code)), None)
        if found is None:
            lack.append(code)
        else:
            left.remove(found)
    faults = [f"lacks {'/'.join(map(str, code))}{_gone(code, since)}" for code in lack]
    faults += [f"has {code} too{_at(since.codes.get((code.spn, code.fmi)) if since else None)}" for code in left]
    if lamps is not None and lamps != (message.lamps if isinstance(lamps, Lamps) else frozenset(str(message.lamps).split(", ")) - {"no lamp"}):
        said = lamps if isinstance(lamps, Lamps) else ", ".join(it for it in _LAMPS if it in lamps) or "no lamp"
        octets = f" ({lamps.states:02X}{lamps.flashes:02X})" if isinstance(lamps, Lamps) else ""
        faults.append(f"lamps: {said}{octets} wanted, {_lamps_said(message.lamps)} told{_at(since.lamps if since else None)}")
    return faults


def _told(kind: Kind, who: Union[int, Who], view: _View, message: Optional[Message], faults: Sequence[str]) -> str:
    """The words of a difference."""
    name = who.name if isinstance(who, Who) else who
    unit = next((unit for unit in view.lists.units() if unit.name == name), None)
    said = str(who) if isinstance(who, Who) else f"{who:016X}"
    place = "" if isinstance(who, Who) and name is None else ", which never claimed an address" if unit is None else str(unit)[16:]
    lines = [f"{kind.name} of {said}{place}:", *(f"  {fault}" for fault in faults)]
    if message is not None:
        when = f" at {_seconds(view.since.newest)}" if view.since else ""
        lines.append(f"  the newest, number {message.place + 1}{when}: {_lamps_said(message.lamps)}; {str(message).split('; ')[-1]}")
    if view.bench is not None:
        frames = view.bench.log(LAST_FRAMES)
        lines += [f"the last frames, now {_seconds(view.bench.now)}:" if frames else "no frame went", frames.rstrip("\n")]
    return "\n".join(lines).rstrip("\n")


def _code_of(code: Wanted) -> Wanted:
    numbers = tuple(code)
    if len(numbers) not in (2, 3) or not all(isinstance(it, int) for it in numbers) or not (0 <= numbers[0] < 1 << 19 and 0 <= numbers[1] < 32):
        raise ValueError(f"{code!r} is no code: (SPN, FMI) or (SPN, FMI, count), SPN 0 to 524,287, FMI 0 to 31")
    return numbers  # type: ignore[return-value]


def _lamps_of(lamps: WantedLamps) -> Union[None, FrozenSet[str], Lamps]:
    """The names of the lamps that are to be on, or lamps whose bytes are wanted."""
    if lamps is None or isinstance(lamps, Lamps):
        return lamps
    names = [it.strip() for it in lamps.split(",")] if isinstance(lamps, str) else list(lamps)
    wrong = [it for it in names if it not in (*_LAMPS, "no lamp", "")]
    if wrong:
        raise ValueError(f"{wrong[0]!r} is no lamp: {', '.join(_LAMPS)}, or 'no lamp'")
    return frozenset(names) - {"no lamp", ""}


def _lamps_said(lamps: Lamps) -> str:
    return f"{lamps} ({lamps.states:02X}{lamps.flashes:02X})"


def _gone(code: Wanted, since: Optional[Since]) -> str:
    if since is None:
        return ""
    at = since.gone.get((code[0], code[1]))
    return f", gone since {_seconds(at)}" if at is not None else ""


def _at(at: Optional[int]) -> str:
    return "" if at is None else f", since {_seconds(at)}"


def _seconds(at: int) -> str:
    return f"{at // 1_000_000}.{at % 1_000_000:06} s"
