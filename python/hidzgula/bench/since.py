"""Since when a unit tells what it tells."""

from typing import Dict, NamedTuple, Optional, Tuple

from ..records import Message

SpnFmi = Tuple[int, int]


class Since(NamedTuple):
    """Since when a unit tells what its newest message of a kind tells; all times are microseconds of the bench."""

    message: Message
    """The newest one."""
    newest: int
    """When it ended."""
    lamps: int
    """Since when its lamps are told so."""
    codes: Dict[SpnFmi, int]
    """Since when each SPN and FMI of it is told."""
    gone: Dict[SpnFmi, int]
    """Since when each one that was told before is told no more."""


def noted(before: Optional[Since], message: Message, now: int) -> Since:
    """What is so when a message has ended."""
    here = [(code.spn, code.fmi) for code in message.codes]
    if before is None:
        return Since(message, now, now, {code: now for code in here}, {})
    if before.message.codes == message.codes:
        codes, gone = before.codes, before.gone
    else:
        codes = {code: before.codes.get(code, now) for code in here}
        gone = {code: at for code, at in before.gone.items() if code not in codes}
        gone.update((code, now) for code in before.codes if code not in codes)
    return Since(message, now, before.lamps if before.message.lamps == message.lamps else now, codes, gone)


def again(before: Since, now: int) -> Since:
    """What is so when the same message has come once more."""
    return before._replace(message=before.message._replace(place=before.message.place + 1), newest=now)
