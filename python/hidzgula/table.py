"""What a station or a listener lists, as rows: for pandas, or as CSV."""

import csv
from typing import Any, Dict, List, TextIO, Tuple, Union

from .listener import Listener
from .records import Kind, Message, Who
from .station import Station

COLUMNS = ("name", "address", "kind", "place", "to", "lamps", "states", "flashes", "spn", "fmi", "count")


def rows_of(of: Union[Station, Listener], newest: bool = False) -> List[Dict[str, Any]]:
    """The messages that are kept, as `pandas.DataFrame(rows_of(listener))` takes them: a row for each code, one with None for its code where a message has
    none; units in the order of their first claims or messages, DM1, DM2, DM6, the oldest message first.

    name: 16 hexadecimal digits; None for an address that no NAME had claimed. address: of that NAME now, 0 to 253, or None. kind: DM1, DM2 or DM6.
    place: of the message in its list, from 0. to: of a listener: where it went, 255 for all. lamps: in words; states, flashes: their bytes.
    spn, fmi, count: 0 to 524,287, 0 to 31, 0 to 127.

    newest: of each list the newest message alone.

    Raises Refused NO_STATION, NO_LISTENER.
    """
    addresses = {unit.name: unit.address for unit in of.units()}
    found: List[Dict[str, Any]] = []
    for who in of.senders() if isinstance(of, Listener) else [Who(name) for name in addresses]:
        said: Tuple[Any, Any] = (None, who.address) if who.name is None else (f"{who.name:016X}", addresses.get(who.name))
        for kind in Kind:
            messages = _messages(of, who, kind)
            for message in messages[-1:] if newest else messages:
                for spn, fmi, count in message.codes or [(None, None, None)]:
                    values = (*said, kind.name, message.place, message.to, str(message.lamps), *message.lamps, spn, fmi, count)
                    found.append(dict(zip(COLUMNS, values)))
    return found


def write_csv(of: Union[Station, Listener], file: TextIO, newest: bool = False) -> int:
    """Writes the rows of `rows_of` as CSV (RFC 4180) with a line of their names, None as nothing; answers how many. The file is open with newline="".

    Raises what `rows_of` raises, and what the file raises.
    """
    rows = rows_of(of, newest)
    writer = csv.DictWriter(file, COLUMNS)
    writer.writeheader()
    writer.writerows(rows)
    return len(rows)


def _messages(of: Union[Station, Listener], who: Who, kind: Kind) -> List[Message]:
    if isinstance(of, Listener):
        return of.messages(who, kind)
    return of.messages(who.name or 0, kind)
