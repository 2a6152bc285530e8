"""Hidzgula: a proved diagnostic station, a listener and simulated units for SAE J1939, the CAN network of trucks, buses, farm machines and boats.

A `Listener` is handed the frames that are read of a bus, and lists under each NAME the diagnostic messages that came from it; `take_log`
hands it a log of candump. A `Station` takes part in the bus besides, and asks units. `hidzgula.can.Listener` hands either what python-can reads. A `LiveStation` carries out
orders with their times, and a `Tester` does so on a bus of python-can. A `SimulatedUnit` takes part in a bus. docs/PYTHON.md of the project tells what is proved of it.
"""

from .candump import Missed, read_log, take_log
from .listener import Listener
from .live import LiveStation
from .records import (
    Acknowledgment,
    BadLine,
    BrokenBy,
    Change,
    Code,
    Counts,
    Delivery,
    Doubt,
    Finding,
    Frame,
    Heard,
    HeardFrames,
    Kind,
    Lamps,
    LogCounts,
    Logged,
    Message,
    NotRead,
    Reply,
    Sent,
    SharedMessage,
    Taken,
    TakenFrames,
    Unit,
    UnitCounts,
    Verdict,
    What,
    Who,
    Why,
)
from .refusals import OutOfMemory, Refused
from .simulated import SimulatedUnit
from .station import KEEP_ALL, Station
from .table import rows_of, write_csv
from .tester import Tester

__version__ = "3.0.0"

DM1, DM2, DM6 = Kind.DM1, Kind.DM2, Kind.DM6

PGN_ADDRESS_CLAIMED = 60928
"""The address that is claimed."""
PGN_DM1 = 65226
"""The active codes."""
PGN_DM2 = 65227
"""The previously active codes."""
PGN_DM3 = 65228
"""To clear the previously active codes."""
PGN_DM6 = 65231
"""The pending codes."""
PGN_DM11 = 65235
"""To clear the active and the pending codes."""

__all__ = [
    "Acknowledgment",
    "BadLine",
    "BrokenBy",
    "Change",
    "Code",
    "Counts",
    "DM1",
    "DM2",
    "DM6",
    "Delivery",
    "Doubt",
    "Finding",
    "Frame",
    "Heard",
    "HeardFrames",
    "KEEP_ALL",
    "Kind",
    "Lamps",
    "Listener",
    "LiveStation",
    "LogCounts",
    "Logged",
    "Message",
    "Missed",
    "NotRead",
    "OutOfMemory",
    "PGN_ADDRESS_CLAIMED",
    "PGN_DM1",
    "PGN_DM11",
    "PGN_DM2",
    "PGN_DM3",
    "PGN_DM6",
    "Refused",
    "Reply",
    "Sent",
    "SharedMessage",
    "SimulatedUnit",
    "Station",
    "Taken",
    "TakenFrames",
    "Tester",
    "Unit",
    "UnitCounts",
    "Verdict",
    "What",
    "Who",
    "Why",
    "read_log",
    "rows_of",
    "take_log",
    "write_csv",
]
