"""Why a station refuses, a listener or a simulated unit."""

from typing import Dict, NoReturn, Optional, Tuple, Union

from .records import HeardFrames, TakenFrames

OUT_OF_MEMORY = 33
NO_ROOM = 44

Row = Union[TakenFrames, HeardFrames]

# The number that the library answers, its name in the header, and why.
REFUSALS: Dict[int, Tuple[str, str]] = {
    1: ("ID_TOO_LARGE", "an identifier of 2^29 or more"),
    2: ("TOO_LONG", "more than 8 bytes in a frame, or 1,785 in a message"),
    7: ("NOT_AN_ADDRESS", "254 or more where an address to hold is asked for, or a message that cannot go to that address"),
    22: ("NO_ADDRESS", "the station knows no address of that NAME"),
    23: ("NOT_HELD", "it holds no address of its own"),
    24: ("BAD_SETTING", "an address above 253, a grant of 0, or a setting out of its range"),
    28: ("PGN_TOO_LARGE", "a parameter group number of 2^24 or more"),
    29: ("NO_STATION", "the station is closed"),
    30: ("HAS_STATION", "the handle has an open station"),
    31: ("NO_PLACE", "there is nothing at that place"),
    32: ("NO_KIND", "a kind that is none of DM1, DM2 and DM6"),
    OUT_OF_MEMORY: ("OUT_OF_MEMORY", "memory was refused"),
    34: ("NOT_KEPT", "the message at that place came, and is kept no longer"),
    9: ("SPN_TOO_LARGE", "an SPN above 524,287"),
    10: ("FMI_TOO_LARGE", "an FMI above 31"),
    13: ("MEMORY_FULL", "the fault memory has 445 codes already"),
    14: ("NOT_ACTIVE", "the code to heal is not active"),
    35: ("NO_UNIT", "the unit is closed"),
    36: ("HAS_UNIT", "the handle has an open unit"),
    37: ("QUEUE_FULL", "as much waits to be written as there is room for"),
    38: ("SESSION_OPEN", "a session of that kind is open, or a message or command is under way"),
    39: ("NOT_PENDING", "the code to go away is not pending"),
    40: ("NO_LISTENER", "the listener is closed"),
    41: ("HAS_LISTENER", "the handle has an open listener"),
    42: ("ORDER_OPEN", "another order is open, or, for a command, a broadcast is under way"),
    43: ("NO_GROUP", "a parameter group that no order asks for, by which one does not clear, or which is not shared"),
    NO_ROOM: ("NO_ROOM", "the array is too short for what is saved"),
    45: ("NOT_SAVED", "a station that took what is saved would show something else"),
}


class Refused(ValueError):
    """A call that was refused: it changed nothing, but that `take_frames` has taken the frames before the one refused."""

    number: int
    """The number of the refusal, as C has it."""
    name: str
    """Its name in the header, without HIDZGULA_, as `NO_ADDRESS`."""
    taken: Optional[Row]
    """What `take_frames` took before the frame that was refused; None at every other call."""

    def __init__(self, number: int, taken: Optional[Row] = None) -> None:
        self.number = number
        self.name, why = REFUSALS.get(number, ("UNKNOWN", "a refusal that this version does not know"))
        self.taken = taken
        super().__init__(f"{self.name} ({number}): {why}")


class OutOfMemory(MemoryError):
    """Memory was refused, and the call changed nothing, but that `take_frames` has taken the frames before."""

    taken: Optional[Row]
    """What `take_frames` took before memory was refused; None at every other call."""

    def __init__(self, taken: Optional[Row] = None) -> None:
        self.taken = taken
        super().__init__("memory was refused")


def refuse(number: int, taken: Optional[Row] = None) -> NoReturn:
    """Raises what stands for the number of a refusal."""
    if number == OUT_OF_MEMORY:
        raise OutOfMemory(taken)
    raise Refused(number, taken)
