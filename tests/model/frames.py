"""Identifiers, frames and the layouts that they carry (J1939-21; the NAME and its claims by J1939-81).

Numbers of several bytes stand lowest byte first.
"""

GLOBAL, NULL = 255, 254  # to all; the source of one who holds no address (J1939-81, 4.2)
LAST_ADDRESS = 253  # the greatest address that can be held

CLAIM, REQUEST, ACKNOWLEDGMENT = 60928, 59904, 59392
CONTROL, PACKET = 60416, 60160  # TP.CM and TP.DT (J1939-21, 5.10)
DM1, DM2, DM3, DM6, DM11 = 65226, 65227, 65228, 65231, 65235  # J1939-73, 5.7
COMMANDED_ADDRESS = 65240
KINDS = {"dm1": DM1, "dm2": DM2, "dm6": DM6}  # the messages that tell lamps and a list of codes
TITLES = {kind: word.upper() for word, kind in KINDS.items()}

RTS, CTS, END_OF_MESSAGE, BAM, ABORT = 16, 17, 19, 32, 255  # the first byte of a TP.CM
SMALLEST, LARGEST = 9, 1785  # bytes of a message of several packets
NO_LIMIT = 255


class Frame:
    """A frame: 29 bits of identifier and at most 8 bytes.

    From the top an identifier has 3 bits of priority, one bit each for the extended data page and the data page, 8 bits
    of PDU format, 8 of PDU specific, 8 of source (J1939-21, 5.2). With a format up to 239 the specific byte is the
    destination and no part of the PGN; from 240 on it belongs to the PGN and the frame goes to all.
    """

    __slots__ = ("number", "data", "pgn", "dest", "source")

    def __init__(self, number, data):
        self.number, self.data = number, data
        pages, form, specific = number >> 24 & 3, number >> 16 & 255, number >> 8 & 255
        self.source = number & 255
        if form < 240:
            self.pgn, self.dest = pages << 16 | form << 8, specific
        else:
            self.pgn, self.dest = pages << 16 | form << 8 | specific, None

    def text(self):
        return " ".join(["%08X" % self.number] + ["%02X" % byte for byte in self.data])


def three(pgn):
    """A PGN in three bytes. All 24 bits are kept and compared: 130762 is no DM1."""
    return pgn.to_bytes(3, "little")


def number(data):
    return int.from_bytes(data, "little")


def to_one(priority, pgn, dest, source, data):
    """A frame whose PGN leaves room for a destination."""
    return Frame(priority << 26 | pgn << 8 | dest << 8 | source, bytes(data))


def to_all(priority, pgn, source, data):
    """A frame whose PGN takes the place of the destination."""
    return Frame(priority << 26 | pgn << 8 | source, bytes(data))


# Claims (J1939-81, 4.2): the NAME in 8 bytes, to all, from the address that is claimed; from the null address it says
# "cannot claim". Nobody can claim from the global address.


def claim(name, held):
    return to_one(6, CLAIM, GLOBAL, NULL if held is None else held, name.to_bytes(8, "little"))


def claimed_name(frame):
    """The NAME in an address claim or cannot claim; None for any other frame."""
    if frame.pgn == CLAIM and frame.dest == GLOBAL and frame.source != GLOBAL and len(frame.data) == 8:
        return number(frame.data)
    return None


# Requests (J1939-21, 5.4.2): the PGN asked for in 3 bytes; 3 to 8 bytes are read, the first three count.


def request(pgn, dest, source):
    return to_one(6, REQUEST, dest, source, three(pgn))


def requested(frame):
    """The PGN that a frame asks for; None for any other frame."""
    if frame.pgn == REQUEST and 3 <= len(frame.data) <= 8:
        return number(frame.data[:3])
    return None


# Acknowledgments (J1939-21, 5.4.4), to all: control 0 positive, 1 negative, 2 access denied, 3 cannot respond now; three
# bytes that are not looked at; the address of the one who asked; the PGN asked for.
POSITIVE, NEGATIVE, NOT_NOW = 0, 1, 3


def acknowledgment(control, asked_by, pgn, source):
    return to_one(6, ACKNOWLEDGMENT, GLOBAL, source, bytes([control, 255, 255, 255, asked_by]) + three(pgn))


# Control messages (J1939-21, 5.10.3) have 8 bytes, the last three a PGN. Fillers are FF and not looked at.


def packets_of(size):
    return (size + 6) // 7


def rts(size, pgn, dest, source):
    """A request to send: size, packets, no limit to the packets of a grant."""
    data = bytes([RTS]) + size.to_bytes(2, "little") + bytes([packets_of(size), NO_LIMIT]) + three(pgn)
    return to_one(7, CONTROL, dest, source, data)


def cts(granted, following, pgn, dest, source):
    return to_one(7, CONTROL, dest, source, bytes([CTS, granted, following, 255, 255]) + three(pgn))


def end_of_message(size, pgn, dest, source):
    data = bytes([END_OF_MESSAGE]) + size.to_bytes(2, "little") + bytes([packets_of(size), 255]) + three(pgn)
    return to_one(7, CONTROL, dest, source, data)


def bam(size, pgn, source):
    data = bytes([BAM]) + size.to_bytes(2, "little") + bytes([packets_of(size), 255]) + three(pgn)
    return to_one(7, CONTROL, GLOBAL, source, data)


def abort(pgn, dest, source, reason=2):
    """Reason 2: resources are needed elsewhere."""
    return to_one(7, CONTROL, dest, source, bytes([ABORT, reason, 255, 255, 255]) + three(pgn))


def control_of(frame):
    """The first byte of a control message that can be read; None for any other frame.

    It has 8 bytes and one of the five first bytes. Where a size stands, it is 9 to 1,785, with the packets it needs.
    """
    data = frame.data
    if frame.pgn != CONTROL or len(data) != 8 or data[0] not in (RTS, CTS, END_OF_MESSAGE, BAM, ABORT):
        return None
    if data[0] in (RTS, END_OF_MESSAGE, BAM):
        size = number(data[1:3])
        if not SMALLEST <= size <= LARGEST or data[3] != packets_of(size):
            return None
    return data[0]


def control_pgn(frame):
    return number(frame.data[5:8])


def control_size(frame):
    return number(frame.data[1:3])


# Packets (J1939-21, 5.10.2): a payload is cut into pieces of 7 bytes, the last one filled with FF, numbered from 1.


def packet(payload, which, dest, source):
    piece = payload[7 * which - 7 : 7 * which]
    return to_one(7, PACKET, dest, source, bytes([which]) + piece + b"\xff" * (7 - len(piece)))


def broadcast(payload, pgn, source):
    """The frames of a message to all that needs several packets."""
    return [bam(len(payload), pgn, source)] + [
        packet(payload, which, GLOBAL, source) for which in range(1, packets_of(len(payload)) + 1)
    ]


def in_order(packets, count):
    """Whether these packets' bytes are those numbered 1 to the count, each of 8 bytes."""
    return len(packets) == count and all(
        len(data) == 8 and data[0] == which for which, data in enumerate(packets, start=1)
    )


def joined(packets, size):
    return b"".join(data[1:] for data in packets)[:size]
