"""Logs of payloads of diagnostic messages and of identifications, by lot: right ones, cut ones, ones with bytes behind, and bytes of any kind."""

from model.words import IDENTIFICATIONS, LISTS, VALUE_MESSAGES

GROUPS = [*LISTS, *VALUE_MESSAGES, *VALUE_MESSAGES, *IDENTIFICATIONS]
LARGEST = 1785  # bytes of a message (J1939-21, 5.10)
TEXTS = [b"1FUJGLDR5CLBP8834", b"DETDL*6R1011D4*60928000054*", b"ABC*DEF*", b"", b"*", b"**", b"\x1b[2J", b"caf\xe9", b"\x00\x00", b"a\\b", b'"', b"<b>", b"\x7f"]


def text(chance):
    return b"".join(chance.choices(TEXTS, k=chance.randint(0, 4))) + chance.choice([b"", b"*", b"\xff\xff", b"*\xff"])


def values(chance, count):
    """Bytes, of which many are the greatest: not available, errors."""
    return bytes(chance.choice([0, 1, 0xFA, 0xFD, 0xFE, 0xFF, chance.randrange(256)]) for _ in range(count))


def frozen(chance):
    length = chance.choice([4, 5, 9, 12, 12, 12, 13, 20, 200])
    return bytes([length]) + values(chance, length)


RECORDS = {54016: lambda chance: values(chance, 4) + text(chance)[:16].ljust(16, chance.choice([b"\x00", b"\xff", b" "])), 49664: lambda chance: values(chance, 7),
           64950: lambda chance: values(chance, 4), 65229: frozen, 64951: frozen}


def payload(chance, pgn):
    kind = chance.random()
    if kind < 0.15:
        return values(chance, chance.choice([0, 1, 2, 3, 5, 8, 8, 9, 30, LARGEST]))
    if pgn in IDENTIFICATIONS:
        return (bytes([chance.randrange(256)]) if pgn == 65242 else b"") + text(chance) * chance.choice([1, 1, 1, 1, 5])
    if pgn in LISTS:
        return values(chance, chance.choice([2, 6, 8, 8, 10, 14]))
    whole = values(chance, {65230: 8, 49664: 4, 49408: 8, 64952: 8}.get(pgn, 0))
    if pgn in RECORDS:
        whole += b"".join(RECORDS[pgn](chance) for _ in range(chance.choice([0, 1, 1, 2, 3, 9])))
    if kind < 0.3:
        whole = whole[: chance.randint(0, len(whole))]
    return whole + chance.choice([b"", b"", b"", b"\xff", b"\xff" * 7, b"\x00" * 3, values(chance, 5)])


def frames(pgn, source, data):
    """A frame of up to eight bytes, or an announcement and packets (J1939-21, 5.10)."""
    if len(data) <= 8:
        yield "%08X#%s" % (0x18000000 | (pgn | (0xFF if pgn >> 8 & 255 < 240 else 0)) << 8 | source, data.hex().upper())
        return
    packets = (len(data) + 6) // 7
    yield "1CECFF%02X#20%s%02XFF%s" % (source, len(data).to_bytes(2, "little").hex().upper(), packets, pgn.to_bytes(3, "little").hex().upper())
    for at in range(packets):
        yield "1CEBFF%02X#%02X%s" % (source, at + 1, data[7 * at : 7 * at + 7].ljust(7, b"\xff").hex().upper())


def payload_log(chance, count):
    """So many payloads."""
    lines = []
    for _ in range(count):
        pgn = chance.choice(GROUPS)
        lines += frames(pgn, chance.choice([0, 3, 11, 249]), payload(chance, pgn)[:LARGEST])
    return ("\n".join(lines) + "\n").encode()
