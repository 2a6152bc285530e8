"""Messages that a program sends from a live station's address: over random frames beside the model of the rules, and to another station over a bus
that loses frames.

    sent.py [SEED [STEPS]]
"""

import pathlib
import random
import sys

sys.path.insert(1, str(pathlib.Path(__file__).resolve().parent.parent))

from hidzgula import Delivery, LiveStation, Refused, Sent
from model import frames
from model import sent as model
from tries import same, sums

OWN, NAME = 249, 0x80
VIN, PRIVATE, TO_ALL, FAR, LOW = 65260, 61184, 65330, 1 << 18, 61185
GROUPS = (VIN, PRIVATE, TO_ALL, FAR, LOW)
RECEIVERS = (0, 7)


def answer_to(chance, sent):
    """What its receiver may say, or somebody who is none."""
    source = sent.to if chance.random() < 0.9 else chance.choice((0, 7, 33))
    pgn = sent.pgn if chance.random() < 0.95 else VIN
    dest = OWN if chance.random() < 0.95 else frames.GLOBAL
    what, newest = chance.random(), len(sent.packets())
    if what < 0.75:
        first = newest + 1 if chance.random() < 0.75 else max(0, newest + 1 - chance.choice((0, 1, 1, 2, 3, 5)))
        return frames.cts(chance.choice((0, 1, 1, 2, 3, 16, 255)), min(first, 255), pgn, dest, source)
    if what < 0.9:
        return frames.end_of_message(len(sent.data) if len(sent.data) > 8 and chance.random() < 0.95 else 100, pgn, dest, source)
    if what < 0.95:
        return frames.abort(pgn, dest, source, chance.randrange(256))
    return frames.claim(chance.choice((0xA0, 0xA0, 0xA0, 0xA7)), chance.choice(RECEIVERS))


def given(chance, station, owners, sent):
    """A message is given to be sent, or refused: the message."""
    pgn, to = chance.choice((VIN, PRIVATE, PRIVATE, TO_ALL, FAR, LOW, 65242)), chance.choice((0, 7, 0, 7, frames.GLOBAL, 254, OWN))
    data = chance.randbytes(chance.choice((0, 1, 8, 9, 14, 15, 30, 50, 70, 1785, 1786)))
    why = model.refusal(OWN, GROUPS, pgn, to, len(data), sent is not None and sent.is_open())
    try:
        station.send(to, pgn, data)
        got = None
    except Refused as refused:
        got = refused.name
    same(f"to {to} {pgn} {len(data)} bytes", got, why)
    return model.Sent(OWN, 50_000, pgn, to, data, owners.get(to)) if why is None else sent


def run(seed, steps):
    """The station writes what the model does, at the times that it does, and the same comes of each message."""
    chance = random.Random(seed)
    with LiveStation(NAME, OWN, share=GROUPS) as station:
        sent, owners = None, {0: 0xA0}
        for now in (0, 300_000):
            while station.next(now) is not None:
                pass
        station.hear(*frame_of(frames.claim(0xA0, 0)), now)
        for place in range(steps):
            which = f"seed {seed}, step {place}"
            if chance.random() < (0.02 if sent and sent.is_open() else 0.5):
                sent = given(chance, station, owners, sent)
            if sent and chance.random() < 0.6:
                frame = answer_to(chance, sent)
                station.hear(*frame_of(frame), now)
                sent.hear(frame)
                if frames.claimed_name(frame) is not None:
                    owners[frame.source] = frames.claimed_name(frame)
            at = sent.when(now) if sent else None
            same(f"{which}: when", station.when(now), at)
            if chance.random() < 0.8 and at is not None:
                now = at
            else:
                now += chance.choice((0, 1, 49_999, 50_000, model.T4, model.T3 - 1, model.T3))
            wanted = sent.next(now) if sent else None
            got = station.next(now)
            same(f"{which}: next", got and (got.id, got.data), wanted and frame_of(wanted))
            if got and chance.random() < 0.5:
                same(f"{which}: an echo changes nothing", station.hear(*got, now).what.name, "NOTHING")
            if sent:
                same(f"{which}: sent", station.sent, Sent(Delivery[sent.state], sent.reason))


def frame_of(frame):
    return frame.number, frame.data


def carried(seed, most):
    """Two stations on a bus that loses frames: what is acknowledged came, and is what was sent."""
    chance = random.Random(seed)
    loss = chance.choice((0, 0, 0.02, 0.1))
    told, acknowledged, now = [], 0, 0
    grant = chance.choice((1, 3, 255))
    with LiveStation(NAME, OWN, share=(PRIVATE,)) as one, LiveStation(0xA0, 7, share=(PRIVATE,), grant=grant, on_message=told.append) as other:
        messages = [chance.randbytes(chance.choice((0, 8, 9, 100, 1785))) for _ in range(most)]
        while now < 600_000_000:
            moved = False
            for writer in (one, other):
                frame = writer.next(now)
                if frame is None:
                    continue
                moved = True
                for reader in (one, other):
                    if frame.id >> 16 & 255 not in (0xEB, 0xEC) or chance.random() >= loss:
                        reader.hear(frame.id, frame.data, now)
            if now > 1_000_000 and one.sent.delivery != Delivery.OPEN:
                if one.sent.delivery == Delivery.ACKNOWLEDGED:
                    acknowledged += 1
                    same(f"seed {seed}: it came", told and told[-1].data, sending)
                if not messages:
                    break
                sending = messages.pop()
                one.send(pgn=PRIVATE, data=sending, name=0xA0)
                moved = True
            if not moved:
                now = min([at for at in (one.when(now), other.when(now)) if at is not None and at > now], default=now + 10_000)
        same(f"seed {seed}: all were sent", messages, [])
        if not loss:
            same(f"seed {seed}: all came", len(told), most)
    return acknowledged


def refused():
    with LiveStation(NAME, OWN, share=(PRIVATE,)) as station:
        for words in ({"to": 7, "name": 1, "pgn": PRIVATE}, {"pgn": PRIVATE}, {"to": 7}):
            for call in (station.send, station.request):
                same(f"{call.__name__} {words}", kind_of(call, **words), TypeError)
        same("an unknown NAME", name_of(station.send, pgn=PRIVATE, data=b"1", name=5), "NO_ADDRESS")
        station.hear(*frame_of(frames.claim(5, 254)), 0)
        same("one without an address", name_of(station.request, pgn=PRIVATE, name=5), "NO_ADDRESS")
        same("nothing was sent", station.sent, Sent(Delivery.NONE))
        station.send(255, PRIVATE, bytes(9))
        same("a command waits for the end of a broadcast", name_of(station.command, 5, 10), "ORDER_OPEN")
        now = 0
        while station.sent.delivery == Delivery.OPEN:
            if station.next(now) is None:
                now = station.when(now)
        station.command(5, 10)
        same("and a broadcast for that of a command", name_of(station.send, 255, PRIVATE, bytes(9)), "SESSION_OPEN")
        station.send(255, PRIVATE, bytes(8))
    same("closed", name_of(station.send, 7, PRIVATE, b""), "NO_STATION")
    same("closed", name_of(lambda: station.sent), "NO_STATION")


def kind_of(call, *words, **named):
    try:
        call(*words, **named)
    except Exception as error:
        return type(error)
    return None


def name_of(call, *words, **named):
    try:
        call(*words, **named)
    except Refused as refused:
        return refused.name
    return None


if __name__ == "__main__":
    first = int(sys.argv[1]) if len(sys.argv) > 1 else 1
    for seed in range(first, first + 8):
        run(seed, int(sys.argv[2]) if len(sys.argv) > 2 else 1000)
        carried(seed, 30)
    refused()
    sums()
