"""Groups that a program shares with a live station, over random frames beside the model of the rules: each message, each answer, and that the station
does what one does which never hears what is the program's.

    shared.py [SEED [FRAMES]]
"""

import pathlib
import random
import sys

sys.path.insert(1, str(pathlib.Path(__file__).resolve().parent.parent))

from hidzgula import LiveStation
from model import frames
from model.shared import Shared
from tries import same, sums

OWN, NAME = 249, 0
VIN, COMPONENT, PRIVATE, OTHER = 65260, 65259, 61184, 65242
GROUPS = (VIN, COMPONENT, PRIVATE)
SOURCES = (0, 7, 33, 254)
SETTLED = 300_000


def some_frame(random, under_way):
    """A frame that moves something on, or breaks it, or has nothing to do with it."""
    source, dest = random.choice(SOURCES), random.choice((OWN, OWN, frames.GLOBAL, 5))
    pgn = random.choice((VIN, COMPONENT, PRIVATE, OTHER, frames.DM2))
    what = random.random()
    if what < 0.55 and under_way:
        (source, dest), (payload, which) = random.choice(list(under_way.items()))
        if random.random() < 0.03:
            which += random.choice((-1, 1))
        if which * 7 < len(payload):
            under_way[source, dest] = payload, which + 1
        else:
            under_way.pop((source, dest), None)
        return frames.packet(payload, max(which, 1), dest, source)
    if what < 0.75:
        payload = random.randbytes(random.choice((9, 14, 15, 30, 64)))
        under_way[source, dest] = payload, 1
        if dest == frames.GLOBAL:
            return frames.bam(len(payload), pgn, source)
        begun = frames.rts(len(payload), pgn, dest, source)
        return frames.Frame(begun.number, begun.data[:4] + bytes([random.choice((0, 1, 3, 255))]) + begun.data[5:])
    if what < 0.80:
        return frames.claim(random.choice((1, 2, 3)), random.choice((0, 7, 33)))
    if what < 0.84:
        return frames.request(pgn, random.choice((OWN, frames.GLOBAL, 5)), source)
    if what < 0.87:
        return frames.abort(pgn, OWN, source)
    if what < 0.95:
        data = random.randbytes(random.randrange(9))
        return frames.to_one(6, PRIVATE, dest, source, data) if random.random() < 0.5 else frames.to_all(6, random.choice((VIN, OTHER)), source, data)
    return frames.Frame(random.randrange(1 << 29), random.randbytes(8))


def all_due(station, now):
    """What a station writes now. It hears its own frames."""
    written = []
    while (frame := station.next(now)) is not None:
        written.append(frame)
        station.hear(*frame, now)
    return written


def run(seed, count):
    chance = random.Random(seed)
    grant = chance.choice((1, 2, 16, 255))
    told, under_way, now = [], {}, 0
    with LiveStation(NAME, OWN, grant=grant, share=GROUPS, on_message=told.append) as station, LiveStation(NAME, OWN, grant=grant) as alone:
        model = Shared(OWN, GROUPS, grant)
        for now in (0, SETTLED):
            for frame in all_due(station, now):
                model.hear(frames.Frame(*frame))
            all_due(alone, now)
        for place in range(count):
            now = SETTLED + 1000 * place
            if chance.random() < 0.002:
                model.miss()
                station.missed(1, now)
                alone.missed(1, now)
            frame = some_frame(chance, under_way)
            withheld = model.is_withheld(frame)
            whole, answer = model.hear(frame)
            told.clear()
            station.hear(frame.number, frame.data, now)
            if not withheld:
                alone.hear(frame.number, frame.data, now)
            which = f"seed {seed}, frame {place}, {frame.text()}"
            same(f"{which}: message", [(it.pgn, it.source, it.name, it.data) for it in told], [whole] if whole else [])
            wanted = [(it.id, it.data) for it in all_due(alone, now)] + ([(answer.number, bytes(answer.data))] if answer else [])
            got = all_due(station, now)
            same(f"{which}: written", sorted((it.id, it.data) for it in got), sorted(wanted))
            for it in got:
                model.hear(frames.Frame(*it))
        same(f"seed {seed}: units", [(it.name, it.address) for it in station.units()], [(it.name, it.address) for it in alone.units()])
        same(f"seed {seed}: counts", station.counts(), alone.counts())


if __name__ == "__main__":
    first = int(sys.argv[1]) if len(sys.argv) > 1 else 1
    for seed in range(first, first + 8):
        run(seed, int(sys.argv[2]) if len(sys.argv) > 2 else 1000)
    sums()
