"""Random logs of a fleet, with the messages that are in them; and how the commands of the package for Python are called."""

import contextlib
import json
import os
import signal
import subprocess
import sys
import time

from harness import TOP, Tally, program
from model.ever import Told
from model.fleet import Log
from model.frames import KINDS

SECOND = 1_000_000
START = 1_761_379_200 * SECOND
NAMES = [0x1000000001419907, 0x1000030006E00899, 0x100009000561583B, 0x10003D0001419908]
CODES = [(110, 0), (100, 1), (190, 2), (157, 18), (3361, 7), (524287, 31)]
# (SPN 110 by an older conversion method)
OLDER = bytes([110, 0, 0, 0x81])
LAMPS = [0x00, 0x04, 0x10, 0x40, 0x44, 0x01, 0x15]
PGNS = {f"dm{kind}": pgn for pgn, kind in ((65226, 1), (65227, 2), (65231, 6))}
assert set(PGNS.values()) == set(KINDS.values())
LIBRARY = TOP / "c/out/libhidzgula_station.so"


def environment():
    """The environment in which the package of this checkout runs. Without its library the runner ends."""
    library = os.environ.get("HIDZGULA_LIBRARY", str(LIBRARY))
    if not os.path.exists(library) and subprocess.run([TOP / "c/build", "shared"], stdout=subprocess.DEVNULL).returncode:
        print(f"there is no {library}, and c/build shared does not make it")
        sys.exit(Tally(failed=1).end())
    return {**os.environ, "PYTHONPATH": str(TOP / "python"), "HIDZGULA_LIBRARY": library, "PYTHONDONTWRITEBYTECODE": "1"}


def command(*words, python=sys.executable):
    """The words that call a command of the package, over the program that is tried."""
    return [python, "-m", *map(str, words), "--program", program("watch")]


def has_module(python, name):
    return subprocess.run([python, "-c", f"import {name}"], stderr=subprocess.DEVNULL).returncode == 0


def python_with(*names):
    """A Python here that has all these modules, or none."""
    return next((it for it in (sys.executable, "/usr/bin/python3") if os.path.exists(it) and all(has_module(it, name) for name in names)), None)


@contextlib.contextmanager
def cluster(python, room, workers):
    """A scheduler of Dask on loopback with so many workers, each a process in a group of its own: its address, and the processes, the scheduler first."""
    begun = []
    # (where a profile was taken of it a worker hung now and then)
    env = {**environment(), "DASK_DISTRIBUTED__WORKER__PROFILE__INTERVAL": "1h"}

    def begin(name, *words):
        words = [python, "-m", f"distributed.cli.{name}", *words]
        begun.append(subprocess.Popen(words, env=env, stdout=subprocess.DEVNULL, stderr=subprocess.DEVNULL, start_new_session=True))

    try:
        address = room / f"scheduler of {workers}.json"
        begin("dask_scheduler", "--host", "127.0.0.1", "--port", "0", "--no-dashboard", "--scheduler-file", str(address))
        until = time.monotonic() + 60
        while not address.exists() and time.monotonic() < until:
            time.sleep(0.2)
        at = json.loads(address.read_text())["address"]
        for number in range(workers):
            place = room / f"worker {number} of {workers}"
            begin("dask_worker", at, "--nthreads", "1", "--no-dashboard", "--name", str(number), "--local-directory", str(place))
        yield at, begun
    finally:
        for process in begun:
            with contextlib.suppress(ProcessLookupError):
                os.killpg(process.pid, signal.SIGKILL)
            process.wait()


def lines_of(source, kind, message):
    """The lines of a message to all: one frame, or a broadcast that ends at the message's time (J1939-21, 5.10)."""
    pgn = PGNS[kind]
    groups = [bytes([spn & 255, spn >> 8 & 255, spn >> 16 << 5 | fmi, 1]) for spn, fmi in message.codes] + [OLDER] * message.in_part
    data = bytes([message.lamps, 255]) + b"".join(groups or [bytes(4)])
    if len(data) <= 8:
        return [(message.time, f"18{pgn:04X}{source:02X}#{data.ljust(8, bytes([255])).hex().upper()}")]
    count = -(-len(data) // 7)
    lines = [(message.time - count * 50_000, f"1CECFF{source:02X}#20{len(data):02X}00{count:02X}FF{pgn & 255:02X}{pgn >> 8:02X}00")]
    for place in range(count):
        piece = data[place * 7 : place * 7 + 7].ljust(7, bytes([255])).hex().upper()
        lines.append((message.time - (count - 1 - place) * 50_000, f"1CEBFF{source:02X}#{place + 1:02X}{piece}"))
    return lines


def random_log(chance, start, seconds):
    """A log: its units tell each second, or now and then, what they told before or something else; some fall silent."""
    units, lines = {}, []
    for source, name in enumerate(chance.sample(NAMES, chance.randint(1, 4))):
        claimed, kinds, said = start + source * 1000, {}, {}
        lines.append((claimed, f"18EEFF{source:02X}#{name.to_bytes(8, 'little').hex().upper()}"))
        for second in range(1, chance.choice([seconds, seconds, seconds // 3])):
            for place, kind in enumerate(PGNS):
                if chance.random() < (0.9, 0.1, 0.05)[place]:
                    if kind not in said or chance.random() < 0.2:
                        said[kind] = chance.choice(LAMPS), chance.sample(CODES, chance.choice([0, 1, 1, 2, 3])), chance.random() < 0.2
                    # (each message ends before the next one of its source begins)
                    message = Told(start + second * SECOND + place * 300_000 + 250_000 + source * 1000, *said[kind])
                    kinds.setdefault(kind, []).append(message)
                    lines += lines_of(source, kind, message)
        units[f"{name:016X}"] = claimed, kinds
    end = start + seconds * SECOND + 900_000
    lines.append((end, "0CF00400#FFFFFFFFFFFFFFFF"))
    text = "".join(f"({time // SECOND}.{time % SECOND:06}) can0 {frame}\n" for time, frame in sorted(lines, key=lambda line: line[0]))
    return Log(units, end), text.encode()


def fleet_of(chance, vehicles, seconds=40):
    """Logs of so many vehicles, one to four each, which do not overlap: of each its vehicle, its name, what is in it, and its text."""
    for number in range(vehicles):
        start = START + chance.randrange(1000) * SECOND
        for place in range(chance.randint(1, 4)):
            log, text = random_log(chance, start, seconds)
            yield f"truck {number}", f"{place}.log", log, text
            start = log.end + chance.randint(1, 100) * SECOND
