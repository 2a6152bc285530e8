"""The command: reads the logs of a fleet into tables, or writes a page of them."""

import argparse
import contextlib
import glob
import importlib
import multiprocessing
import os
import sys
import tempfile
import threading
import time
from multiprocessing import forkserver
from typing import Any, Iterator, List, Optional, Sequence, Tuple

from ..program import NoProgram, find_program, plain, version_of
from .facts import Json, not_read
from .page import write_page
from .parts import Log, pack_log, pack_logs
from .store import Busy, Store

SAVE_EACH = 10.0
"""Seconds between two times at which is noted what was read."""
LOTS, LOGS_AT_ONCE, BYTES_AT_ONCE = 100, 10, 16 << 20
"""Several logs are one task where at least so many tasks are left: at most so many, of so many bytes as files."""
WORKER_MEMORY = "1GiB"
"""How much memory a worker of this machine may take before Dask begins it anew."""
WORKERS_OF_HERE = {
    "distributed.worker.multiprocessing-method": "forkserver",
    "distributed.worker.profile.interval": "1h",
    "distributed.scheduler.worker-ttl": "60s",
    "distributed.scheduler.worker-saturation": 1.0,
    "distributed.admin.tick.interval": "1s",
}
"""They are begun of a process that has what they import. No profile is taken of them: it costs time, and where one was taken a worker hung now and then.
One that hangs is given up, and its logs are read again. Each has one task at a time where there are many, so that no other one is blamed when it dies over
one. That they look 50 times a second whether they hang is a third of what they take while they wait."""


class Refused(Exception):
    """A command line that asks for what cannot be done."""


def parser() -> argparse.ArgumentParser:
    words = argparse.ArgumentParser(
        prog="python3 -m hidzgula.fleet", formatter_class=argparse.RawDescriptionHelpFormatter, epilog="""\
python3 -m hidzgula.fleet report DIR >page.html   writes a page of what DIR has
A log has its messages under the VIN that it tells of, or else under its file. Written are messages.csv, units.csv and logs.csv, and where
pyarrow is the same as .parquet. A file that was read is read again only where its bytes changed.
Status: 0 done; 1 a write or the cluster failed; 2 the command line; 130 Ctrl-C; 3 done, but a log could not be read, or has no frame.""")  # fmt: skip
    words.add_argument("logs", nargs="+", metavar="LOG", help="a log of candump, .gz too; a folder with all that is below, but hidden files; a pattern as 'logs/*.log'")
    words.add_argument("--out", required=True, metavar="DIR", help="the folder of the tables, and of what was read for them")
    where = words.add_mutually_exclusive_group()
    where.add_argument("--scheduler", metavar="ADDRESS", help="a scheduler of Dask, whose workers see the same files and have the program")
    where.add_argument("--workers", type=int, metavar="N", help="workers on this machine; 0: none, without Dask; one a processor where it is not given")
    words.add_argument("--vehicle", choices=("file", "folder"), default="file", help="what names a log without a VIN [file]")
    words.add_argument("--program", metavar="PATH", help="the program; else j1939bench, beside the package or on the PATH")
    return words


def files_of(names: Sequence[str], out: str) -> List[str]:
    """The absolute paths of all logs, in order, each once. Raises Refused for a name that stands for none."""
    found, out = set(), os.path.abspath(out)
    for name in names:
        matching = [name] if os.path.lexists(name) else glob.glob(name, recursive=True)
        if not matching:
            raise Refused(f"there is no {plain(name)}")
        for path in map(os.path.abspath, matching):
            if not os.path.isdir(path):
                found.add(path)
                continue
            for folder, folders, files in os.walk(path, onerror=_refuse_folder):
                folders[:] = [it for it in folders if not it.startswith(".") and os.path.join(folder, it) != out]
                found.update(os.path.join(folder, it) for it in files if not it.startswith("."))
    return sorted(it for it in found if os.path.dirname(it) != out)


def _refuse_folder(error: OSError) -> None:
    raise Refused(f"{plain(str(error.filename))} cannot be listed: {error.strerror}")


def size_of(path: str) -> int:
    """The bytes of a file; 0 of what is none."""
    try:
        return os.stat(path).st_size
    except OSError:
        return 0


def lots_of(logs: Sequence[Log]) -> List[List[Log]]:
    """Logs in lots, each of which is a task, the largest logs first: so no worker is left with one at the end."""
    lots: List[List[Log]] = []
    most, room = max(1, min(LOGS_AT_ONCE, len(logs) // LOTS)), 0
    for size, log in sorted(((size_of(log[0]), log) for log in logs), key=lambda it: -it[0]):
        if not lots or len(lots[-1]) == most or size > room:
            lots.append([])
            room = BYTES_AT_ONCE
        lots[-1].append(log)
        room -= size
    return lots


def read_here(logs: Sequence[Log], program: str, made_by: str) -> Iterator[Tuple[str, Json]]:
    """What each log tells, one after the other."""
    for path, known in logs:
        yield path, pack_log(path, program, made_by, known)


def read_by_dask(client: Any, logs: Sequence[Log], program: str, made_by: str) -> Iterator[Tuple[str, Json]]:
    """What each log tells, as the workers of a cluster end with it."""
    from distributed import as_completed, progress

    lots = lots_of(logs)
    # (all at once: a task costs the scheduler less so)
    tasks = dict(zip(client.map(pack_logs, lots, program=program, made_by=made_by, pure=False), lots)) if lots else {}
    drawing = threading.Thread(target=progress, args=(list(tasks),), kwargs={"notebook": False}, daemon=True)
    if sys.stdout.isatty() and tasks:
        drawing.start()
    ending = as_completed(tasks, with_results=True, raise_errors=False)
    for task, parts in ending:
        if task.cancelled():
            raise OSError("the scheduler is gone: what was read is kept, and the next run goes on from there")
        lot, error = tasks.pop(task), task.exception() if task.status == "error" else None
        if error and len(lot) > 1:
            # (each by itself: so only the one that it is about is not read)
            again = client.map(pack_logs, [[log] for log in lot], program=program, made_by=made_by, pure=False)
            tasks.update(zip(again, ([log] for log in lot)))
            ending.update(again)
            continue
        yield from zip((path for path, _ in lot), [not_read(f"{type(error).__name__}: {error}")] if error else parts)
    if drawing.is_alive():
        drawing.join(2.0)


def import_for_workers() -> None:
    """Imports what workers of this machine need, which the process of which they are begun does at the same time."""
    needed = f"{__package__}.workers"
    multiprocessing.get_context("forkserver").set_forkserver_preload([needed])
    forkserver.ensure_running()
    importlib.import_module(needed)


@contextlib.contextmanager
def client_of(scheduler: Optional[str], workers: Optional[int]) -> Iterator[Any]:
    """A client of a scheduler, or of workers that are begun for it. Raises Refused where Dask is not here, or the scheduler does not answer."""
    try:
        if scheduler is None:
            import_for_workers()
        import dask.config
        import distributed
    except ImportError as error:
        raise Refused(f"there is no Dask here ({error}): pip install 'hidzgula[fleet]', apt-get install python3-distributed; or --workers 0") from error
    with contextlib.ExitStack() as begun:
        try:
            if scheduler is None:
                room = begun.enter_context(tempfile.TemporaryDirectory(prefix="fleet-"))
                begun.enter_context(dask.config.set(WORKERS_OF_HERE))
                scheduler = begun.enter_context(distributed.LocalCluster(
                    n_workers=workers or os.cpu_count(), threads_per_worker=1, memory_limit=WORKER_MEMORY, local_directory=room,
                    dashboard_address="127.0.0.1:0", scheduler_kwargs={"dashboard": False}))  # fmt: skip
            client = begun.enter_context(distributed.Client(scheduler))
        except (OSError, ValueError) as error:
            raise Refused(f"the scheduler does not answer: {plain(str(error))}") from error
        yield client


def read_all(store: Store, reads: Iterator[Tuple[str, Json]]) -> int:
    """Keeps what each log tells. How many were read."""
    read, saved = 0, time.monotonic()
    try:
        for path, part in reads:
            store.take(path, part)
            read += part["state"] not in ("known", "not read")
            if time.monotonic() - saved > SAVE_EACH:
                store.save()
                saved = time.monotonic()
    finally:
        # (what was read is kept, whatever ends the run)
        store.save()
    return read


def run(given: argparse.Namespace) -> int:
    """Reads what is new, and writes the tables. The status."""
    program = find_program(given.program)
    made_by = version_of(program)
    paths = files_of(given.logs, given.out)
    store = Store(given.out)
    with store.alone(), contextlib.ExitStack() as begun:
        store.by_folder = given.vehicle == "folder"
        logs = [(path, store.known(path, made_by)) for path in paths]
        if given.workers == 0:
            reads = read_here(logs, program, made_by)
        else:
            reads = read_by_dask(begun.enter_context(client_of(given.scheduler, given.workers)), logs, program, made_by)
        read = read_all(store, reads)
        # (workers end while the tables are written)
        ending = threading.Thread(target=begun.pop_all().close)
        ending.start()
        store.forget()
        store.write_tables()
        store.save(ended=True)
        ending.join()
        return summed_up(store, paths, read)


def summed_up(store: Store, paths: Sequence[str], read: int) -> int:
    """Tells how it went. The status."""
    here = set(paths)
    wrong = [row for row in store.log_rows() if row["path"] in here and row["state"] in ("not read", "no frame")]
    print(f"{len(paths)} files, {read} read anew, {len(wrong)} could not be read or have no frame; {len(store.vehicles())} vehicles")
    for row in wrong[:10]:
        print(f"hidzgula.fleet: {plain(row['path'])}: {row['state']}: {row['why']}", file=sys.stderr)
    if len(wrong) > 10:
        print(f"hidzgula.fleet: and {len(wrong) - 10} more, in logs.csv", file=sys.stderr)
    return 3 if wrong else 0


def report(words: Sequence[str]) -> int:
    """Writes the page of a folder to standard output. The status."""
    if len(words) != 1 or words[0].startswith("-"):
        raise Refused("report takes the folder of a fleet, and nothing else")
    if not os.path.isfile(os.path.join(words[0], "logs.json")):
        raise Refused(f"{plain(words[0])} is no folder of a fleet: there is no logs.json")
    write_page(Store(words[0]), sys.stdout)
    sys.stdout.flush()
    return 0


def main(words: Sequence[str]) -> int:
    try:
        if words[:1] == ["report"]:
            return report(words[1:])
        given = parser().parse_args(words)
        if given.workers is not None and given.workers < 0:
            raise Refused("--workers is a whole number from 0 on")
        return run(given)
    except (Refused, NoProgram) as error:
        print(f"hidzgula.fleet: {error}", file=sys.stderr)
        return 2
    except (OSError, Busy) as error:
        print(f"hidzgula.fleet: {plain(str(error))}", file=sys.stderr)
        return 1
    except KeyboardInterrupt:
        print("hidzgula.fleet: ended; what was read is kept, and the next run goes on from there", file=sys.stderr)
        return 130


if __name__ == "__main__":
    sys.exit(main(sys.argv[1:]))
