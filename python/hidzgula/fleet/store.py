"""What a fleet's folder keeps: a part for each log, by the sum of its bytes, and which file was which log.

`parts/SUM.gz` is what a log told, `logs.json` the files with the sum of each, and the run that read it first; and of each log what it told as a whole.
"""

import contextlib
import fcntl
import json
import os
from typing import Dict, Iterator, List, Optional

from .facts import FORMAT, Json
from .parts import keep, kept_of, made_of, part_of
from .tables import LOGS, MESSAGES, UNITS, Table, has_parquet, lines_of, replacing, vehicle_of


class Busy(Exception):
    """Another run writes into the folder."""


class Store:
    """The folder of a fleet."""

    def __init__(self, folder: str) -> None:
        self.folder = folder
        self.runs = 0
        """How many runs ended."""
        self.by_folder = False
        """Whether a log's vehicle is its folder, where no VIN was heard."""
        self.logs: Dict[str, Json] = {}
        """Of each file its `sha256`, the `run` that read it first, and `why` it could not be read, or not all of it."""
        self.heads: Dict[str, Json] = {}
        """Of each log by its sum what its part tells of it as a whole."""
        try:
            with open(self._path("logs.json"), encoding="utf-8") as file:
                kept = json.load(file)
        except FileNotFoundError:
            return
        if kept.get("format") == FORMAT:
            self.runs, self.by_folder, self.logs, self.heads = kept["runs"], kept["by_folder"], kept["logs"], kept["heads"]

    def _path(self, name: str) -> str:
        return os.path.join(self.folder, name)

    @contextlib.contextmanager
    def alone(self) -> Iterator[None]:
        """Has no other run write meanwhile. Raises Busy where one does."""
        os.makedirs(self._path("parts"), exist_ok=True)
        with open(self._path("lock"), "w") as lock:
            try:
                fcntl.flock(lock, fcntl.LOCK_EX | fcntl.LOCK_NB)
            except BlockingIOError:
                raise Busy(f"another run writes into {self.folder}") from None
            yield

    def known(self, path: str, made_by: str) -> Optional[str]:
        """The sum of the log that this file was, if what it told was kept, by the same program."""
        digest = self.logs.get(path, {}).get("sha256")
        head = self.heads.get(digest, {})
        return digest if (head.get("format"), head.get("by")) == (FORMAT, made_by) and kept_of(self.folder, digest) else None

    def part(self, digest: str) -> Optional[Json]:
        """What the log of this sum told; none where that is not there."""
        part = part_of(self.folder, digest)
        if part is None:
            self.heads.pop(digest, None)
        return part

    def take(self, path: str, part: Json) -> None:
        """Keeps what a file told, as `pack_log` has it."""
        why, digest, before = part["file_why"], part.get("sha256"), self.logs.get(path, {})
        if digest is None:
            self.logs[path] = {"why": why}
            return
        run = before["run"] if before.get("sha256") == digest else self.runs + 1
        self.logs[path] = {"sha256": digest, "run": run, "why": why}
        if part["state"] == "known":
            return
        keep(self.folder, digest, part["packed"])
        self.heads[digest] = part["head"]

    def save(self, ended: bool = False) -> None:
        """Notes which file was which log; and that a run ended."""
        self.runs += ended
        kept = {"format": FORMAT, "runs": self.runs, "by_folder": self.by_folder, "logs": self.logs, "heads": self.heads}
        with replacing(self._path("logs.json")) as new, open(new, "w", encoding="utf-8") as file:
            file.write(json.dumps(kept))

    def forget(self) -> None:
        """Removes the parts of logs that no file is any more."""
        sums = {log["sha256"] for log in self.logs.values() if "sha256" in log}
        self.heads = {digest: head for digest, head in self.heads.items() if digest in sums}
        wanted = {f"{digest}.gz" for digest in sums}
        for name in os.listdir(self._path("parts")):
            if name not in wanted:
                os.remove(self._path(f"parts/{name}"))

    def files_of_logs(self) -> Dict[str, List[str]]:
        """The files of each log by its sum, in order; equal files are one log, which the first of them names."""
        files: Dict[str, List[str]] = {}
        for path in sorted(self.logs):
            if "sha256" in self.logs[path]:
                files.setdefault(self.logs[path]["sha256"], []).append(path)
        return files

    def vehicles(self) -> Dict[str, List[str]]:
        """The logs of each vehicle by their sums, in order."""
        vehicles: Dict[str, List[str]] = {}
        for digest, paths in self.files_of_logs().items():
            head = self.heads.get(digest)
            if head and head["state"] == "read":
                vehicles.setdefault(vehicle_of(head, paths[0], self.by_folder), []).append(digest)
        return dict(sorted(vehicles.items()))

    def parts_of(self, digests: List[str]) -> Iterator[Json]:
        """What these logs told."""
        return filter(None, map(self.part, sorted(digests)))

    def log_rows(self) -> Iterator[Json]:
        """A row for each file: the log that it is, or why it could not be read."""
        first = {digest: paths[0] for digest, paths in self.files_of_logs().items()}
        for path, log in sorted(self.logs.items()):
            digest = log.get("sha256", "")
            head = self.heads.get(digest)
            if head is None:
                yield {"path": path, "state": "not read", "why": "; ".join(log["why"] or ["what it told is lost; the next run reads it again"])}
                continue
            lines, state, vehicle = head["lines"], head["state"], None
            if state == "read":
                vehicle = vehicle_of(head, first[digest], self.by_folder)
                state = "read" if first[digest] == path else f"same as {first[digest]}"
            yield {**head, "path": path, "vehicle": vehicle, "state": state, "why": "; ".join([*log["why"], *head["why"]]), "log": digest,
                   "lines": lines.get("all"), "frames": lines.get("frame"), "bad": lines.get("bad")}  # fmt: skip

    def write_tables(self) -> None:
        """Writes the tables anew."""
        keeps_values = has_parquet()
        with Table(self.folder, "messages", MESSAGES) as messages, Table(self.folder, "units", UNITS) as units:
            for vehicle, digests in self.vehicles().items():
                made = made_of(self.folder, vehicle, digests, keeps_values)
                messages.add(made.messages)
                units.add(made.units)
                for digest in made.lost:
                    self.heads.pop(digest, None)
        with Table(self.folder, "logs", LOGS) as logs:
            logs.add(lines_of(LOGS, self.log_rows(), keeps_values))
