"""Which tests see a wrong body: each that comes by it, the quickest first, until one fails. What is known is kept."""
import fcntl
import json
import os
import re
import signal
import subprocess
import sys
import time

from harness import TOP

from . import copies

KEPT = TOP / "out/mutants/known.json"
# A part that takes longer, in seconds of a run on the unchanged program, is left out.
LONGEST = 300
# A process that takes so many times the processor's time of a whole run, and some seconds, is ended: it is seen that something does not end. A part that
# waits has so many times that, since a machine may have much to do.
TIMES, PATIENCE = 3, 4
# So many wrong bodies are switched on together at first, and at most: more as long as a part sees few.
TOGETHER, MOST_TOGETHER = 4, 16
# Parts that look at a clock, or at what another process does meanwhile: on a busy machine they may fail for that, so a failure has to come twice.
BY_A_CLOCK = ("run/live", "run/tester", "run/signals", "run/serve", "run/threads", "run/harness", "run/install", "run/python", "run/c")
# Parts over random inputs with fewer of them: most wrong bodies are seen by the first.
FEWER = {"run/random_scripts": ["--seed", "1", "--runs", "120"], "run/random_logs": ["--seed", "1", "--runs", "24"], "run/random_live": ["--lines", "800", "--most", "60"],
         "run/random_tester": ["--lines", "800", "--most", "60"],
         "run/random_pages": ["--runs", "4"], "run/random_signals": ["--runs", "12", "--lines", "200", "--payloads", "1000"], "run/stop_at_every_frame": None, "measure/live": None, "run/soak": None, "run/threads": None}
# The slow ones, from the quickest on.
SLOW = ["run/random_tester", "run/random_pages", "run/pages", "run/random_live", "run/live", "run/tester", "run/logs", "run/random_logs"]
LAST = ["run/random_pages", "--seed", "2", "--runs", "16"]
# What a program without proof does not pass, since it has checks and takes more memory; and what no wrong body of a program can change.
WITHOUT_PROOF = ("refuse_memory", "fail_streams", "faults", "refuse_live", "refuse_tester")
WITHOUT_PROGRAM = ("harness", "contracts", "one_home", "reading_list", "names_in_docs", "constants", "install")
# The parts that try a script, where that is not plain by its name in them.
TRYING = {"run_program": ("run/signals", "run/install"), "install_program": ("run/install", "run/c"), "program_for": ("run/signals", "run/install"), "j1939bench": ("run/signals",),
          "pages/answer": ("run/pages_of_help",), "python/build": ("run/release", "run/python")}

# The parts that stand on the library for C: they are left out where c/build has not made it.
OF_THE_LIBRARY = ("run/c", "run/python", "run/random_units", "run/chosen_names", "run/fleet", "run/serve", "run/release")
# What tries the package for Python by itself in some seconds: before run/python, which makes the wheel first.
PYTHON_ALONE = [[f"in_python/{it}.py"] for it in ("lists", "units", "live", "logs", "refusals", "saving", "sent", "shared", "threads", "bench", "listener", "live_unit",
                                                 "tester")]
# The parts that try a folder of the package by themselves.
PYTHON_FOLDERS = {"python/hidzgula/fleet": [["run/fleet"]], "python/hidzgula/serve": [["run/serve"]]}


def every_part():
    """The parts of tests/check_all, as words."""
    text = (TOP / "tests/check_all").read_text(encoding="utf-8")
    found = re.findall(r'^(?:part|begin_part "[^"]*") (\S.*)$', text, re.M)
    return [it.split() for it in dict.fromkeys(found)]


def parts():
    """Those that run a program, with few random inputs, the quick ones first."""
    names = [it for it in every_part() if it[0].split("/")[-1] not in WITHOUT_PROGRAM + WITHOUT_PROOF and it[0] not in OF_THE_LIBRARY and it[1:] != ["--model"]]
    chosen = [[it[0], *FEWER[it[0]]] if it[0] in FEWER else it for it in names if FEWER.get(it[0], it) is not None]
    return [*sorted(chosen, key=lambda it: SLOW.index(it[0]) if it[0] in SLOW else -1), LAST]


def called(folder, words):
    """The words that call a part, or a program over the package for Python as it stands in a copy; and what it needs of the environment."""
    if not words[0].endswith(".py"):
        return [f"tests/{words[0]}", *words[1:]], {}
    return [sys.executable, f"tests/{words[0]}"], {"PYTHONPATH": f"{folder}/python:{folder}/tests/in_python/fake", "PYTHONDONTWRITEBYTECODE": "1",
                                                   "HIDZGULA_LIBRARY": f"{folder}/c/out/libhidzgula_station.so"}


def ran(folder, words, limit):
    """Runs a part in a copy, each of its processes for at most so many seconds of a processor: whether it passed, the seconds, and the last of what it said.
    It ends at the first try that fails."""
    begun = time.monotonic()
    limit = int(limit)
    words, given = called(folder, words)
    part = subprocess.Popen(["/bin/sh", "-c", f'ulimit -t {limit} && exec "$@"', "sh", *words], cwd=folder, stdin=subprocess.DEVNULL, stdout=subprocess.PIPE,
                            stderr=subprocess.STDOUT, errors="replace", start_new_session=True, env=os.environ | {"WITHOUT_PROOF": "1"} | given)
    try:
        said, _ = part.communicate(timeout=PATIENCE * limit)
        passed = part.returncode == 0
    except subprocess.TimeoutExpired:
        said, passed = f"not ended after {PATIENCE * limit} s\n", False
    finally:
        try:
            os.killpg(part.pid, signal.SIGKILL)
        except ProcessLookupError:
            pass
        part.wait()
    return passed, time.monotonic() - begun, said[-400:]


def fails(folder, words, limit):
    """What a part said that failed in a copy, twice where it looks at a clock; None where it passed."""
    for _ in range(2 if words[0] in BY_A_CLOCK else 1):
        passed, _, said = ran(folder, words, limit)
        if passed:
            return None
    return said


class Known:
    """What is known of wrong bodies: by the key of each a text, `seen by ..`, `not seen` or `harmless: ..`. Several lots at once add to it."""

    def __init__(self):
        self.rows = self.kept()

    @staticmethod
    def kept():
        return json.loads(KEPT.read_text(encoding="utf-8")) if KEPT.exists() else {}

    def get(self, body):
        return self.rows.get(body.key())

    def note(self, body, told):
        self.rows[body.key()] = told
        KEPT.parent.mkdir(parents=True, exist_ok=True)
        with open(KEPT.with_suffix(".lock"), "w", encoding="utf-8") as turn:
            fcntl.flock(turn, fcntl.LOCK_EX)
            new = KEPT.with_suffix(".new")
            new.write_text(json.dumps(self.kept() | {body.key(): told}, indent=0, sort_keys=True), encoding="utf-8")
            os.replace(new, KEPT)


class Programs:
    """The programs of a lot in a copy, and what sees which of their wrong bodies."""

    def __init__(self, folder, numbered, programs, tell):
        self.folder, self.numbered, self.programs, self.tell = folder, numbered, programs, tell
        self.seen, self.reached = {}, set()

    def put(self, numbers, mode=copies.RUNNING):
        for program in copies.programs():
            copies.put(self.folder, program, [it for it in numbers if program in self.programs[it]], mode)

    def measured(self, words):
        """The seconds of a part without a wrong body, and which of them it comes by; None where it does not pass."""
        noted = self.folder / "noted"
        noted.write_bytes(bytes(copies.MOST))
        self.put((), copies.NOTING)
        passed, seconds, said = ran(self.folder, words, LONGEST)
        if not passed:
            self.tell(f"{' '.join(words)}: left out: {said.strip()[-200:]}")
            return None
        return seconds, {number for number, was in enumerate(noted.read_bytes()) if was}

    def judge(self, note):
        """Runs each part over those that are not seen yet; calls `note` with each that is seen, and by which part."""
        for words in parts():
            left = [it for it in self.numbered if it not in self.seen]
            found = self.measured(words) if left else None
            if found:
                seconds, reached = found
                self.reached |= reached
                chosen = [it for it in left if it in reached]
                self.tell(f"{' '.join(words)}: {seconds:.0f} s, comes by {len(chosen)} of {len(left)} unseen")
                self.try_all(words, seconds, chosen, note)

    def try_all(self, words, seconds, chosen, note):
        """Tries these with a part: many at once as long as it sees few of them."""
        at, before = 0, len(self.seen)
        while at < len(chosen):
            together = max(1, min(MOST_TOGETHER, (at + TOGETHER) // (len(self.seen) - before + 1)))
            self.split(words, seconds, chosen[at : at + together], note)
            at += together

    def split(self, words, seconds, numbers, note):
        """Which of some wrong bodies a part sees: none where it passes with all of them on; else those that one half or the other has. (That two of them
        hide each other is as good as never so.)"""
        self.put(numbers)
        said = fails(self.folder, words, TIMES * seconds + 20)
        if said is None:
            return
        if len(numbers) == 1:
            self.seen[numbers[0]] = " ".join(words)
            note(numbers[0], self.seen[numbers[0]], said)
            return
        half = len(numbers) // 2
        self.split(words, seconds, numbers[:half], note)
        self.split(words, seconds, numbers[half:], note)


def parts_about(path):
    """The parts that name a script, or the folder that a source lies in; of the package and the library for C those of their folders; of a constant its own."""
    if path.startswith("crates/"):
        return [["run/constants"]]
    if path.rpartition("/")[0] in PYTHON_FOLDERS:
        return PYTHON_FOLDERS[path.rpartition("/")[0]]
    if path in TRYING:
        return [it for it in every_part() if it[0] in TRYING[path]]
    if path.startswith("python/"):
        return [["run/python"], *([["run/fleet"], ["run/serve"]] if path.endswith(("program.py", "candump.py", "table.py")) else [])]
    name = path.rpartition("/")[2]
    words = ("c/build", "hidzgula_station.h") if path.startswith("c/") else (name,)
    if path.startswith("release/"):
        words = ("release/build", "release/about", "release/version")
    found = []
    for part in every_part():
        text = (TOP / "tests" / part[0]).read_text(encoding="utf-8")
        if any(re.search(rf"(?<![\w-]){re.escape(it)}(?![\w-])", text) for it in words):
            found.append(part)
    return found


class Scripts:
    """Tries wrong bodies of scripts in a copy: the parts about each that pass there without it."""

    def __init__(self, folder, tell):
        self.folder, self.tell, self.passed = folder, tell, {}

    def times(self, part):
        """The seconds of a part on the unchanged copy; None where it does not pass, or would have the library for C proved first."""
        name = " ".join(part)
        if part[0] in OF_THE_LIBRARY and not (self.folder / "c/out/proved").exists():
            return None
        if name not in self.passed:
            passed, seconds, said = ran(self.folder, part, 600)
            self.passed[name] = seconds if passed else None
            self.tell(f"{name}: " + (f"{seconds:.0f} s" if passed else f"left out: {said.strip()[-200:]}"))
        return self.passed[name]

    def seen_by(self, body):
        """The first part that sees it; an empty text where nothing was tried; None where none sees it."""
        parts = sorted((self.times(it), it) for it in parts_about(body.path) if self.times(it) is not None)
        if body.path.startswith("python/hidzgula/") and body.area not in PYTHON_FOLDERS:
            parts = [(self.times(it), it) for it in PYTHON_ALONE if self.times(it) is not None] + parts
        file = self.folder / body.path
        before, was = file.read_text(encoding="utf-8"), file.stat()
        file.write_text(body.apply(before), encoding="utf-8")
        # (by its time nothing is to be proved again)
        os.utime(file, ns=(was.st_atime_ns, was.st_mtime_ns))
        try:
            for seconds, part in parts:
                if fails(self.folder, part, TIMES * seconds + 20) is not None:
                    return " ".join(part)
        finally:
            file.write_text(before, encoding="utf-8")
        return None if parts else ""
