"""What each runner of tests/ stands on: where things are, which program is tried, and a tally with its last line.

    sys.path.insert(1, sys.path[0] + "/../lib")
    from harness import TOP, Tally, called

The programs are those of programs.txt, as crates/NAME/out/NAME, or what the environment's J1939BENCH names. A runner tells a tally of each try, and ends with
`sys.exit(tally.end())`, which prints the last line `NAME: N passed, M failed`. tests/lib/sums.sh reads that line. With WITHOUT_PROOF in
the environment, as tests/measure/mutants has it, it ends at the first failure, and what a program with checks has no memory for is not tried.
"""

import functools
import os
import pathlib
import re
import shutil
import subprocess
import sys

sys.dont_write_bytecode = True
TOP = pathlib.Path(__file__).resolve().parents[2]
NAME = pathlib.Path(sys.argv[0]).name
SUMS = re.compile(r"(?:\A|\n)(?:.*: )?(\d+) passed, (\d+) failed\n\Z")
# (for the model)
sys.path.insert(1, str(TOP / "tests"))


def programs():
    """The programs by their subcommands."""
    rows = [line.partition(":") for line in (TOP / "programs.txt").read_text(encoding="utf-8").splitlines() if not line.startswith("#")]
    return {subcommand: name for name, _, does in rows for subcommand in does.split()}


@functools.cache
def path_of(subcommand):
    """The program that does this, which need not be there."""
    name = programs().get(subcommand, "j1939bench")
    path = os.environ.get("J1939BENCH", str(TOP / f"crates/{name}/out/{name}"))
    return os.path.abspath(path) if os.path.exists(path) else path


@functools.cache
def program(subcommand):
    """The program that does this. Where it is not there, the runner ends."""
    path = path_of(subcommand)
    if shutil.which(path) is None:
        print(f"{NAME}: there is no program {path}; ./build_program builds it, and J1939BENCH may name another one")
        sys.exit(Tally(failed=1).end())
    return path


def called(*words):
    """The words that call the program which does what they ask for: its path before them."""
    return [program(words[0] if words else ""), *words]


def is_without_proof():
    """Whether the program that is tried was built without proof, with checks, which take memory; and the first failure is enough."""
    return "WITHOUT_PROOF" in os.environ


class Tally:
    """How many tries passed, and how many failed."""

    def __init__(self, passed=0, failed=0):
        self.passed, self.failed = passed, failed

    def tried(self, what, faults=None):
        """Counts one try, and prints its faults: a text, or a list of them. Whether there are none."""
        self.add(not faults, bool(faults))
        for text in [faults] if isinstance(faults, str) and faults else faults or []:
            print(f"{what}: {text}", flush=True)
        if faults and is_without_proof():
            os._exit(self.end())
        return not faults

    def holds(self, what, fact, told="it does not hold"):
        """Counts one try of a fact."""
        return self.tried(what, None if fact else told or "it does not hold")

    def add(self, passed, failed):
        """Counts tries that were told of elsewhere."""
        self.passed, self.failed = self.passed + passed, self.failed + failed

    def add_program(self, what, status, out, said, most=900):
        """Adds the sums in the last line of a program's output. Without them, or with more on standard error, it is one failure."""
        sums = SUMS.search(out)
        if not sums or said or status != (int(sums[2]) != 0) or not int(sums[1]):
            self.tried(what, f"status {status}: {out[-most:]} {said[-most:]}")
            return
        self.add(int(sums[1]), int(sums[2]))
        if int(sums[2]):
            print(f"{what}: {out[-most:]}")

    def end(self, may_be_none=False):
        """Prints the last line. The status: 1 where something failed, or nothing passed and that may not be."""
        print(f"{NAME}: {self.passed} passed, {self.failed} failed", flush=True)
        return 1 if self.failed or not (self.passed or may_be_none) else 0


def skipped(why):
    """Tells what is not tried, and why."""
    print(f"{NAME}: not tried: {why}")


def all_skipped(why):
    """Ends a runner that cannot try anything here, which is no failure: its last line, and its status."""
    skipped(why)
    return Tally().end(may_be_none=True)


def aarch64():
    """The words of a compiler for 64-bit ARM, and those before a program of it that is run. None, which is told, where they are not here, or where there is
    no proof, without which no library is built."""
    compiler = os.environ.get("CROSS_COMPILE", "aarch64-linux-gnu-") + "gcc"
    lacking = [it for it in (compiler, "qemu-aarch64") if not shutil.which(it)]
    probe = {"input": b"#include <stdlib.h>\n", "stderr": subprocess.DEVNULL}
    if not lacking and subprocess.run([compiler, "-fsyntax-only", "-xc", "-"], **probe).returncode:
        lacking = [f"C library of {compiler}"]
    if lacking or is_without_proof():
        return skipped(f"the library for aarch64, since there is no {' and no '.join(lacking or ['proof'])} here")
    # (where Debian has the C library of aarch64)
    return [compiler], ["qemu-aarch64", "-L", "/usr/aarch64-linux-gnu"]


def took(seconds, what):
    """The line that tells how long something took. ./verify lists the longest at its end."""
    return f"took {seconds:.0f} s: {what}"
