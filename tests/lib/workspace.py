"""The tests in Rattle, put into a copy of the crates that they test.

They stand in tests/in_rattle/NAME, each source as a .module file, and tests/in_rattle/crates says what each of them uses. In a copy several
of these crates are the modules of one, so that what they stand on is read and compiled once for all of them. There they are built and run as
they are, and nothing is proved.
"""
import collections
import os
import pathlib
import re
import shutil
import subprocess
import tempfile

from harness import TOP

HOME = TOP / "tests/in_rattle"
TEST = re.compile(r"^[ \t]*#\[test\]\s*(?:#\[[^\n]*\]\s*)*(?:pub )?fn (\w+)", re.M)
# What is of a whole crate, and not of a module.
OF_A_CRATE = "#![tactic(auto)]\n"

# What a crate of tests uses, what else its line says, and its sources by their paths below src.
Tests = collections.namedtuple("Tests", "uses flags sources")


def lines():
    """The crates of tests by name, in their order: what else its line says, and what it uses."""
    found = {}
    for line in (HOME / "crates").read_text(encoding="utf-8").splitlines():
        head, colon, uses = line.split("#")[0].partition(":")
        if colon:
            name, *flags = head.split()
            found[name] = flags, uses.split()
    return found


def names():
    """The crates of tests: each has a line and a folder."""
    named, there = list(lines()), sorted(it.name for it in HOME.iterdir() if it.is_dir())
    if sorted(named) != there:
        raise ValueError(f"tests/in_rattle/crates names {sorted(named)}, and the folders are {there}")
    return named


def tests_of(name):
    """A crate of tests as it stands."""
    flags, uses = lines()[name]
    home = HOME / name / "src"
    return Tests(uses, flags, {it.relative_to(home).with_suffix(".rt"): it.read_text(encoding="utf-8") for it in sorted(home.rglob("*.module"))})


def written(name):
    """The tests that stand in the files of a crate of tests, as `tests::lines::bad_lines`."""
    found = []
    for path, text in tests_of(name).sources.items():
        tests = TEST.findall(text)
        if len(tests) != text.count("#[test]"):
            raise ValueError(f"{name}/{path}: a #[test] that stands before no function")
        found += [f"{'::'.join(path.with_suffix('').parts)}::{it}" for it in tests]
    return found


def lanes():
    """How many builds run side by side: one on each processor, or at most as many as TEST_LANES says. Fewer take less of a processor in all."""
    return min(len(os.sched_getaffinity(0)), int(os.environ.get("TEST_LANES", "64")))


def copy_to(folder):
    """Copies the crates there, without tests."""
    for it in ("HANDLES", "crates.txt"):
        shutil.copy(TOP / it, folder)
    shutil.copytree(TOP / "crates", folder / "crates", ignore=shutil.ignore_patterns("out", "edits", "must-fail"))


def join(folder, crate, parts):
    """Makes a crate of that name in the copy, in which each of these `Tests` is the module of its name."""
    home = folder / "crates" / crate / "src"
    for name, tests in parts.items():
        for path, text in tests.sources.items():
            there = home / f"{name}.rt" if path == pathlib.Path("lib.rt") else home / name / path
            there.parent.mkdir(parents=True, exist_ok=True)
            there.write_text(text.replace(OF_A_CRATE, "").replace("crate::tests::", f"crate::{name}::tests::"), encoding="utf-8")
    (home / "lib.rt").write_text(OF_A_CRATE + "".join(f"mod {name};\n" for name in parts), encoding="utf-8")
    head = " ".join(dict.fromkeys([crate, *[flag for it in parts.values() for flag in it.flags]]))
    with open(folder / "crates.txt", "a", encoding="utf-8") as it:
        it.write(f"{head}: {' '.join(sorted({use for it in parts.values() for use in it.uses}))}\n")


def results(folder, crate, *flags):
    """What each test of a crate in the copy came to, by the module and its name; the exit status, and what was said. The flags are those of `rt try`."""
    with tempfile.TemporaryDirectory(prefix="made-", dir=folder) as made:
        ran = subprocess.run(["rt", "try", "--test", *flags], cwd=folder / "crates" / crate, stdin=subprocess.DEVNULL,
                             stdout=subprocess.PIPE, stderr=subprocess.STDOUT, text=True, errors="replace", env=os.environ | {"TMPDIR": made})
    told = collections.defaultdict(dict)
    for module, test, came_to in re.findall(r"^test (\w+)::(\S+) \.\.\. (\w+)", ran.stdout, re.M):
        told[module][test] = came_to
    return told, ran.returncode, ran.stdout
