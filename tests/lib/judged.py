"""Which edits were refused, and of what files: the lines of tests/judged, one for each edit.

A line has the edit and a sum of what its verdict rests on: the edit, its crate's own files, and the definitions of the crates below. (What
else a crate below is made of can make this one fail its proof, and not an edit of it pass.) Of these files a comment counts for nothing,
and in one of Rattle neither does where a line ends, or that a type derives `Debug`, on which no contract rests: so words can be mended, and
lines broken, without judging anything again.
"""
import hashlib
import os
import re

from harness import TOP

RECORD = f"{TOP}/tests/judged"
OWN = ("src", "specs", "proofs")
HEAD = """\
# The edits that the prover refused, each with a sum of the files that this rests on. tests/judge_edits --record writes it.
"""


def files_below(folder):
    return sorted(f"{at}/{it}" for at, _, files in os.walk(folder) for it in files)


def sums_of(crate, below):
    """Of each edit of a crate the sum of itself, of the crate's files, and of the definitions of the crates below it."""
    folders = [f"crates/{crate}/{part}" for part in OWN] + [f"crates/{it}/specs" for it in sorted(below)]
    made = hashlib.sha256()
    for path in [path for folder in folders for path in files_below(f"{TOP}/{folder}")]:
        add(made, path)
    found = {}
    for path in files_below(f"{TOP}/crates/{crate}/edits"):
        one = made.copy()
        add(one, path)
        found[f"{crate}/{os.path.basename(path).removesuffix('.edit')}"] = one.hexdigest()[:16]
    return found


# In Rattle: a text or a character; or what stands between words, comments among it.
WORDS = re.compile(r'("(?:\\.|[^"\\])*"|\'(?:\\.|[^\'\\])\')|(?:\s|//[^\n]*)+', re.DOTALL)

DERIVED = re.compile(r"#\[derive\(([^)]*)\)\] ?")


def without_debug(derived):
    """An attribute that derives, without `Debug`, on which no contract rests."""
    names = [it for it in re.split(r"[\s,]+", derived[1]) if it not in ("", "Debug")]
    return f"#[derive({', '.join(names)})] " if names else ""


def meant(path, content):
    """What of a file counts."""
    if path.endswith(".rt"):
        return DERIVED.sub(without_debug, WORDS.sub(lambda it: it[1] or " ", content))
    if path.endswith(".antt"):
        return "".join(f"{it}\n" for it in content.split("\n") if it.strip() and not it.lstrip().startswith("-- "))
    return content


def add(made, path):
    with open(path, encoding="utf-8") as it:
        content = meant(path, it.read())
    made.update(f"{os.path.relpath(path, TOP)} {len(content)}\n{content}".encode())


def read():
    """The sum of each edit on record."""
    try:
        with open(RECORD, encoding="utf-8") as it:
            return dict(line.split() for line in it if not line.startswith("#"))
    except FileNotFoundError:
        return {}


def is_there(edit):
    crate, _, name = edit.partition("/")
    return os.path.exists(f"{TOP}/crates/{crate}/edits/{name}.edit")


def write(found):
    """Notes edits with their sums. The lines of edits that are not there any more go."""
    rows = {**read(), **found}
    with open(f"{RECORD}.new", "w", encoding="utf-8") as it:
        it.writelines([HEAD, *[f"{edit} {rows[edit]}\n" for edit in sorted(rows) if is_there(edit)]])
    os.replace(f"{RECORD}.new", RECORD)


def in_turn(sums):
    """One of some edits, another one whenever a file changes that their verdicts rest on."""
    turn = hashlib.sha256("\n".join(sums.values()).encode()).digest()
    return sorted(sums)[int.from_bytes(turn, "big") % len(sums)]
