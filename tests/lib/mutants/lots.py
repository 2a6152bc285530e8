"""Draws wrong bodies by lot, and has a program built that holds those of Rattle."""
import hashlib
import json
import random
import re
from typing import NamedTuple

from harness import TOP

from . import copies, rattle, scripts
from .rules import WEIGHTS


class WrongBody(NamedTuple):
    """A wrong body: where it stands, and the lines before and after the change."""

    area: str
    path: str
    function: str
    rule: str
    line: int
    old: str
    new: str

    def key(self):
        """What it is called where results are kept: the same as long as its file says the same."""
        made = hashlib.sha256((TOP / self.path).read_bytes())
        made.update("\0".join(map(str, self[1:])).encode())
        return made.hexdigest()[:20]

    def __str__(self):
        old, new = (" ".join(it.split()) for it in (self.old, self.new))
        return f"{self.path}:{self.line} {self.function}: {self.rule}: {old}  =>  {new}"

    def apply(self, text):
        """The text of its file with it."""
        lines = text.split("\n")
        count = self.old.count("\n") + 1
        at = self.line - 1
        assert "\n".join(lines[at : at + count]) == self.old, self
        lines[at : at + count] = self.new.split("\n")
        return "\n".join(lines)


def lines_around(text, start, end, new):
    """Of a change of a text: the number of its first line, its whole lines, and what they are then."""
    first = text.rfind("\n", 0, start) + 1
    last = text.find("\n", end)
    last = len(text) if last < 0 else last
    return text.count("\n", 0, first) + 1, text[first:last], text[first:start] + new + text[end:last]


def chosen_of(rng, changes, count, taken):
    """So many changes of some sites by their place: a function, a rule that it has, a place. None stands on a line with another one."""
    places = sorted(changes)
    found = []
    for _ in range(count * 40):
        if len(found) >= count or not places:
            break
        place = rng.choice(places)
        by_rule = changes[place]
        rules = sorted(by_rule)
        rule = rng.choices(rules, [WEIGHTS.get(it, 1) for it in rules])[0]
        change = rng.choice(by_rule[rule])
        if (change.path, change.line) not in taken:
            taken.add((change.path, change.line))
            found.append(change)
    return found


def sites_of(bodies):
    """Wrong bodies by function and rule."""
    found = {}
    for body in bodies:
        found.setdefault((body.path, body.function), {}).setdefault(body.rule, []).append(body)
    return found


def rattle_bodies(crate):
    """All wrong bodies of a crate."""
    paths = sorted((TOP / "crates" / crate / "src").rglob("*.rt"))
    sources = {it: it.read_text(encoding="utf-8") for it in paths}
    known = rattle.known_of(sources.values())
    for path, text in sources.items():
        for function, body, change in rattle.wrong_bodies(text, known):
            line, old, new = lines_around(body, *change[1:])
            yield WrongBody(crate, str(path.relative_to(TOP)), function.name, change.rule, function.first + line, old, new)


def script_bodies(path):
    """All wrong bodies of a script, or of a source of Python or C."""
    text = (TOP / path).read_text(encoding="utf-8")
    for change in scripts.changes_of_file(path, text):
        line, old, new = lines_around(text, *change[1:])
        # (what is changed is a part of its own of the file: the function that it is in, as far as a line tells)
        above = re.findall(r"(?m)^\s*(?:def |static inline \S+ )?(\w+)\([^)]*\).*[:{]$", text[: change.start])
        yield WrongBody(path.rpartition("/")[0] or path, path, above[-1] if above else "", change.rule, line, old, new)


# What is no Rattle, by folders and files.
SCRIPTS = ("python/hidzgula/**/*.py", "python/wheel_backend.py", "c/*.h", "run_program", "program_for", "j1939bench", "install_program", "pages/answer",
           "c/build", "python/build", "release/*")


def script_paths():
    return sorted({str(it.relative_to(TOP)) for form in SCRIPTS for it in TOP.glob(form) if it.is_file()})


def switched_source(text, numbered):
    """A source with these wrong bodies behind their numbers, and the number of each line of it that is of one of them."""
    lines = text.split("\n")
    chosen = []
    functions = rattle.functions_of(lines)
    for number, body in numbered:
        function = next(it for it in functions if it.first < body.line <= it.last)
        chosen.append((number, function, body.apply(text).split("\n")[function.first : function.last + len(body.new.split("\n")) - len(body.old.split("\n"))]))
    return rattle.switched(lines, chosen)


def build(folder, bodies, tell):
    """Builds the programs of a copy with these wrong bodies in them: by number those that compile, and the programs of each."""
    numbered = dict(enumerate(bodies, 1))
    (folder / "noted").write_bytes(bytes(copies.MOST))
    standing = {it: copies.below(it) for it in copies.programs()}
    for program, subcommand in copies.programs().items():
        while True:
            numbers = write_sources(folder, numbered)
            try:
                copies.built(folder, program, subcommand)
                break
            except copies.NotBuilt as why:
                wrong = {numbers[place] for place in why.places if place in numbers}
                tell(f"{program}: {len(wrong)} do not compile" if wrong else why.said[-3000:])
                if not wrong:
                    raise
                numbered = {number: it for number, it in numbered.items() if number not in wrong}
    write_sources(folder, numbered)
    (folder / "made/lot.json").write_text(json.dumps({number: it for number, it in numbered.items()}), encoding="utf-8")
    return numbered, {number: [it for it in standing if body.area in standing[it]] for number, body in numbered.items()}


def write_sources(folder, numbered):
    """Writes the sources of a copy with these wrong bodies. The number of each place that is of one of them."""
    by_path, numbers = {}, {}
    for number, body in numbered.items():
        by_path.setdefault(body.path, []).append((number, body))
    touched = folder / "made/touched.json"
    touched.parent.mkdir(exist_ok=True)
    before = json.loads(touched.read_text()) if touched.exists() else []
    for path in {*before, *by_path}:
        text = (TOP / path).read_text(encoding="utf-8")
        made, lines = switched_source(text, by_path[path]) if path in by_path else (text, {})
        (folder / path).write_text(made, encoding="utf-8")
        numbers.update({(path, line): number for line, number in lines.items()})
        numbers.update({(path.split("/", 2)[2], line): number for line, number in lines.items()})
    touched.write_text(json.dumps(sorted(by_path)))
    return numbers


def draw(seed, count, areas):
    """A lot of wrong bodies from areas, each a list of them: from every area in proportion to its functions."""
    rng = random.Random(seed)
    changes = {}
    for bodies in areas.values():
        changes.update(sites_of(bodies))
    return chosen_of(rng, changes, count, set())
