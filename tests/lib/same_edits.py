"""What `tests/judge_edits --same` prints: the public calls that more than one edit turns.

Under a public call stand its clauses, the edits of its body, and those of functions below it that are not public: what these promise serves
its proof alone. A clause that gives a value refuses every other value, which one edit shows; the rest of such a clause's edits may go.
"""
import os
import re

PUBLIC = re.compile(r'\bpub\s+(?:(?:const|unsafe|extern\s+"C")\s+)*\Z')
CALLED = re.compile(r"\b([a-z_]\w*)\s*(?:::<[^>]*>)?\(|::([a-z_]\w*)\b")


class Function:
    """A function of a crate: its place, its clauses, whether it is public, and the names that it calls."""

    def __init__(self, path, text, first, last, names):
        body = re.sub(r"//[^\n]*", "", text[first:last])
        self.path, self.name = path, min(names, key=len).partition("..")[2] or min(names, key=len).split("::", 1)[-1]
        # (a function of a trait has more than one name, and is called through that trait)
        self.is_public, self.clauses = bool(PUBLIC.search(text[:first])) or len(names) > 1, clauses_of(body)
        self.calls = {a or b for a, b in CALLED.findall(body)}
        self.edits = {}

    def last_name(self):
        return self.name.split("::")[-1]


def clauses_of(text):
    """The clauses of a function, each with its name."""
    found = []
    for it in re.finditer(r"\bensures\s+(\w*)\s*\{", text):
        depth, end = 1, it.end()
        while depth and end < len(text):
            depth += {"{": 1, "}": -1}.get(text[end], 0)
            end += 1
        found.append(f"{it[1] or 'ensures'}: {' '.join(text[it.end() : end - 1].split())}")
    return found


def functions_of(folder, crate, source_of):
    """The functions of each file of a crate, in order."""
    found = {}
    for at, _, names in os.walk(f"{folder}/src"):
        for path in [os.path.relpath(f"{at}/{name}", folder) for name in names if name.endswith(".rt")]:
            with open(f"{folder}/{path}", encoding="utf-8") as it:
                text = it.read()
            found[path] = [Function(path, text, *place) for place in source_of(crate, path, text).functions]
    return found


def public_calls_above(function, callers):
    """A function itself where it is public, or nobody of its crate calls it; else the public calls that it serves."""
    found, seen, left = [], {function}, [function]
    while left:
        it = left.pop()
        above = [] if it.is_public else [one for one in callers.get(it.last_name(), []) if one not in seen]
        if it.is_public or it is function and not above:
            found.append(it)
        seen.update(above)
        left += above
    return found


def listed(crate, folder, edits, source_of):
    """Of one crate the lines on each public call that more than one edit turns."""
    functions = functions_of(folder, crate, source_of)
    callers = {}
    for one in [it for of in functions.values() for it in of]:
        for name in one.calls:
            callers.setdefault(name, []).append(one)
    turned = {}
    for edit in edits:
        for (path, number), (_, old, new) in zip(edit.places, edit.pairs):
            if number is None or old.split() == new.split():  # (it only lets the next text stand once)
                continue
            function = functions[path][number]
            for call in public_calls_above(function, callers):
                where = "" if function is call else f", in {function.name}"
                turned.setdefault(call, {}).setdefault(f"{edit.label}{where}", []).append(f"    - {old.strip()}\n    + {new.strip()}")
    for call, of in sorted(turned.items(), key=lambda it: (it[0].path, it[0].name)):
        if len(of) > 1:
            yield f"{crate}/{call.path}: {call.name}"
            yield from [f"    {it}" for it in call.clauses]
            for label, lines in of.items():
                yield "\n".join([f"  {label}", *lines])
            yield ""
