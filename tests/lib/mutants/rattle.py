"""Wrong bodies of Rattle: where functions stand in a source, and a source that holds many of them behind a switch."""
import collections
import re

from .rules import Known, changes_of

FUNCTION = re.compile(r"^(\s*)(?:pub(?:\([^)]*\))? )?(?:unsafe )?fn (\w+)")
CONSTANT = re.compile(r"^\s*(?:pub(?:\([^)]*\))? )?const (\w+): ([^=]+) = (.*)", re.M)
# What a switched source asks: whether the wrong body of this number is the one that runs.
SWITCH = "is_wrong_body"
DECLARED = f'\nunsafe extern "C" {{\n    safe fn {SWITCH}(number: u32) -> bool;\n}}\n'
EARLY = (
    (r"Result<\(\), .*>|io::Result<\(\)>|Result<\(\)>", ("Ok(())",)),
    (r"bool", ("true", "false")),
    (r"Option<.*>", ("None",)),
    (r"[ui](8|16|32|64|size)", ("0", "1")),
    (r"&'static str|&str", ('""',)),
    (r"Result<bool, .*>", ("Ok(true)", "Ok(false)")),
    (r"Result<Option<.*>, .*>", ("Ok(None)",)),
)


class Function:
    """A function of a source: the lines of its body, and what is known around it."""

    def __init__(self, name, first, last, signature):
        self.name, self.first, self.last, self.signature = name, first, last, signature

    def result(self):
        """What an early return may answer."""
        found = re.search(r"\)\s*->\s*(.+?)\s*\{?$", " ".join(it for it in self.signature))
        if not found:
            return ("",)
        return next((values for form, values in EARLY if re.fullmatch(form, found[1].strip())), None)

    def variables(self):
        """The parameters that have another one of the same type."""
        named = re.findall(r"(?:mut )?(\w+): ((?:[^,<>()]|<[^<>]*>|\([^()]*\))+)", " ".join(self.signature))
        return siblings(named)


def siblings(named):
    """Of names with types each with the others of its type."""
    of_type = collections.defaultdict(list)
    for name, type_of in named:
        of_type[type_of.strip().rstrip(",")].append(name)
    return {name: [it for it in names if it != name] for names in of_type.values() for name in names if len(names) > 1}


def functions_of(lines):
    """The functions of a source, as rt lays it out."""
    found, at = [], 0
    while at < len(lines):
        head = FUNCTION.match(lines[at])
        if not head or "#[test]" in lines[at - 1]:
            at += 1
            continue
        indent = head[1]
        brace = at
        while brace < len(lines) and not (lines[brace] == f"{indent}{{" or lines[brace].endswith((" {", ";", "{}", "}")) and is_end_of_head(lines, at, brace, indent)):
            brace += 1
        end = brace + 1
        while end < len(lines) and lines[end] != f"{indent}}}":
            end += 1
        if brace < len(lines) and lines[brace].endswith("{") and end < len(lines):
            signature = [it.strip() for it in lines[at : brace + 1] if not re.match(r"(requires|ensures|returns|decreases|ghost)", it.strip())]
            found.append(Function(head[2], brace + 1, end, signature))
            at = end
        at += 1
    return found


def is_end_of_head(lines, first, place, indent):
    """Whether the head of a function ends on this line: its first, or the one that closes its parameters."""
    return place == first or lines[place].startswith(f"{indent})")


def known_of(sources):
    """What the sources of a crate tell: fields, variants and constants that have others of their type."""
    fields, variants, constants = {}, {}, {}
    for text in sources:
        for body in re.findall(r"struct \w+(?:<[^{;]*>)? \{\n(.*?)\n\}", text, re.S):
            fields.update(siblings(re.findall(r"^\s*(?:pub(?:\([^)]*\))? )?(\w+): (.+),$", body, re.M)))
        for name, body in re.findall(r"enum (\w+)(?:<[^{]*>)? \{\n(.*?)\n\}", text, re.S):
            plain = re.findall(r"^    (\w+),$", body, re.M)
            variants.update({f"{name}::{it}": [other for other in plain if other != it] for it in plain})
        named = CONSTANT.findall(text)
        for name, others in siblings([(name, type_of) for name, type_of, _ in named]).items():
            constants.setdefault(name, []).extend(others)
        for name, type_of, _ in named:
            if re.fullmatch(r"[ui](8|16|32|64|size)", type_of.strip()):
                constants.setdefault(name, []).extend([f"({name} + 1)", f"({name} - 1)"])
    return Known(constants, variants, fields)


def is_plain(text, change):
    """Whether a change stands where something runs: not in what is for the prover alone."""
    line = text[text.rfind("\n", 0, change.start) + 1 :].split("\n", 1)[0].strip()
    return not line.startswith(("prove!", "ghost", "let _", "invariant", "#[", "decreases")) and "unreachable!" not in line


def wrong_bodies(text, known):
    """The wrong bodies of a source: each function with the changes of its body."""
    lines = text.split("\n")
    for function in functions_of(lines):
        body = "\n".join(lines[function.first : function.last])
        around = Known(known.constants, known.variants, known.fields, function.variables(), function.result())
        for change in changes_of(body, around):
            if is_plain(body, change):
                yield function, body, change


def switched(lines, chosen):
    """The source with wrong bodies in it, each behind its number: [(number, function, lines of the body)]. And the number of each line of it."""
    by_function = collections.defaultdict(list)
    for number, function, body in chosen:
        by_function[function.first, function.last].append((number, body))
    made, numbers, at = [], {}, 0
    for (first, last), bodies in sorted(by_function.items()):
        made += lines[at:first]
        for place, (number, body) in enumerate(bodies):
            made.append(f"{'} else ' if place else ''}if {SWITCH}({number}) {{")
            numbers.update({len(made) + 1 + line: number for line in range(len(body))})
            made += body
        made += ["} else {", *lines[first:last], "}"]
        at = last
    made += lines[at:]
    return "\n".join(made) + DECLARED, numbers
