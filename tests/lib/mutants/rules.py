"""The rules by which one place of a body is made wrong. Each gives the changes that it can make: where, and what then stands there."""
import re
from typing import NamedTuple

from .tokens import closing_of, parts_within, tokens_of


class Change(NamedTuple):
    """One change of a text."""

    rule: str
    start: int
    end: int
    new: str


class Known:
    """What a rule knows of what stands around a body: names with others of the same type."""

    def __init__(self, constants=(), variants=(), fields=(), variables=(), result=None):
        self.constants, self.variants = dict(constants), dict(variants)
        self.fields, self.variables, self.result = dict(fields), dict(variables), result


COMPARED = {"<": ("<=", ">="), "<=": ("<", ">"), ">": (">=", "<="), ">=": (">", "<"), "==": ("!=",), "!=": ("==",)}
TURNED = {"&&": "||", "||": "&&", "+": "-", "-": "+", "*": "/", "/": "*", "+=": "-=", "-=": "+="}
EXCHANGED = {
    "min": "max", "max": "min", "first": "last", "last": "first", "any": "all", "all": "any", "is_some": "is_none", "is_none": "is_some",
    "is_ok": "is_err", "is_err": "is_ok", "saturating_sub": "saturating_add", "saturating_add": "saturating_sub", "true": "false", "false": "true",
    "starts_with": "ends_with", "ends_with": "starts_with", "find": "rfind", "memcpy": "memmove",
}


def has_blanks(text, token):
    return text[token.start - 1 : token.start].isspace() and text[token.end : token.end + 1].isspace()


def comparisons(text, tokens, _):
    for token in tokens:
        if token.text in COMPARED and has_blanks(text, token):
            for new in COMPARED[token.text]:
                yield Change("comparison", token.start, token.end, new)


def signs(text, tokens, _):
    for token in tokens:
        if token.text in TURNED and has_blanks(text, token) and not text[: token.start].endswith("move "):
            yield Change("logic" if token.text in ("&&", "||") else "sum", token.start, token.end, TURNED[token.text])


def numbers(text, tokens, _):
    for token in tokens:
        if token.kind != "number" or text[token.start - 1 : token.start] == "." and text[token.start - 2 : token.start] != "..":
            continue
        found = re.fullmatch(r"(0x[0-9a-fA-F_]+|[\d_]+)(\w*)", token.text)
        if not found:
            continue
        digits, suffix = found.groups()
        value = int(digits, 0) if digits.startswith("0x") else int(digits)
        for near in [value + 1] + [value - 1] * (value > 0):
            yield Change("number", token.start, token.end, (hex(near) if digits.startswith("0x") else str(near)) + suffix)


def is_in_pattern(text, token):
    """Whether the name seems to be declared here and not used."""
    return re.search(r"\b(let|let mut|fn|for)\s+\(?$", text[: token.start]) is not None


def names(text, tokens, known):
    for at, token in enumerate(tokens):
        if token.kind != "name":
            continue
        before = tokens[at - 1].text if at else ""
        behind = tokens[at + 1].text if at + 1 < len(tokens) else ""
        if before in (".", "::"):
            if before == "." and behind not in ("(", ":"):
                for new in known.fields.get(token.text, ()):
                    yield Change("field", token.start, token.end, new)
            if before == "::" and behind not in ("(", "{", "::"):
                for new in known.variants.get(f"{tokens[at - 2].text}::{token.text}", ()):
                    yield Change("variant", token.start, token.end, new)
        elif behind not in ("(", ":", "::", "!") and not is_in_pattern(text, token):
            for new in known.constants.get(token.text, ()):
                yield Change("constant", token.start, token.end, new)
            for new in known.variables.get(token.text, ()):
                yield Change("variable", token.start, token.end, new)


def words(text, tokens, _):
    for at, token in enumerate(tokens):
        if token.text in EXCHANGED and token.kind == "name":
            yield Change("word", token.start, token.end, EXCHANGED[token.text])
        if token.text == "!" and tokens[at + 1 : at + 2] and tokens[at + 1].kind in ("name", "sign") and text[token.end : token.end + 1].strip():
            yield Change("not", token.start, token.end, "")


def branches(text, tokens, _):
    """A branch that is never taken, or always."""
    for at, token in enumerate(tokens):
        if token.text != "if" or token.kind != "name":
            continue
        end = next((it for it in tokens[at:] if it.text in ("{", "=>")), None)
        condition = text[token.end : end.start].strip() if end else ""
        if not condition or re.search(r"\blet\b", condition) or "\n" in condition:
            continue
        start = token.end + 1
        yield Change("branch", start, start + len(condition), f"false && ({condition})")
        yield Change("branch", start, start + len(condition), f"true || ({condition})")


# What no argument beside it can be exchanged for: memory or the runtime, and one that is given by its name, or is a row of many.
OF_ITS_OWN_TYPE = re.compile(r"(?:\w+\.)*(?:alloc|rt)\b|\w+=[^=]|\*")


def pairs(parts, text):
    for left, right in zip(parts, parts[1:]):
        one, other = text[slice(*left)], text[slice(*right)]
        if one != other and "\n" not in text[left[0] : right[1]] and not (OF_ITS_OWN_TYPE.match(one) or OF_ITS_OWN_TYPE.match(other)):
            yield left, right, one, other


def arguments(text, tokens, _):
    """Two arguments that are exchanged, or two fields of a value."""
    for at, token in enumerate(tokens):
        if token.text not in ("(", "{") or not at or tokens[at - 1].kind != "name" or tokens[at - 1].text in ("if", "match", "in", "return", "while", "let", "for", "except"):
            continue
        end = closing_of(tokens, at)
        if end is None:
            continue
        parts = parts_within(tokens, at, end)
        if token.text == "{":
            parts = [(text.index(":", *it) + 2, it[1]) for it in parts if re.match(r"\w+: ", text[slice(*it)])]
        for left, right, one, other in pairs(parts, text):
            yield Change("arguments" if token.text == "(" else "values", left[0], right[1], f"{other}{text[left[1] : right[0]]}{one}")


def loops(text, tokens, _):
    """A loop that is one short or one longer, or goes the other way."""
    for at, token in enumerate(tokens):
        if token.text == "..=":
            yield Change("loop", token.start, token.end, "..")
        if token.text == ".." and at and tokens[at - 1].kind in ("name", "number") and tokens[at + 1].kind in ("name", "number"):
            yield Change("loop", token.start, token.end, "..=")
    for form, new in ((r"\.iter\(\)", ".iter().skip(1)"), (r"\.rev\(\)", ""), (r"\.len\(\)", ".len().saturating_sub(1)"), (r"\.chunks\(", None)):
        for found in re.finditer(form, text):
            if new is not None:
                yield Change("loop", found.start(), found.end(), new)


def somes(text, tokens, _):
    for at, token in enumerate(tokens[:-1]):
        if token.text == "Some" and tokens[at + 1].text == "(":
            end = closing_of(tokens, at + 1)
            # (not in a pattern, whose names would be missing)
            behind = tokens[end + 1].text if end is not None and end + 1 < len(tokens) else ""
            if end is not None and "\n" not in text[token.start : tokens[end].end] and behind not in ("=>", "=", "if", "|"):
                yield Change("none", token.start, tokens[end].end, "None")


def texts(text, tokens, _):
    """A letter of a text that is another one, or a sign that is gone."""
    for token in tokens:
        if token.kind != "text":
            continue
        open_at = token.text.index('"') + 1
        body = token.text[open_at:-1]
        free = re.sub(r"\{[^}]*\}|\\u\{[^}]*\}|\\.", lambda it: "\0" * len(it[0]), body)
        for place, letter in enumerate(free):
            at = token.start + open_at + place
            if letter.isalpha():
                yield Change("text", at, at + 1, "y" if letter == "x" else "x")
            elif letter != "\0":
                yield Change("text", at, at + 1, "")


def is_begun(lines, number):
    """Whether a statement ends before this line."""
    above = next((it.strip() for it in reversed(lines[:number]) if it.strip() and not it.strip().startswith("//")), "{")
    return above.endswith(("{", "}", ";"))


def statements(text, tokens, known):
    """A call that is left out, and a return before it."""
    at, lines = 0, text.split("\n")
    for number, line in enumerate(lines):
        bare = line.strip()
        start = at + len(line) - len(line.lstrip())
        at += len(line) + 1
        if not bare or not is_begun(lines, number) or bare.startswith(("//", "}", "#", ".", "use ", "const ", "else")) or " => " in bare:
            continue
        if bare.endswith(";") and not re.match(r"(let|return|ghost|prove!|type|struct)\b", bare) and bare.count("(") == bare.count(")"):
            yield Change("left out", start, start + len(bare), "")
        for early in known.result or ():
            if not bare.startswith(("return", "let ")) or number:
                yield Change("early end", start, start, f"return{early and ' '}{early}; ")


RULES = (comparisons, signs, numbers, names, words, branches, arguments, loops, somes, texts, statements)
# How often each rule is drawn.
WEIGHTS = {
    "comparison": 4, "logic": 1, "sum": 2, "number": 3, "field": 2, "variant": 2, "constant": 2, "variable": 1, "word": 2, "not": 1, "branch": 4,
    "arguments": 2, "values": 1, "loop": 2, "none": 1, "text": 4, "left out": 4, "early end": 1,
}


def changes_of(text, known):
    """All changes of a body."""
    tokens = tokens_of(text)
    return [it for rule in RULES for it in rule(text, tokens, known)]
