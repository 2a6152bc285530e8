"""Wrong bodies of Python, of the shell, and of the inline functions of the header for C: each is tried in a copy of its own file."""
import io
import re
import tokenize

from .rules import Change, Known, arguments, changes_of, comparisons, numbers, signs
from .tokens import Token

NAMES = {"and": "or", "or": "and", "True": "False", "False": "True", "min": "max", "max": "min", "any": "all", "all": "any"}
KINDS = {tokenize.NAME: "name", tokenize.NUMBER: "number", tokenize.STRING: "text", tokenize.OP: "sign"}


def python_tokens(text):
    starts = [0]
    for line in text.splitlines(keepends=True):
        starts.append(starts[-1] + len(line))
    found = []
    for it in tokenize.generate_tokens(io.StringIO(text).readline):
        if it.type in KINDS:
            found.append(Token(KINDS[it.type], it.string, starts[it.start[0] - 1] + it.start[1], starts[it.end[0] - 1] + it.end[1]))
    return found


def python_changes(text):
    """All changes of a source of Python."""
    all_tokens = python_tokens(text)
    told = [it for it in all_tokens if is_documentation(text, it)]
    # (what a function is called with is changed where it is called; and what is written of types runs nowhere)
    tokens = [it for it in all_tokens if it not in told and not re.match(r"\s*(async )?(def|@functools\.lru_cache)\b", line_at(text, it.start))]
    for rule in (comparisons, signs, numbers, arguments):
        yield from rule(text, tokens, Known())
    for token in tokens:
        if token.text in NAMES and token.kind == "name":
            yield Change("word", token.start, token.end, NAMES[token.text])
        if token.text == "not" and not re.search(r"\bis\s*$", text[: token.start]) and not text[token.end :].lstrip().startswith("in "):
            yield Change("not", token.start, token.end + 1, "")
        if token.kind == "text":
            yield from letters(token)
    for line in re.finditer(r"(?m)^([ \t]+)(\S.*)$", text):
        start, bare = line.start(2), line[2]
        if any(it.start <= start < it.end for it in told):
            continue
        if re.match(r"(if|elif|while) .*:$", bare):
            begun = start + bare.index(" ") + 1
            condition = text[begun : line.end() - 1]
            yield Change("branch", begun, line.end() - 1, f"False and ({condition})")
            yield Change("branch", begun, line.end() - 1, f"True or ({condition})")
        if re.match(r"[\w.]+(\(.*\)| [-+|]?= .*)$", bare) and bare.count("(") == bare.count(")") and is_whole(text, line.start()):
            yield Change("left out", start, line.end(), "pass")
        if re.match(r"return \S", bare) and bare.count("(") == bare.count(")"):
            yield Change("early end", start, line.end(), "return None")


def line_at(text, at):
    first = text.rfind("\n", 0, at) + 1
    return text[first : text.find("\n", at)]


def is_whole(text, at):
    """Whether a statement begins on this line."""
    above = text[:at].rstrip().rsplit("\n", 1)[-1]
    return not above.endswith(("(", "[", "{", ",", "\\"))


def is_documentation(text, token):
    return token.kind == "text" and token.text.startswith('"""')


def letters(token):
    """A letter of a text that is another one."""
    open_at = min(token.text.index(it) for it in "'\"" if it in token.text) + 1
    free = re.sub(r"\{[^}]*\}|\\.", lambda it: "\0" * len(it[0]), token.text[open_at:-1])
    for place, letter in enumerate(free):
        if letter.isalpha():
            yield Change("text", token.start + open_at + place, token.start + open_at + place + 1, "y" if letter == "x" else "x")


# Of the shell: what one may be exchanged for.
SHELL = (
    ("logic", r" && ", " || "), ("logic", r" \|\| ", " && "), ("comparison", r"-eq\b", "-ne"), ("comparison", r"-ne\b", "-eq"),
    ("comparison", r"-gt\b", "-ge"), ("comparison", r"(?<=\S) = (?=\S)", " != "), ("comparison", r" != ", " = "), ("comparison", r"\[ -z ", "[ -n "),
    ("comparison", r"\[ -n ", "[ -z "), ("comparison", r"\[ -[pSfcxe] ", "[ -d "), ("not", r"(?<=[ \t])! ", ""), ("stream", r" ?[0-9]?>&[0-9-]", ""),
    ("stream", r" ?[0-9]?[<>]/dev/null", ""), ("stream", r" ?[0-9]<&[0-9-]", ""), ("variable", r"(?<=[ =])\"(\$[\w@*]+)\"", r"\1"),
    ("word", r" (HUP|QUIT|TERM|INT)\b(?= )", ""), ("word", r"\b[-\w]+ \| (?=[-\w])", ""), ("text", r"(?<=[a-z])[a-z](?=[a-z]+[^a-z\n]*\"$)", "x"),
    ("word", r" &$", ""), ("word", r"(?<= )-[a-zA-Z]+ ", ""), ("word", r"\bexec ", ""), ("text", r"/[a-z]+(?=[/\" ])", "/x"),
)


def shell_changes(text):
    """All changes of a script of the shell."""
    at = 0
    for line in text.splitlines(keepends=True):
        bare = line.strip()
        if bare and not bare.startswith("#"):
            for rule, form, new in SHELL:
                for found in re.finditer(form, line.rstrip("\n")):
                    yield Change(rule, at + found.start(), at + found.end(), found.expand(new))
            for found in re.finditer(r"(?<![\w$#.{-])\d+(?![\w.>&<])", line):
                yield Change("number", at + found.start(), at + found.end(), str(int(found[0]) + 1))
            if re.match(r"[a-z_]+[ =]", bare) and not re.match(r"(if|for|while|until|case|else|fi|do|done|esac)\b", bare) and not bare.endswith((" do", " then", "\\", " in", "{", "&&", "||")):
                start = at + len(line) - len(line.lstrip())
                yield Change("left out", start, start + len(bare), ":")
        at += len(line)


def header_changes(text):
    """All changes of the inline functions of a header for C."""
    for found in re.finditer(r"(?ms)^static inline [^;{]*\{\n(.*?)^\}", text):
        for change in changes_of(found[1], Known()):
            if change.rule not in ("early end",):
                yield change._replace(start=change.start + found.start(1), end=change.end + found.start(1))


def changes_of_file(path, text):
    if path.endswith((".py",)) or text.startswith("#!/usr/bin/env python3"):
        return python_changes(text)
    return header_changes(text) if path.endswith(".h") else shell_changes(text)
