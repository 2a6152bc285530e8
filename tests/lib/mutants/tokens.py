"""Tokens of Rattle and of C, as far as changing a line wants them."""
import re
from typing import NamedTuple

FORM = re.compile(
    r"""(?P<comment>//[^\n]*|/\*.*?\*/)
    |(?P<text>b?"(?:\\.|[^"\\])*")
    |(?P<letter>b?'(?:\\.|\\u\{[0-9a-fA-F]+\}|[^'\\\n])')
    |(?P<lifetime>'[A-Za-z_]\w*)
    |(?P<number>0x[0-9a-fA-F_]+\w*|\d[\d_]*(?:[ui](?:8|16|32|64|size))?[uUlL]*)
    |(?P<name>[A-Za-z_]\w*!?(?!=)|[A-Za-z_]\w*)
    |(?P<sign>\.\.=|\.\.\.|<<=|>>=|->|=>|==|!=|<=|>=|&&|\|\||::|\.\.|\+=|-=|\*=|/=|%=|\|=|&=|\^=|<<|>>|\S)""",
    re.X | re.S,
)
CLOSING = {"(": ")", "[": "]", "{": "}"}


class Token(NamedTuple):
    """A word of a text, and where it stands."""

    kind: str
    text: str
    start: int
    end: int


def tokens_of(text):
    """The tokens of a text without its comments."""
    return [Token(it.lastgroup, it[0], it.start(), it.end()) for it in FORM.finditer(text) if it.lastgroup != "comment"]


def closing_of(tokens, at):
    """The place of the token that closes the bracket at this place; None where none does."""
    depth = 0
    for place in range(at, len(tokens)):
        if tokens[place].kind == "sign":
            depth += tokens[place].text in CLOSING
            depth -= tokens[place].text in CLOSING.values()
            if depth == 0:
                return place
    return None


def parts_within(tokens, at, end):
    """The parts between commas of what stands between two brackets, as (start, end) of the text."""
    parts, begun, depth = [], None, 0
    for token in tokens[at + 1 : end]:
        if token.kind == "sign":
            if token.text == "," and depth == 0:
                if begun is not None:
                    parts.append((begun, last))
                begun = None
                continue
            depth += token.text in CLOSING
            depth -= token.text in CLOSING.values()
        begun = token.start if begun is None else begun
        last = token.end
    if begun is not None:
        parts.append((begun, last))
    return parts
