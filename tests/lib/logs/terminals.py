"""What comes from outside, where a terminal would obey it."""

import json
import tempfile

from logs.common import run, same
from model import decode, log_line

# Characters that a terminal obeys, and marks that turn the direction of text, with how they are shown in a line and in JSON.
SHOWN = {"\x1b": ("\\x1B", "\\u001b"), "\x07": ("\\x07", "\\u0007"), "\x7f": ("\\x7F", "\\u007F"), "\x9b": ("\\x9B", "\\u009B"), "\u061c": ("\\u061C", "\\u061C"), "\u202e": ("\\u202E", "\\u202E"),
         "\u2066": ("\\u2066", "\\u2066")}


def texts_of_decode_that_are_obeyed():
    """Names of buses, a shop's texts, and what makes a line bad: in words and in JSON each such character stands by its number, and JSON says the same text."""
    found = []
    for character, (in_line, in_json) in SHOWN.items():
        bus = f"c{character}[2J"
        data = f"(1.000000) {bus} 18EEFF00#A000000000000000\n(1.000000) {bus} 18FECA00#04FF64000301FFFF\n(1.000000) {bus} 1CECFF00#200A0002FFCAFE00\n"
        data += f"(1.000000) {bus} 1CEBFF00#0104FF6400030165\n(1.000000) {bus} 1CEBFF00#02000301FFFFFFFF\n(1.000000) can0 18FECA00#04{character}F\n"
        with tempfile.NamedTemporaryFile("w", suffix=".csv") as texts, tempfile.NamedTemporaryFile("w", suffix=".csv") as units:
            texts.write(f"spn,fmi,text\n100,3,a{character}b\n")
            units.write(f"function,text\n0,u{character}v\n")
            texts.flush()
            units.flush()
            words = ["decode", "--join", "--texts", texts.name, "--units", units.name]
            out, objects = (run([*words, *form], data.encode())[1] for form in ([], ["--format", "json"]))
        for what, text in (("words", out), ("JSON", objects)):
            found += [f"{what} {in_line}: {text!r}"] if character in text else []
        lines = out.splitlines()
        why = f"U+{ord(character):04X}" if character.isascii() else in_line
        found += same([line.count(in_line) for line in lines], [2, 2, 1, 1, 1, 2, why == in_line], f"{in_line}: {out!r}")
        found += same(f" c{in_line}[2J " in lines[0] and f" (u{in_line}v)" in lines[0] and f"(100/3: a{in_line}b)" in lines[1] and lines[-1].endswith(f": {why}"), True, f"{in_line}: {out!r}")
        found += same(objects.count(in_json) >= 8, True, f"{in_json}: {objects!r}")
        told = [json.loads(line) for line in objects.splitlines()]
        found += same((told[0]["bus"], told[1]["codes"][0]["text"], told[5]["codes"][0]["text"]), (bus, f"a{character}b", f"a{character}b"), f"{in_json}: JSON")
        text, by_model = run(["decode"], data.encode())[1], decode.decoded(log_line.read_lines(data.encode()))[0]
        found += same((text, run(["decode", "--format", "json"], data.encode())[1]), (by_model["text"], by_model["json"]), f"{in_line}: the model")
    return found
