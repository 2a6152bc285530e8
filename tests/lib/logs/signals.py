"""Signals of a DBC file: the written example, values at the ends of their ranges by hand, files that are wrong, memory kept."""

import json
import tempfile

from harness import TOP

from .common import run, same

MESSAGE = b"BO_ 2566844158 Heat: 8 X\n"
SIGNAL = b' SG_ Oil : 0|8@1+ (1,-40) [0|0] "C" X\n'
# What stands in a file, and what is told of it, where it is wrong.
BAD_SIGNALS = [
    (SIGNAL, "line 1: SG_: it is not behind a BO_"), (b"BO_ x Heat: 8 X\n", "line 1: identifier: x is not a number below 2^32"), (b"BO_ 4294967296 Heat: 8 X\n", "line 1: identifier: 4294967296 is not a number below 2^32"),
    (b"BO_ 2566844158 Heat 8 X\n", "line 1: BO_: 8 is not a : behind the name"), (b"BO_ 2684354560 Heat: 8 X\n", "line 1: identifier: Heat is not of 29 bits and bit 31"),
    (MESSAGE * 2, "line 2: BO_: its identifier is not that of no message before"), (MESSAGE + SIGNAL * 2, "line 3: Oil stands there twice"),
    (MESSAGE + b" SG_ : 0|8@1+ (1,0) [0|0] \"\" X\n", "line 2: SG_: nothing is not a name"), (MESSAGE + b' SG_ Oil 0|8@1+ (1,0) [0|0] "" X\n', "line 2: multiplexor: 0 is not M, or m and a number (one below another is not read)"),
    (MESSAGE + SIGNAL.replace(b"0|8", b"14280|8"), "line 2: start bit: 14280 is not 0 to 14279"), (MESSAGE + SIGNAL.replace(b"0|8", b"-1|8"), "line 2: start bit: -1 is not 0 to 14279"),
    (MESSAGE + SIGNAL.replace(b"|8@", b"|0@"), "line 2: length: 0 is not 1 to 64"), (MESSAGE + SIGNAL.replace(b"|8@", b"|65@"), "line 2: length: 65 is not 1 to 64"),
    (MESSAGE + SIGNAL.replace(b"@1+", b"@2+"), "line 2: byte order: 2+ is not 0+, 0-, 1+ or 1-"), (MESSAGE + SIGNAL.replace(b"@1+", b"@1"), "line 2: byte order: 1 is not 0+, 0-, 1+ or 1-"),
    (MESSAGE + SIGNAL.replace(b"(1,", b"(x,"), "line 2: factor: x is not a number of up to 18 digits, 36 places and 10^18"), (MESSAGE + SIGNAL.replace(b"-40)", b"1.2.3)"), "line 2: offset: 1.2.3 is not a number of up to 18 digits, 36 places and 10^18"),
    (MESSAGE + SIGNAL.replace(b"(1,", b"(1E-37,"), "line 2: factor: 1E-37 is not a number of up to 18 digits, 36 places and 10^18"), (MESSAGE + SIGNAL.replace(b"(1,", b"(1E19,"), "line 2: factor: 1E19 is not a number of up to 18 digits, 36 places and 10^18"),
    (MESSAGE + SIGNAL.replace(b"(1,-40)", b"(1E18,0.1)"), "line 2: factor: 1E18 is not of so few digits that all values can be written exactly"),
    (MESSAGE + SIGNAL.replace(b"[0|0]", b""), "line 2: SG_: \" is not a [ before the least value"), (MESSAGE + SIGNAL.replace(b'"C" ', b""), "line 2: unit: X is not a text in quotes"),
    (MESSAGE + SIGNAL.replace(b'"C"', b'"C'), "line 2: a quote that does not end"), (MESSAGE + SIGNAL + b'CM_ "open\n\nBO_ x\n', "line 3: a quote that does not end"),
    (MESSAGE + b'\n SG_ A m0 : 0|8@1+ (1,0) [0|0] "" X\n', "line 1: BO_: it is not with a multiplexor (M), which its signals want"), (MESSAGE + b' SG_ A m0M : 0|8@1+ (1,0) [0|0] "" X\n', "line 2: multiplexor: m0M is not M, or m and a number (one below another is not read)"),
    (MESSAGE + b' SG_ A M : 0|8@1+ (1,0) [0|0] "" X\n SG_ B M : 8|8@1+ (1,0) [0|0] "" X\n', "line 3: M: B is not the only multiplexor of its message"),
    (MESSAGE + SIGNAL + b'VAL_ 2566844158 Oil 0 "cold"\n', "line 3: VAL_: nothing is not a whole number, or a ; behind the last text"), (MESSAGE + SIGNAL + b'VAL_ 2566844158 Oil 0.5 "cold" ;\n', "line 3: VAL_: 0.5 is not a whole number, or a ; behind the last text"),
    (MESSAGE + SIGNAL + b'BA_ "SPN" SG_ 2566844158 Oil x;\n', "line 3: SPN: x is not a number"), (MESSAGE + SIGNAL + b"SIG_VALTYPE_ 2566844158 Oil 1;\n", "line 3: SIG_VALTYPE_: 1 is not a : behind the name"),
    (MESSAGE + SIGNAL.replace(b"Oil", b"\xff"), "line 2: SG_: what is no UTF-8 is not a name"), (MESSAGE + SIGNAL.replace(b"@1+", b"@" + b"x" * 100), "line 2: byte order: a long word is not 0+, 0-, 1+ or 1-"),
    (b" " * 16_777_217, "line 1: file: it is not of up to 16777216 bytes"),
    (MESSAGE + b"".join(b' SG_ s%d : 0|8@1+ (1,0) [0|0] "" X\n' % at if at % 64 else b'BO_ %d M: 8 X\n SG_ s%d : 0|8@1+ (1,0) [0|0] "" X\n' % (0x98FF0000 + at, at) for at in range(65537)), "line 66563: SG_: s65536 is not among the first 65536 signals"),
    (MESSAGE + SIGNAL + b"VAL_ 2566844158 Oil" + b' 1 ""' * 262145 + b";\n", "line 3: VAL_: it is not among the first 262144 texts"),
]
# A signal of one byte order and length with its factor and offset, a payload, and what is told of it: by hand.
VALUES = [
    ("0|64@1+ (1,0)", "0100000000000080", "9223372036854775809"), ("0|64@1- (1,0)", "0000000000000080", "-9223372036854775808"), ("7|64@0+ (1,0)", "0100000000000002", "72057594037927938"),
    ("7|64@0- (0.1,0.05)", "FFFFFFFFFFFFFFFF", "-0.05"), ("4|8@1+ (1,0)", "2001", "18"), ("4|8@1+ (1,0)", "20", None), ("3|8@0+ (1,0)", "0120", "18"), ("3|8@0+ (1,0)", "01", None),
    ("0|1@1+ (1,0)", "01", "1"), ("0|2@1+ (1,0)", "02", "error"), ("0|2@1+ (1,0)", "03", "not available"), ("0|2@1- (1,0)", "03", "-1"), ("0|4@1+ (1,0)", "0E", "error"), ("0|7@1+ (1,0)", "7D", "125"),
    ("0|8@1+ (1,0)", "FD", "253"), ("0|8@1+ (1,0)", "FE", "error"), ("0|8@1+ (1,0)", "FF", "not available"), ("0|16@1+ (1,0)", "FFFD", "65023"), ("0|16@1+ (1,0)", "00FE", "error"), ("0|16@1+ (1,0)", "00FF", "not available"),
    ("0|12@1+ (1,0)", "DF0F", "4063"), ("0|12@1+ (1,0)", "E00F", "error"), ("7|16@0+ (1,0)", "FEFF", "error"), ("0|8@1+ (-0.25,100)", "C8", "50"), ("0|8@1+ (0,-0)", "05", "0"), ("0|8@1+ (1E+3,0.5)", "02", "2000.5"),
    ("0|8@1+ (1E-36,0)", "0C", "0.000000000000000000000000000000000012"), ("0|63@1+ (1000000000000000000,0)", "FFFFFFFFFFFFFF7C", "9007199254740991999000000000000000000"),
]


def decoded(data, lines, *words):
    with tempfile.NamedTemporaryFile(suffix=".dbc") as file:
        file.write(data)
        file.flush()
        return run(["decode", "--signals", file.name, *words], lines)


def written_signals():
    """The example of examples/signals.dbc, byte for byte as it stands; and without it what stood before."""
    log, file = (TOP / "examples/signals.log").read_bytes(), str(TOP / "examples/signals.dbc")
    found = []
    for form, words in (("txt", []), ("json", ["--format", "json"])):
        stored = (TOP / f"tests/data/logs/signals.decode.{form}").read_text(encoding="utf-8")
        found += same(run(["decode", "--join", "--signals", file, *words], log), (0, stored, ""), form)
    plain = run(["decode", "--join"], log)[1].splitlines()
    with_values = run(["decode", "--join", "--signals", file], log)[1].splitlines()
    return found + same([line.split("; ")[0] for line in with_values], plain, "in front of the values")


def values_by_hand():
    found = []
    for where, payload, wanted in VALUES:
        data = MESSAGE + f' SG_ Oil : {where} [0|0] "" X\n'.encode()
        out = run_of(data, payload)
        found += same(out, f"; Oil={wanted}" if wanted is not None else "", f"{where} of {payload}")
        if wanted is not None and wanted[-1].isdigit():
            line = decoded(data, f"18FEEE00#{payload}\n".encode(), "--format", "json")[1]
            found += same(json.loads(line, parse_float=str, parse_int=str)["signals"], [{"name": "Oil", "value": wanted}], f"{where} of {payload} in JSON")
    return found


def run_of(data, payload):
    """What stands behind the bytes of a frame."""
    told = decoded(data, f"18FEEE00#{payload}\n".encode())[1]
    return told.rstrip("\n").partition(" ".join(payload[at : at + 2] for at in range(0, len(payload), 2)))[2]


def wrong_signals():
    found = []
    for data, told in BAD_SIGNALS:
        found += same(decoded(data, b"18FEEE00#00\n"), (2, "", f"fault: texts\nsignals, {told}\n"), repr(data[-120:]))
    many = decoded(MESSAGE + SIGNAL.replace(b"|8@", b"|0@") * 12, b"18FEEE00#00\n")
    told = "".join(f"signals, line {line}: length: 0 is not 1 to 64\n" for line in range(2, 12))
    return found + same(many, (2, "", f"fault: texts\n{told}signals: and 2 more lines\n"), "many")


def signals_that_are_obeyed():
    """No terminal obeys a unit or a text of a file, nor a word that is told of a wrong one."""
    data = MESSAGE + b' SG_ Oil : 0|8@1+ (1,0) [0|0] "\x1b[7m\xc2\xb0C" X\n SG_ Fan : 8|8@1+ (1,0) [0|0] "" X\nVAL_ 2566844158 Fan 1 "\xe2\x80\xae\x9b" ;\n'
    status, out, err = decoded(data, b"18FEEE00#0001\n")
    found = same((status, out.partition("00 01")[2], err), (0, "; Oil=0 \\x1B[7m\u00b0C; Fan=1 (\u00e2\\x80\u00ae\\x9B)\n", ""), "units and texts")
    return found + same(decoded(MESSAGE + b" SG_ Oil \x1b[7m\n", b""), (2, "", "fault: texts\nsignals, line 2: multiplexor: \\x1B is not M, or m and a number (one below another is not read)\n"), "a word")
