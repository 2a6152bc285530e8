"""Lines that are malformed, of other forms, or tell of lost frames."""

from logs.common import CLAIM, CLAIMED, MESSAGE, SHOWN, run, same

MALFORMED = [
    (b"(1.100000) can0 18FECA0#04FFB8040301FFFF", "8 digits of identifier wanted, 7 found"),
    (b"(1.100000) can0 18FECA001#04FFB8040301FFFF", "8 digits of identifier wanted, 9 found"),
    (b"(1.100000) can0 18FECA00#04FFB8040301FFF", "odd number of digits"),
    (b"(1.100000) can0 18FECA00#04FFB8040301FFFF00", "more than 8 bytes"),
    (b"(1.100000) can0 18FECA00#04FFB8040301FFZZ", "no hexadecimal digit: Z"),
    (b"(1.100000) can0 98FECA00#04FFB8040301FFFF", "identifier above 1FFFFFFF"),
    (b"(1.100000) can0 58FECA00#04FFB8040301FFFF", "identifier above 1FFFFFFF"),
    (b"(1.100000) can0 18FECA00 04FFB8040301FFFF", "no # behind the identifier"),
    (b"(1.100000) can0 18FECA00#04FFB8040301FFFF X", "words behind the data"),
    (b"(1.1) can0 18FECA00#04FFB8040301FFFF", "no time (SECONDS.MICROSECONDS)"),
    (b"(1.100000 can0 18FECA00#04FFB8040301FFFF", "no time (SECONDS.MICROSECONDS)"),
    (b"(1.100000)", "no bus behind the time"),
    (b"(1.100000) can0", "no frame behind the bus"),
    (b"(1.100000) can0 18FECA00#04FF\x00040301FFFF", "no hexadecimal digit: U+0000"),
    (b"(1.100000) can0 18FECA00#04FF\xff", "no text"),
    (b"(" + b"1" * 10240, "longer than 4096 bytes"),
    (b"x" * 10240, "longer than 4096 bytes"),
    (b"\xff\xfe", None),
    (b"\x00", None),
    (b"# a comment", None),
    (b"", None),
    (b"(1.100000) can0 123#04FF", None),
    (b"(1.100000) can0 18FECA00#R8", None),
    (b"(1.100000) can0 18FECA00##104FF", None),
    (b"(1.100000) can0 20000088#0000000000000000", None),
]


def malformed_lines():
    """Each is told with its number; what stands before and behind is read."""
    found = []
    for line, reason in MALFORMED:
        text = CLAIM + line + b"\n" + CLAIM + MESSAGE
        status, out, err = run(["watch"], text)
        wanted = (3, f"line 2: {reason}\n") if reason else (0, "")
        found += same((status, err), wanted, f"{line[:40]!r}")
        found += [] if SHOWN in out and out.startswith(CLAIMED) else [f"{line[:40]!r}: {out!r}"]
        found += same(run(["decode"], text)[0], 3 if reason else 0, f"decode of {line[:40]!r}")
    return found


def lines_of_other_forms():
    """CR LF, a byte order mark, no end at the end, spaces, plain candump, directions."""
    found = []
    forms = [
        CLAIM.replace(b"\n", b"\r\n") + MESSAGE.replace(b"\n", b"\r\n"),
        b"\xef\xbb\xbf" + CLAIM + MESSAGE,
        CLAIM + MESSAGE.rstrip(b"\n"),
        CLAIM.replace(b" can0 ", b"   can0   ") + b" (1.100000)  can0  18FECA00   [8]  04 FF B8 04 03 01 FF FF\n",
        CLAIM.replace(b"\n", b" R\n") + MESSAGE.replace(b"\n", b" T\n"),
        CLAIM + MESSAGE.lower(),
    ]
    for text in forms:
        status, out, err = run(["watch"], text)
        found += same((status, err), (0, ""), f"{text[:30]!r}") + ([] if SHOWN in out else [f"{text[:30]!r}: {out!r}"])
    return found


def bad_lines_are_missed_or_not():
    """A bad line may have been a claim: the owner is known no more. With --bad skip it is; with --strict it is the last."""
    text = CLAIM + b"(x\n" + MESSAGE
    missed, skipped, strict = (run(["watch", *words], text) for words in ([], ["--bad", "skip"], ["--strict"]))
    found = [] if "missed 1: no owner" in missed[1] and SHOWN not in missed[1] else [f"missed: {missed}"]
    found += [] if SHOWN in skipped[1] and "missed 0 unread 0" in skipped[1] else [f"skipped: {skipped}"]
    found += [] if "lines 2 frames 1 bad 1" in strict[1] and "unowned" not in strict[1] else [f"strict: {strict}"]
    return found + same([missed[0], skipped[0], strict[0]], [3, 3, 3], "status")


def dropped_frames():
    """candump -d tells of dropped frames; an overflow is one."""
    text = CLAIM + b"DROPCOUNT: dropped 7 CAN frames on 'can0' socket (total drops 7)\n" + b"(1.050000) can0 20000004#0001000000000000\n" + MESSAGE
    status, out, err = run(["watch"], text)
    found = same(status, 0, "status") + ([] if "missed 8 unread 0" in out and "\naddress 0, no claim seen since gap 2 " in out else [out])
    out = run(["watch", "--unclaimed", "hide"], text)[1]
    return found + ([] if "missed 8 unread 0" in out and " unowned DM from 0," in out and "no claim seen" not in out else [out])
