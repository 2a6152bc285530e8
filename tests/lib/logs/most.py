"""How much is written where more is heard than is kept at once."""

from logs.common import run, same


def output_of_many_holders():
    """10,000 claims of 254 addresses, each by another NAME: what is written stays in proportion to what is read, with the least that may be kept too."""
    lines = [f"({1 + at // 100}.{at % 100:02d}0000) can0 18EEFF{at % 254:02X}#{(at + 1).to_bytes(8, 'little').hex().upper()}\n" for at in range(10_000)]
    found, data = [], "".join(lines).encode()
    for words in (["--most", "512"], ["--most", "1024"], ["--most", "256"]):
        status, out, err = run(["watch", *words], data)
        written = (out.count("\n") // len(lines), len(out) // len(data))
        if words[1:] == ["256"]:
            found += same((status, out), (2, ""), "--most 256")
        else:
            found += same((status, "begun anew" in err), (3, True), f"{words}") + ([] if max(written) < 16 else [f"{words}: {written} times as much"])
    return found
