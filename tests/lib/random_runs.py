"""What the runners of random scripts and logs share: their words, the shrinking of what differs, and their end."""
import argparse
import os
import time

from harness import Tally


def words(about, runs):
    """The words of such a runner, of so many runs where that is not said."""
    parser = argparse.ArgumentParser(description=about, formatter_class=argparse.RawDescriptionHelpFormatter)
    parser.add_argument("--seed", default="1")
    parser.add_argument("--runs", type=int, default=runs)
    parser.add_argument("--jobs", type=int, default=os.cpu_count() or 1)
    return parser


def shrunk(lines, differs, most):
    """Fewer lines that still differ: ever smaller pieces are left out as long as that goes, in at most so many tries."""
    tries, piece = 0, len(lines) // 2 + 1
    while tries < most:
        at, left_out = 0, False
        while at < len(lines) and tries < most:
            fewer = lines[:at] + lines[at + piece :]
            tries += 1
            if differs(fewer):
                lines, left_out = fewer, True
            else:
                at += piece
        if piece == 1 and not left_out:
            break
        piece = max(1, piece // 2)
    return lines


def ended(what, asked, begun, had, differing, counts, wanted):
    """Tells which of the cases that are wanted were seldom reached, and the last line, of runs of which so many differ. The status."""
    seldom = sorted(wanted, key=counts.get)
    missed = [case for case in seldom if counts[case] < asked.every]
    for case in missed:
        print(f"reached {counts[case]} times instead of {asked.every}: {case}")
    print(f"random {what}: seed {asked.seed}, {asked.runs} {what}, {had}, {time.monotonic() - begun:.0f} s; "
          f"of {len(seldom)} cases the least: {counts[seldom[0]]} times {seldom[0]!r}")
    return Tally(asked.runs - differing + (len(seldom) - len(missed) if asked.every else 0), differing + len(missed)).end()
