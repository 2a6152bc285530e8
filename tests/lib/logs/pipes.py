"""Live pipes, signals, inputs and outputs that fail."""

import os
import re
import select
import shlex
import signal
import subprocess
import tempfile

from harness import TOP, called, program
from logs.common import CLAIM, CLAIMED, LOGS, MESSAGE, SHOWN, log_of, run, same
from script_reasons import NOT_ACCEPTED


def live_pipe_is_answered_at_once():
    found = []
    for words, first, second in (
        (["watch"], CLAIMED.encode(), SHOWN.encode()),
        (["decode"], b"(1.000000) can0 p6 0>all 60928 claim: NAME 00000000000000A0", b"(1.100000) can0 p6 0>all 65226 DM1: amber (04FF); 1208/3/1 (1208/3: voltage above normal or shorted high)\n"),
    ):
        child = subprocess.Popen(called(*words), stdin=subprocess.PIPE, stdout=subprocess.PIPE)
        for line, wanted in ((CLAIM, first), (MESSAGE, second)):
            child.stdin.write(line)
            child.stdin.flush()
            ready, _, _ = select.select([child.stdout], [], [], 10)
            got = os.read(child.stdout.fileno(), 65536) if ready else b"nothing"
            found += [] if got.startswith(wanted) else [f"{words[0]}: {got!r}"]
        rest = child.communicate()[0]
        found += same(child.returncode, 0, "status") + ([] if words != ["watch"] or b"missed 0 unread 0\n" in rest else [f"report {rest!r}"])
    return found


def interrupted_pipe():
    """Ctrl-C goes to all of a pipe. Where the program is called with it ignored, as ./j1939bench does, the report follows the end
    of what wrote the pipe; else the program ends by it, and what it wrote before stands."""
    found = []
    for ignored in (True, False):
        words = ("trap '' INT; " if ignored else "") + f"exec {shlex.join(called('watch'))}"
        feed = f"(echo '{CLAIM.decode().strip()}'; exec sleep 60) | sh -c {shlex.quote(words)}"
        # (whoever runs this in the background may have it ignored, which would pass on to the pipe)
        heeds = lambda: signal.signal(signal.SIGINT, signal.SIG_DFL)
        child = subprocess.Popen(["sh", "-c", feed], stdout=subprocess.PIPE, start_new_session=True, preexec_fn=heeds)
        ready, _, _ = select.select([child.stdout], [], [], 10)
        first = os.read(child.stdout.fileno(), 65536).decode() if ready else "nothing"
        os.killpg(child.pid, signal.SIGINT)
        rest = child.communicate(timeout=10)[0].decode()
        found += same(first, CLAIMED, "what was written before")
        found += same("missed 0 unread 0\n" in rest, ignored, f"whether a report follows where it is {'' if ignored else 'not '}ignored")
    return found


def input_beside_a_file():
    """Where a file is named, nothing is read of standard input, whatever option of the page of help stands before it: so a loop over files goes on."""
    values = {"unit": "0", "from": "0", "to": "9", "assume": "0=00000000000000A0", "name": "00000000000000A0"}
    options = re.findall(r"(?m)^      --(\w+)(?: <(.*?)>)?  ", run(["watch", "--help"])[1])
    given = [["watch", f"--{name}", *([values.get(name, value.split("|")[0])] if value else [])] for name, value in options]
    found, path = [] if len(given) > 15 else [f"few options: {options}"], str(TOP / "examples/logs" / f"{LOGS[0]}.log")
    for words in (["watch"], ["decode"], ["watch", "--bus=can0"], ["watch", "--"], *given):
        reader, writer = os.pipe()
        os.write(writer, CLAIM)
        os.close(writer)
        subprocess.run([TOP / "run_program", program(words[0]), *words, path], stdin=reader, capture_output=True, timeout=60)
        found += same(os.read(reader, 4096), CLAIM, f"{words}: what is left of standard input")
        os.close(reader)
    return found


def interrupted_input():
    """Where reading fails, what was found until then is reported."""
    folder = os.open(tempfile.gettempdir(), os.O_RDONLY)
    try:
        status, out, err = run(["watch", "--assume", "0=00000000000000A0"], stdin=folder)
    finally:
        os.close(folder)
    return same((status, err), (1, "fault: read\n"), "status") + ([] if "missed 0 unread 0\n" in out else [out])


def closed_output():
    found = []
    for words, text in ((["watch"], log_of(LOGS[0])), (["decode"], log_of(LOGS[0])), (["log"], NOT_ACCEPTED.encode() + b"round 9\n"), (["check"], NOT_ACCEPTED.encode())):
        reader, writer = os.pipe()
        os.close(reader)
        try:
            status, _, err = run(words, text, stdout=writer)
        finally:
            os.close(writer)
        found += same((status, err.splitlines()[-1:]), (1, ["fault: write"]), words[0])
        with open("/dev/full", "wb") as full:
            status, _, err = run(words, text, stdout=full)
        found += same((status, err.splitlines()[-1:]), (1, ["fault: write"]), f"{words[0]} to a full device")
    return found


def empty_input():
    found = []
    nothing = "no line was read\n"
    for words, wanted in ((["watch"], (3, 2, nothing)), (["decode"], (3, 0, nothing)), (["log"], (0, 0, "")), (["check"], (0, 0, ""))):
        status, out, err = run(words)
        found += same((status, len(out.splitlines()), err), wanted, words[0])
    return found
