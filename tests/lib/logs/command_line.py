"""Words that are taken, words that are refused, files that are named, help."""

import tempfile

from harness import TOP
from logs.common import CLAIM, LOGS, log_of, run, same

# Words that are refused, and what is told behind the line of the fault: that is but for the subcommands that programs drive.
REFUSED = [
    ("watch --colour", "error: unexpected argument '--colour' found"),
    ("watch --adress 249", "tip: a similar argument exists: '--address'"),
    ("watch a.log b.log", "error: unexpected argument 'b.log' found"),
    ("watch --bus", "error: a value is required for '--bus <BUS>' but none was supplied"),
    ("watch --bus a#b", "error: invalid value 'a#b' for '--bus <BUS>': not the name of a bus"),
    ("watch --address 254", "error: invalid value '254' for '--address <N>': not a number from 0 to 253"),
    ("watch --address x", "error: invalid value 'x' for '--address <N>': not a number from 0 to 253"),
    ("watch --name 1", "error: invalid value '1' for '--name <NAME>': not 16 hexadecimal digits"),
    ("watch --assume 0", "error: invalid value '0' for '--assume <ADDRESS=NAME>': not a number from 0 to 253, =, and 16 hexadecimal digits"),
    ("watch --assume 254=00000000000000A0", "error: invalid value '254=00000000000000A0' for '--assume <ADDRESS=NAME>'"),
    ("watch --assume 0=A0", "error: invalid value '0=A0' for '--assume <ADDRESS=NAME>'"),
    ("watch --bad no", "error: invalid value 'no' for '--bad <missed|skip>': not missed or skip"),
    ("watch --silence 3600001", "error: invalid value '3600001' for '--silence <MS>': not a number from 0 to 3600000"),
    ("watch --silence -1", "error: "),
    ("watch --format xml", "error: invalid value 'xml' for '--format <text|json|csv|html>': not text, json, csv or html"),
    ("watch --strict --strict", "error: the argument '--strict' cannot be used multiple times"),
    ("watch --format xml /nowhere", "error: invalid value 'xml'"),
    ("watch --unit 254", "error: invalid value '254' for '--unit <NAME|N>': not 16 hexadecimal digits, or a number from 0 to 253"),
    ("watch --unit A0", "error: invalid value 'A0' for '--unit <NAME|N>'"),
    ("watch --from 1.5", "error: invalid value '1.5' for '--from <TIME>': not a time as the log has it (SECONDS or SECONDS.MICROSECONDS) or a date (YYYY-MM-DD, YYYY-MM-DD HH:MM:SS or YYYY-MM-DDTHH:MM:SS, a fraction behind it or none)"),
    ("watch --to 12345678901", "error: invalid value '12345678901' for '--to <TIME>'"),
    ("watch --to x --format xml", "error: invalid value 'xml' for '--format <text|json|csv|html>'"),
    ("watch --bad x --address y --bus a#b", "error: invalid value 'a#b' for '--bus <BUS>'"),
    ("watch --assume x --to y --from z", "error: invalid value 'z' for '--from <TIME>'"),
    ("watch --most 511", "error: invalid value '511' for '--most <NAMES>': not a number from 512 to 1000000 (254 addresses may be held where a report makes room, and half is to be free then)"),
    ("watch --most 1000001", "error: invalid value '1000001' for '--most <NAMES>'"),
    ("watch --clock cet", "error: invalid value 'cet' for '--clock <CLOCK>': not utc, local, log, relative, or how far it is ahead of UTC (+02:00, UTC-05:00)"),
    ("watch --clock cet --from x", "error: invalid value 'cet' for '--clock <CLOCK>'"),
    ("watch --to yesterday", "error: invalid value 'yesterday' for '--to <TIME>'"),
    ("watch --unclaimed no", "error: invalid value 'no' for '--unclaimed <show|hide>': not show or hide"),
    ("log --period 0", "error: invalid value '0' for '--period <US>': not a number from 1 to 1000000"),
    ("log --period 1000001", "error: invalid value '1000001' for '--period <US>': not a number from 1 to 1000000"),
    ("log --bus ca#n", "error: invalid value 'ca#n' for '--bus <BUS>': not the name of a bus"),
    ("log more", "error: unexpected argument 'more' found"),
    ("decode --format csv", "error: invalid value 'csv' for '--format <text|json>': not text or json"),
    ("decode --text a.csv", "tip: a similar argument exists: '--texts'"),
    ("decode --texts", "error: a value is required for '--texts <FILE>' but none was supplied"),
    ("decode a.log b.log", "Usage: j1939bench decode [OPTIONS] [FILE]"),
    ("check --strict", "Usage: j1939bench check"),
    ("watc", "tip: a similar subcommand exists: 'watch'"),
    ("nothing", "error: unrecognized subcommand 'nothing'"),
    ("", "[subcommands: script, threads, log, check, watch, decode, live, tester, help]"),
    ("script --fast", None),
    ("threads --turn 3", None),
]
# Words that are at the end of what is taken, and so taken.
TAKEN = ["watch --address 0", "watch --address 253", "watch --silence 3600000", "watch --silence 0", "watch --name ffffffffffffffff", "watch --assume 253=0000000000000000",
         "watch --bus can0123456789ab", "log --period 1", "log --period 1000000", "log --bus x", "watch --bad missed --unclaimed show --format text -",
         "watch --most 512", "watch --most 1000000", "watch --clock utc", "watch --clock +23:59", "watch --clock=-00:00", "watch --from 9999999999 --to 9999999999", "watch --unit 253", "watch --unit 0 --from 0", "watch --assume 0=00000000000000A0 --assume 1=00000000000000A1 --assume 2=00000000000000A2"]


def words_that_are_taken():
    """Whatever they ask for, a line is read, and nothing is wrong with the words."""
    ran = [(words, *run(words.split(), CLAIM if words.startswith("watch") else b"")[::2]) for words in TAKEN]
    return [text for words, status, err in ran for text in same((status in (0, 3), "fault" in err), (True, False), words)]


def words_that_are_refused():
    found = []
    for words, told in REFUSED:
        status, out, err = run(words.split(), CLAIM)
        found += same((status, out, err.splitlines()[:1]), (2, "", ["fault: command line"]), words)
        found += same(err.count("\n"), 1, words) if told is None else [] if told in err else [f"{words}: {err!r}"]
        found += [] if told is None or err.endswith("For more information, try '--help'.\n") else [f"{words}: {err!r}"]
    return found


def files_are_read():
    """A file that is named gives what standard input does; - names standard input; one that cannot be opened is a failed read."""
    found = []
    for words in (["watch"], ["watch", "--format", "json"], ["decode"], ["decode", "--join"], ["decode", "--format", "json"]):
        path = str(TOP / "examples/logs" / f"{LOGS[0]}.log")
        wanted = run(words, log_of(LOGS[0]))
        found += same(run([*words, path], b""), wanted, f"{words} of a file") + same(run([*words, "-"], log_of(LOGS[0])), wanted, f"{words} of -")
        for path in ("/nowhere/day.log", tempfile.gettempdir() + "/no such day.log"):
            status, out, err = run([*words, path], CLAIM)
            told = f"fault: read\n{path}: "
            found += same((status, out, err[: len(told)], err.count("\n")), (1, "", told, 2), f"{words} of no file")
        status, out, err = run([*words, tempfile.gettempdir()], CLAIM)
        found += same((status, err), (1, "fault: read\n"), f"{words} of a folder")
    return found


def help_of_each():
    found = []
    for word, part in (("watch", "--assume <ADDRESS=NAME>"), ("log", "--period <US>"), ("decode", "--texts <FILE>"), ("decode", "--join"), ("watch", "[FILE]"), ("check", "is no decimal number")):
        status, out, err = run([word, "--help"])
        found += same((status, err), (0, ""), word) + ([] if part in out else [out])
    return found
