"""The logs of tests/data/logs/whole: of each all that `watch` and `decode` write of it is stored, made by hand from the rules.

NAME.log is the log, NAME.words are the words behind `watch`; NAME.unclaimed.txt, .unclaimed.json, .unclaimed.csv, with `--unclaimed hide`
NAME.listening.txt and so on, .decode.txt and .decode.json are what is written, NAME.errors is what both tell of bad lines, and NAME.decode.errors what `decode` tells, or NAME.listening.errors and so on,
where that differs. `every-event` has each event, each count and each form of a line, with numbers that differ, so that no two
of them can be taken for each other. `times` has times that jump back, repeat, and pass 2^63 nanoseconds; of `more-than-is-kept` more is heard than is kept at once.
"""


from harness import TOP

from model import decode, log_line, watch

FOLDER = TOP / "tests/data/logs/whole"
FORMS = {"watch": {"text": "txt", "json": "json", "csv": "csv"}, "decode": {"text": "txt", "json": "json"}}


def names():
    return sorted(log.stem for log in FOLDER.glob("*.log"))


def stored(name, what):
    return (FOLDER / f"{name}.{what}").read_bytes()


def words_of(name):
    return stored(name, "words").decode().split()


# The words behind those of the log, and what the files are named after.
WAYS = [(["--unclaimed", "hide"], "listening"), ([], "unclaimed")]


def wanted(name, more, file):
    """The command, its words, and the status, output and standard error that it is to give."""
    for command, forms in FORMS.items():
        own = [f"{way}.errors" for way in (file if command == "watch" else command, command) if (FOLDER / f"{name}.{way}.errors").exists()]
        errors = stored(name, own[0] if own else "errors")
        for form, ending in forms.items():
            words = [command, *(words_of(name) + more if command == "watch" else []), "--format", form]
            yield words, (3 if errors else 0, stored(name, f"{file if command == 'watch' else command}.{ending}").decode(), errors.decode())


def by_model(name, more):
    """The same by the model."""
    lines = log_line.read_lines(stored(name, "log"))
    for command, (texts, errors, status) in (("watch", watch.watched(lines, watch.Options.of(words_of(name) + more))), ("decode", decode.decoded(lines))):
        for form in FORMS[command]:
            yield status, texts[form], errors


def tries(run, same):
    """A name, and what says how a log differs, for each log; of those of examples/logs the changes, which the model has to tell too."""
    changes = sorted((TOP / "tests/data/logs").glob("*.changes"))
    return [(f"whole {name}", lambda name=name: differences(name, run, same)) for name in names()] + [
        (f"changes of {it.stem} by the model", lambda it=it: changes_differ(it, same)) for it in changes]


def changes_differ(file, same):
    """The changes and the report, those of one moment in any order, as tests/run/logs has the program tell them."""
    log, _, hidden = file.stem.partition(".")
    words = ["--silence", "0", "--address", "248", *(["--unclaimed", "hide"] if hidden else [])]
    texts, errors, status = watch.watched(log_line.read_lines((TOP / "examples/logs" / f"{log}.log").read_bytes()), watch.Options.of(words))
    lines = [line.replace(" contested", "") for line in texts["text"].splitlines()]
    return same(sorted(lines), sorted(file.read_text().splitlines()), "lines") + same((errors, status), ("", 0), "standard error and status")


def differences(name, run, same):
    """What of a log's stored bytes the program or the model does not write. `run` and `same` are those of tests/lib/logs/common.py."""
    found, log = [], stored(name, "log")
    for more, file in WAYS:
        for (words, wanted_of_it), models in zip(wanted(name, more, file), by_model(name, more), strict=True):
            found += differing("the model's " + " ".join(words), models, wanted_of_it, same) + differing(" ".join(words), run(words, log), wanted_of_it, same)
    return found


def differing(what, given, wanted_of_it, same):
    status, out, err = given
    lines, wanted_lines = out.split("\n"), wanted_of_it[1].split("\n")
    return same(status, wanted_of_it[0], what) + same(err, wanted_of_it[2], what) + [
        text for at, pair in enumerate(zip(lines, wanted_lines), 1) for text in same(*pair, f"{what}, line {at}")
    ] + same(len(lines), len(wanted_lines), f"lines of {what}")
