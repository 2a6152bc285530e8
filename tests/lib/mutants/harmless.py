"""Wrong bodies that no user would notice, each with why: a path, the line as it is, the line as it would be."""

HARMLESS = {
    ("run_program", 'watch) watches_no_file "$@" || return 1 ;;', 'watch) watches_no_file "$@" || return 2 ;;'): "any status but 0 says no",
    ("run_program", 'tester) asks_for_no_page "$@" || return 1 ;;', 'tester) asks_for_no_page "$@" || return 2 ;;'): "any status but 0 says no",
    ("run_program", "*) return 1 ;;", "*) return 2 ;;"): "any status but 0 says no",
    ("run_program", "trap 'ended=130' HUP INT QUIT TERM", "trap 'ended=130' INT QUIT TERM"): "whoever sources it has set the same; else nothing was read by then",
    ("run_program", "trap 'ended=130' HUP INT QUIT TERM", "trap 'ended=130' HUP INT TERM"): "whoever sources it has set the same; else nothing was read by then",
    ("install_program", """return f"\\\\&{text}" if text[:1] in (".", "'") else text""", """return f"\\\\&{text}" if text[:0] in (".", "'") else text"""):
        "no line of a page of help begins with these",
    ("pages/answer", "return [it for much, it in sorted(found, key=lambda row: row[0]) if much > 0.7]", "return [it for much, it in sorted(found, key=lambda row: row[0]) if much >= 0.7]"):
        "no two words of 40 letters at most are alike by just 0.7",
    ("install_program", 'told = subprocess.run([TOP / "release/about", "--version"], check=True, stdout=subprocess.PIPE, text=True).stdout',
     'told = subprocess.run([TOP / "release/about", "--version"], check=False, stdout=subprocess.PIPE, text=True).stdout'): "it fails where VERSION cannot be read, without which nothing is installed",
    ("python/hidzgula/station.py", "records = (ChangeRecord * min(AT_ONCE, max(count, 1)))()", "records = (ChangeRecord * min(AT_ONCE, max(count, 0)))()"):
        "of no frame nothing is written",
    ("python/hidzgula/station.py", "if status == NO_ROOM:", "if True or (status == NO_ROOM):"): "it is asked once more, and answers the same",
    ("python/hidzgula/can.py", "return False", "return None"): "it is asked whether alone",
    ("crates/watch_page/src/lanes.rt", "let most = BARS / view.picture.lanes().len().max(1);", "let most = BARS / view.picture.lanes().len().max(2);"):
        "of one lane fewer spans are kept than half of the bars",
    ("crates/shop_texts/src/sheet.rt", "None => true,", "None => false,"): "a row has a value in each column by then",
    ("install_program", 'if all(len(it) <= WIDEST or " # " in it for it in lines):', 'if False and (all(len(it) <= WIDEST or " # " in it for it in lines)):'):
        "a narrow list is read as well where each text stands below what it is of",
    ("python/hidzgula/fleet/tables.py", '"first": least(mine["first"], unit["first"]),', '"first": least(unit["first"], mine["first"]),'): "the least of two is one whichever comes first",
    ("python/hidzgula/fleet/tables.py", "if keeps_values:", "if True or (keeps_values):"): "values that are kept and not written cost memory alone",
    ("python/hidzgula/serve/live.py", 'row = self.rows[key] = {"bus": bus, "name": name or "", "address": event["address"], "gaps": event.get("gaps", 0), **dict.fromkeys(KINDS)}',
     'row = self.rows[key] = {"bus": bus, "name": name or "", "address": event["address"], "gaps": event.get("gaps", 1), **dict.fromkeys(KINDS)}'):
        "of a NAME no gap is shown, and of an address it is always told",
    ("python/hidzgula/serve/server.py", "if not 0 <= length <= most + (64 << 10):", "if not 0 <= length < most + (64 << 10):"): "so long a form has a log that is too long, of which the same is told",
    ("python/hidzgula/serve/live.py", "MOST_SOURCES = 16 * 256", "MOST_SOURCES = 15 * 256"): "a bus with so many names is a hostile one",
    ("python/hidzgula/serve/server.py", "return False", "return None"): "it is asked whether alone",
    ("release/build", 'text += [f"    {row}" for it in told for row in textwrap.wrap(it, 120)]', 'text += [f"    {row}" for it in told for row in textwrap.wrap(it, 119)]'):
        "a line is as easily read that ends a letter before",
    ("program_for", "while IFS=': ' read -r name does; do", "while IFS=': ' read name does; do"): "no row of programs.txt has a backslash",
}

# Lines of which no wrong one would be noticed.
LINES = {
    ("python/hidzgula/fleet/workers.py", '__all__ = ["distributed", "parts"]'): "it says for who reads it that both are wanted",
    ("run_program", ': "${ended:=}"'): "what is not set is empty, since no -u is set",
    ("j1939bench", "ended="): "it differs only where the environment has `ended`",
    ("program_for", 'others=""'): "it differs only where the environment has `others`",
    ("program_for", 'answering=""'): "it differs only where the environment has `answering`",
    ("install_program", "WIDEST, FAR_IN = 70, 20"): "a list of one column more or less is read as well at 80",
    ("install_program", "return subprocess.run([made_of(PROGRAMS[0]), *words], check=True, stdin=subprocess.DEVNULL, stdout=subprocess.PIPE, text=True).stdout"):
        "each program has all pages of help",
}


def why_harmless(body):
    return HARMLESS.get((body.path, body.old.strip(), body.new.strip())) or LINES.get((body.path, body.old.strip()))
