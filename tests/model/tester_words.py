"""What a tester tells of its orders, as lines for people and as objects of JSON (docs/TESTER.md)."""

from .frames import CLAIM, COMMANDED_ADDRESS, DM3, DM11, KINDS
from .orders import Order
from .tester import End, Held, Tester, Wait
from .words import ANSWERS, dumped, lamp_words, shown_object

WORDS = {pgn: word for word, pgn in KINDS.items()} | {CLAIM: "claim", DM3: "dm3", DM11: "dm11"}
WELL = ("answered", "positive", "obeyed", "done")


def order_words(order):
    """As it stands on a command line."""
    if isinstance(order, Wait):
        return f"wait {order.micros // 1000}"
    if isinstance(order, End):
        return "end"
    who = "all" if "all" in order.what else str(order.name.address) if isinstance(order.name, Held) else f"{order.name:016X}"
    if order.what == "command":
        return f"command {who} {order.address}"
    return f"{order.what.partition('_')[0]} {who} {WORDS[order.group or CLAIM]}"


def verdict_word(verdict):
    """What came of an order in a word; `cleared` where the unit said so and a list that began behind that has no code."""
    if verdict.result == "cleared all":
        well = [told_word(told) for _, told in verdict.units]
        count = {word: well.count(word) for word in ("cleared", "positive")}
        if not well:
            return "no such unit"
        return "cleared" if count["cleared"] == len(well) else "positive" if sum(count.values()) == len(well) else "partly"
    left = verdict.left
    return "cleared" if verdict.result == "positive" and left and left.result == "answered" and not left.shown[1] else verdict.result


def told_word(told):
    return "cut off" if told is None else told if isinstance(told, str) else verdict_word(told)


def shown_words(shown):
    lamps, codes = shown
    return f"{lamp_words(lamps)} ({lamps.hex().upper()}); {' '.join(code.text() for code in codes) or '-'}"


def tries_words(verdict):
    return f", {verdict.tries} {'try' if verdict.tries == 1 else 'tries'}"


def tail_words(verdict):
    """When, where and how often; or why."""
    if verdict.result in ("answered", "unread", "positive"):
        when = "" if verdict.after is None else f" after {verdict.after // 1_000_000}.{verdict.after // 1000 % 1000:03d} s"
        return when + ("" if verdict.address is None else f", at {verdict.address}") + tries_words(verdict)
    if verdict.result == "refused":
        return f": {ANSWERS[verdict.control]} ({verdict.control})" if verdict.control in ANSWERS else f": control {verdict.control}"
    if verdict.result in ("silent", "busy"):
        return tries_words(verdict)
    return f": {why_words(verdict)}" if why_words(verdict) else ""


def why_words(verdict):
    """Why it is in doubt, or how much was done of what was cut off."""
    if verdict.result == "withheld":
        return "it wants --yes"
    return ("sent, no answer" if verdict.was_sent else "not sent") if verdict.result == "cut off" else verdict.why


def left_words(left):
    if left is None:
        return ""
    if left.result != "answered":
        return f"; left: {left.result}"
    return "; left: " + (shown_words(left.shown) if left.shown[1] else "no codes")


def verdict_words(verdict):
    """Behind `order 1 ..: `."""
    if verdict.result == "cleared all":
        words = [told_word(told) for _, told in verdict.units]
        return f"cleared {words.count('cleared')}, positive {words.count('positive')} of {len(words)} unit{'' if len(words) == 1 else 's'}"
    answered = [name for name, what in verdict.units if what == "answered"]
    if answered and verdict.result in ("answered", "silent"):
        missing = " ".join(f"{name:016X}" for name, what in verdict.units if what == "silent")
        return f"answered: {len(answered)} unit{'' if len(answered) == 1 else 's'}" + (f", without an answer: {missing}" if missing else "")
    shown = f": {shown_words(verdict.shown)}" if verdict.shown else "" if verdict.holds is None or verdict.result != "answered" else f": holds {verdict.holds}"
    return verdict_word(verdict) + tail_words(verdict) + shown + left_words(verdict.left)


def part_words(told):
    """What one unit said to an order to all."""
    if told is None:
        return "unread"
    return f"holds {told}" if isinstance(told, int) else shown_words(told) if isinstance(told, tuple) else verdict_words(told)


# Objects.


def found_object(order, verdict, name):
    """What the station found."""
    found = {"name": None if name is None else f"{name:016X}", "address": verdict.address,
             "group": COMMANDED_ADDRESS if order.what == "command" else order.group or CLAIM}
    if verdict.result == "refused":
        found["control"] = verdict.control
    found |= {"tries": verdict.tries, "after": verdict.after}
    if verdict.result in ("in doubt", "cut off"):
        found["why"] = why_words(verdict)
    if verdict.shown and verdict.result == "answered":
        found["entry"] = shown_object(verdict.shown)
    if verdict.result == "answered" and order.what == "ask_claim":
        found["holds"] = verdict.holds
    if verdict.left:
        found |= {"left": shown_object(verdict.left.shown)} if verdict.left.result == "answered" else {"left": None, "left_why": verdict.left.result}
    return found


def verdict_object(order, verdict):
    told = {"verdict": verdict_word(verdict)}
    is_for_all = not isinstance(order, (Wait, End)) and "all" in order.what
    answered = [name for name, what in verdict.units if what == "answered"]
    if verdict.by_itself:
        told |= {"why": why_words(verdict)} if why_words(verdict) else {}
    elif verdict.result == "cleared all":
        pass
    elif is_for_all and answered and verdict.result in ("answered", "silent"):
        told["verdict"] = "answered"
    else:
        told |= found_object(order, verdict, verdict.name)
    if is_for_all:
        told["units"] = [{"name": f"{name:016X}", "verdict": told_word(what)} for name, what in verdict.units]
    return told


def part_object(order, name, what):
    head = {"verdict": "unread" if what is None else "answered", "name": f"{name:016X}"}
    if what is None:
        return head
    if isinstance(what, int):
        return {**head, "holds": what}
    if isinstance(what, tuple):
        return {**head, "entry": shown_object(what)}
    return {"verdict": verdict_word(what), **found_object(order, what, name)}


def line_of(run, form, what, mark, *more):
    """What is told of one thing that happened; None where nothing is."""
    text = {"order": None, "sent": None}
    number = more[0]
    order = run.orders[number - 1] if what in ("order", "verdict", "part") else None
    if what == "own":
        address, why = more
        said, told = "own none" if address is None else f"own {address}" + (" contested: a stranger sends from it" if why == "contested" else ""), {"address": address, "why": why}
    elif what == "sent":
        frame, number = more
        said, told = None, {"frame": f"{frame.number:08X}#{frame.data.hex().upper()}", "order": number}
    elif what == "order":
        said, told = None, {"order": number, "text": order_words(order)}
    elif what == "part":
        _, name, part = more
        said = f"order {number} {order_words(order)}, {name:016X}: {part_words(part)}"
        told = {"order": number, "text": order_words(order), **part_object(order, name, part)}
    else:
        said = f"order {number} {order_words(order)}: {verdict_words(more[1])}"
        told = {"order": number, "text": order_words(order), **verdict_object(order, more[1])}
    if form == "text":
        return said or text.get(what)
    line, time = mark
    return dumped({"line": line, "time": None if time is None else f"{time // 1_000_000}.{time % 1_000_000:06d}", "event": what, **told})


def is_well(verdict):
    if verdict.result == "cleared all":
        return verdict_word(verdict) in ("cleared", "positive")
    return verdict.result in WELL or verdict.result == "silent" and "answered" in [what for _, what in verdict.units]


def told(run, form):
    """Standard error and the status."""
    lines = [line_of(run, form, *it) for it in run.told]
    verdicts = [it[3] for it in run.told if it[0] == "verdict"]
    return "".join(f"{it}\n" for it in lines if it is not None), 0 if all(map(is_well, verdicts)) else 4


def line(time, frame):
    """As candump writes it."""
    return f"({time // 1_000_000}.{time % 1_000_000:06d}) can0 {frame.number:08X}#{frame.data.hex().upper()}\n"


def of_words(words):
    """The tester of a command line."""
    given, orders, words = {"address": "249", "grant": "255", "gap": "50", "settle": "250", "yes": False}, [], list(words)
    groups = {word: pgn for pgn, word in WORDS.items()}
    while words:
        word = words.pop(0)
        if word.startswith("--"):
            given[word[2:]] = True if word == "--yes" else words.pop(0)
        elif word in ("wait", "end"):
            orders.append(Wait(1000 * int(words.pop(0))) if word == "wait" else End())
        else:
            who, last = words.pop(0), words.pop(0)
            name = None if who == "all" else int(who, 16) if len(who) == 16 else Held(int(who, 0))
            what = word + ("_all" if who == "all" else "") + (("_claims" if who == "all" else "_claim") if last == "claim" else "")
            orders.append(Order(what, name, None if word == "command" or last == "claim" else groups[last], int(last, 0) if word == "command" else None))
    micros = [1000 * int(given[it]) for it in ("gap", "settle")]
    return Tester(int(given["name"], 16), int(given["address"], 0), int(given["grant"]), *micros, orders, given["yes"])
