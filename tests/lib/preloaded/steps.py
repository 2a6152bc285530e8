"""The commands of a script one step at a time, each with queries before and after it.

A repeating command (`round 9`) that is refused keeps what its earlier steps did. So that "nothing changed" can be said of a
refused command, it is taken apart into commands that do one thing: `hear 1`, `read 1`, `carry 1`. With two stations a round has
the readings of each: `read 1`, then `at 1 read 1`.
"""

import collections
import re

REFUSED = "refused 0 OutOfMemory"
# A line of a report but its last.
ROW = re.compile("[0-9A-F]{16} ")


def commands_of(script):
    """The lines of a script that have an answer."""
    return [line for line in script.splitlines() if line and not line.startswith("#")]


def answers_of(lines, output):
    """The answer of each line: one line, but for a report, which goes on to its line of frames missed."""
    said, answers = collections.deque(output.splitlines()), []
    for line in lines:
        if not said:
            break
        answer = [said.popleft()]
        while line.split()[-1] == "report" and ROW.match(answer[-1]) and said:
            answer.append(said.popleft())
        answers.append("\n".join(answer))
    return answers + list(said)


def without_station(command):
    """The words of a command, and the number of the station that it is for."""
    words = command.split()
    return (words[2:], int(words[1])) if words[0] == "at" and len(words) > 2 and words[1].isdigit() else (words, 0)


def at(station, command):
    """A command for a station."""
    return f"at {station} {command}" if station else command


class Apart:
    """Takes commands apart. It counts what is on the wire, and what each seat has heard of it, so that each unit hears and each
    station reads as often as there can be something, and at most once too often."""

    def __init__(self):
        self.steps = []
        self.heard = {}
        self.carried = 0
        self.read = [0]

    def add(self, command, answer):
        """The steps of a command which had this answer with ample memory."""
        words, station = without_station(command)
        if words[0] == "garage2" and answer == "ok":
            self.read = [0, 0]
        if station >= len(self.read):
            self.steps.append(command)
            return
        count = int(words[1]) if words[0] in ("carry", "read", "round") and len(words) > 1 else 1
        if words[0] == "join" and answer.startswith("seat "):
            self.heard[answer.split()[1]] = 0
        if words[0] == "leave":
            self.heard.pop(words[1], None)
        if words[0] == "inject" and answer == "ok":
            self.carried += 1
        if words[0] in ("set", "heal", "pend", "unpend") and len(words) == 5:
            self.steps += [f"{words[0]} {words[1]} {int(words[2]) + number} {words[3]}" for number in range(int(words[4]))]
        elif words[0] == "hear":
            self.hear(words[1], int(words[2]) if len(words) == 3 else 1)
        elif words[0] == "read":
            self.read_all(station, count)
        elif words[0] in ("carry", "round"):
            said = answer.split()
            for number in range(int(said[1]) + (len(said) > 2)):
                if words[0] == "round":
                    self.listen()
                self.steps.append("carry 1")
                self.carried += number < int(said[1])
            if words[0] == "round":
                self.listen()
        else:
            self.steps.append(command)

    def hear(self, seat, most):
        times = min(most, self.carried - self.heard.get(seat, 0))
        self.steps += [f"hear {seat} 1"] * times
        if seat in self.heard:
            self.heard[seat] += times

    def read_all(self, station, most):
        times = min(most, self.carried - self.read[station])
        self.steps += [at(station, "read 1")] * times
        self.read[station] += times

    def listen(self):
        for seat in self.heard:
            self.hear(seat, self.carried)
        for station in range(len(self.read)):
            self.read_all(station, self.carried)


def in_steps(commands, answers):
    """The commands, one step each."""
    apart = Apart()
    for command, answer in zip(commands, answers):
        apart.add(command, answer)
    return apart.steps


def queries_for(commands, answers, more):
    """What is asked after each command: all seats and NAMEs of the script, each of them at each station, and frames all along the
    wire. What else is asked (`more`) is asked at each station, too."""
    places = {"garage": [1], "garage2": [1, 5], "join": [1]}
    words = [command.split() for command in commands]
    names = sorted({it[place] for it in words for place in places.get(it[0], []) if place < len(it)})
    stations = 2 if any(command.startswith("garage2 ") and answer == "ok" for command, answer in zip(commands, answers)) else 1
    seats = stations + sum(answer.startswith("seat ") for answer in answers)
    injected = [command for command, answer in zip(commands, answers) if command.startswith("inject ") and answer == "ok"]
    carried = on_wire(commands, answers)
    queries = [f"counts {seat}" for seat in range(seats + 1)] + ["injected"] * bool(injected)
    for station in range(stations):
        asked = ["stats"]
        for name in names:
            asked += [f"shown {name} {kind}" for kind in ("dm1", "dm2", "dm6")] + [f"row {name}"]
        queries += [at(station, query) for query in asked + more]
    return queries + [f"frame {index}" for index in sorted({0, 1, carried // 2, carried - 1, carried})]


def on_wire(commands, answers):
    """How many frames there are on the wire at the end."""
    injected = sum(command.startswith("inject ") and answer == "ok" for command, answer in zip(commands, answers))
    return injected + sum(int(answer.split()[1]) for answer in answers if answer.startswith("carried "))


def wire_of(commands, answers):
    """What asks for each frame of the wire, and for one behind the last."""
    return [f"frame {index}" for index in range(on_wire(commands, answers) + 1)]
