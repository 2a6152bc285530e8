"""Lines with one thing wrong in them."""

from model.script import COMMANDS


class Misspelt:
    """Lines that are none, or nearly so."""

    def misspelt(self):
        """A line with one thing wrong in it: a word that is missing, too many, another or misspelt, or odd spaces."""
        line = self.random.choice([
            "join {name} 3 plain", "join {name} 3 flicker 100 1", "set {seat} 100 1 2", "heal {seat} 100 1 2",
            "pend {seat} 300 1 2", "unpend {seat} 300 1 2", "lamps {seat} 04FF",
            "think {seat}", "turn {seat}", "leave {seat}", "hear {seat} 1", "dm1 {seat}", "carry 1", "read 1", "round 1",
            "ask {name} dm1", "ask {name} dm6", "ask all dm3", "command {name} 7", "shown {name} dm1", "shown {name} dm6", "row {name}", "counts {seat}", "stats",
            "frame 0", "inject 18FECA00 04 FF", "injected", "injected", "report", "report", "garage {name} 249 4 16 100",
            "garage2 {name} 249 4 16 {name} 250 4 16 100"]).format(seat=self.seat(), name=self.name())
        if self.chance(25):
            line = f"at {self.one_of(0, 0, 1, 1, 1, 2)} {line}"
        words = line.split(" ")
        at = self.random.randrange(len(words))
        way = self.random.randrange(9)
        if way == 0:
            del words[at]
        elif way == 1:
            words.insert(at + 1, self.one_of("1", "plain", "x", "0", "dm1", "#"))
        elif way == 2:
            words[at] = self.one_of("-1", "+1", "256", "255", "4294967296", "99999999999999999999", "1.0", "0x1", "", "\u0661",
                                    "1\t", "1_0")
        elif way == 3:
            word = words[at]
            words[at] = self.one_of("XY", word + "0", word[:-1], word.lower(), word.upper(), "\u00e9" + word, "\t" + word)
        elif way == 4:
            words[at] = words[at] + self.one_of("\t", "\r", ",", "\u00a0", "s")
        elif way == 5:
            words[at] = "000000000000000000" + words[at]
        elif way == 6:
            words[at] += " " * self.random.randrange(4)
        elif way == 7:
            words = self.one_of([""], [" "], ["#"], [" #"], ["# fly"], ["fly"], ["  "], ["\t"], ["\r"], [" stats "],
                                ["stats\r"])
        else:
            words[at] = self.one_of("all", "ALL", "none", "dm1", "DM1", "dm3", "dm6", "DM6", "dm5", "plain", "Plain", "flicker", "guarded")
        if words and words[0] in COMMANDS | {"fly": 0, "at": 0} or way in (0, 4, 7) or self.chance(50):
            self.say(*words)
