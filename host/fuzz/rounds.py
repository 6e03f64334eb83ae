"""The rounds of a hostile run. A case is drawn from the seed and its number alone, so any one can be run again by itself."""
import argparse
import collections
import pathlib
import random
import sys
import time

INTERVAL = 10
# so many cases have to be enough to notice a planted error
ENOUGH = 4000


class Different(Exception):
    """The program and the model do not agree."""


class NoAnswer(Exception):
    """The program crashed or hung. No planted error is noticed by that."""


def options():
    parser = argparse.ArgumentParser()
    parser.add_argument("--seed", type=int, default=1)
    parser.add_argument("--seconds", type=float, default=6)
    parser.add_argument("--case", type=int, help="run this case alone and show it")
    parser.add_argument("--planted", action="store_true", help="plant errors in the model: each must be noticed")
    return parser.parse_args()


class Rounds:
    """Cases and their checks. A comparison draws a case, shows it, and checks it: answers what it was, or raises one of these."""

    def __init__(self, script):
        self.script, self.chosen = pathlib.Path(script), options()
        self.seen, self.began, self.cases = collections.Counter(), time.time(), 0

    def say(self, text):
        print(f"{self.script.stem.replace('_', ' ')}: {text}", flush=True)

    def rate(self):
        took = time.time() - self.began
        self.say(f"seed {self.chosen.seed}: {self.cases} cases in {took:.0f} s, {self.cases / took:.0f} a second")

    def drawn(self, number):
        return random.Random(f"{self.chosen.seed} {number}")

    def one(self, comparison, number):
        """Runs a case and tallies what it was."""
        try:
            self.seen.update(comparison.check(comparison.case(self.drawn(number))))
        except (Different, NoAnswer) as found:
            self.say(f"FAILED at case {number} of seed {self.chosen.seed}: {found}")
            self.say(f"again, alone: python3 host/fuzz/{self.script.name} --seed {self.chosen.seed} --case {number}")
            sys.exit(1)

    def run(self, comparison):
        """Runs cases until the time is over, and says what they were."""
        told = 0
        while (took := time.time() - self.began) < self.chosen.seconds:
            self.one(comparison, self.cases)
            self.cases += 1
            if took >= INTERVAL * (told + 1):
                told += 1
                self.rate()
        for what, times in sorted(self.seen.items()):
            self.say(f"{what}: {times} times")
        self.rate()
        self.say("every case is as the model has it")

    def again(self, comparison):
        """Shows one case and runs it."""
        print(comparison.show(comparison.case(self.drawn(self.chosen.case))))
        self.one(comparison, self.chosen.case)
        self.say("this case is as the model has it")

    def notices(self, comparison, error):
        """Runs cases against a model with an error planted in it until one shows it."""
        for number in range(ENOUGH):
            try:
                comparison.check(comparison.case(self.drawn(number)))
            except Different:
                return self.say(f"planted: {error}: noticed at case {number}")
        self.say(f"FAILED: planted: {error}: {ENOUGH} cases of seed {self.chosen.seed} do not notice it")
        sys.exit(1)


def main(script, comparison, errors):
    """What a hostile script does: comparison() is with the sound model, each of errors, by its words, with one that has an error."""
    rounds = Rounds(script)
    if rounds.chosen.planted:
        for words, planted in errors.items():
            rounds.notices(planted(), words)
    elif rounds.chosen.case is not None:
        rounds.again(comparison())
    else:
        rounds.run(comparison())
