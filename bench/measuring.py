"""Asks engines in turn, compares their answers, and keeps the least of what each took."""

import math
import os
import random
import sys

from classes import BEST, CLASSES
from engine import NOT_ASKED, OWN, PLAIN

CACHE = os.environ.get("XDG_CACHE_HOME") or os.path.expanduser("~/.cache")
# a class is asked so many times at most in a round
MOST_TURNS = 1 << 14


def program_options(asked):
    """What all measurements may be told."""
    asked.add_argument("--proved")
    asked.add_argument("--program")
    asked.add_argument("--rounds", type=int, default=5)
    asked.add_argument("--least", type=float, default=0.1)
    asked.add_argument("--seed", type=int, default=1)
    asked.add_argument("--processor", type=int, default=max(os.sched_getaffinity(0)))
    asked.add_argument("--room", default=f"{CACHE}/birchagain/bench")
    asked.add_argument("--json")


def built_as(asked):
    if asked.proved:
        return "the program as it is proved"
    return "a program that was built elsewhere" if asked.program else "an unproved build without checks"


def is_same(verb, answers, own, matched):
    """Whether the answers of an engine are those of the repository's program: to the letter, or, of one that scores
    otherwise, as many of the documents that match."""
    if verb != BEST:
        return answers == own
    for answer, mine, all_of_it in zip(answers, own, matched):
        found = [it.split(":")[0] for it in answer.split()]
        if len(found) != len(mine.split()) or not {*found} <= {*all_of_it.split()}:
            return False
    return True


class Bench:
    """The engines, and what each took for each class."""

    def __init__(self, asked, engines):
        self.asked, self.engines, self.rows, self.differing = asked, engines, [], []
        self.took, self.held = {}, {}

    def take(self, path):
        """Hands all the documents to each engine in turn."""
        for it in self.engines:
            self.took[it.name] = it.take(path)
            self.held[it.name] = it.memory()

    def compare(self, name, verb, lines, matched):
        """The engines that are asked this at all and answer the same."""
        script, same, own = "".join(lines).encode(), [], None
        for it in self.engines:
            answers, _ = it.ask(script, len(lines))
            own = own or answers
            is_plain = it.name in (OWN, PLAIN)
            if NOT_ASKED in answers and not is_plain:
                continue
            if answers == own if is_plain else is_same(verb, answers, own, matched):
                same.append(it)
            else:
                self.differing.append(f"{it.name} answers `{verb}` otherwise of {CLASSES[name].text}.")
        return same

    def turns(self, engine, lines):
        """How often the lines are asked in a round, to take long enough. What is compiled as it runs, or made when it
        is first wanted, has been by then."""
        turns = 1
        while turns < MOST_TURNS:
            script = "".join(lines * turns).encode()
            _, seconds = engine.ask(script, len(lines) * turns, False)
            if seconds >= self.asked.least:
                break
            turns = min(MOST_TURNS, turns * max(2, min(8, math.ceil(self.asked.least / max(seconds, 1e-6)))))
        return turns

    def measure(self, name, verb, asked_of):
        lines = [f"{verb} {it}\n" for it in asked_of]
        matched = self.engines[0].ask("".join(f"docs {it}\n" for it in asked_of).encode(), len(lines))[0]
        same = self.compare(name, verb, lines, matched)
        turns = {it.name: self.turns(it, lines) for it in same}
        chance, least = random.Random(name), {}
        for _ in range(self.asked.rounds):
            for it in same:
                script = []
                for _ in range(turns[it.name]):
                    chance.shuffle(lines)
                    script += lines
                _, seconds = it.ask("".join(script).encode(), len(script), False)
                took = seconds / len(script) * 1e6
                least[it.name] = min(took, least.get(it.name, took))
        self.rows.append({"class": name, "verb": verb, "microseconds": least})
        print(".", end="", flush=True, file=sys.stderr)
