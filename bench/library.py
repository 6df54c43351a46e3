#!/usr/bin/env python3
"""What the library costs that is called from Python, beside Xapian's binding and SQLite's FTS5 where these are
installed, and what a call costs from C and from Python.

    python3 bench/library.py [--documents N] [--rounds N] [--library FOLDER] [--room FOLDER]

Builds the library as `make -C bindings/c` does, or takes libbirchagain.so and libbirchagain.a of the folder. Documents
are made up, in mixed order, and words weigh by rarity, as in the other two. Prints tables for docs/COSTS.md, of
microseconds of this process, the least of all rounds, in which each is called in turn. All three must count the same
documents.
"""

import argparse
import os
import subprocess
import sys
import tempfile
import time

sys.dont_write_bytecode = True
HERE = os.path.dirname(os.path.abspath(__file__))
ROOT = os.path.dirname(HERE)
sys.path[:0] = [HERE, f"{HERE}/engines", f"{ROOT}/bindings/python"]

from classes import CLASSES, queries
from corpus import corpus
from engine import OWN, Missing, build_fts5, build_xapian, of_python
from machine import load, machine
from spoken import NotAsked, Parts

CACHE = os.environ.get("XDG_CACHE_HOME") or os.path.expanduser("~/.cache")
ASKED = ["any-2", "any-5", "any-20", "one-frequent", "one-rare", "all-2", "all-rare", "phrase-2"]
# so many times a call that does next to nothing is made
CALLS = 20_000


class Library:
    """The library as the other engines are called."""

    def __init__(self):
        from birchagain import Index

        self.index = Index()

    def add(self, words):
        self.index.add(" ".join(words))

    def build(self):
        self.index.refresh()

    def query(self, parts):
        return " ".join(parts.words)

    def count(self, query):
        return self.index.count(query, language="script")

    def top(self, query, most):
        return self.index.top(query, most, language="script")

    def weigh(self, words):
        self.index.weigh_by_rarity(words)

    def least(self):
        return len(self.index)


def make_xapian(room):
    from ask_xapian import Xapian

    engine = Xapian(f"{room}/xapian")
    engine.least = lambda: engine.base.get_doccount()
    return engine


def make_fts5(_room):
    from ask_fts5 import Fts5

    engine = Fts5()
    engine.least = lambda: engine.base.execute("select 1").fetchone()
    return engine


def others(room):
    """The engines that this Python has, with their least call each, and why others are left out."""
    found, lacking = {}, []
    for name, check, make in (("Xapian", build_xapian, make_xapian), ("FTS5", build_fts5, make_fts5)):
        try:
            check(room)
            found[name] = make(room)
        except Missing as missing:
            lacking.append(f"{name} is left out: {missing}.\n")
    return found, lacking


def seconds_of(run):
    before = time.process_time()
    run()
    return time.process_time() - before


def in_turn(runs, rounds):
    """The least seconds of each, by its name."""
    took = [{name: seconds_of(run) for name, run in runs.items()} for _ in range(rounds)]
    return {name: min(it[name] for it in took) for name in runs}


def take_in(engine, documents):
    for words in documents:
        engine.add(words)
    engine.build()


def asked_of(engine, texts):
    """The engine's own queries, or None where it has no such."""
    try:
        return [engine.query(Parts(it)) for it in texts]
    except NotAsked:
        return None


def measure(engines, texts, rounds):
    """Microseconds of the best ten by each engine that has such queries."""
    asked = {name: asked_of(it, texts) for name, it in engines.items()}
    asked = {name: it for name, it in asked.items() if it}
    counts = {name: [engines[name].count(it) for it in own] for name, own in asked.items()}
    for name, found in counts.items():
        if found != counts[OWN]:
            raise SystemExit(f"bench: {name} counts otherwise")
    runs = {name: lambda name=name: [engines[name].top(it, 10) for it in asked[name]] for name in asked}
    return {name: it / len(texts) * 1e6 for name, it in in_turn(runs, rounds).items()}


def row(name, figures, names, digits=1):
    cells = [f"{figures[it]:,.{digits}f}" if it in figures else "" for it in names]
    print(f"| {name} | " + " | ".join(cells) + " |", flush=True)


def from_c(folder, room, path, texts):
    """Microseconds of the least call, of the least query, and of the best ten of the queries."""
    with open(f"{room}/queries", "w", encoding="utf-8") as it:
        it.writelines(f"{text}\n" for text in texts)
    words = ["cc", "-O2", "-Wall", "-Wextra", f"-I{ROOT}/bindings/c", f"{HERE}/calls.c", f"{folder}/libbirchagain.a"]
    subprocess.run([*words, "-o", f"{room}/calls"], check=True)
    ran = subprocess.run([f"{room}/calls", path, f"{room}/queries"], check=True, capture_output=True, text=True)
    return {name: float(it) / 1e3 for name, it in map(str.split, ran.stdout.splitlines())}


def compare(asked, folder, room):
    given = corpus(asked.documents, f"{asked.room}/corpora")
    with open(given.path, encoding="utf-8") as it:
        documents = [line.split() for line in it]
    own = Library()
    rest, lacking = others(room)
    engines, before = {OWN: own, **rest}, load()
    took = {name: seconds_of(lambda it=it: take_in(it, documents)) for name, it in engines.items()}
    took = {name: it / len(documents) * 1e6 for name, it in took.items()}
    drawn = {name: queries(name, given) for name in ASKED}
    # C weighs no words
    unweighed = measure({OWN: own}, drawn["any-2"], asked.rounds)[OWN]
    own.weigh(sorted({word for it in drawn.values() for text in it for word in text.split() if word.isalpha()}))
    table = {CLASSES[name].text: measure(engines, texts, asked.rounds) for name, texts in drawn.items()}
    print(f"{machine()}; load {before} before and {load()} behind.")
    print(f"{len(documents):,} documents; least of {asked.rounds} rounds.")
    print("".join(lacking) + "\n| The best ten from Python | " + " | ".join(f"{it}, us" for it in engines) + " |")
    print("|---" * (len(engines) + 1) + "|")
    for text, figures in table.items():
        row(text, figures, engines)
    row("a document taken in", took, engines)
    c = from_c(folder, room, given.path, drawn["any-2"])
    least_calls(engines, c, unweighed, asked.rounds)


def least_calls(engines, c, unweighed, rounds):
    own = engines[OWN]
    runs = {name: lambda it=it: [it.least() for _ in range(CALLS)] for name, it in engines.items()}
    runs["none"] = lambda: [own.top("none", 10) for _ in range(CALLS)]
    from_python = {name: it / CALLS * 1e6 for name, it in in_turn(runs, rounds).items()}
    print("\n| A call | from C, us | from Python, us |\n|---|---|---|")
    print(f"| how many documents were added | {c['call']:.3f} | {from_python[OWN]:.3f} |")
    print(f"| the best ten of `none` | {c['query']:.3f} | {from_python['none']:.3f} |")
    print(f"| the best ten of {CLASSES['any-2'].text} | {c['best']:.1f} | {unweighed:.1f} |")
    for name in [it for it in engines if it != OWN]:
        print(f"| {name}'s least call | | {from_python[name]:.3f} |")


def options():
    asked = argparse.ArgumentParser(description=__doc__, formatter_class=argparse.RawDescriptionHelpFormatter)
    asked.add_argument("--documents", type=int, default=100_000)
    asked.add_argument("--rounds", type=int, default=5)
    asked.add_argument("--library")
    asked.add_argument("--room", default=f"{CACHE}/birchagain/bench")
    return asked.parse_args()


def main():
    asked = options()
    folder = os.path.abspath(asked.library or f"{ROOT}/bindings/c/out")
    if not asked.library:
        subprocess.run(["make", "-s", "-C", f"{ROOT}/bindings/c"], check=True)
    os.environ["BIRCHAGAIN_LIBRARY"] = f"{folder}/libbirchagain.so"
    with tempfile.TemporaryDirectory() as room:
        compare(asked, folder, room)


if __name__ == "__main__":
    # the system's own Python has what Debian's packages bring
    try:
        python = of_python("xapian", "python3-xapian")
    except Missing:
        python = sys.executable
    if python != sys.executable:
        os.execv(python, [python, *sys.argv])
    main()
