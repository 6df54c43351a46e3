#!/usr/bin/env python3
"""How each class of queries grows with the documents, in time and memory: at n, 4n, 16n and 64n.

    python3 bench/growth.py [--documents N] [--steps K] [--proved PROGRAM | --program PROGRAM] [--others]
                            [--classes NAME,..] [--rounds N] [--least SECONDS] [--room FOLDER] [--json FILE]

The queries are the same at each number of documents, and the first documents too. Prints a table for docs/COSTS.md:
what a class takes at n, and how many times as much for 4 times as many documents. `--others` asks the other engines
that are installed too, for bench/plot, which reads the file.
"""

import argparse
import json
import os
import sys

sys.dont_write_bytecode = True
sys.path.insert(0, os.path.dirname(os.path.abspath(__file__)))

from classes import BEST, CLASSES, queries
from corpus import corpus
from engine import OWN, PLAIN, Engine, commands
from machine import load, machine
from measuring import Bench, program_options, built_as

GROWN = ["any-2", "any-5", "any-20", "one-frequent", "one-rare", "all-2", "all-rare", "phrase-2", "phrase-3", "mixed"]
TIMES = 4


def options():
    asked = argparse.ArgumentParser(description=__doc__, formatter_class=argparse.RawDescriptionHelpFormatter)
    program_options(asked)
    asked.add_argument("--documents", type=int, default=2000)
    asked.add_argument("--steps", type=int, default=4)
    asked.add_argument("--others", action="store_true")
    asked.add_argument("--classes", default=",".join(GROWN))
    return asked.parse_args()


def measured(asked, words, given, drawn):
    """What each class took, and what the documents did."""
    bench = Bench(asked, [Engine(name, it, asked.processor) for name, it in words.items()])
    bench.take(given.path)
    for name, texts in drawn.items():
        for verb in (BEST, "count"):
            bench.measure(name, verb, texts)
    for it in bench.engines:
        it.close()
    if bench.differing:
        raise SystemExit("\n".join(bench.differing))
    counts = {"documents": given.documents, "postings": given.postings}
    return {**counts, "took": bench.took, "held": bench.held, "rows": bench.rows}


def figure(step, name, verb, engine):
    return next(it["microseconds"].get(engine) for it in step["rows"] if it["class"] == name and it["verb"] == verb)


def grown(figures):
    """The first figure, and how many times the one before each other is."""
    times = [f"{after / before:.2f}" for before, after in zip(figures, figures[1:])]
    return [f"{figures[0]:,.1f}", *times]


def table(steps):
    first, *others = [f"{it['documents']:,}" for it in steps]
    heads = [first, *(f"{it}, times" for it in others)]
    yield f"| Documents | {' | '.join(heads)} | plain Rust: {' | '.join(heads)} |"
    yield "|---" * (2 * len(heads) + 1) + "|"
    for verb, text in ((BEST, "the best ten of"), ("count", "count")):
        for name in dict.fromkeys(it["class"] for it in steps[0]["rows"]):
            both = [grown([figure(it, name, verb, engine) for it in steps]) for engine in (OWN, PLAIN)]
            yield f"| {text} {CLASSES[name].text}, us | " + " | ".join(both[0] + both[1]) + " |"
    for text, of in (("a document taken in, us", in_of), ("a posting held, bytes", bytes_of)):
        both = [grown([of(it, engine) for it in steps]) for engine in (OWN, PLAIN)]
        yield f"| {text} | " + " | ".join(both[0] + both[1]) + " |"


def in_of(step, engine):
    return step["took"][engine] / step["documents"] * 1e6


def bytes_of(step, engine):
    return step["held"][engine][0] * 2**20 / step["postings"]


def main():
    asked = options()
    words, lacking = commands(asked.room, asked.proved or asked.program, asked.others)
    sizes = [asked.documents * TIMES**step for step in range(asked.steps)]
    first = corpus(sizes[0], f"{asked.room}/corpora", asked.seed)
    drawn = {name: queries(name, first) for name in asked.classes.split(",")}
    before = load()
    steps = [measured(asked, words, corpus(size, f"{asked.room}/corpora", asked.seed), drawn) for size in sizes]
    print(f"\n{machine()}; load {before} before and {load()} behind.")
    print(f"Made-up words, in mixed order; {built_as(asked)}; least of {asked.rounds} rounds.")
    print("\n".join([*lacking, "", *table(steps)]))
    with open(asked.json or f"{asked.room}/growth.json", "w", encoding="utf-8") as it:
        json.dump(steps, it, indent=1)


if __name__ == "__main__":
    main()
