#!/usr/bin/env python3
"""What the best ten and a count cost over the number of words of which any may match, and how many of its words'
postings a run for the best scores, in mixed order and with the shortest documents first.

    python3 bench/sweep.py [--documents N] [--words N,..] [--proved PROGRAM | --program PROGRAM] [--alone]
                           [--own-runs] [--rounds N] [--least SECONDS] [--room FOLDER] [--json FILE]

Words are drawn even by the logarithm of their ranks. What is scored is told by the plain program (its runs by
stretches) and, with `--own-runs`, by bench/measure_pruning.py (the repository's runs, over documents of its own),
which is built in a minute. Prints tables, and writes what bench/plot draws.
"""

import argparse
import json
import os
import sys
import tempfile

sys.dont_write_bytecode = True
HERE = os.path.dirname(os.path.abspath(__file__))
sys.path[:0] = [HERE, f"{os.path.dirname(HERE)}/examples"]

import measure_pruning
from classes import BEST, CLASSES, Class, Draw, joined
from corpus import corpus
from engine import OWN, PLAIN, Engine, commands
from machine import load, machine
from measuring import Bench, built_as, program_options

WORDS = "2,3,5,10,20,50,100,200,300"
QUERIES = 8
# of what bench/measure_pruning.py has
PRUNED = (1, 2, 5)


def options():
    asked = argparse.ArgumentParser(description=__doc__, formatter_class=argparse.RawDescriptionHelpFormatter)
    program_options(asked)
    asked.add_argument("--documents", type=int, default=100_000)
    asked.add_argument("--words", default=WORDS)
    asked.add_argument("--alone", action="store_true")
    asked.add_argument("--own-runs", action="store_true")
    return asked.parse_args()


def drawn(given, count):
    draw = Draw(given, f"words/{count}")
    return [joined("?" * count, draw.spread(count)) for _ in range(QUERIES)]


def measured(asked, words, given, queries):
    """Microseconds of each query, by its number of words."""
    bench = Bench(asked, [Engine(name, it, asked.processor) for name, it in words.items()])
    bench.take(given.path)
    for count, texts in queries.items():
        name = f"words-{count}"
        CLASSES[name] = Class(f"any of {count} words", len(texts), None, ())
        for verb in (BEST, "count"):
            bench.measure(name, verb, texts)
            bench.rows[-1]["words"] = count
    for it in bench.engines:
        it.close()
    if bench.differing:
        raise SystemExit("\n".join(bench.differing))
    return bench.rows


def scored(asked, command, path, queries):
    """Of the postings of each query's words, the part that the plain program's run scores, and its stretches."""
    engine = Engine(PLAIN, command, asked.processor)
    engine.take(path)
    found = []
    for count, texts in queries.items():
        answers, _ = engine.ask("".join(f"work 10 {it}\n" for it in texts).encode(), len(texts))
        postings, stretches, ticks = map(sum, zip(*(map(int, it.split()) for it in answers)))
        found.append({"words": count, "scored": ticks / postings, "stretches": stretches / postings})
    engine.close()
    return found


def scored_by_own(documents):
    """The part of the postings that the repository's runs score, of bench/measure_pruning.py's documents."""
    found = {}
    with tempfile.TemporaryDirectory() as room:
        program = measure_pruning.build(room)
        for order in ("mixed", "length"):
            ticks = [measure_pruning.run(program, documents, order, count, "pruned", 1)[1] for count in PRUNED]
            # each of its words stands in every other document
            parts = [it / (count * documents / 2) for count, it in zip(PRUNED, ticks)]
            found[order] = [{"words": count, "scored": it} for count, it in zip(PRUNED, parts)]
    return found


def print_tables(told, names):
    for verb in (BEST, "count"):
        print(f"\n| `{verb}` | " + " | ".join(f"{it}, us" for it in names) + " |\n" + "|---" * (len(names) + 1) + "|")
        for row in (it for it in told["rows"] if it["verb"] == verb):
            figures = [f"{row['microseconds'][it]:,.1f}" if it in row["microseconds"] else "" for it in names]
            print(f"| any of {row['words']} words | " + " | ".join(figures) + " |")
    print("\n| Scored, of 100 postings | in mixed order | the shortest first |\n|---|---|---|")
    runs = {"plain Rust, by stretches": told["scored"], "birchagain, of other documents": told["scored by own"]}
    for name, by in ((name, it) for name, it in runs.items() if it):
        for mixed, length in zip(by["mixed"], by["length"]):
            print(f"| {mixed['words']} words, {name} | {100 * mixed['scored']:.1f} | {100 * length['scored']:.1f} |")


def main():
    asked = options()
    words, lacking = commands(asked.room, asked.proved or asked.program, not asked.alone)
    given = corpus(asked.documents, f"{asked.room}/corpora", asked.seed)
    queries = {int(count): drawn(given, int(count)) for count in asked.words.split(",")}
    before = load()
    told = {"documents": given.documents, "rows": measured(asked, words, given, queries)}
    orders = {"mixed": given.path, "length": given.by_length()}
    told["scored"] = {order: scored(asked, words[PLAIN], path, queries) for order, path in orders.items()}
    told["scored by own"] = scored_by_own(given.documents) if asked.own_runs else None
    print(f"\n{machine()}; load {before} before and {load()} behind.")
    print(f"{given.documents:,} documents, made-up words; {built_as(asked)}; least of {asked.rounds} rounds.")
    print("\n".join(lacking))
    print_tables(told, [it for it in words if it in told["rows"][0]["microseconds"]])
    with open(asked.json or f"{asked.room}/sweep.json", "w", encoding="utf-8") as it:
        json.dump(told, it, indent=1)


if __name__ == "__main__":
    main()
