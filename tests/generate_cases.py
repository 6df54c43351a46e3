#!/usr/bin/env python3
"""Writes cases for a program that plays them, by the plain model: `generate_cases.py PROGRAM --seed S --rows N`.

First come tables, which go through all small cases of a kind, the same for every seed; then at least N rows by
chance. `--tables K` writes each K-th part of the tables alone, and none where K is 0.
"""

import argparse
import multiprocessing
import random
import sys

from generators import parts

ROWS_IN_A_PART = 1500


def lines_of(part):
    """The lines of one part: all of a table's, or so many rows by chance."""
    name, seed, argument = part
    generate, rows, found = parts.GENERATORS[name], 0, []
    if argument is not None:
        return "\n".join(generate(argument)) + "\n"
    source = random.Random(seed)
    while rows < ROWS_IN_A_PART:
        made = list(generate(source))
        rows += sum(line.startswith(" ") for line in made)
        found += made
    return "\n".join(found) + "\n"


def parts_of(program, seed, rows, every):
    """The parts, each by the name of its generator, a seed, and what a table is asked for."""
    tables = [(name, 0, argument) for name, arguments in parts.TABLES[program] for argument in arguments]
    chosen = tables[seed % every :: every] if every else []
    names = parts.BY_CHANCE[program]
    count = -(-rows // ROWS_IN_A_PART)
    return chosen + [(names[it % len(names)], f"{seed} {program} {it}", None) for it in range(count)]


def main():
    parser = argparse.ArgumentParser(description=__doc__)
    parser.add_argument("program", choices=sorted(parts.BY_CHANCE))
    parser.add_argument("--seed", type=int, default=1)
    parser.add_argument("--rows", type=int, default=10000)
    parser.add_argument("--tables", type=int, default=1)
    parser.add_argument("--jobs", type=int, default=2)
    given = parser.parse_args()
    with multiprocessing.Pool(given.jobs) as pool:
        for text in pool.imap(lines_of, parts_of(given.program, given.seed, given.rows, given.tables)):
            sys.stdout.write(text)


if __name__ == "__main__":
    main()
