#!/usr/bin/env python3
"""Measures what passing over blocks saves: the ten best documents by a pruned run, beside the plain loop.

    python3 bench/measure_pruning.py [--documents N] [--searches N]

It builds the program of measure_pruning/main.txt beside the crates of this repository, with no proof, and lets
it find the ten best of N documents (100,000) by one, two and five frequent words, with the documents in the
order of their lengths and in mixed order. It prints a table: how many documents the run scored, of how many postings,
and the processor time of a search beside the plain loop's. That is the time of N searches (200) less that of none, the
least of three; `--searches 0` leaves it out. Both ways must find the same. The times mean something on a quiet machine
alone; no gate hangs on them.
"""

import os
import resource
import shutil
import subprocess
import sys
import tempfile

HERE = os.path.dirname(os.path.abspath(__file__))
ROOT = os.path.dirname(HERE)
CRATES = "qm_combine qm_docset qm_phrase qm_postings qm_schema qm_scorer qm_term qm_weight".split()
ROUNDS = 3
ORDERS = {"length": "the shortest first", "mixed": "in mixed order"}


def option(words, name, default):
    """The word behind this one, or the default where it is not given."""
    return words[words.index(name) + 1] if name in words else default


def build(room):
    """A repository of the crates below the program, and the program; answers where it lies."""
    for name in CRATES:
        shutil.copytree(f"{ROOT}/crates/{name}", f"{room}/crates/{name}", ignore=shutil.ignore_patterns("out"))
    shutil.copytree(f"{ROOT}/tests", f"{room}/tests")
    with open(f"{ROOT}/crates.txt", encoding="utf-8") as given:
        lines = [line for line in given if line.split(":")[0] in CRATES]
    with open(f"{room}/crates.txt", "w", encoding="utf-8") as listed:
        listed.write("".join(lines) + f"measure_pruning: {' '.join(CRATES)}\n")
    os.makedirs(f"{room}/crates/measure_pruning/src")
    for name in ("main", "trace"):
        shutil.copy(f"{HERE}/measure_pruning/{name}.txt", f"{room}/crates/measure_pruning/src/{name}.rt")
    program = f"{room}/program"
    subprocess.run([sys.executable, f"{room}/tests/unproved.py", "measure_pruning", program, "--optimised"], check=True)
    return program


def run(program, *words):
    """Processor time of one run, how many documents it scored, and what it found."""
    before = resource.getrusage(resource.RUSAGE_CHILDREN).ru_utime
    given = " ".join(map(str, words))
    printed = subprocess.run([program], input=given, check=True, stdout=subprocess.PIPE, text=True).stdout.split()
    return resource.getrusage(resource.RUSAGE_CHILDREN).ru_utime - before, int(printed[0]), printed[2:]


def search(program, documents, order, words, way, times):
    """Microseconds of a search, how many documents it scored, and what it found."""
    if not times:
        return None, *run(program, documents, order, words, way, 1)[1:]
    without = min(run(program, documents, order, words, "none", 1)[0] for _ in range(ROUNDS))
    runs = [run(program, documents, order, words, way, times) for _ in range(ROUNDS)]
    return (min(it[0] for it in runs) - without) / times * 1e6, *runs[0][1:]


def main(words):
    documents, times = int(option(words, "--documents", 100_000)), int(option(words, "--searches", 200))
    is_well = True
    heads = [f"Of {documents:,} documents", "Words", "Postings", "Scored"]
    heads += ["Time, of the plain loop's"] if times else []
    print(f"| {' | '.join(heads)} |\n{'|---' * len(heads)}|")
    with tempfile.TemporaryDirectory() as room:
        program = build(room)
        for order in ("length", "mixed"):
            for count in (1, 2, 5):
                for kind in ("", "-max") if count > 1 else ("",):
                    pruned, scored, found = search(program, documents, order, count, f"pruned{kind}", times)
                    plain, _, expected = search(program, documents, order, count, f"plain{kind}", times)
                    is_well = is_well and found == expected
                    asked = f"{count}{', the greatest' if kind else ''}"
                    # every word stands in every other document
                    cells = [ORDERS[order], asked, f"{count * documents // 2:,}", f"{scored:,}"]
                    cells += [f"{pruned / plain:.2f}"] if times else []
                    print(f"| {' | '.join(cells)} |", flush=True)
    print("both ways find the same" if is_well else "THE WAYS FIND DIFFERENT DOCUMENTS")
    return 0 if is_well else 1


if __name__ == "__main__":
    sys.exit(main(sys.argv[1:]))
