#!/usr/bin/env python3
"""Measures the tree of scorers against the generic intersection.

It builds the program of measure_intersection/main.txt beside the crates of this repository, and runs
it by each way in turn: a thousand times over what three terms of 100,000 documents have in common.
What it prints is processor time, the least of nine rounds, less what the segment alone takes.
"""

import os
import resource
import shutil
import subprocess
import sys
import tempfile

HERE = os.path.dirname(os.path.abspath(__file__))
TOP = os.path.dirname(HERE)
CRATES = "qm_combine qm_docset qm_phrase qm_postings qm_schema qm_scorer qm_term".split()
ROUNDS = 9


def build(room):
    """A repository of the crates below the program, with what was built of them, and the program;
    answers where the program lies. What was not built before is proved now, which takes an hour."""
    crates = os.path.join(room, "crates")
    with open(os.path.join(TOP, "crates.txt"), encoding="utf-8") as given:
        lines = [line for line in given if line.split(":")[0] in CRATES]
    for name in CRATES:
        # the libraries as they were built are enough, and what their checks keep is large
        kept = shutil.ignore_patterns("incremental")
        shutil.copytree(os.path.join(TOP, "crates", name), os.path.join(crates, name), ignore=kept)
    with open(os.path.join(room, "crates.txt"), "w", encoding="utf-8") as listed:
        listed.write("".join(lines) + f"measure_intersection: anyhow {' '.join(CRATES)}\n")
    folder = os.path.join(crates, "measure_intersection")
    os.makedirs(os.path.join(folder, "src"))
    shutil.copy(os.path.join(HERE, "measure_intersection", "main.txt"), os.path.join(folder, "src", "main.rt"))
    subprocess.run(["rt", "run"], cwd=folder, check=True, stdout=subprocess.DEVNULL)
    return os.path.join(folder, "out", "measure_intersection")


def seconds(program, way):
    """Processor time of one run, and what it printed."""
    before = resource.getrusage(resource.RUSAGE_CHILDREN).ru_utime
    printed = subprocess.run([program, way], check=True, capture_output=True, text=True).stdout
    return resource.getrusage(resource.RUSAGE_CHILDREN).ru_utime - before, printed


def main():
    least = {"none": None, "intersection": None, "tree": None}
    with tempfile.TemporaryDirectory() as room:
        program = build(room)
        for _ in range(ROUNDS):
            for way, known in least.items():
                took, printed = seconds(program, way)
                least[way] = took if known is None else min(known, took)
    tree = least["tree"] - least["none"]
    intersection = least["intersection"] - least["none"]
    print(f"{printed.strip()} documents, a thousand times over")
    print(f"intersection {intersection:.2f} s, tree {tree:.2f} s: {tree / intersection:.2f} times")
    return 0


if __name__ == "__main__":
    sys.exit(main())
