#!/usr/bin/env python3
"""Runs the program `qm_search`, as `rt ci` built it, and compares what it writes and its exit status.

    python3 tests/program_runs.py [PROGRAM] [--seed S] [--rows N] [--jobs J]
    python3 tests/program_runs.py --show "right 1 17"

Prints each difference, and then how many runs went as wanted, or how much did not. The exit status is 1
where something did not, or where the program is missing. tests/native/faulty_io.c is built, and preloaded where
reads, writes or requests for memory are to go badly. N scripts by chance, and ten times as many hostile lines, are
compared with the plain model: 1,000 in the gate, and 100,000 by night. Runs are made outside of `rt ci`, since what the
program shows, texts and statuses, can be seen from outside; numbers past 4294967295 can't, and are proved. `--show`
prints one of them by its name. Called by .ci/run after `rt ci`.
"""

import argparse
import os
import sys
import tempfile

# nothing is left in the repository
sys.dont_write_bytecode = True

# this folder has the package of the same name
from program_runs import (
    chance_scripts,
    cut_scripts,
    deep_queries,
    flat_queries,
    hostile_bytes,
    input_and_output,
    long_scripts,
    refused_memory,
    single_lines,
    whole_scripts,
)
from program_runs.program import NeverEnded, Program, build_library
from program_runs.report import Report

HERE = os.path.dirname(os.path.abspath(__file__))
BUILT = os.path.join(HERE, "..", "crates", "qm_search", "out", "qm_search")
# checks that are one run after another, and those whose runs are shared out
CHECKS = [whole_scripts, single_lines, long_scripts, input_and_output]
SHARED = [flat_queries, deep_queries, refused_memory, cut_scripts, hostile_bytes]


def arguments():
    parser = argparse.ArgumentParser()
    parser.add_argument("program", nargs="?", default=BUILT)
    parser.add_argument("--seed", type=int, default=1)
    parser.add_argument("--rows", type=int, default=1000)
    parser.add_argument("--jobs", type=int, default=os.cpu_count())
    parser.add_argument("--show")
    return parser.parse_args()


def main():
    given = arguments()
    if given.show:
        sys.stdout.buffer.write(chance_scripts.script_of(given.show))
        return 0
    path = os.path.abspath(given.program)
    if not os.access(path, os.X_OK):
        print(f"program runs: {path} is missing")
        return 1
    report = Report()
    with tempfile.TemporaryDirectory() as room:
        program = Program(path, build_library(room))
        try:
            for it in CHECKS:
                it.check(program, report)
            for it in SHARED:
                it.check(program, report, given.jobs)
            chance_scripts.check(program, report, given.seed, given.rows, given.jobs)
        except (NeverEnded, BrokenPipeError):
            wanted = "that it reads its script and ends"
            report.expect_same("each run", wanted, "one that did not; no more are made")
    return report.close(program.runs)


if __name__ == "__main__":
    sys.exit(main())
