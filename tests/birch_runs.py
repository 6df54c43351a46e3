#!/usr/bin/env python3
"""Runs the search command `birch`, as `rt ci` built it, over files of tests/birch_runs and over random ones, and
compares what it writes and its exit status.

    python3 tests/birch_runs.py [PROGRAM]

Prints each difference, and then how many runs went as wanted, or how much did not. The exit status is 1
where something did not, or where the program is missing. Called by tests/gate.py.
"""

import os
import sys
import tempfile

# nothing is left in the repository
sys.dont_write_bytecode = True

# this folder has the package of the same name
from birch_runs import answers, beginnings, cut_words, fields, kept, kept_faults, listing, random_queries, reading, refused_memory
from birch_runs.command import Command
from program_runs.program import build_library
from program_runs.report import Report

HERE = os.path.dirname(os.path.abspath(__file__))
BUILT = os.path.join(HERE, "..", "crates", "birch", "out", "birch")
CHECKS = [answers, beginnings, cut_words, fields, listing, random_queries, reading, refused_memory, kept, kept_faults]


def main():
    path = os.path.abspath(sys.argv[1] if len(sys.argv) > 1 else BUILT)
    if not os.access(path, os.X_OK):
        print(f"birch runs: {path} is missing")
        return 1
    report = Report("birch runs")
    with tempfile.TemporaryDirectory() as room:
        command = Command(path, build_library(room))
        for it in CHECKS:
            it.check(command, report, room)
    return report.close(command.runs)


if __name__ == "__main__":
    sys.exit(main())
