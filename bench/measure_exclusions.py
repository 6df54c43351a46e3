#!/usr/bin/env python3
"""Counts what MustNot clauses cost: the instructions of a query with 500, 1,000 and 2,000 of them.

    python3 bench/measure_exclusions.py [PROGRAM]

The program `qm_search`, or the one that is named, is handed 10,000 documents, each of which holds `a`, `always`
and one of 4,000 words, and the query for those with `a` and without so many of the words; then the same query
where `always` is one of these, so that every document is left out. Instructions are counted by valgrind, which
has to be there, and are those of the run with the query less those of the run without it.
"""

import os
import re
import subprocess
import sys

HERE = os.path.dirname(os.path.abspath(__file__))
PROGRAM = os.path.join(HERE, "..", "crates", "qm_search", "out", "qm_search")
VALGRIND = "valgrind --tool=cachegrind --cache-sim=no --cachegrind-out-file=/dev/null".split()
DOCUMENTS, VOCABULARY = 10_000, 4_000


def instructions(program, script):
    """How many instructions the program takes for the script."""
    how = {"input": script.encode(), "stdout": subprocess.DEVNULL, "stderr": subprocess.PIPE}
    ran = subprocess.run([*VALGRIND, program], check=True, **how)
    return int(re.search(r"I +refs: +([\d,]+)", ran.stderr.decode())[1].replace(",", ""))


def main():
    program = sys.argv[1] if len(sys.argv) > 1 else PROGRAM
    documents = "".join(f"doc a always w{number % VOCABULARY}\n" for number in range(DOCUMENTS))
    alone = instructions(program, documents)
    print("| MustNot clauses | Each has two or three documents of its own | One has every document |\n|---|---|---|")
    for count in [500, 1_000, 2_000]:
        taken = []
        for excluded in [[], ["always"]]:
            words = excluded + [f"w{number}" for number in range(count - len(excluded))]
            query = f"docs bool 0 {count + 1} + term a" + "".join(f" - term {word}" for word in words)
            taken.append(instructions(program, f"{documents}{query}\n") - alone)
        print(f"| {count:,} | " + " | ".join(f"{it / 1e6:,.0f} million" for it in taken) + " |", flush=True)


if __name__ == "__main__":
    sys.exit(main())
