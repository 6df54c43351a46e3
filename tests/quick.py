#!/usr/bin/env python3
"""All cases, all runs of the programs and all that the documents show, on builds of which nothing is proved: for
whoever changed a body and wants to know within minutes. The gate is `python3 tests/gate.py`.

    python3 tests/quick.py [--seed S] [--rows N]
"""

import os
import subprocess
import sys
import tempfile
from concurrent.futures import ThreadPoolExecutor

sys.dont_write_bytecode = True

from cases import PROGRAMS, ROOT

# The programs, those first that take the longest to build. The search command is not optimised here, so that it checks
# what it does (`./birch`, which the documents show, does not); what the others play is much, or hangs on how deep a
# stack they need.
BUILT = {
    "birch": [],
    "cases_weights": ["--optimised"],
    "cases_queries": ["--optimised"],
    "qm_search": ["--optimised"],
    "cases_scripts": ["--optimised"],
    "cases_postings": ["--optimised"],
    "cases_cursors": ["--optimised"],
    "cases_store": ["--optimised"],
    "cases_folder": ["--optimised"],
    "cases_parser": ["--optimised"],
    "bench_store": [],
    "example_search": [],
    "example_uses": [],
}


def build(room, name):
    words = [sys.executable, f"{ROOT}/tests/unproved.py", name, f"{room}/{name}", *BUILT[name]]
    return subprocess.run(words, check=False).returncode == 0


def main(words):
    assert {*PROGRAMS} < {*BUILT}
    with tempfile.TemporaryDirectory() as room:
        with ThreadPoolExecutor(os.cpu_count()) as pool:
            pool.submit(subprocess.run, [f"{ROOT}/birch", "--version"], check=False)
            if not all(pool.map(lambda name: build(room, name), BUILT)):
                return 1
        runs = [
            [f"{ROOT}/tests/layout.py"],
            [f"{ROOT}/tests/own_runs.py", room],
            [f"{ROOT}/tests/wrong_bodies.py", "--look"],
            [f"{ROOT}/tests/refused_calls.py"],
            [f"{ROOT}/tests/cases.py", "--built", room, *words],
            [f"{ROOT}/tests/format_runs.py"],
            [f"{ROOT}/tests/program_runs.py", f"{room}/qm_search"],
            [f"{ROOT}/tests/birch_runs.py", f"{room}/birch"],
            [f"{ROOT}/tests/library_runs.py"],
            [f"{ROOT}/tests/distributed_runs.py"],
            [f"{ROOT}/tests/bench_runs.py", f"{room}/qm_search"],
            [f"{ROOT}/tests/growth.py", f"{room}/qm_search"],
            [f"{ROOT}/tests/definitions.py", "--check"],
            [f"{ROOT}/tests/layers.py", "--check"],
            [f"{ROOT}/tests/limits.py"],
            [f"{ROOT}/tests/assumptions.py"],
            [f"{ROOT}/tests/sentences.py"],
            [f"{ROOT}/tests/using_runs.py"],
            [f"{ROOT}/tests/api_runs.py"],
            [f"{ROOT}/tests/documented_commands.py"],
            [f"{ROOT}/tests/installed_runs.py", f"{room}/birch"],
        ]
        failed = [subprocess.run([sys.executable, *it], check=False).returncode for it in runs]
    print("nothing of this was proved")
    return 1 if any(failed) else 0


if __name__ == "__main__":
    sys.exit(main(sys.argv[1:]))
