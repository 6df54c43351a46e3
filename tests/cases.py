#!/usr/bin/env python3
"""Plays the cases: rows of calls and of what they must answer, in files and from the plain model.

    python3 tests/cases.py [--seed S] [--rows N] [--built FOLDER] [PROGRAM..]

Each program of cases plays the files of its crates, and then what tests/generate_cases.py writes from the
plain model, in as many parts as there are processors: tables of all small cases, and N rows by chance, by a
seed that is always the same where none is given. Before that the model is compared with worked rows. The files
flat.case, of very many parts and none of them deep, are played with a stack of one megabyte. Every run is under
an allocator that refuses the requests for memory that a case names (tests/native/refuse_memory.c). The programs are
those that `rt ci` has left in crates/PROGRAM/out, or those in a FOLDER. Prints the rows that are wrong, and last
how many rows were played; the exit status is 1 where one is wrong, or where a program plays none.

What no contract says stands in rows, as data, and not in `#[test]` functions: a test is proved as any function is,
which costs more than what it tests. A row costs nothing, can be generated, and is played under memory that is refused
at any request. What a row can't say is said by a caller whose contract is proved (crates/example_callers). The cases'
own cursors keep the laws of their traits in awkward manners: least bounds, nonsensical hints, document 0 where they
aren't placed.
"""

import os
import re
import subprocess
import sys
import tempfile
from concurrent.futures import ThreadPoolExecutor

ROOT = os.path.realpath(os.path.join(os.path.dirname(os.path.abspath(__file__)), ".."))
# the crates whose cases each program plays
PROGRAMS = {
    "cases_cursors": ["qm_docset", "qm_combine"],
    "cases_postings": ["qm_schema", "qm_postings", "qm_index", "qm_term", "qm_phrase"],
    "cases_weights": ["qm_scorer", "qm_weight"],
    "cases_queries": ["qm_query"],
    "cases_store": ["qm_store", "qm_merge"],
    "cases_folder": ["qm_folder"],
    "cases_parser": ["qm_parser"],
    "cases_scripts": ["qm_script"],
}
# how many rows by chance each program plays
ROWS = {
    "cases_cursors": 20_000,
    "cases_postings": 75_000,
    "cases_weights": 200_000,
    "cases_queries": 100_000,
    "cases_store": 24_000,
    "cases_folder": 60_000,
    "cases_parser": 60_000,
    "cases_scripts": 6_000,
}
# A program that takes longer than this many seconds is taken never to end.
LIMIT = 600
# Files of this name are played with a stack of one megabyte.
FLAT = "flat.case"
BOUND = ["sh", "-c", 'ulimit -s 1024 && exec "$0"']


def build_refusing(room):
    """Builds the allocator that is preloaded."""
    library = f"{room}/refuse_memory.so"
    words = "cc -O2 -Wall -Wextra -Werror -shared -fPIC -o".split()
    subprocess.run([*words, library, f"{ROOT}/tests/native/refuse_memory.c"], check=True)
    return library


def files_of(crates, are_flat=False):
    """The text of the case files of these crates, each with its name before it: of those of one name alone, or of all
    others."""
    text = []
    for crate in crates:
        folder = f"{ROOT}/tests/cases/{crate}"
        for name in sorted(os.listdir(folder)):
            if (name == FLAT) != are_flat:
                continue
            with open(f"{folder}/{name}", encoding="utf-8") as it:
                text.append(f"file tests/cases/{crate}/{name}\n{it.read()}\n")
    return "".join(text)


def generated(program, seed, rows, parts):
    """The text of one of so many parts of the model's tables, and of so many rows by chance. Which part
    of the tables it is, the generator tells by the seed."""
    words = [sys.executable, f"{ROOT}/tests/generate_cases.py", program, "--jobs", "1"]
    words += ["--seed", str(seed), "--rows", str(rows), "--tables", str(parts)]
    made = subprocess.run(words, stdout=subprocess.PIPE, check=True, text=True).stdout
    return f"file seed {seed}\n{made}"


def play(path, library, text, is_flat=False):
    """How many rows the program played and how many were wrong, and the lines of these."""
    environment = {**os.environ, "LD_PRELOAD": library}
    how = {"stdout": subprocess.PIPE, "stderr": subprocess.STDOUT, "timeout": LIMIT}
    words = [*BOUND, path] if is_flat else [path]
    with tempfile.TemporaryFile() as given:
        given.write(text.encode())
        given.seek(0)
        try:
            ran = subprocess.run(words, stdin=given, env=environment, **how)
        except subprocess.TimeoutExpired:
            return 0, 1, [f"{path} did not end within {LIMIT} seconds"]
    lines = ran.stdout.decode(errors="replace").splitlines()
    counts = re.fullmatch(r"(\d+) rows, (\d+) wrong", lines[-1]) if lines else None
    if not counts or ran.returncode not in (0, 1):
        return 0, 1, [*lines[-20:], f"{path} ended with status {ran.returncode}"]
    rows, wrong = int(counts[1]), int(counts[2])
    return rows, max(wrong, ran.returncode), lines[:-1]


def play_made(path, library, make, is_flat):
    return play(path, library, make(), is_flat)


def runs_of(program, seed, rows):
    """What a program is to play: its files, and what the model says, some to each processor. Each with whether it is
    flat."""
    parts, rows = os.cpu_count() or 1, rows or ROWS[program]
    texts = [(lambda: files_of(PROGRAMS[program]), False)]
    if any(os.path.exists(f"{ROOT}/tests/cases/{crate}/{FLAT}") for crate in PROGRAMS[program]):
        texts.insert(0, (lambda: files_of(PROGRAMS[program], True), True))
    for part in range(parts):
        texts.append((lambda part=part: generated(program, seed * parts + part, rows // parts, parts), False))
    return texts


def play_all(programs, folder, seed, rows):
    """Plays everything; answers how many rows were played, and how many were wrong."""
    with tempfile.TemporaryDirectory() as room, ThreadPoolExecutor(os.cpu_count()) as pool:
        library, played = build_refusing(room), []
        for program in programs:
            path = f"{folder}/{program}" if folder else f"{ROOT}/crates/{program}/out/{program}"
            for make, is_flat in runs_of(program, seed, rows):
                played.append((program, pool.submit(play_made, path, library, make, is_flat)))
        total, failed = 0, 0
        for program, it in played:
            rows, wrong, lines = it.result()
            total, failed = total + rows, failed + wrong
            for line in lines[:50]:
                print(f"{program}: {line}")
    return total, failed


def option(words, name, default):
    """The word behind this one, or the default where it is not given."""
    return words[words.index(name) + 1] if name in words else default


def main(words):
    if subprocess.run([sys.executable, "-B", "-m", "model"], cwd=f"{ROOT}/tests", check=False).returncode != 0:
        return 1
    seed, rows = int(option(words, "--seed", 1)), int(option(words, "--rows", 0))
    folder = option(words, "--built", None)
    total, failed = play_all([it for it in PROGRAMS if it in words] or PROGRAMS, folder, seed, rows)
    print(f"cases: {total} rows, {failed} wrong")
    return 0 if total > 0 and failed == 0 else 1


if __name__ == "__main__":
    sys.exit(main(sys.argv[1:]))
