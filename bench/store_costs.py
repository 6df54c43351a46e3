#!/usr/bin/env python3
"""What stored segments and saved indexes cost: time of the processor, memory at most, and bytes on disk.

    python3 bench/store_costs.py [--documents N] [--times K] [--only NAME]

Makes two texts, has the program `bench_store` write them as segments, read what a query wants and all of it, and save
and open them as indexes, and prints a table for docs/COSTS.md: milliseconds, and megabytes at most. One text has N
documents of words that are as frequent as words are (Zipf); the other is what this machine has of licenses, manuals and
sources, a paragraph a document. Times are the median of K runs, of what takes longest a third as many, each a process of
its own, on a build of which nothing is proved (`tests/unproved.py --unchecked`). Asks for some 500 MB in /tmp.
"""

import argparse
import glob
import gzip
import itertools
import os
import re
import statistics
import subprocess
import sys
import tempfile
from collections import Counter

sys.dont_write_bytecode = True
ROOT = os.path.realpath(os.path.join(os.path.dirname(os.path.abspath(__file__)), ".."))
sys.path.append(f"{ROOT}/bench")

from corpus import made_up
from machine import load, machine

# how many words a made-up document has
WORDS = (5, 19)
# what the text of this machine is taken from, in this order, up to so many bytes
REAL = ["/usr/share/common-licenses/*", "/usr/share/doc/**/*", "/usr/share/man/man*/*", "/usr/lib/python3*/**/*.py"]
MOST = 100_000_000
# the words that are searched, by how many documents have them
RANKS = [1, 10]
# a paragraph with fewer words is no document
FEWEST = 8


def read_text(path):
    try:
        with gzip.open(path, "rt", errors="replace") if path.endswith(".gz") else open(path, errors="replace") as it:
            return it.read()
    except OSError:
        return ""


def real():
    """The paragraphs of the machine's text, as words in lower case."""
    found = 0
    for path in itertools.chain.from_iterable(sorted(glob.glob(it, recursive=True)) for it in REAL):
        text = read_text(path) if os.path.isfile(path) and not os.path.islink(path) else ""
        # what has bytes 0 is no text
        for paragraph in [] if "\0" in text else re.split(r"\n\s*\n", text):
            words = re.findall(r"[a-z0-9]+", paragraph.lower(), re.ASCII)
            if len(words) >= FEWEST and found < MOST:
                found += sum(map(len, words)) + len(words)
                yield words


class Text:
    """A text that is written to a file, a document a line, and what of it is to be kept."""

    def __init__(self, name, path, documents):
        self.name, self.path, self.words, self.postings, self.documents = name, path, 0, 0, 0
        held = Counter()
        with open(path, "w", encoding="utf-8") as it:
            for words in documents:
                it.write(" ".join(words) + "\n")
                distinct = set(words)
                self.documents, self.words = self.documents + 1, self.words + len(words)
                self.postings += len(distinct)
                held.update(distinct)
        self.bytes = os.path.getsize(path)
        self.frequent = held.most_common(RANKS[-1])


def run(words):
    """Runs the program: what each step took, in microseconds, what it counted, and its kilobytes of memory at most."""
    # what a child of this process has at most counts this process too, so it is one of a small one
    ran = subprocess.run(["/usr/bin/time", "-f", "memory %M", *words], capture_output=True, text=True, check=False)
    if ran.returncode:
        raise SystemExit(f"store_costs: {' '.join(words)}: {ran.stderr}")
    return {step: int(number) for step, number in map(str.split, (ran.stdout + ran.stderr).splitlines())}


def median(times, words):
    """Of so many runs, the median of each figure."""
    runs = [run(words) for _ in range(times)]
    return {step: statistics.median(it[step] for it in runs) for step in runs[0]}


def milliseconds(microseconds):
    return f"{microseconds / 1000:,.1f} ms"


def megabytes(kilobytes):
    return f"{kilobytes / 1024:,.1f} MB"


def figures(program, room, text, times):
    """What was measured of a text, and the figure."""
    segment, folder = f"{room}/segment", f"{room}/index"
    written = median(max(1, times // 3), [program, "write", text.path, segment])
    whole = median(times, [program, "whole", segment])
    saved = median(max(1, times // 3), [program, "save", text.path, folder])
    opened = median(times, [program, "open", folder])
    size = os.path.getsize(segment)
    assert whole["terms"] == written["terms"] and opened["documents"] == text.documents
    yield "documents", f"{text.documents:,}"
    yield "words, of so many different ones", f"{text.words:,}, {written['terms']:,}"
    yield "bytes of the text", f"{text.bytes:,}"
    yield "bytes of the segment's file", f"{size:,}"
    yield "the same, a posting with its positions", f"{size / text.postings:.2f}"
    yield "build the segment", milliseconds(written["build"])
    yield "write and sync it", milliseconds(written["write"])
    yield "both, of the time of the first", f"{1 + written['write'] / written['build']:.3f}"
    yield from queried(program, segment, text, times)
    yield "`StoredSegment::whole`", f"{milliseconds(whole['whole'])}; {megabytes(whole['memory'])}"
    yield "`Index::save`", milliseconds(saved["save"])
    yield "`Index::open`", f"{milliseconds(opened['open'])}; {megabytes(opened['memory'])}"


def queried(program, segment, text, times):
    """What a query of a frequent word takes, from the opening of the file on."""
    for rank in RANKS:
        word, holders = text.frequent[rank - 1]
        for command, named in [("query", "row"), ("places", "row with positions")]:
            it = median(times, [program, command, segment, word])
            assert it["found"] == holders
            # a document and a position take four bytes there, a frequency one
            own = 5 * holders + 4 * it["positions"]
            steps = " + ".join(f"{it[step] / 1000:.1f}" for step in ("open", "row", "score"))
            memory = f"{megabytes(it['memory'])}, of which {own / 2**20:.1f} the row's own"
            row = f"open, read the {named} of word {rank}, score its documents"
            yield row, f"{steps} ms, {holders:,} documents; {memory}"


def arguments():
    parser = argparse.ArgumentParser()
    parser.add_argument("--documents", type=int, default=1_000_000)
    parser.add_argument("--times", type=int, default=9)
    parser.add_argument("--only", choices=["made up", "real"])
    return parser.parse_args()


def main():
    given = arguments()
    kinds = {"made up": lambda: made_up(given.documents, WORDS), "real": real}
    names = [given.only] if given.only else [*kinds]
    print(f"{machine()}; load {load()}\n")
    with tempfile.TemporaryDirectory() as room:
        program, columns = f"{room}/bench_store", []
        words = [sys.executable, f"{ROOT}/tests/unproved.py", "bench_store", program, "--unchecked"]
        if subprocess.run(words, check=False).returncode:
            return 1
        for name in names:
            columns.append(dict(figures(program, room, Text(name, f"{room}/text", kinds[name]()), given.times)))
    print(f"| | {' | '.join(f'{name} text' for name in names)} |\n|{'---|' * (1 + len(names))}")
    for row in columns[0]:
        print(f"| {row} | {' | '.join(it[row] for it in columns)} |")
    print(f"\nload behind all that: {load()}")
    return 0


if __name__ == "__main__":
    sys.exit(main())
