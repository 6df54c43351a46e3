#!/usr/bin/env python3
"""What it costs to make an index of the library bytes, to save it in a folder, and to open it again.

    python3 bench/measure_saved.py [DOCUMENTS]

Makes an index of so many documents (100,000) by the package in bindings/python, each of 70 words that are as frequent as
words are (Zipf), and prints a table for docs/COSTS.md: milliseconds of the processor, the median of five runs. The library
is the one that BIRCHAGAIN_LIBRARY names, else the one of `make -C bindings/c`. Asks for as much of /tmp as two indexes have.
"""

import itertools
import os
import random
import statistics
import sys
import tempfile
import time

HERE = os.path.dirname(os.path.abspath(__file__))
BINDINGS = os.path.join(HERE, "..", "bindings")
sys.dont_write_bytecode = True
os.environ.setdefault("BIRCHAGAIN_LIBRARY", os.path.join(BINDINGS, "c", "out", "libbirchagain.so"))
sys.path.insert(0, os.path.join(BINDINGS, "python"))

from birchagain import Index

VOCABULARY, WORDS, RUNS = 50_000, 70, 5


def texts(documents):
    chance = random.Random(1)
    words = [f"w{number}" for number in range(VOCABULARY)]
    up_to = list(itertools.accumulate(1 / (place + 1) for place in range(VOCABULARY)))
    for _ in range(documents):
        yield " ".join(chance.choices(words, cum_weights=up_to, k=WORDS))


def taken(call, runs=RUNS):
    """Milliseconds of the processor, and what the last run answers."""
    times = []
    for _ in range(runs):
        begin = time.process_time()
        answer = call()
        times.append(1000 * (time.process_time() - begin))
    return statistics.median(times), answer


def make(documents):
    index = Index(documents)
    index.end_segment()
    return index


def steps(documents, room):
    """Each step, with its milliseconds."""
    folders = (os.path.join(room, str(number)) for number in itertools.count())
    made, index = taken(lambda: make(documents), 1)
    yield "add the documents and end the segment", made
    first, data = taken(index.to_bytes, 1)
    yield f"`to_bytes`, the first time, {len(data) / 1e6:.1f} MB", first
    yield "`to_bytes` again", taken(index.to_bytes)[0]
    yield "`from_bytes`", taken(lambda: Index.from_bytes(data).close())[0]
    yield "`save` in a new folder", taken(lambda: index.save(next(folders)))[0]
    folder = next(folders)
    index.save(folder)
    yield "`save` where nothing is new", taken(lambda: index.save(folder))[0]
    yield "`open`", taken(lambda: Index.open(folder).close())[0]
    index.add("a document more")
    index.delete(5)
    yield "`save` of one document more and one deleted", taken(lambda: index.save(folder), 1)[0]


def main(words):
    documents = [*texts(int(words[0]) if words else 100_000)]
    print(f"| {len(documents):,} documents of {WORDS} words | ms |")
    print("|---|---|")
    with tempfile.TemporaryDirectory() as room:
        for name, milliseconds in steps(documents, room):
            print(f"| {name} | {milliseconds:.1f} |", flush=True)


if __name__ == "__main__":
    main(sys.argv[1:])
