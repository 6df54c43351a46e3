#!/usr/bin/env python3
"""Measures the search command `birch`, and beside it what a person would use instead.

    python3 bench/measure_birch.py [PROGRAM] [MEGABYTES]

Writes text of so many megabytes (100) by a seed: 200,000 words, the second half as frequent as the first and so on,
in paragraphs of some 50. Indexes it, and asks 1,000 queries of one to four words, and prints a table. Then SQLite's
FTS5 (Python's own `sqlite3`, in memory) takes in the same paragraphs and answers the same queries, and `grep -rlw`,
ripgrep and Xapian's `omindex` and `quest` look for a word where the machine has them. Times are of the processor, since that is
what other programs on the machine change least. The program is the one that `rt run` leaves in crates/birch/out.
"""

import itertools
import os
import random
import re
import shutil
import sqlite3
import subprocess
import sys
import tempfile
import time
from statistics import median

SEED, WORDS, QUERIES, BEST = 1, 200_000, 1000, 10
HERE = os.path.dirname(os.path.abspath(__file__))
BUILT = f"{HERE}/../crates/birch/out/birch"


def vocabulary(chance):
    """Made-up words, the frequent ones mostly short."""
    syllables = [first + second for first in "bcdfghklmnprstvw" for second in "aeiou"]
    words = set()
    while len(words) < WORDS:
        count = chance.choice((1, 2, 2, 2, 3, 3, 4))
        words.add("".join(chance.choices(syllables, k=count)) + chance.choice(("", "", "n", "s", "r")))
    return sorted(sorted(words), key=lambda word: len(word) + 3 * chance.random())


def paragraphs(chance, words, size):
    """Paragraphs of about so many bytes in all."""
    weights = list(itertools.accumulate(1 / (rank + 2.7) for rank in range(len(words))))
    while size > 0:
        chosen = chance.choices(words, cum_weights=weights, k=min(400, int(chance.lognormvariate(3.6, 0.8)) + 1))
        lines = [" ".join(chosen[at : at + 12]) for at in range(0, len(chosen), 12)]
        text = ",\n".join(lines).capitalize() + "."
        size -= len(text) + 2
        yield text


def write_files(folder, texts):
    """A hundred kilobytes a file, a hundred files a folder; gives the path and the line of each paragraph."""
    places, number, room, file, line = [], 0, 0, None, 1
    for text in texts:
        if room <= 0:
            if file:
                file.close()
            path = f"{number // 100:03}/{number:05}.txt"
            os.makedirs(os.path.dirname(f"{folder}/{path}"), exist_ok=True)
            file = open(f"{folder}/{path}", "w", encoding="utf-8")
            number, room, line = number + 1, 100_000, 1
        file.write(text + "\n\n")
        places.append((path, line))
        room, line = room - len(text), line + text.count("\n") + 2
    file.close()
    return places


def run(words, folder):
    """Runs a program: what it wrote and told, its seconds of a processor, and its megabytes at most."""
    with tempfile.TemporaryFile() as text, tempfile.TemporaryFile() as told:
        running = subprocess.Popen(words, cwd=folder, stdin=subprocess.DEVNULL, stdout=text, stderr=told)
        _, _, used = os.wait4(running.pid, 0)
        running.returncode = 0
        written = []
        for it in (text, told):
            it.seek(0)
            written.append(it.read().decode(errors="replace"))
    return (*written, used.ru_utime + used.ru_stime, used.ru_maxrss * 1024 / 1_000_000)


def queries(chance, words):
    """Of one to four words, frequent ones and rare ones."""
    ranks = [(0, 50), (50, 1000), (1000, 20_000), (20_000, len(words))]
    for _ in range(QUERIES):
        yield [words[chance.randrange(*chance.choice(ranks))] for _ in range(chance.choice((1, 2, 2, 3, 4)))]


def row(*cells):
    print(f"| {' | '.join(cells)} |", flush=True)


def told_times(times):
    times = sorted(times)
    most = times[len(times) * 99 // 100]
    return f"median {median(times):.2f} ms, 99 in 100 below {most:.2f} ms, slowest {times[-1]:.2f} ms"


def measure_birch(program, folder, asked, megabytes):
    """Indexes and answers; gives what was found of each query."""
    with tempfile.NamedTemporaryFile("w", suffix=".txt") as file:
        file.write("".join(" ".join(it) + "\n" for it in asked))
        file.flush()
        words = [program, "--json", "--stats", "-k", str(BEST), "--queries", file.name, "."]
        text, told, _, room = run(words, folder)
    took = int(re.search(r"in (\d+) ms", told)[1]) / 1000
    times = [int(it) / 1000 for it in re.findall(r"in (\d+) us", told)]
    reads = f"{took:.1f} s, {megabytes / took:.1f} MB a second"
    row("birch", reads, f"{room:.0f} MB of memory at most", told_times(times))
    found, these = [], []
    for line in text.splitlines():
        if line.startswith('{"query"'):
            found.append(these)
            these = []
        else:
            these.append(tuple(re.search(r'"line":(\d+),"path":"([^"]*)"', line).group(2, 1)))
    return found


def measure_fts5(texts, places, asked, megabytes, found):
    """The same by SQLite, and how many of its best are among those that were found."""
    store = sqlite3.connect(":memory:")
    store.execute("create virtual table documents using fts5(text, tokenize='unicode61 remove_diacritics 0')")
    start = time.process_time()
    with store:
        store.executemany("insert into documents values (?)", ((text,) for text in texts))
    took = time.process_time() - start
    room = store.execute("pragma page_count").fetchone()[0] * store.execute("pragma page_size").fetchone()[0]
    times, shared, of = [], 0, 0
    for words, mine in zip(asked, found):
        wanted = " OR ".join(f'"{word}"' for word in words)
        start = time.process_time()
        rows = store.execute(
            "select rowid from documents where documents match ? order by rank limit ?", (wanted, BEST)
        ).fetchall()
        times.append((time.process_time() - start) * 1000)
        mine = {(path, starts(places, path, int(line))) for path, line in mine}
        theirs = {places[row - 1] for (row,) in rows}
        shared, of = shared + len(mine & theirs), of + len(theirs)
    told = f"{told_times(times)}; birch lists {100 * shared / max(of, 1):.0f} in 100 of its best {BEST}"
    reads = f"{took:.1f} s, {megabytes / took:.1f} MB a second"
    row("SQLite's FTS5", reads, f"a store of {room / 1e6:.0f} MB, with the texts", told)


def starts(places, path, line, known={}):
    """The first line of the paragraph that has a line."""
    if not known:
        for of, first in places:
            known.setdefault(of, []).append(first)
    return max(first for first in known[path] if first <= line)


def measure_others(folder, words):
    """What looks through all files for one word, and Xapian."""
    word = words[100]
    for name, line in (("grep", ["grep", "-rlw", word, "."]), ("rg", ["rg", "-lw", "-j1", word, "."])):
        if shutil.which(name):
            _, _, took, _ = run(line, folder)
            row(f"`{' '.join(line[:2])}` of one word", "", "", f"{took * 1000:.0f} ms")
    if shutil.which("omindex") and shutil.which("quest"):
        with tempfile.TemporaryDirectory() as room:
            _, _, first, most = run(["omindex", "--db", f"{room}/db", "--url", "/", folder], folder)
            _, _, took, _ = run(["quest", "--db", f"{room}/db", "--msize", str(BEST), word], folder)
        found = f"`quest` of one word: {took * 1000:.0f} ms"
        row("Xapian's `omindex`, of whole files", f"{first:.1f} s", f"{most:.0f} MB of memory at most", found)


def main():
    program = os.path.abspath(sys.argv[1] if len(sys.argv) > 1 else BUILT)
    megabytes = int(sys.argv[2]) if len(sys.argv) > 2 else 100
    chance = random.Random(SEED)
    words = vocabulary(chance)
    texts = list(paragraphs(chance, words, megabytes * 1_000_000))
    asked = list(queries(chance, words))
    with tempfile.TemporaryDirectory() as folder:
        places = write_files(folder, texts)
        row(f"Of {megabytes} MB", "Reads it", "Takes", f"{QUERIES:,} queries, the best {BEST}")
        print("|---|---|---|---|")
        found = measure_birch(program, folder, asked, megabytes)
        measure_fts5(texts, places, asked, megabytes, found)
        measure_others(folder, words)
    return 0


if __name__ == "__main__":
    sys.exit(main())
