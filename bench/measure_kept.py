#!/usr/bin/env python3
"""Measures second searches and changed files on real text, by `birch` and by what a person would use instead.

    python3 bench/measure_kept.py [PROGRAM]

The text is the kernel's documentation and two dictionaries, GCIDE and FOLDOC, as Debian has them (`apt-get install
linux-doc dict-gcide dict-foldoc ripgrep xapian-omega xapian-tools`). Of each engine it prints, in seconds of a processor: what a
first index takes, a second search of a few words in a new process, a search behind a change of one file of 100 kB, and
how much is kept. SQLite's FTS5 is Python's own `sqlite3`, without what Python itself takes to start. The program is the
one that `rt run` leaves in crates/birch/out.

Then ten queries are asked of `birch` and of FTS5's bm25, and the first results of both are printed, to be judged.
"""

import glob
import gzip
import os
import re
import shutil
import sqlite3
import sys
import tempfile
import textwrap
import time

sys.dont_write_bytecode = True

from measure_birch import BUILT, run

KERNEL = "/usr/share/doc/linux-doc-*/Documentation/**/*.rst.gz"
DICTIONARIES = "/usr/share/dictd/*.dict.dz"
FILE_BYTES = 100_000
# of one, two and three words, frequent and rare ones, phrases and beginnings
SEARCHES = ["scheduler", "memory barrier", '"page cache"', "spin_lock", "+interrupt +handler -timer", "deadlo*"]
# of each query what it asks FTS5 for
JUDGED = {
    "spin_lock": '"spin_lock"',
    "printk.c": '"printk.c"',
    "list.sort": '"list.sort"',
    "copy-on-write": '"copy-on-write"',
    "cafe": "cafe",
    "page cache writeback": "page OR cache OR writeback",
    '"memory barrier"': '"memory barrier"',
    "deadlock detection": "deadlock OR detection",
    "tail recursion": "tail OR recursion",
    "3.14": '"3.14"',
}


def write_texts(folder):
    """The files, with how many bytes they have."""
    for path in sorted(glob.glob(KERNEL, recursive=True)):
        name = path.partition("/Documentation/")[2].removesuffix(".gz")
        os.makedirs(os.path.dirname(f"{folder}/kernel/{name}"), exist_ok=True)
        with gzip.open(path) as it, open(f"{folder}/kernel/{name}", "wb") as out:
            shutil.copyfileobj(it, out)
    for path in sorted(glob.glob(DICTIONARIES)):
        name = os.path.basename(path).split(".")[0]
        os.mkdir(f"{folder}/{name}")
        with gzip.open(path) as it:
            paragraphs = it.read().decode(errors="replace").split("\n\n")
        write_parts(f"{folder}/{name}", paragraphs)
    return sum(os.path.getsize(it) for it in glob.glob(f"{folder}/**", recursive=True) if os.path.isfile(it))


def write_parts(folder, paragraphs):
    """Files of about so many bytes."""
    part, room, number = [], 0, 0
    for paragraph in [*paragraphs, None]:
        if paragraph is None or room > FILE_BYTES:
            with open(f"{folder}/{number:04}.txt", "w", encoding="utf-8") as it:
                it.write("\n\n".join(part) + "\n")
            part, room, number = [], 0, number + 1
        if paragraph is not None:
            part.append(paragraph)
            room += len(paragraph)


def change(folder):
    """Adds a paragraph to a file of about 100 kB, and gives its path."""
    path = f"{folder}/gcide/0100.txt"
    with open(path, "a", encoding="utf-8") as it:
        it.write("\nA paragraph that was added.\n")
    return path


def row(name, first, kept, searches, changed):
    mean = f"{1000 * sum(searches) / len(searches):.0f}" if searches else ""
    cells = [name, *("" if it is None else f"{it:.1f}" for it in (first, kept)), mean, "" if changed is None else f"{1000 * changed:.0f}"]
    print("| " + " | ".join(cells) + " |", flush=True)


def size_of(folder):
    return sum(os.path.getsize(it) for it in glob.glob(f"{folder}/**", recursive=True) if os.path.isfile(it)) / 1e6


def measure_birch(program, folder, room):
    kept = ["--index-dir", f"{room}/birch"]
    _, _, alone, _ = run([program, "--no-index", "scheduler", "."], folder)
    row("birch without an index", None, None, [alone], None)
    # files that stand for two seconds are believed
    time.sleep(2.5)
    _, _, first, _ = run([program, "--index", *kept, "."], folder)
    searches = [run([program, *kept, "--", query, "."], folder)[2] for query in SEARCHES]
    change(folder)
    _, _, changed, _ = run([program, *kept, "scheduler", "."], folder)
    row("birch with one", first, size_of(f"{room}/birch"), searches, changed)


def paragraphs_of(path):
    with open(path, encoding="utf-8", errors="replace") as it:
        return [part for part in re.split(r"\n\s*\n", it.read()) if part.strip()]


def fts5_of(query):
    """What a query of birch is to FTS5."""
    words = query.replace("deadlo*", "deadlo *").replace("+interrupt +handler -timer", "interrupt AND handler NOT timer")
    return '"spin_lock"' if words == "spin_lock" else words.replace("memory barrier", "memory OR barrier")


def measure_fts5(folder, room):
    """A table of paragraphs, and one of files with their times."""
    start = time.process_time()
    store = sqlite3.connect(f"{room}/fts5.db")
    store.execute("create virtual table texts using fts5(path unindexed, text)")
    with store:
        for path in sorted(it for it in glob.glob(f"{folder}/**", recursive=True) if os.path.isfile(it)):
            store.executemany("insert into texts values (?, ?)", ((path, part) for part in paragraphs_of(path)))
    first = time.process_time() - start
    store.close()
    searches = []
    for query in SEARCHES:
        start = time.process_time()
        opened = sqlite3.connect(f"{room}/fts5.db")
        opened.execute("select path from texts where texts match ? order by rank limit 10", (fts5_of(query),)).fetchall()
        opened.close()
        searches.append(time.process_time() - start)
    path = change(folder)
    start = time.process_time()
    store = sqlite3.connect(f"{room}/fts5.db")
    with store:
        store.execute("delete from texts where path = ?", (path,))
        store.executemany("insert into texts values (?, ?)", ((path, part) for part in paragraphs_of(path)))
    changed = time.process_time() - start
    row("SQLite's FTS5", first, os.path.getsize(f"{room}/fts5.db") / 1e6, searches, changed)
    return store


def measure_xapian(folder, room):
    if not shutil.which("omindex"):
        print("| Xapian: not on this machine | | | | |")
        return
    made = ["omindex", "--db", f"{room}/xapian", "--mime-type", "rst:text/plain", "--url", "/", folder]
    _, _, first, _ = run(made, folder)
    words = [re.sub(r"[^\w\s*]", " ", it).replace("-timer", "") for it in SEARCHES]
    searches = [run(["quest", "--db", f"{room}/xapian", "--msize", "10", it], folder)[2] for it in words] if shutil.which("quest") else []
    change(folder)
    _, _, changed, _ = run(made, folder)
    row("Xapian's omindex, of whole files", first, size_of(f"{room}/xapian"), searches, changed)


def measure_rg(folder):
    if shutil.which("rg"):
        row("ripgrep, of one word", None, None, [run(["rg", "-lw", "-j1", "scheduler", "."], folder)[2]], None)


def judge(program, folder, room, store):
    """The first results of ten queries, side by side."""
    for query, asked in JUDGED.items():
        text, *_ = run([program, "--index-dir", f"{room}/birch", "--json", "-k", "3", "--", query, "."], folder)
        mine = re.findall(r'"text":"((?:[^"\\]|\\.)*)"', text)
        theirs = store.execute("select text from texts where texts match ? order by rank limit 3", (asked,)).fetchall()
        print(f"\n== {query}")
        for name, found in (("birch", mine), ("FTS5", [it for (it,) in theirs])):
            for number, text_of in enumerate(found, 1):
                shown = " ".join(text_of.replace("\\n", " ").split())
                print(f"  {name} {number}: {textwrap.shorten(shown, 150)}")


def main():
    program = os.path.abspath(sys.argv[1] if len(sys.argv) > 1 else BUILT)
    with tempfile.TemporaryDirectory() as room:
        folder = f"{room}/texts"
        os.mkdir(folder)
        size = write_texts(folder)
        print(f"{size / 1e6:.0f} MB of real text; seconds of a processor, and milliseconds\n")
        print("| | first index, s | kept, MB | a search, ms | behind a change, ms |\n|---|---|---|---|---|")
        measure_birch(program, folder, room)
        store = measure_fts5(folder, room)
        measure_xapian(folder, room)
        measure_rg(folder)
        judge(program, folder, room, store)
    return 0


if __name__ == "__main__":
    sys.exit(main())
