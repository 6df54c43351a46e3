#!/usr/bin/env python3
"""What the search page of docs/SERVE.md costs over a folder: prints rows of a table.

    make -s -C bindings/c
    python3 bench/measure_serve.py FOLDER..

Times are of a processor, but for those of the library's searches, which go by the clock. Memory is that of the whole
process, read behind the start. The queries are 300 of one to four words, drawn from the texts by a seed.
"""

import os
import random
import subprocess
import sys
import time
from urllib.parse import quote

ROOT = os.path.realpath(os.path.join(os.path.dirname(os.path.abspath(__file__)), ".."))
HEAD = "| Folder | Texts | MB | Passages | Start, s | Memory, MB | A look, ms | A search, ms | A page, ms |"
QUERIES, MOST_BYTES = 300, 16 << 20


def middle_and_most(times):
    """The median and the 99th percentile of seconds, in milliseconds."""
    times = sorted(times)
    return " / ".join(f"{times[int(len(times) * part)] * 1000:.1f}" for part in (0.5, 0.99))


def memory():
    """The megabytes that this process has."""
    with open("/proc/self/status", encoding="ascii") as it:
        return next(int(line.split()[1]) for line in it if line.startswith("VmRSS")) / 1024


def queries_of(texts):
    """Queries of words of the texts."""
    words = [word for text in texts for word in text.split() if word.isalpha() and word.islower()]
    chance = random.Random(1)
    return [" ".join(chance.choices(words, k=chance.choice([1, 2, 3, 4]))) for _ in range(QUERIES)]


def measure(folder):
    """A row of the table."""
    from birchagain.serve.collection import Collection
    from birchagain.serve.query import read_query
    from birchagain.serve.site import Site

    begun = time.process_time()
    collection = Collection(folder, MOST_BYTES)
    start, room = time.process_time() - begun, memory()
    files = collection._files.texts()
    size = sum(len(it.text.encode()) for file in files for it in file.passages) / 1e6
    begun = time.process_time()
    collection._look()
    look = time.process_time() - begun
    collection._next_look = float("inf")
    site, searches, pages = Site(collection, "measured"), [], []
    for query in queries_of(it.text for file in files for it in file.passages[:2]):
        searches.append(collection.search(read_query(query), 1, 10, 100).seconds)
        begun = time.process_time()
        site.respond(f"/?q={quote(query)}")
        pages.append(time.process_time() - begun)
    row = [f"`{folder}`", f"{len(files):,}", f"{size:.1f}", f"{collection.summary().passages:,}", f"{start:.1f}"]
    return [*row, f"{room:.0f}", f"{look * 1000:.0f}", middle_and_most(searches), middle_and_most(pages)]


def main(folders):
    if folders[:1] == ["--row"]:
        print("| " + " | ".join(measure(folders[1])) + " |")
        return
    print(HEAD + "\n|---|---|---|---|---|---|---|---|---|", flush=True)
    library = os.environ.get("BIRCHAGAIN_LIBRARY", f"{ROOT}/bindings/c/out/libbirchagain.so")
    environment = {**os.environ, "BIRCHAGAIN_LIBRARY": library, "PYTHONPATH": f"{ROOT}/bindings/python"}
    for it in folders:
        # each in a process of its own, so that memory is that of one folder
        subprocess.run([sys.executable, __file__, "--row", it], env=environment, check=True)


if __name__ == "__main__":
    main(sys.argv[1:])
