#!/usr/bin/env python3
"""The documents of the bench: made-up words that are as frequent as words are (Zipf), or the paragraphs of GCIDE, the
dictionary of Debian's package dict-gcide.

    python3 bench/corpus.py (DOCUMENTS | gcide) FILE [--seed S] [--by-length]

writes them to the file, a document a line, in mixed order or by their lengths, the shortest first. The first documents
are the same for every number of them.
"""

import argparse
import gzip
import hashlib
import itertools
import os
import random
import re
from collections import Counter

# how many made-up words there are, how fast they grow rare, and how many of them a document has
VOCABULARY, EXPONENT, LENGTHS = 200_000, 1.07, (20, 120)
GCIDE = "/usr/share/dictd/gcide.dict.dz"
# a paragraph with fewer words is no document
FEWEST = 8
# phrases are taken from so many documents
SAMPLE = 2000


def vocabulary(chance):
    """Words of two to four syllables."""
    words = {}
    while len(words) < VOCABULARY:
        syllables = chance.choices((2, 3, 4), (1, 30, 69))[0]
        words["".join(chance.choice("bcdfghjklmnpqrstvwxz") + chance.choice("aeiou") for _ in range(syllables))] = None
    return list(words)


def made_up(documents, lengths=LENGTHS, seed=1):
    """The words of each document."""
    chance = random.Random(seed)
    words = vocabulary(chance)
    up_to = list(itertools.accumulate((place + 1) ** -EXPONENT for place in range(VOCABULARY)))
    for _ in range(documents):
        yield chance.choices(words, cum_weights=up_to, k=chance.randint(*lengths))


def gcide():
    """The words of each paragraph, in lower case."""
    with gzip.open(GCIDE, "rt", encoding="utf-8", errors="replace") as it:
        for paragraph in re.split(r"\n\s*\n", it.read()):
            words = re.findall(r"[a-z0-9]+", paragraph.lower(), re.ASCII)
            if len(words) >= FEWEST:
                yield words


class Corpus:
    """Documents that stand in a file, and their words.

    `ranked` has each word with how many documents hold it, the most frequent first; `sample` some documents as words.
    """

    def __init__(self, name, path):
        self.name, self.path = name, path
        with open(f"{path}.words", encoding="utf-8") as it:
            self.ranked = [(word, int(held)) for word, held in map(str.split, it)]
        self.postings = sum(held for _, held in self.ranked)
        with open(path, encoding="utf-8") as it:
            self.sample = [line.split() for line in itertools.islice(it, SAMPLE)]
        with open(path, "rb") as it:
            self.documents = sum(1 for _ in it)

    def by_length(self):
        """Where the same documents stand by their lengths, the shortest first."""
        path = f"{self.path}.by-length"
        if not os.path.exists(path):
            with open(self.path, encoding="utf-8") as it:
                lines = sorted(it, key=lambda line: line.count(" "))
            _write(path, lines)
        return path


def corpus(which, room, seed=1):
    """The corpus of so many made-up documents, or of `gcide`, which is kept in this folder."""
    os.makedirs(room, exist_ok=True)
    with open(__file__, "rb") as it:
        made_by = hashlib.sha256(it.read()).hexdigest()[:8]
    name = which if which == "gcide" else f"{which}-{seed}"
    path = f"{room}/{name}-{made_by}"
    if not os.path.exists(f"{path}.words"):
        held = Counter()
        _write(path, _lines(gcide() if which == "gcide" else made_up(int(which), seed=seed), held))
        ranked = sorted(held.items(), key=lambda it: (-it[1], it[0]))
        _write(f"{path}.words", (f"{word} {count}\n" for word, count in ranked))
    return Corpus("GCIDE" if which == "gcide" else "made-up words", path)


def _lines(documents, held):
    for words in documents:
        held.update({*words})
        yield " ".join(words) + "\n"


def _write(path, lines):
    """A file that is there only once all of it is."""
    with open(f"{path}.new", "w", encoding="utf-8") as it:
        it.writelines(lines)
    os.replace(f"{path}.new", path)


def main():
    asked = argparse.ArgumentParser(description=__doc__, formatter_class=argparse.RawDescriptionHelpFormatter)
    asked.add_argument("which")
    asked.add_argument("file")
    asked.add_argument("--seed", type=int, default=1)
    asked.add_argument("--by-length", action="store_true")
    asked = asked.parse_args()
    documents = gcide() if asked.which == "gcide" else made_up(int(asked.which), seed=asked.seed)
    lines = _lines(documents, Counter())
    _write(asked.file, sorted(lines, key=lambda line: line.count(" ")) if asked.by_length else lines)


if __name__ == "__main__":
    main()
