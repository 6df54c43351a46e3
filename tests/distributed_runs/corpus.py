"""Documents and queries by chance: the same ones wherever they are made.

Words are as unevenly frequent as those of a language. A document hangs on its number alone.
"""

import itertools
import os
import random
import time

from birchagain import Index

WORDS = 3000
EXPONENT = 1.07
LONGEST = 40


def vocabulary():
    """Made-up words, frequent ones first; many begin alike."""
    chance = random.Random("words")
    found = {}
    while len(found) < WORDS:
        length = chance.choice([2, 2, 3, 4])
        found["".join(chance.choice("bdfgklmnprst") + chance.choice("aeiou") for _ in range(length))] = None
    return [*found]


RANKED = vocabulary()
_WEIGHTS = [*itertools.accumulate((rank + 1) ** -EXPONENT for rank in range(WORDS))]


def document(number):
    chance = random.Random(number)
    return chance.choices(RANKED, cum_weights=_WEIGHTS, k=chance.randrange(LONGEST))


def texts(start, end):
    """The source of a partition."""
    for number in range(start, end):
        yield " ".join(document(number))


def late_texts(start, end, seconds):
    """A source that takes its time."""
    time.sleep(seconds)
    yield from texts(start, end)


def counted_texts(start, end, path):
    """A source that leaves a letter in a file each time that it is called."""
    with open(path, "a", encoding="utf-8") as it:
        it.write("x")
    yield from texts(start, end)


def lines_of(path):
    with open(path, encoding="utf-8") as it:
        yield from it


def failing_texts():
    yield "a"
    raise ValueError("the shelf is empty")


def ending_texts():
    """Ends the process that calls it."""
    os._exit(3)


def borders(documents, partitions):
    """Where each partition begins and ends."""
    return [(at * documents // partitions, (at + 1) * documents // partitions) for at in range(partitions)]


def one_index(parts):
    """One index whose segments are these partitions."""
    index = Index()
    for start, end in parts:
        for text in texts(start, end):
            index.add(text)
        index.end_segment()
    return index


class Queries:
    """Queries by chance, in the language of scripts: each call gives one of some class."""

    def __init__(self, seed, documents):
        self.chance, self.documents = random.Random(f"queries/{seed}"), documents
        self.frequent, self.middle, self.rare = RANKED[2:60], RANKED[60:600], RANKED[600:]

    def some(self, *pools):
        return [self.chance.choice(it) for it in pools]

    def terms(self, words):
        return [f"term {it}" for it in words]

    def word(self):
        return self.terms(self.some(self.chance.choice([self.frequent, self.middle, self.rare])))[0]

    def signed(self):
        """A `bool` with signs."""
        signs = self.chance.choice(["++", "+++", "??", "?????", "+??-", "++?-", "?-"])
        words = self.some(*(self.chance.choice([self.frequent, self.frequent, self.middle]) for _ in signs))
        return f"bool 0 {len(signs)} " + " ".join(map(" ".join, zip(signs, self.terms(words))))

    def minimum(self):
        words = self.some(self.frequent, self.frequent, self.middle, self.middle)
        return "bool 2 4 " + " ".join(f"? {it}" for it in self.terms(words))

    def phrase(self):
        """Words that stand so in a document, or with a gap."""
        while True:
            words = document(self.chance.randrange(self.documents))
            steps, slop = self.chance.choice([((0, 1), 0), ((0, 1, 2), 2), ((0, 1, 3), 2), ((0, 2), 1)])
            at = self.chance.randrange(LONGEST)
            if at + steps[-1] < len(words):
                return f"phrase {slop} {len(steps)} " + " ".join(words[at + it] for it in steps)

    def prefix(self):
        """One whose greatest number of words is above what there are."""
        return f"prefix {WORDS} 1 {self.chance.choice(RANKED)[:3]}"

    def full_prefix(self):
        """One that takes the first few words of each segment."""
        return f"prefix {self.chance.choice([1, 2, 5])} 1 {self.chance.choice(RANKED)[:2]}"

    def phrase_prefix(self):
        words = self.phrase().split(" ")[3:]
        return f"prefix {WORDS} {len(words)} " + " ".join([*words[:-1], words[-1][:2]])

    def greatest(self):
        words = self.some(self.frequent, self.middle, self.middle)
        return f"max {self.chance.choice([0, 300, 1000])} 3 " + " ".join(self.terms(words))

    def scaled(self):
        return self.chance.choice(["boost 3", "const 7"]) + " " + self.word()

    def nested(self):
        """Queries in one another."""
        inner = [self.query(self.LEAVES) for _ in range(3)]
        signs = self.chance.choice(["++-", "???", "+??", "?+-"])
        return "bool 0 3 " + " ".join(map(" ".join, zip(signs, inner)))

    def query(self, classes):
        return getattr(self, self.chance.choice(classes))()

    LEAVES = ("word", "signed", "phrase", "prefix", "greatest", "scaled")
    CLASSES = (*LEAVES, "minimum", "full_prefix", "phrase_prefix", "nested")

    def take(self, count):
        """So many, of each class about as many."""
        return [getattr(self, self.CLASSES[at % len(self.CLASSES)])() for at in range(count)]

    def typed(self, count):
        """So many as people type them."""
        found = []
        for _ in range(count):
            a, b, c = self.some(self.frequent, self.middle, self.middle)
            forms = [a, f"{a} {b}", f"+{a} +{b} -{c}", f"{b[:3]}*", f"{a}^3 {b}", f'"{a} {b}"~3 {c}']
            forms.append(f"({a} OR {b}) AND NOT {c}")
            found.append(self.chance.choice(forms))
        return found
