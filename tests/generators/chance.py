"""Segments, trees and queries by chance."""

from model import (
    GREATEST,
    All,
    Boolean,
    Boost,
    Constant,
    DisjunctionMax,
    Field,
    Nothing,
    Phrase,
    Prefix,
    Segment,
    Term,
    fits,
)

# each word begins others, so that prefixes have several expansions; the last is in no document
WORDS = ("a", "ab", "aba", "b", "ba", "bab", "c", "ca", "d")
ABSENT = "zz"
BODY = Field("body")
FIELDS = (
    *(BODY,) * 3,
    Field("body", "positions", False),
    Field("body", "freqs"),
    Field("body", "basic"),
    Field("body", "basic", False),
)
BLOCKS = (1, 2, 3, 128)


# ---- segments


def text(random, favourites):
    """The words of a document: some from those that are frequent here."""
    length = random.choice([0, 1, 1, 2, 3, 4, 6, 9, 14])
    if random.random() < 0.004:
        length = random.choice([254, 255, 256, 300])
    return " ".join(random.choice(favourites if random.random() < 0.7 else WORDS) for _ in range(length))


def texts(random, count):
    """The words of so many documents, of which those in a stretch are alike."""
    found = []
    while len(found) < count:
        favourites = random.sample(WORDS, random.randint(1, 4))
        stretch = random.choice([1, 2, 5, 20, 70])
        found += [text(random, favourites) for _ in range(min(stretch, count - len(found)))]
    return found


def deleted(random, count):
    share = random.choice([0, 0, 0.1, 0.5, 1])
    return [doc for doc in range(count) if random.random() < share]


def norms(random):
    """Norms of length ids, which don't fall; the last stands for all ids behind it. The first may be 0."""
    count = random.choice([1, 2, 3, 10, 256])
    return sorted(random.choice([0, 1, random.randrange(300), 4294967295]) for _ in range(count))


def segment(random, count, field=BODY, of_ids=range(256)):
    """A segment of so many documents, and their words."""
    words = texts(random, count)
    by_id = [of_ids[min(number, len(of_ids) - 1)] for number in range(256)]
    made = Segment((field,), [{field.name: it.split()} for it in words], deleted(random, count), by_id)
    return made, words


def size(random):
    return random.choice([0, 1, 2, 3, 5, 8, 13, 20, 40, 63, 64, 65, 100, 128, 150, 300])


# ---- trees


class Trees:
    """Makes trees, or queries, that may stand over a field."""

    def __init__(self, random, field=BODY, are_queries=False):
        self.random, self.field, self.are_queries = random, field, are_queries

    def term(self):
        word = ABSENT if self.random.random() < 0.06 else self.random.choice(WORDS)
        return (self.field.name, word)

    def points(self):
        """What a leaf weighs, or a constant scores."""
        return self.random.choice([0, 1, 2, 7, 20, 100, 500, 1000, 1000, 123456789, 4294967296 * 3])

    def weight(self):
        return None if self.are_queries else self.points()

    def offsets(self, count):
        if self.random.random() < 0.6:
            return list(range(count))
        return [self.random.choice([0, 1, 1, 2, 3, 4, 9]) for _ in range(count)]

    def phrase_terms(self, count):
        """Terms with offsets; those of a query stand in the order of their offsets."""
        terms = [(offset, self.term()) for offset in self.offsets(count)]
        return tuple(sorted(terms, key=lambda it: it[0])) if self.are_queries else tuple(terms)

    def leaf(self):
        chance = self.random.random()
        if chance < 0.08:
            return self.random.choice([All(), All(), Nothing()])
        if chance < 0.55 or (self.field.keeps != "positions" and chance < 0.9):
            return Term(self.term(), self.weight(), self.random.random() < 0.8)
        if chance < 0.78 and self.field.keeps == "positions":
            slop = self.random.choice([0, 0, 1, 2, 3, 7, 4294967295])
            return Phrase(self.phrase_terms(self.random.choice([2, 2, 3, 4])), slop, self.weight())
        return self.prefix()

    def prefix(self):
        count = self.random.choice([1, 2, 2, 3, 4]) if self.field.keeps == "positions" else 1
        *full, last = self.phrase_terms(count)
        most = self.random.choice([0, 1, 2, 3, 50])
        return Prefix(tuple(full), last, most, self.weight() if full else None)

    def clauses(self, depth):
        signs = self.random.choice(["+", "?", "??", "+?", "+?-", "?-", "-"])
        count = self.random.choice([0, 1, 2, 2, 3, 3, 4, 6])
        return tuple((self.random.choice(signs), self.tree(depth)) for _ in range(count))

    def boolean(self, depth):
        clauses = self.clauses(depth)
        minimum = self.random.choice([0, 0, 0, 1, 1, 2, 3, len(clauses), 4294967295])
        combiner = self.random.choice(["sum", "sum", "nothing", "max 0", "max 500", "max 700", "max 1000"])
        return Boolean(clauses, minimum, "sum" if self.are_queries else combiner)

    def tree(self, depth):
        chance = self.random.random()
        if depth == 0 or chance < 0.12:
            return self.leaf()
        if chance < 0.22:
            return Boost(self.random.choice([0, 1, 2, 3, 1000]), self.tree(depth - 1))
        if chance < 0.3:
            return Constant(self.points(), self.tree(depth - 1))
        if chance < 0.45 and self.are_queries:
            inside = tuple(self.tree(depth - 1) for _ in range(self.random.randint(0, 3)))
            return DisjunctionMax(self.random.choice([0, 300, 500, 1000]), inside)
        return self.boolean(depth - 1)

    def fitting(self, depth, boost=1, tree_of=lambda tree: tree):
        """A tree, or a query, whose scores fit."""
        while True:
            made = self.tree(depth)
            if fits(tree_of(made), boost):
                return made


class GreatTrees(Trees):
    """The same, of which many have bounds or boosts near the greatest score."""

    def points(self):
        near = [GREATEST // part + more for part in (1, 2, 3, 7) for more in (-1, 0, 1)]
        return self.random.choice([0, 1, 2, 1000, *(it for it in near if it <= GREATEST)])

    def tree(self, depth):
        if depth > 0 and self.random.random() < 0.2:
            return Boost(self.points(), self.tree(depth - 1))
        return super().tree(depth)


def boost(random):
    return random.choice([0, 1, 1, 2, 5, 1000, GREATEST])
