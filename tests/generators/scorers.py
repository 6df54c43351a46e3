"""What combines scorers, and what is left of one: each is a map from documents to scores."""

from dataclasses import dataclass

from model import END, GREATEST, SLICE, combined


@dataclass(frozen=True)
class Made:
    """A scorer: its words, what it lists, and the bound that it says no score passes, or one that is greater."""

    words: str
    listed: dict
    most: int


def at_least(minimum, combiner, members):
    """What at least so many of the members have."""
    found = {}
    for doc in sorted(set().union(*members)):
        scores = [it[doc] for it in members if doc in it]
        if len(scores) >= minimum:
            found[doc] = combined(combiner, scores)
    return found


def intersection(members):
    """What all of the members have, with the sum of their scores, which is held at the greatest score."""
    everywhere = at_least(len(members), "sum", members)
    return {doc: min(points, GREATEST) for doc, points in everywhere.items()}


def exclude(member, others):
    return {doc: points for doc, points in member.items() if not any(doc in it for it in others)}


def optional(combiner, required, other):
    """What the first has; where the other has it too, the combiner makes one score of both."""
    both = {doc: [points, other[doc]] if doc in other else [points] for doc, points in required.items()}
    return {doc: combined(combiner, scores) for doc, scores in both.items()}


def boosted(by, member):
    return {doc: by * points for doc, points in member.items()}


def constant(points, member):
    return {doc: points for doc in member}


class Left:
    """What is left of a scorer, and what each call answers of it: the law of a cursor, over a plain list."""

    def __init__(self, listed):
        self.pairs = sorted(listed.items())
        self.at = 0

    def doc(self):
        return self.pairs[self.at][0] if self.at < len(self.pairs) else END

    def score(self):
        return self.pairs[self.at][1]

    def left(self):
        return self.pairs[self.at :]

    def advance(self):
        self.at = min(self.at + 1, len(self.pairs))
        return self.doc()

    def seek(self, target):
        while self.doc() < target:
            self.at += 1
        return self.doc()

    def fill(self):
        taken = [doc for doc, _ in self.left()[:SLICE]]
        self.at += len(taken)
        return taken

    def fill_below(self, bound):
        taken = [doc for doc, _ in self.left()[:SLICE] if doc < bound]
        self.at += len(taken)
        return taken

    def take(self):
        """All that is left, after which nothing is."""
        taken = self.left()
        self.at = len(self.pairs)
        return taken
