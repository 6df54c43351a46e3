"""What is asked: classes of queries alike, in the language of docs/SCRIPT.md, drawn from a corpus by how frequent its
words are."""

import random
from typing import Callable, NamedTuple, Tuple

BEST, ABOVE = "top 10", "prune 300"
LISTED = ("docs", "scores", "count")
# what each of these asks for, in the order of the tables
ASKED = {
    BEST: "the best ten",
    ABOVE: "those above a threshold that rises",
    "docs": "all documents",
    "scores": "all documents with their scores",
    "count": "how many documents",
}
# the tie breaker, in thousandths, and how many words begin with a prefix at most
TIE, EXPANSIONS = 300, 50
# how many words the largest queries have
MANY = 10_000


class Draw:
    """Draws words and phrases of a corpus: frequent, middling and rare ones."""

    def __init__(self, corpus, name):
        self.chance = random.Random(f"{name}/{corpus.name}")
        self.words = [word for word, _ in corpus.ranked if not word.isdigit()]
        self.sample = corpus.sample
        size = len(self.words)
        first, second = min(220, max(8, size // 40)), min(2000, size // 4)
        self.ranges = {"frequent": (2, first), "middling": (first, second), "rare": (second, min(20_000, size))}
        self.rank = {word: rank for rank, word in enumerate(self.words[:3000])}

    def draw(self, *kinds):
        """Different words, one of each kind."""
        while True:
            found = [self.words[self.chance.randrange(*self.ranges[kind])] for kind in kinds]
            if len({*found}) == len(found):
                return found

    def spread(self, count):
        """So many words of all kinds: even by the logarithm of their ranks."""
        low, high = 10, min(20_000, len(self.words))
        found = {}
        while len(found) < count:
            found[self.words[int(low * (high / low) ** self.chance.random())]] = None
        return list(found)

    def rarest(self, count):
        """Words that hardly any document has, as many as there are up to this count, in mixed order."""
        found = self.words[-count:]
        self.chance.shuffle(found)
        return found

    def in_document(self, steps):
        """Words that stand so many places apart in a document, none of them rare."""
        while True:
            document = self.chance.choice(self.sample)
            at = self.chance.randrange(len(document))
            if at + steps[-1] >= len(document):
                continue
            found = [document[at + step] for step in steps]
            if len({*found}) == len(found) and all(word in self.rank for word in found):
                return found

    def prefix(self):
        """The first letters of a word, with which others begin too, but not too many."""
        while True:
            begun = self.draw("frequent")[0][: self.chance.choice((3, 4))]
            if 2 <= sum(word.startswith(begun) for word in self.words) <= EXPANSIONS:
                return begun


def joined(signs, words, least=0):
    """The words, each behind its sign."""
    clauses = " ".join(f"{sign} term {word}" for sign, word in zip(signs, words))
    return f"bool {least} {len(words)} {clauses}"


def greatest(words, tie=0):
    return f"max {tie} {len(words)} " + " ".join(f"term {word}" for word in words)


def phrase(words, slop=0):
    return f"phrase {slop} {len(words)} {' '.join(words)}"


def two_of(draw, turn):
    return draw.draw("frequent", "middling") if turn % 2 else draw.draw("frequent", "frequent")


def few_of(draw, turn):
    return draw.draw("frequent", "middling", "middling") if turn % 2 else draw.draw("frequent", "frequent")


def mixed(draw, turn):
    if turn % 2:
        return joined("+??-", draw.draw("frequent", "middling", "frequent", "middling"))
    return joined("++?-", draw.draw("frequent", "frequent", "middling", "middling"))


def near(draw, turn):
    return phrase(draw.in_document([(0, 1, 2), (0, 1, 3), (0, 2, 3)][turn % 3]), 2)


class Class(NamedTuple):
    """Queries alike: what they are in words, how many are drawn, how one is, and what is asked of them."""

    text: str
    count: int
    query: Callable[[Draw, int], str]
    verbs: Tuple[str, ...]


def of_words(*kinds, signs):
    """Queries of so many words of these kinds, behind these signs."""
    return lambda draw, turn: joined(signs, draw.draw(*kinds))


def spread_over(count):
    return lambda draw, turn: joined("?" * count, draw.spread(count))


def many(least):
    return lambda draw, turn: joined("?" * MANY, draw.rarest(MANY), least)


ALL = (BEST, *LISTED)
PRUNED = (BEST, ABOVE, *LISTED)
FIVE = ("frequent", "frequent", "middling", "middling", "rare")
CLASSES = {
    "any-2": Class("any of two words", 20, lambda draw, turn: joined("??", two_of(draw, turn)), PRUNED),
    "any-5": Class("any of five words", 20, of_words(*FIVE, signs="?????"), PRUNED),
    "any-20": Class("any of 20 words", 8, spread_over(20), ALL),
    "any-300": Class("any of 300 words", 3, spread_over(300), ALL),
    "one-frequent": Class("a frequent word", 20, lambda draw, turn: f"term {draw.draw('frequent')[0]}", PRUNED),
    "one-rare": Class("a rare word", 20, lambda draw, turn: f"term {draw.draw('rare')[0]}", ALL),
    "all-2": Class("two frequent words, both", 20, of_words("frequent", "frequent", signs="++"), PRUNED),
    "all-3": Class("three words, all", 20, of_words("frequent", "frequent", "middling", signs="+++"), ALL),
    "all-rare": Class("a frequent and a rare word, both", 20, of_words("frequent", "rare", signs="++"), ALL),
    "phrase-2": Class("a phrase of two words", 20, lambda draw, turn: phrase(draw.in_document((0, 1))), ALL),
    "phrase-3": Class("three words with slop 2", 20, near, ALL),
    "mixed": Class("Must, Should and MustNot", 20, mixed, ALL),
    "greatest": Class("the greatest of several", 20, lambda draw, turn: greatest(few_of(draw, turn)), PRUNED),
    "tie": Class("the same with a tie breaker", 20, lambda draw, turn: greatest(few_of(draw, turn), TIE), PRUNED),
    "prefix": Class("a prefix", 20, lambda draw, turn: f"prefix {EXPANSIONS} 1 {draw.prefix()}", LISTED),
    "many-any": Class("any of 10,000 rare words", 1, many(0), LISTED),
    "many-least": Class("at least two of 10,000", 1, many(2), LISTED),
    "many-greatest": Class("the greatest of 10,000", 1, lambda draw, turn: greatest(draw.rarest(MANY)), LISTED),
}


def queries(name, corpus):
    """The queries of a class."""
    draw, of = Draw(corpus, name), CLASSES[name]
    return [of.query(draw, turn) for turn in range(of.count)]
