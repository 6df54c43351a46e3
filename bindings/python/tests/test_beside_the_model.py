"""Indexes by chance, beside the plain model of the repository's tests."""

import os
import random
import sys

import pytest
from birchagain import Index, NoDocumentError, QueryError, WordError

sys.path.append(os.path.join(os.path.dirname(os.path.abspath(__file__)), "..", "..", "..", "tests"))

import model  # noqa: E402
import model.scripts as script_model  # noqa: E402

SEEDS = 1000
LETTERS = "ab\u00e9\u6f22\U0001f332\t\n\0"
# what parts the words of a query, beside a space
BREAKS = "\t\n"


def words_of(text):
    return [it for it in text.split(" ") if it]


def places_of(words):
    """By word where it stands."""
    found = {}
    for place, word in enumerate(words):
        found.setdefault(word, []).append(place)
    return found


class Beside:
    """An index, and a script of the plain model that has the same documents and weights."""

    def __init__(self, chance, index):
        self.chance, self.index, self.script = chance, index, script_model.Script()
        self.words = [*{"".join(chance.choices(LETTERS, k=chance.choice([1, 1, 2, 20]))) for _ in range(chance.choice([2, 5, 30]))}]
        self.asked = [it for it in self.words if not any(letter in it for letter in BREAKS)] or ["none"]

    def documents(self):
        return [words for segment in self.script.segments for words in segment]

    def add(self):
        words = self.chance.choices(self.words, k=self.chance.choice([0, 1, 3, 20, 300]))
        form = self.chance.choice(["words", "placed", "text"])
        if form == "words":
            self.index.add(words)
        elif form == "placed":
            self.index.add_placed(places_of(words))
        else:
            between = " " * self.chance.choice([1, 1, 3])
            text = between * self.chance.choice([0, 1]) + between.join(words)
            assert words_of(text) == words
            self.index.add(text)
        self.script.segments[-1].append(words)

    def refuse(self):
        for bad in (["a b"], [*self.words, ""]):
            with pytest.raises(WordError):
                self.index.add(bad)
        for bad in ({"a": [0], "": [1]}, {**places_of(self.words), "a": [7, 7]}):
            with pytest.raises(WordError):
                self.index.add_placed(bad)
        with pytest.raises(NoDocumentError):
            self.index.delete(len(self.documents()))

    def delete(self):
        if self.documents():
            document = self.chance.randrange(len(self.documents()))
            self.index.delete(document)
            self.script.deleted.add(document)

    def end_segment(self):
        self.index.end_segment()
        self.script.segments.append([])

    def weigh(self):
        word, weight = self.chance.choice(self.words), self.chance.choice([0, 1, 500, 3000, (1 << 63) - 1])
        self.index.weigh({word: weight})
        self.script.weights["body", word] = weight

    def count_words(self):
        segment = model.Segment([model.Field("body")], [{"body": words} for words in self.documents()])
        asked = self.chance.sample(self.words, self.chance.randrange(len(self.words) + 1)) + ["none"]
        held = [sum(it.holds(("body", word)) for it in segment.documents) for word in asked]
        assert self.index.frequencies(asked) == held
        assert len(self.index) == len(self.documents())

    def query(self, depth):
        """The text of a query, now and then of one that is refused."""
        chance = self.chance
        words = chance.choices([*self.asked, "none"], k=chance.choice([1, 2, 2, 3]))
        leaf = chance.choice([
            f"term {words[0]}",
            f"term {words[0]}",
            f"phrase {chance.choice([0, 1])} {len(words)} {' '.join(words)}",
            f"prefix {chance.choice([0, 1, 50])} {len(words)} {' '.join([*words[1:], words[0][:1]])}",
            chance.choice(["all", "none", "oops"]),
        ])
        if not depth:
            return leaf
        inner = [self.query(depth - 1) for _ in range(chance.choice([1, 2, 3]))]
        return chance.choice([
            leaf,
            f"bool {chance.choice([0, 0, 1])} {len(inner)} " + " ".join(f"{chance.choice('??+-')} {it}" for it in inner),
            f"max {chance.choice([0, 300, 1001])} {len(inner)} {' '.join(inner)}",
            f"boost {chance.choice([0, 2, 1 << 40])} {inner[0]}",
            f"const {chance.choice([0, 7])} {inner[0]}",
        ])

    def ask(self, form, call, query):
        """The call answers, or is refused, as a line of a script is."""
        try:
            got = call()
        except QueryError as refused:
            got = script_model.NOT_UNDERSTOOD if refused.status == 65 else f"refused {refused.status}"
        assert [got] == self.script.answer(f"{form} {query}".encode()), query

    def best(self, query, most):
        return " ".join(f"{it.document}:{it.score}" for it in self.index.top(query, most, language="script"))

    def search(self):
        for _ in range(3):
            query, most = self.query(self.chance.choice([0, 1, 2])), self.chance.choice([0, 1, 3, 1000])
            self.ask("count", lambda: str(self.index.count(query, language="script")), query)
            self.ask(f"top {most}", lambda: self.best(query, most), query)

    def step(self):
        calls = {self.add: 60, self.delete: 10, self.count_words: 5, self.refuse: 2, self.end_segment: 3, self.index.refresh: 5}
        calls.update({self.search: 8, self.weigh: 3})
        self.chance.choices([*calls], [*calls.values()])[0]()


@pytest.mark.parametrize("seed", range(SEEDS))
def test_beside_the_model(seed):
    chance = random.Random(seed)
    with Index() as index:
        beside = Beside(chance, index)
        for _ in range(chance.choice([3, 20, 40])):
            beside.step()
        beside.count_words()
        beside.search()
