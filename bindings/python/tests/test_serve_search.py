"""What queries find in a folder, with which scores and why, beside a plain model over lists of words."""

import math
import random

import pytest
from birchagain import QueryError
from birchagain.serve.collection import Collection
from birchagain.serve.explanation import explain, times_in
from birchagain.serve.query import Joined, Refusal, Words, read_query

SEEDS = 40
WORDS = ["owl", "owls", "oak", "old", "apple", "ant", "a", "b"]
# as they may be typed
SPELLED = {"owl": ["OWL", "\u00f3wl"], "oak": ["o\u0301ak", "Oak"], "a": ["\u00c5"]}


class Model:
    """Documents of words, and what a tree finds in them."""

    def __init__(self, documents):
        self.documents = documents
        self.mean = sum(map(len, documents)) // len(documents)

    def weight(self, tree):
        held = sum(self.matches(tree, it) for it in self.documents)
        return math.floor(1000 * math.log((2 * len(self.documents) + 2) / (2 * held + 1)))

    @staticmethod
    def times(words, goes_on, document):
        """How often words stand in a document, one behind the other."""
        ends = range(len(document) - len(words) + 1)
        here = (document[at : at + len(words)] for at in ends)
        return sum(
            it[:-1] == words[:-1] and (it[-1].startswith(words[-1]) if goes_on else it[-1] == words[-1]) for it in here
        )

    def matches(self, tree, document):
        return self.score(tree, document, False) is not None

    def score(self, tree, document, is_scored=True):
        """What a tree scores a document, or None where it doesn't find it."""
        kind, value = tree
        if kind == "all":
            return 1
        if kind == "boost":
            inner = self.score(value[1], document, is_scored)
            return None if inner is None else value[0] * inner
        if kind == "list":
            return self.score_of_list(value, document, is_scored)
        times = self.times(value, kind == "begin", document)
        if not times:
            return None
        if not is_scored:
            return 0
        if kind == "begin":
            return self.weight(tree) // (1 + self.mean)
        weight = sum(self.weight(("words", [it])) for it in value)
        return weight * times // (times + min(len(document), 255))

    def score_of_list(self, clauses, document, is_scored):
        scored = [(sign, self.score(tree, document, is_scored)) for sign, tree in clauses]
        if any(score is None for sign, score in scored if sign == "+"):
            return None
        if any(score is not None for sign, score in scored if sign == "-"):
            return None
        if clauses and all(sign == "-" for sign, _ in scored):
            return 1
        found = [score for sign, score in scored if sign != "-" and score is not None]
        return sum(found) if found else None


def random_tree(chance, depth):
    if depth and chance.random() < 0.6:
        clauses = [
            (chance.choice("???+-"), random_tree(chance, depth - 1)) for _ in range(chance.choice([0, 1, 2, 2, 3, 4]))
        ]
        return ("list", clauses)
    if depth and chance.random() < 0.3:
        return ("boost", (chance.choice([0, 1, 2, 7, 1000]), random_tree(chance, depth - 1)))
    kind = chance.choice(["words"] * 5 + ["begin", "begin", "all"])
    return (kind, None if kind == "all" else chance.choices(WORDS, k=chance.choice([1, 1, 1, 2, 2, 3])))


def typed(tree, chance):
    """A text that asks for a tree."""
    kind, value = tree
    if kind == "all":
        return "*"
    if kind == "boost":
        return f"({typed(value[1], chance)})^{value[0]}"
    if kind == "list":
        return f"({' '.join(sign.strip('?') + typed(inner, chance) for sign, inner in value)})"
    words = [chance.choice([it, *SPELLED.get(it, [])]) for it in value]
    star = "*" * (kind == "begin")
    joined = chance.choice("_-./+").join(words)
    return chance.choice([joined, f'"{" ".join(words)}"', f'"{"; ".join(words)}"']) + star


def random_folder(chance, folder):
    """Files of one passage each; each has a word of its own, so no two have one text."""
    documents = []
    for number in range(chance.choice([1, 3, 12])):
        words = chance.choices(WORDS, k=chance.choice([0, 1, 5, 300])) + [f"u{number}"]
        spelled = [chance.choice([it, *SPELLED.get(it, [])]) for it in words]
        (folder / f"{number:02}.txt").write_text(chance.choice([" ", "\n", ", "]).join(spelled), encoding="utf-8")
        documents.append(words)
    return documents


@pytest.mark.parametrize("seed", range(SEEDS))
def test_beside_the_model(seed, tmp_path):
    chance = random.Random(seed)
    model = Model(random_folder(chance, tmp_path))
    collection = Collection(str(tmp_path), 1 << 20)
    for _ in range(30):
        tree = random_tree(chance, chance.choice([0, 1, 2, 4]))
        text = typed(tree, chance)
        query = read_query(text)
        wanted = {number: model.score(tree, it) for number, it in enumerate(model.documents)}
        wanted = {number: score for number, score in wanted.items() if score is not None}
        answer = collection.search(query, 1, 100, 1)
        got = {int(it.place.file.path[:2]): it.score for it in answer.results}
        assert got == wanted and answer.found == len(wanted), text
        assert [it.score for it in answer.results] == sorted(wanted.values(), reverse=True)
        check_explanations(query, answer)


def check_explanations(query, answer):
    """The shares come to the score, each list to the sum of what is in it, and each word to what the page says."""
    for result, explanation in zip(answer.results, explain(query, [it.text for it in answer.results], answer.weights)):
        assert explanation.shares[0].score == result.score
        for at, share in enumerate(explanation.shares):
            if isinstance(share.part, Joined) and share.score is not None:
                check_list(share, explanation.shares[at + 1 :])
            if isinstance(share.part, Words) and not share.part.goes_on and share.score is not None:
                weight = sum(answer.weights.words[it].weight for it in share.part.words)
                times = times_in(explanation.words, share.part)
                assert share.score == share.part.factor * (weight * times // (times + explanation.length))


def check_list(share, behind):
    inner = []
    for it in behind:
        if it.depth <= share.depth:
            break
        if it.depth == share.depth + 1:
            inner.append(it.score or 0)
    only_signs = all(sign == "-" for sign, _ in share.part.parts)
    assert share.score == share.part.factor * (1 if only_signs else sum(inner))


def test_a_slop_is_explained(tmp_path):
    (tmp_path / "a.txt").write_text("an old crooked apple tree")
    answer = Collection(str(tmp_path), 1000).search(read_query('"old apple"~1 "old apple"'), 1, 10, 1)
    (explanation,) = explain(read_query('"old apple"~1 "old apple"'), [answer.results[0].text], answer.weights)
    total, near, exact = (it.score for it in explanation.shares)
    # each word is in one of one documents: floor(1000 ln(4 / 3)) = 287, twice, once in five words
    assert (total, near, exact) == (574 // 6, 574 // 6, None)


@pytest.mark.parametrize(
    "text, said, place",
    [
        ("title:owl", "there are no fields", 0),
        ("owl title:(a b)", "there are no fields", 4),
        ("owl & oak", "no letter or digit", 4),
        ('"..."', "no letter or digit", 0),
        ("a _*", "no letter or digit", 2),
        ('"a', "the quote isn't ended", 0),
        ("a b)", "parenthesis", 3),
        ("\u00e9 (", "the parenthesis isn't ended", 2),
        ("(" * 65 + "owl" + ")" * 65, "64 deep", 64),
    ],
)
def test_refused(text, said, place):
    with pytest.raises(Refusal) as caught:
        read_query(text)
    assert said in str(caught.value) and caught.value.place == place


def test_a_score_that_is_too_great_is_refused(tmp_path):
    (tmp_path / "a.txt").write_text("owl")
    collection = Collection(str(tmp_path), 1000)
    most = 2147483647
    assert collection.search(read_query(f"owl^{most} owl^{most}"), 1, 10, 1).found == 1
    with pytest.raises(QueryError):
        collection.search(read_query(f"(((owl^{most})^{most})^{most})"), 1, 10, 1)


def test_deep_queries(tmp_path):
    (tmp_path / "a.txt").write_text("owl")
    collection = Collection(str(tmp_path), 1000)
    for opened, closed in (("(", ")"), ("(a OR +", ")^1"), ("(a AND -b (", "))")):
        depth = 64 // opened.count("(")
        query = read_query(opened * depth + "owl" + closed * depth)
        answer = collection.search(query, 1, 10, 1)
        explain(query, [it.text for it in answer.results], answer.weights)
