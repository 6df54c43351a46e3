"""The forms whose cost `tests/growth.py` takes: for a number of parts the script of a form. What has to grow faster, as
a list of all documents behind each document, or a search of all segments behind each segment, is none of them."""

import itertools
from typing import Callable, NamedTuple


class Form(NamedTuple):
    """A form by its name, how many parts n is, its script by the number of parts, and whether there may not be many
    more parts than 4n."""

    name: str
    parts: int
    lines: Callable
    is_bounded: bool = False

    def script(self, parts):
        return "".join(f"{line}\n" for line in self.lines(parts)).encode()


def each(count, *spelled):
    """Lines one behind the other, again and again; `#` stands for the number of the turn."""
    return [it.replace("#", str(turn)) for turn in range(count) for it in spelled]


# ---- lines of a script


def lines_of_scripts():
    four = ["count term a", "top 3 term a", "prune 0 term a", "count phrase 0 2 a b"]
    return {
        "documents": lambda n: [*each(n, "doc a b"), *four],
        "documents of words of their own": lambda n: [*each(n, "doc w# x#"), "count term w7"],
        "words of a document": lambda n: ["doc " + " ".join(words(n)), "count term w7"],
        "segments": lambda n: [*each(n, "doc a b", "segment"), *four],
        "segments without documents": lambda n: [*each(n, "segment"), *four],
        "deletions": lambda n: [*each(n, "doc a b"), *each(n, "delete #"), *four],
        "deletions in an ended segment": lambda n: [*each(n, "doc a b"), "segment", *each(n, "delete #"), *four],
        "deletions in segments of one document": lambda n: [*each(n, "doc a b", "segment"), *each(n, "delete #"), *four],
        "the same deletion": lambda n: [*each(n, "doc a"), *each(n, "delete 0"), *four],
        "weights": lambda n: each(n, "weight w# 8"),
        "weights downwards": lambda n: [f"weight w{10**9 - it} 8" for it in range(n)],
        "weights of one word": lambda n: each(n, "weight w 8"),
        "the documents of a list": lambda n: [*each(n, "doc a"), "docs all", "scores term a"],
        "all the best": lambda n: [*each(n, "doc a"), "top 4294967295 term a"],
        "the best of a constant, of which a later segment has none": lambda n: [
            "doc a b",
            "segment",
            "doc a b",
            *each(n, "doc a", "doc b"),
            "segment",
            *each(n, "top 1 const 1 bool 0 2 + term a + term b"),
        ],
    }


# ---- queries of many parts


def words(count):
    return [f"w{it}" for it in range(count)]


def documents(count):
    """One with all words, one with the first half of them, one with the second half, and one with none of them."""
    found = words(count)
    return [f"doc {' '.join(it)}" for it in (found, found[: count // 2], found[count // 2 :], ["x"])]


def clauses(signs, count):
    """So many words, by these signs in turn."""
    return " ".join(f"{signs[it % len(signs)]} term w{it}" for it in range(count))


def of_query(spelled):
    """What asks for a query of so many parts, in each way that there is."""
    asks = ("scores", "count", "prune 0", "top 3")
    return lambda n: [*documents(n), *(f"{it} {spelled(n)}" for it in asks)]


def queries():
    signs = ["+", "?", "-", *itertools.combinations("+?-", 2), "+?-"]
    found = {
        f"clauses of {' and '.join(it)} in turn": lambda n, it=it: f"bool 0 {n + 1} + all {clauses(it, n)}"
        for it in signs
    }
    minima = {"1": lambda n: 1, "2": lambda n: 2, "half of them": lambda n: n // 2, "all but one": lambda n: n - 1}
    for name, minimum in minima.items():
        found[f"clauses of ? of which {name} must match"] = lambda n, it=minimum: f"bool {it(n)} {n} {clauses('?', n)}"
    return found | {
        "clauses of ? alone": lambda n: f"bool 0 {n} {clauses('?', n)}",
        "clauses of + alone": lambda n: f"bool 0 {n} {clauses('+', n)}",
        "the same clause": lambda n: f"bool 2 {n} " + "? term w0 " * n,
        "the greatest": lambda n: f"max 0 {n} " + " ".join(f"term {it}" for it in words(n)),
        "the greatest and half of the others": lambda n: f"max 500 {n} " + " ".join(f"term {it}" for it in words(n)),
        "boosted clauses": lambda n: f"bool 1 {n} " + " ".join(f"? boost 2 term {it}" for it in words(n)),
        "constant clauses": lambda n: f"bool 1 {n} " + " ".join(f"? const 2 term {it}" for it in words(n)),
        "phrases as clauses": lambda n: f"bool 1 {n - 1} "
        + " ".join(f"? phrase 0 2 w{it} w{it + 1}" for it in range(n - 1)),
        "prefixes as clauses": lambda n: f"bool 1 {n} " + " ".join(f"? prefix 1 1 {it}" for it in words(n)),
        "words of a phrase": lambda n: f"phrase 0 {n} {' '.join(words(n))}",
        "words of a phrase with a slop": lambda n: f"phrase {n} {n} {' '.join(words(n))}",
        "words of a phrase before a prefix": lambda n: f"prefix 9 {n + 1} {' '.join(words(n))} w",
        "expansions of a prefix": lambda n: f"prefix {n} 1 w",
        "expansions of a prefix behind a word": lambda n: f"prefix {n} 2 w0 w",
        "expansions of a prefix behind two words": lambda n: f"prefix {n} 3 w0 w1 w",
    }


def equal_words(query):
    """A query of n equal words, over three documents of n equal words."""
    asks = ("scores", "count", "prune 0", "top 3")
    return lambda n: [f"doc {'w ' * n}"] * 3 + [f"{it} {query(n)}" for it in asks]


def over_documents():
    """Queries whose words, or expansions, are as many as the documents."""
    own = lambda n: each(n, "doc a b n#")
    return {
        "a prefix of words of their own": lambda n: [*own(n), "scores prefix 4294967295 1 n"],
        "a prefix behind a word, by document": lambda n: [*own(n), "scores prefix 4294967295 2 b n"],
        "a prefix behind two words, by document": lambda n: [*own(n), "scores prefix 4294967295 3 a b n"],
        "clauses of ?, by document": lambda n: [*each(n, "doc a w#"), f"count bool 1 {n} {clauses('?', n)}"],
        "clauses of ? two of which must match, by document": lambda n: [
            *each(n, "doc w# w0"),
            f"count bool 2 {n} {clauses('?', n)}",
        ],
        "clauses of -, by document": lambda n: [*each(n, "doc a w#"), f"count bool 0 {n + 1} + all {clauses('-', n)}"],
        "the greatest, by document": lambda n: [
            *each(n, "doc a w#"),
            f"top 3 max 500 {n} " + " ".join(f"term {it}" for it in words(n)),
        ],
    }


# ---- depth

LEVELS = {
    "boost": "boost 1 ",
    "const": "const 1 ",
    "max of one": "max 0 1 ",
    "max of two": "max 500 2 term a ",
    **{f"bool of {it}": f"bool 0 1 {it} " for it in "+?"},
    **{f"bool of {a} and {b}": f"bool 0 2 {a} all {b} " for a, b in ("++", "+?", "+-", "?+", "??", "?-")},
    "bool of - and +": "bool 0 2 - none + ",
}


def deep(level):
    asks = ("scores", "count", "prune 0", "docs", "top 3")
    return lambda n: ["doc a", "doc b", *(f"{it} {level * n}term a" for it in asks)]


# ---- two lines in turn

# What stands before them, for so many turns, and the lines of a turn.
TURNS = {
    "a document": ([], "doc w# p"),
    "a segment": ([], "doc s#\nsegment"),
    "a deletion": (["doc d#"], "delete #"),
    "a weight": ([], "weight w# 8"),
    "a word": (["doc e"], "count term e"),
    "a prefix": (["doc e"], "count prefix 1 1 e"),
    "a prefix behind a word": (["doc f e"], "count prefix 1 2 f e"),
    "a phrase": (["doc f e"], "count phrase 0 2 f e"),
    "a Boolean": (["doc f e"], "count bool 0 2 + term f + term e"),
    "the best": (["doc f e"], "top 1 term f"),
    "a pruned run": (["doc f e"], "prune 0 term f"),
}
SEARCHES = [name for name, (_, turn) in TURNS.items() if turn.split()[0] in ("count", "top", "prune")]


def in_turn(first, second):
    """What stands before both comes once, but for documents that are deleted."""
    (before, turn), (others, behind) = TURNS[first], TURNS[second]
    return lambda n: [
        *(line for it in {*before, *others} for line in (each(n, it) if "#" in it else [it])),
        *each(n, turn, behind),
    ]


def pairs_in_turn():
    """All pairs but two searches, which change nothing, and a segment with a search, which goes through all."""
    for first, second in itertools.combinations(TURNS, 2):
        if not {first, second} <= {*SEARCHES, "a segment"}:
            yield f"{first} and {second} in turn", in_turn(first, second)
    yield "a document and its deletion in turn", lambda n: each(n, "doc w#", "delete #")
    yield "a segment and the deletion of its document in turn", lambda n: each(n, "doc w#", "segment", "delete #")
    yield "a document and its word in turn", lambda n: each(n, "doc w#", "count term w#")
    yield "a document and a prefix of its word in turn", lambda n: each(n, "doc w#", "count prefix 9 1 w#")
    yield "a document and a prefix of too many words in turn", lambda n: each(n, "doc w#", "count prefix 9 1 w")


# forms that have more parts than others
LONGER = {
    "deletions in segments of one document": 4000,
    "a segment and the deletion of its document in turn": 4000,
}
# What still costs more than three times as much for twice as many parts, and why. A form that no longer does fails until
# it is taken out here.
STILL_SQUARE = {}
# few parts, since instructions are counted one by one, and enough that what grows with the square stands out
FORMS = [
    *(Form(name, LONGER.get(name, 1000), lines) for name, lines in lines_of_scripts().items()),
    *(Form(name, 100, of_query(spelled)) for name, spelled in queries().items()),
    Form("equal words of a phrase", 100, equal_words(lambda n: f"phrase 0 {n} {'w ' * n}")),
    Form("equal words of a phrase with a slop", 100, equal_words(lambda n: f"phrase 2 {n} {'w ' * n}")),
    Form("equal words of a phrase before a prefix", 100, equal_words(lambda n: f"prefix 9 {n} {'w ' * n}")),
    *(Form(name, 500, lines) for name, lines in over_documents().items()),
    *(Form(f"depth of {name}", 120, deep(level), True) for name, level in LEVELS.items()),
    *(Form(name, LONGER.get(name, 200), lines) for name, lines in pairs_in_turn()),
]
assert {*STILL_SQUARE} <= {it.name for it in FORMS}
