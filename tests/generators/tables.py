"""All small cases of weights and queries: every query of a kind over every segment of up to three documents."""

import itertools
import random

from generators import calls, spelled
from generators.spelled import row
from model import (
    GREATEST,
    LEAST,
    All,
    Boolean,
    Boost,
    Constant,
    DisjunctionMax,
    Field,
    Nothing,
    Phrase,
    Prefix,
    Searcher,
    Segment,
    Term,
    tree_of,
)

BODY = Field("body")
A, B, X = ("body", "xa"), ("body", "xb"), ("body", "x")


def segment(texts, deleted=()):
    return Segment((BODY,), [{"body": text.split()} for text in texts], deleted)


def texts_of(choices):
    """The texts of all segments of up to three documents."""
    return [texts for count in range(4) for texts in itertools.product(choices, repeat=count)]


# ---- Booleans of up to three clauses

BOOLEAN_TEXTS = texts_of(["", "xa", "xb", "xa xb"])
COMBINERS = ("sum", "nothing", "max 500")
CLAUSES = [(sign, term) for term in (Term(A, 1000), Term(B, 500)) for sign in "?+-"]


def booleans(combiner, count):
    """Every Boolean of so many clauses, of every sign and in every order, with each minimum."""
    for clauses in itertools.product(CLAUSES, repeat=count):
        for minimum in range(5):
            yield Boolean(clauses, minimum, combiner)


def by_text(tree, boost):
    """What a document of each text scores, where it matches; no other document matters to it."""
    texts = ["", "xa", "xb", "xa xb"]
    pairs = calls.scored(tree, boost, segment(texts))
    return {texts[doc]: points for doc, points in pairs}


def listed(points, texts):
    return spelled.pairs((doc, points[text]) for doc, text in enumerate(texts) if text in points)


# each with its length of blocks, and the numbers of clauses with how many parts they come in
PARTS_OF_BOOLEANS = [
    (combiner, blocks, count, part, parts)
    for combiner, blocks in zip(COMBINERS, (1, 2, 128))
    for count, parts in ((0, 1), (1, 1), (2, 3), (3, 18))
    for part in range(parts)
]


def runs_of_booleans(asked):
    """Runs of Booleans on all segments."""
    combiner, blocks, count, part, parts = asked
    yield from spelled.given([segment(texts) for texts in BOOLEAN_TEXTS], BOOLEAN_TEXTS, blocks)
    for tree in itertools.islice(booleans(combiner, count), part, None, parts):
        points = by_text(tree, 1)
        yield f"weight {spelled.weight(tree)}"
        for number, texts in enumerate(BOOLEAN_TEXTS):
            yield f"  segment {number}"
            yield row("each", listed(points, texts))


def is_in_order(tree):
    """Of the Booleans that differ by the order of their clauses alone, that is one."""
    places = [CLAUSES.index(it) for it in tree.clauses]
    return places == sorted(places)


def scorers_of_booleans(asked):
    """The scorers of Booleans, in one order of their clauses, at a boost of 2."""
    combiner, number = asked
    trees = [tree for count in range(4) for tree in booleans(combiner, count) if is_in_order(tree)]
    spelled_trees = [(f"scorer 2 weight {spelled.weight(tree)}", by_text(tree, 2)) for tree in trees]
    for texts in BOOLEAN_TEXTS[number::17]:
        yield from spelled.given([segment(texts)], [texts], 2)
        for line, points in spelled_trees:
            yield line
            yield row("scores", listed(points, texts))


# ---- queries of every kind


def kinds(points):
    """A tree of each kind, whose weights, boosts and constants are this number."""
    yield from (All(), Nothing(), Term(A, points), Term(A, points, False), Term(("body", "z"), points))
    yield Phrase(((0, A), (1, B)), 0, points)
    yield Phrase(((1, A), (0, B)), 0, points)
    yield Phrase(((0, A), (2, B)), 2, points)
    yield Phrase(((0, A), (0, ("body", "z"))), 1, points)
    yield Prefix(((0, A),), (1, X), 50, points)
    yield Prefix(((0, A),), (1, B), 1, points)
    yield Prefix(((0, B), (1, A)), (2, X), 1, points)
    yield Prefix(((0, A), (1, A)), (2, X), 2, points)
    yield Prefix((), (0, X), 1)
    yield Prefix((), (0, B), 50)
    yield Boost(points, Term(B, 1))
    yield Constant(points, Term(B, 1))
    yield Boolean((("?", Term(A, points)), ("-", Term(B, points))), 1, "max 500")
    yield Boolean((("+", Term(A, 0)), ("?", Term(B, points))), 0)


KIND_TEXTS = texts_of(["", "xa", "xb", "xa xb", "xb xa", "xa xa xb", "xb xa xb"])


def runs_of_kinds(asked):
    """Runs of one tree of each kind on some of the segments."""
    for tree in kinds(1000):
        texts = KIND_TEXTS[asked::20]
        segments = [segment(it) for it in texts]
        yield from spelled.given(segments, texts, 1 + asked % 3)
        yield f"weight {spelled.weight(tree)}"
        for number, it in enumerate(segments):
            yield f"  segment {number}"
            yield row("each", spelled.pairs(calls.kept(tree, 1, it)))
            yield from calls.documents_of(calls.found(tree, it), tree)


def scorers_of_kinds(asked):
    """The scorers of a tree of each kind at the least boosts and at the greatest, under which nothing weighs more
    than 1."""
    for texts in KIND_TEXTS[asked::20]:
        made = segment(texts)
        yield from spelled.given([made], [texts], 2)
        for boost, points in [(0, 1000), (1, 1000), (GREATEST, 1)]:
            for tree in kinds(points):
                # two of the clauses of a Boolean pass the greatest score together
                if boost < GREATEST or not isinstance(tree, Boolean):
                    yield f"scorer {boost} weight {spelled.weight(tree)}"
                    yield row("scores", spelled.pairs(calls.kept(tree, boost, made)))


def query_of(tree):
    """The query that a tree of some kind stands for."""
    match tree:
        case Boolean(((_, first), ("-", second)), 1):
            return Boolean((("+", DisjunctionMax(500, (query_of(first),))), ("-", query_of(second))))
        case Boolean(clauses, minimum):
            return Boolean(tuple((sign, query_of(it)) for sign, it in clauses), minimum)
        case Phrase(terms, slop):
            return Phrase(tuple(sorted(terms)), slop)
        case Prefix(full, prefix, most):
            return Prefix(full, prefix, most)
        case Term(term, _, counted):
            return Term(term, None, counted)
        case Boost(by, inside):
            return Boost(by, query_of(inside))
        case Constant(points, inside):
            return Constant(points, query_of(inside))
    return tree


def queries_of_kinds(asked):
    """The same as queries, with scoring on and off."""
    texts = KIND_TEXTS[asked::20]
    segments = tuple(segment(it) for it in texts)
    searcher = Searcher(segments, {B: 500})
    yield from spelled.given(segments, texts, 2, [("xb", 500)])
    for query in map(query_of, kinds(1000)):
        for name, scoring in [("query", True), ("unscored", False)]:
            tree = tree_of(query, searcher, scoring)
            yield f"{name} {spelled.query(query)}"
            if scoring:
                yield from calls.tops(tree, segments, range(4))
            for number, it in enumerate(segments):
                yield f"  segment {number}"
                if scoring:
                    yield row("each", spelled.pairs(calls.kept(tree, 1, it)))
                yield from calls.documents_of(calls.found(tree, it), tree)


# ---- every call

CALL_TEXTS = ["xa xb", "xb", "xa xa xb", "", "xb xa xb", "xa"]
DELETIONS = [[], [0, 2], [0, 1, 2, 3, 4, 5]]
ANSWERS = [["score"], [LEAST], [GREATEST], [LEAST, GREATEST], [GREATEST, LEAST], [400, -1]]


def every_call(count):
    """Every call of a weight of each kind on so many documents, of which none, some or all are deleted."""
    texts = CALL_TEXTS[:count]
    segments = [segment(texts, [doc for doc in it if doc < count]) for it in DELETIONS]
    yield from spelled.given(segments, [texts] * 3, 1 + count % 3)
    for tree in kinds(1000):
        yield f"weight {spelled.weight(tree)}"
        for number, it in enumerate(segments):
            yield f"  segment {number}"
            yield from calls.of_weight(random.Random(count), tree, it, 10, 0)
            for answers in ANSWERS:
                for threshold in (LEAST, -1, 0, 1, 333, 400, GREATEST):
                    yield calls.prune(calls.kept(tree, 1, it), threshold, answers)
