"""Rows: calls on a scorer, on a weight and on a query, each with what it must answer."""

import functools
import re

from generators import spelled
from generators.scorers import Left
from generators.spelled import row
from model import (
    END,
    GREATEST,
    LEAST,
    Phrase,
    Prefix,
    best,
    phrase_count,
    prefix_count,
    pruned,
    query_terms,
    scored,
    slices,
)

MOST = 18446744073709551615  # the greatest number of documents that may be asked for
SPELLED_ANSWERS = {GREATEST: "greatest", LEAST: "least"}

# several rows ask for the same list
kept = functools.lru_cache(maxsize=200)(scored)


def found(tree, segment):
    """The documents that match."""
    return [doc for doc, _ in kept(tree, 1, segment)]

# ---- calls on a scorer


def danger(left, target):
    """A call of `seek_danger` by the law, and whether it finds: a bound is past the target, and no document that is
    left is before it."""
    head, said = left.seek(target), f"seek_danger {spelled.document(target)}"
    if head == target != END:
        return row(said, "found"), True
    if target == END or target == head - 1:
        return row(said, f"below {spelled.document(head)}"), False
    return row(f"{said} within {spelled.document(head)}", "allowed"), False


# where nothing is to be found below 4: targets that ascend, descend, are repeated, and that go back and forth
ORDERS = ([0, 1, 2, 3, 4, END], [4, 3, 2, 1, 0], [0, 0, 1, 1, 2, 2, 3, 3, END, END], [2, 0, 3, 1, 2, 4])


def asked_for(listed, targets):
    """Calls of `seek_danger` for targets one after another, and the document that is left then."""
    left = Left(listed)
    yield from (danger(left, target)[0] for target in targets)
    yield row("seek 0", spelled.document(left.doc()))
    if left.doc() < END:
        yield row("score", left.score())


class Player:
    """Chooses calls on a scorer by chance. With scoring off no score is asked for, and where it isn't known which
    documents are deleted no alive ones are counted."""

    def __init__(self, random, listed, deleted=(), is_scored=True):
        self.random, self.deleted, self.is_scored = random, deleted, is_scored
        self.sought = 0
        self.left, self.is_placed = Left(listed), True
        self.listed = listed
        self.last = max(listed, default=0)

    def rows(self, count):
        """So many calls, and a last one that takes what is left."""
        for _ in range(count):
            yield self.any_call()
            # at the end there is little more to see
            if self.left.doc() == END and self.random.random() < 0.6:
                break
        if not self.is_placed:
            yield self.seek()
        yield self.random.choice([self.counted, self.total, self.all_left])()
        yield self.random.choice([self.advance, self.doc, self.fill, self.total, self.seek, self.counted])()

    def any_call(self):
        if not self.is_placed:
            return self.random.choice([self.seek, self.seek, self.seek_danger])()
        if self.random.random() < 0.02:
            return self.random.choice([self.counted, self.total, self.all_left])()
        moves = [self.advance] * 4 + [self.seek] * 3 + [self.seek_danger] * 3 + [self.doc, self.fill, self.fill_below]
        return self.random.choice([*moves, self.score, self.score, self.score])()

    def doc(self):
        return row("doc", spelled.document(self.left.doc()))

    def score(self):
        """What is asked of the document that the scorer stands on."""
        if not self.is_scored or self.left.doc() == END:
            return self.doc()
        call, answer = self.random.choice(self.told(*self.left.left()[0]))
        return row(call, answer)

    def told(self, _doc, points):
        """The calls on a document, each with what it answers."""
        return [("score", points)]

    def advance(self):
        return row("advance", spelled.document(self.left.advance()))

    def target(self):
        """A document a little further on, one anywhere, or the end."""
        chance, head = self.random.random(), self.left.doc()
        if chance < 0.04:
            return END
        if chance < 0.1 or head == END:
            return min(self.random.randint(0, self.last + 2), END)
        if chance < 0.6:
            return self.random.choice(self.left.left()[:12])[0]
        return min(max(0, head + self.random.randint(-2, 9)), END)

    def seek(self):
        self.is_placed = True
        target = self.target()
        return row(f"seek {spelled.document(target)}", spelled.document(self.left.seek(target)))

    def seek_danger(self):
        """A target that is found or not; now and then one from before, or that of the call before again."""
        if self.random.random() < 0.3:
            return self.asked(self.single())
        before = self.random.randint(0, min(self.left.doc(), self.last))
        self.sought = self.random.choice([self.sought, before, *[self.target()] * 3])
        return self.asked(self.sought)

    def single(self):
        """A target that is found, or one of which the law leaves a single bound: where the document behind it is
        there, and at the end."""
        target = self.target()
        if target != END:
            heads = self.left.left()
            if not heads:
                return END
            target = max(target, heads[0][0] - 1, 0)
            target = next((doc for doc, _ in heads if doc >= target), heads[-1][0])
            if target > 0 and target - 1 not in self.listed and self.random.random() < 0.4:
                target -= 1
        return target

    def asked(self, target):
        asked, self.is_placed = danger(self.left, target)
        return asked

    def fill(self):
        return row("fill", spelled.documents(self.left.fill()))

    def fill_below(self):
        bound = self.random.choice([self.target(), min(self.target() + self.random.randint(0, 100), END)])
        return row(f"fill_below {spelled.document(bound)}", spelled.documents(self.left.fill_below(bound)))

    def counted(self):
        if self.deleted is None:
            return self.total()
        return row("count", sum(doc not in self.deleted for doc, _ in self.left.take()))

    def total(self):
        return row("total", len(self.left.take()))

    def all_left(self):
        return row("scores", spelled.pairs(self.left.take())) if self.is_scored else self.total()


def of_run(random, listed):
    """Runs over a scorer, each anew."""
    pairs = sorted(listed.items())
    yield row("each", spelled.pairs(pairs))
    yield row("docs", spelled.documents(doc for doc, _ in pairs))
    yield row("slices", " ".join(map(str, slices(None, pairs))))
    yield from (any_prune(random, pairs) for _ in range(3))


def of_scorer(random, listed, count, deleted=(), is_scored=True):
    return Player(random, listed, deleted, is_scored).rows(count)


# ---- calls on a weight


def prune(pairs, threshold, answers):
    """A pruned run; a callback that answers its score needs no word of it."""
    said = " ".join(SPELLED_ANSWERS.get(it, str(it)) for it in answers)
    call = f"prune {threshold}" + ("" if answers == ["score"] else f" answers {said}")
    return row(call, spelled.pairs(pruned(pairs, threshold, answers)))


def scored_of(documents):
    """How many documents are scored where each may be wanted, and where none can be."""
    yield row(f"scored {LEAST} answers least", len(documents))
    yield row(f"scored {GREATEST}", 0)


def documents_of(documents, tree):
    """The rows that need no scores."""
    yield row("docs", spelled.documents(documents))
    yield row("slices", " ".join(map(str, slices(tree, documents))))


def counts_of(tree, segment):
    """How often the words of a phrase stand in each document, where one matches."""
    match tree:
        case Phrase(terms, slop):
            counts = [phrase_count(terms, slop, it) for it in segment.documents]
        case Prefix((_, *_), prefix, most):
            counts = [prefix_count(tree.full, prefix, most, segment, it) for it in segment.documents]
        case _:
            counts = []
    if any(counts):
        yield row("counts", spelled.pairs((doc, count) for doc, count in enumerate(counts) if count))


def explained(call, doc, points):
    """What is explained of a document; nothing where it doesn't match."""
    return row(f"{call} {doc}", f"refused DoesNotMatch({doc})" if points is None else points)


def any_prune(random, pairs):
    """A pruned run from a threshold near some score, with answers near others."""
    scores = [points for _, points in pairs] or [1]

    def near():
        beside = random.choice(scores) + random.choice([-1, 0, 0, 1])
        return random.choice([beside, random.choice([LEAST, -1, 0, 1, GREATEST])])

    def in_range():
        return min(max(near(), LEAST), GREATEST)

    answers = [random.choice([in_range(), "score", LEAST]) for _ in range(random.randint(1, 4))]
    extreme = random.choice([[LEAST], [GREATEST], [LEAST, GREATEST], [LEAST, LEAST, GREATEST]])
    return prune(pairs, in_range(), random.choice([answers, ["score"], extreme, [in_range()]]))


def explains(random, segment, most):
    """Documents to explain: all, or so many of them, and some past the last."""
    last = len(segment.documents)
    docs = list(range(last)) if last <= most else sorted(random.sample(range(last), most))
    return [*docs, last, *random.choice([[], [last + 1], [END]])]


def of_weight(random, tree, segment, most_explained=6, runs=12):
    """Rows on a weight with scoring on, over a segment."""
    pairs, documents = kept(tree, 1, segment), found(tree, segment)
    yield row("each", spelled.pairs(pairs))
    yield from documents_of(documents, tree)
    yield from counts_of(tree, segment)
    yield from (any_prune(random, pairs) for _ in range(runs))
    yield from scored_of(documents)
    yield row("count", len(segment.alive(documents)))
    points = dict(pairs)
    yield from (explained("explain", doc, points.get(doc)) for doc in explains(random, segment, most_explained))


def of_unscored(random, tree, segment, most_explained=3):
    """The same with scoring off: what each document scores is not said, so its explanation isn't either."""
    documents = found(tree, segment)
    yield from documents_of(documents, tree)
    yield row("called", spelled.documents(documents))
    yield row("count", len(segment.alive(documents)))
    yield row(f"prune {GREATEST}")
    yield row(f"pruned {LEAST} answers least", spelled.documents(documents))
    yield from scored_of(documents)
    for doc in explains(random, segment, most_explained):
        if doc not in documents:
            yield explained("explain", doc, None)


def through(random, rows, types):
    """The rows; of some of them the call is that of one of these types, `own` or `boxed`."""
    for it in rows:
        words = random.choice(["", "", *types])
        yield it if not words else re.sub("^  (refused each )?", rf"\g<0>{words} ", it)


# ---- calls on a query


def tops(tree, segments, limits, call="top"):
    """Rows for the best documents over all segments, of which there are so many at most."""
    ranked = best(None, tree, segments)
    for limit in limits:
        yield row(f"{call} {limit}", spelled.addresses(ranked[:limit]))


def of_query(random, query, tree, segments):
    """Rows on a query over all segments."""
    alive = sum(len(segment.alive(found(tree, segment))) for segment in segments)
    yield row("total", alive)
    limits = [1, 2, 3, 10, alive // 2, max(alive - 1, 0), alive, alive + 1, MOST]
    yield from tops(tree, segments, [random.choice([0, 1]), *random.sample(limits, 3)])
    if random.random() < 0.1:
        yield from tops(tree, segments, [random.choice(limits)], "refused each top")
    yield row("terms", " ".join(f"{word}:{str(wanted).lower()}" for (_, word), wanted in query_terms(query)))
    number = random.randrange(len(segments) + 1)
    if number == len(segments):
        yield row(f"explain {number} 0", f"refused NoSuchSegment({number})")
    else:
        points = dict(kept(tree, 1, segments[number]))
        for doc in explains(random, segments[number], 2):
            yield explained(f"explain {number}", doc, points.get(doc))
