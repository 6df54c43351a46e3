"""Pruned runs over the scorers of terms, beside the plain loop over what these list."""

from collections import defaultdict
from random import Random

from generators import calls, chance, spelled
from generators.spelled import row
from model import (
    END,
    GREATEST,
    LEAST,
    Segment,
    Term,
    block_bound,
    blocks,
    combined,
    looked_at,
    most_ticks,
    pruned,
    scored,
    single_turns,
)

COMBINERS = ("sum", "sum", "max 0", "max 1", "max 500", "max 1000")
WEIGHTS = (0, 1, 100, 1000, 10**12, GREATEST // 6)
# how the documents of a segment follow one another by their lengths
ORDERS = ("alike", "mixed", "rising")
# more documents than the longest stretch has, and the longest row over them, whose answer a program has room for
MANY, LONGEST = 5000, 65_000


class Run:
    """A run: its threshold, what its calls answer, and both in words."""

    def __init__(self, random, near):
        self.threshold = random.choice([LEAST, -1, random.choice(near), random.choice(near) - 1, GREATEST])
        several = random.choices(near, k=random.randint(1, 5))
        extreme = random.choice([[LEAST], [GREATEST], [LEAST, GREATEST], [LEAST, LEAST, GREATEST]])
        more = [[*several, GREATEST], [*several, LEAST], several]
        self.answers = random.choice([["score"], ["score"], extreme, *more])
        said = "" if self.answers == ["score"] else f" answers {' '.join(map(self.word, self.answers))}"
        self.words = f"{self.word(self.threshold)}{said}"

    @staticmethod
    def word(answer):
        return calls.SPELLED_ANSWERS.get(answer, str(answer))

    def calls(self, pairs):
        return spelled.pairs(pruned(pairs, self.threshold, self.answers))

    def ticks(self, pairs, bounds):
        """How many documents it scores at most."""
        return most_ticks(pairs, bounds, self.threshold, self.answers)


def single_runs(random, pairs, listed, points, norms):
    """Runs over a term's scorer: their calls, and how many documents they score in how many turns."""
    bounds = {doc: block_bound(points, norms, looked_at(0, doc, listed)) for doc, _ in pairs}
    ends = {doc: looked_at(0, doc, listed).last for doc, _ in pairs}
    near = [points for _, points in pairs] + list(bounds.values()) or [0]
    for _ in range(3):
        run = Run(random, near)
        yield row(f"single {run.words}", run.calls(pairs))
        ticks = run.ticks(pairs, bounds)
        yield row(f"bounded {ticks} {ticks + len(listed)} {run.words}", "true")
        turns = single_turns(pairs, bounds, ends, run.threshold, run.answers)
        yield row(f"counted {run.words}", f"{ticks} {turns}")


class Part:
    """The scorer of a term in a segment of blocks of a length: what it has left, and what bounds each."""

    def __init__(self, random, segment, term, length):
        points, boost = random.choice(WEIGHTS), random.choice([1, 1, 1, 3])
        option, at = random.choice(["basic", "freqs", "freqs"]), random.choice([0, 0, 0, *range(30), END])
        is_counted, name = option != "basic", term[0]
        holders = [(doc, it) for doc, it in enumerate(segment.documents) if it.holds(term)]
        listed = blocks([(doc, it.frequency(term, is_counted), it.length_id(name)) for doc, it in holders], length)
        pairs = scored(Term(term, points, is_counted), boost, segment)
        self.most = points * boost
        self.left = {doc: score for doc, score in pairs if doc >= at}
        self.bounds = {doc: boost * block_bound(points, segment.norms, looked_at(0, doc, listed)) for doc in self.left}
        look = random.choice(["", "", f" look {spelled.document(random.choice([3, 200, END]))}"])
        stands = f" at {spelled.document(at)}" if at else ""
        self.words = f"{term[1]} {points}*{boost} {option}{stands}{look}"


def united(combiner, parts):
    """The documents of several scorers with what the combiner makes of their scores, and what bounds each."""
    scores, bounds = defaultdict(list), defaultdict(int)
    for part in parts:
        for doc, score in part.left.items():
            scores[doc].append(score)
            bounds[doc] += part.bounds[doc]
    return [(doc, combined(combiner, scores[doc])) for doc in sorted(scores)], bounds


def shared(parts):
    """The documents that all of several scorers have, with the sum of their scores."""
    docs = sorted(set.intersection(*({*it.left} for it in parts)))
    return [(doc, min(sum(it.left[doc] for it in parts), GREATEST)) for doc in docs]


def several_runs(random, segment, length):
    """Runs over one to six terms of a segment, of which some may be the same."""
    combiner = random.choice(COMBINERS)
    parts = [Part(random, segment, random.choice(segment.terms), length) for _ in range(random.randint(1, 6))]
    yield " ; ".join([f"several {combiner}", *(it.words for it in parts)])
    pairs, bounds = united(combiner, parts)
    near = [points for _, points in pairs] + list(bounds.values()) or [0]
    fits = sum(it.most for it in parts) <= GREATEST
    for call in ("wand", "turns", "wand", "turns"):
        run = Run(random, [min(it, GREATEST) for it in near])
        yield row(f"{call} {run.words}", run.calls(pairs) if fits else "refused ScoreBound")
        if fits:
            most_turns = sum(len(it.left) for it in parts)
            yield row(f"bounded {run.ticks(pairs, bounds)} {most_turns} {run.words}", "true")
    yield from runs_over_all(random, parts[: random.randint(1, len(parts))])


def runs_over_all(random, parts):
    """Runs over what all of these have. Each turn scores a document of these."""
    yield " ; ".join(["several sum", *(it.words for it in parts)])
    pairs = shared(parts)
    for _ in range(2):
        run = Run(random, [points for _, points in pairs] or [0])
        yield row(f"all {run.words}", run.calls(pairs))
        yield row(f"bounded_all {len(pairs)} {len(pairs)} {run.words}", "true")


def document(random, frequent, is_padded):
    """The words of a document: most of the frequent ones, some of them often, and others beside them."""
    found = [word for word in chance.WORDS if random.random() < (0.6 if word in frequent else 0.05)]
    found += random.choices(frequent, k=random.choice([0, 0, 0, 1, 3]))
    return " ".join(found + ["x"] * (max(0, 12 - len(found)) if is_padded else random.choice([0, 0, 1, 5, 20])))


def over_segment(random, order, count, length):
    """Runs over the terms of a segment of so many documents, in blocks of a length. The documents have one length, or
    lengths of all kinds in any order or in ascending order."""
    frequent = random.sample(chance.WORDS, random.randint(1, 5))
    words = [document(random, frequent, order == "alike") for _ in range(count)]
    if order == "rising":
        words.sort(key=lambda it: len(it.split()))
    segment = Segment((chance.BODY,), [{"body": it.split()} for it in words])
    yield from spelled.one_segment(segment, words, length, chance.BODY)
    if segment.terms:
        for _ in range(12):
            yield from several_runs(random, segment, length)


def by_chance(random):
    yield from over_segment(random, random.choice(ORDERS), chance.size(random), random.choice(chance.BLOCKS))


def over_stretches(given):
    """Runs that go over several stretches of documents, the longest there are among them."""
    order, length = given
    lines = over_segment(Random(f"{order} {length}"), order, MANY, length)
    yield from (it for it in lines if len(it) < LONGEST)
