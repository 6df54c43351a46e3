"""Cases of weights and their scorers, by chance."""

from generators import calls, chance, spelled
from generators.scorers import Left
from model import GREATEST, Searcher, fits, matches


def weights(random):
    """What some words weigh, and what all others do."""
    words = random.sample(chance.WORDS, random.randint(0, 3))
    weighed = [(word, random.choice([0, 1, 300, 500, 2000, 10**12])) for word in words]
    return weighed, random.choice([None, 0, 1, 1000, 777])


def on_segments(random, segments, rows):
    """Rows on each segment, behind a row that names it."""
    for number, segment in enumerate(segments):
        if number > 0 or random.random() < 0.2:
            yield f"  segment {number}"
        yield from rows(segment)


def worth_playing(segment, make):
    """What is made, with its tree: of several one that matches some document near the front, where there is one."""
    for _ in range(5):
        made, tree = make()
        if any(matches(tree, segment, document) for document in segment.documents[:60]):
            break
    return made


def corpus(random):
    """Some segments over one field, with the block that makes them, and a searcher over them."""
    field = random.choice(chance.FIELDS)
    norms, count = random.choice([None, None, chance.norms(random)]), random.choice([1, 1, 2, 3, 4])
    made = [chance.segment(random, chance.size(random), field, norms or range(256)) for _ in range(count)]
    segments, words = zip(*made)
    weighed, default = weights(random)
    block = spelled.given(segments, words, random.choice(chance.BLOCKS), weighed, default, field, norms)
    by_term = {(field.name, word): points for word, points in weighed}
    return field, list(block), Searcher(segments, by_term, 1000 if default is None else default)


def of_weight(random, segments, field, depth):
    trees = chance.Trees(random, field)
    tree = worth_playing(segments[0], lambda: (trees.fitting(depth),) * 2)
    yield f"weight {spelled.weight(tree)}"
    yield from on_segments(random, segments, lambda it: calls.through(random, calls.of_weight(random, tree, it), ["own"]))


def of_scorer(random, segment, field, depth):
    """Rows on the scorer of a weight at a boost, now and then by its scores alone."""
    boost = chance.boost(random)
    trees, depth = chance.Trees(random, field), depth if boost < 2**60 else 1
    tree = worth_playing(segment, lambda: (trees.fitting(depth, boost),) * 2)
    listed = dict(calls.kept(tree, boost, segment))
    for _ in range(2):
        yield f"scorer {boost} weight {spelled.weight(tree)}"
        if random.random() < 0.2:
            yield spelled.row("scores", spelled.pairs(Left(listed).left()))
        else:
            yield from calls.of_scorer(random, listed, random.choice([8, 20, 40]), segment.deleted)


def of_bounds(random, field, depth):
    """Whether a weight fits at some boosts."""
    trees = chance.GreatTrees(random, field)
    # of several one that some boost decides of, where there is one
    for _ in range(5):
        tree = trees.tree(depth)
        if fits(tree, 0) and not fits(tree, GREATEST):
            break
    # the greatest boost at which it fits, by halving, since it fits at each below one at which it does
    most, past = 0, GREATEST + 1
    while past - most > 1:
        middle = (most + past) // 2
        most, past = (middle, past) if fits(tree, middle) else (most, middle)
    near = {it for it in (most - 1, most, most + 1) if 0 <= it <= GREATEST}
    yield f"weight {spelled.weight(tree)}"
    yield "  takes no memory"
    for boost in sorted({0, 1, 2, chance.boost(random), *near}):
        yield spelled.row(f"fits {boost}", "true" if fits(tree, boost) else "false")


def by_chance(random):
    """A set of segments, and cases of weights on them."""
    field, block, searcher = corpus(random)
    yield from block
    for depth in (0, 1, 2, 2, 3):
        yield from of_weight(random, searcher.segments, field, depth)
    for depth in (0, 0, 1, 1, 2, 2, 2, 3, 3):
        yield from of_scorer(random, searcher.segments[0], field, depth)
    for depth in (0, 1, 2, 2, 3, 3):
        yield from of_bounds(random, field, depth)
