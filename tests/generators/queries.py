"""Cases of queries and their scorers, by chance."""

from generators import calls, chance, spelled
from generators.weights import corpus, on_segments, worth_playing
from model import fits, tree_of, weighs_too_much


def of_query(random, searcher, field, depth):
    trees, segments = chance.Trees(random, field, are_queries=True), searcher.segments

    def scoring(query):
        return tree_of(query, searcher, True)

    def any_query():
        query = trees.fitting(depth, 1, scoring)
        return query, scoring(query)

    query = worth_playing(segments[0], any_query)
    tree = scoring(query)
    yield f"query {spelled.query(query, random)}"

    def asked(rows):
        return calls.through(random, rows, ["own", "boxed"])

    yield from asked(calls.of_query(random, query, tree, segments))
    yield from on_segments(random, segments, lambda it: asked(calls.of_weight(random, tree, it, 3, 8)))
    unscored = tree_of(query, searcher, False)
    yield f"unscored {spelled.query(query, random)}"
    yield from on_segments(random, segments, lambda it: asked(calls.of_unscored(random, unscored, it)))
    yield from scorers_of_query(random, query, searcher)


def scorers_of_query(random, query, searcher):
    """Rows on the scorers of a query with scoring on and off."""
    segment = searcher.segments[0]
    for name, scoring in [("query", True), ("unscored", False)]:
        tree = tree_of(query, searcher, scoring)
        listed = dict(calls.kept(tree, 1, segment))
        yield f"scorer 1 {name} {spelled.query(query, random)}"
        yield from calls.of_scorer(random, listed, 12, segment.deleted, scoring)


def of_great_query(random, searcher, field, depth):
    """What is refused of a query that doesn't fit, whatever the segments hold."""
    query = chance.GreatTrees(random, field, are_queries=True).tree(depth)
    tree = tree_of(query, searcher, True)
    if not fits(tree, 1):
        yield f"query {spelled.query(query, random)}"
        yield spelled.row("fitting", "refused ScoreBound")
        yield spelled.row(f"top {random.choice([1, 7])}", "refused ScoreBound")
        yield spelled.row("top 0", "refused ScoreBound" if weighs_too_much(tree) else "")


def by_chance(random):
    """A set of segments, and cases of queries on them."""
    field, block, searcher = corpus(random)
    yield from block
    for depth in (0, 1, 2, 2, 3):
        yield from of_query(random, searcher, field, depth)
    for depth in (0, 1, 2, 2, 3, 3):
        yield from of_great_query(random, searcher, field, depth)
