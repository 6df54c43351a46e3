"""Worked rows for the plain model, with the answers written out."""

from generators.scorers import Left, at_least, boosted, constant, exclude, intersection, optional
from model import (
    All,
    Boolean,
    Boost,
    Constant,
    DisjunctionMax,
    Field,
    Nothing,
    Phrase,
    Prefix,
    Searcher,
    Segment,
    Term,
    END,
    GREATEST,
    LEAST,
    best,
    fits,
    matching,
    parts_built,
    prefix_count,
    phrase_count,
    pruned,
    query_terms,
    scored,
    slices,
    starts,
    tree_of,
)

BODY = (Field("body"),)
A_B_C = ["a b c", "a c e", "d f g", "z z z", "c i b"]
PAIRS = ["b c", "a c", "a b", "a d"]
FAR = ["a b", *["z z"] * 5000, "a c", *["z z"] * 5000, "a b c", "b"]
ROWS_OF_PHRASES = ["a c", "a a b d a b c", " a b"]
BEHIND_TWO = ["aa bb dd cc", "aa aa bb c dd aa bb cc aa bb dc", " aa bb cd"]
BEHIND_ONE = ["aa dd cc", "aa aa bb c dd aa bb cc aa dc", " aa bb cd"]
NONE_IN_COMMON = ["aa dd", "aa aa bb c dd aa bb cc aa dc", " aa bb cd"]


def segment(texts, **more):
    return Segment(BODY, [{"body": text.split()} for text in texts], **more)


def of_field(name):
    return lambda word: (name, word)


body = of_field("body")


def word(text, weight=1000):
    return Term(body(text), weight)


def words(sign, texts, minimum=0):
    return Boolean(tuple((sign, word(text)) for text in texts.split()), minimum)


def placed(text):
    return tuple((offset, body(it)) for offset, it in enumerate(text.split()))


def phrase(text, slop=0):
    return Phrase(placed(text), slop, 1000 * len(text.split()))


def prefix(text, most=50):
    terms = placed(text)
    return Prefix(terms[:-1], terms[-1], most, 1000 * (len(terms) - 1))


def both(*inside):
    return Boolean(tuple(("+", it) for it in inside))


def constants(sign, *scores):
    return tuple((sign, Constant(it, All())) for it in scores)


def rows_of_clauses():
    """Documents that Boolean trees match."""
    may = [("a c z i", 2, [0, 1, 4]), ("a b c e", 3, [0, 1]), ("a b", 3, [])]
    for texts, minimum, want in [*may, ("a z", 1, [0, 1, 3]), ("a b", 0, [0, 1, 4])]:
        yield f"{minimum} of {texts}", matching(words("?", texts, minimum), segment(A_B_C)), want
    for texts, want in [("a b", [2]), ("a c", [1]), ("b c", [0])]:
        yield f"all of {texts}", matching(words("+", texts), segment(PAIRS)), want
    yield "a or d", matching(words("?", "a d", 1), segment(PAIRS)), [1, 2, 3]
    yield "two of one", matching(words("?", "a", 2), segment(["a"])), []
    yield "without what never is", matching(Boolean((("-", Nothing()),)), segment(["a"])), []
    far = segment(FAR)
    either = [words("?", texts, 1) for texts in ("a b", "c a", "b c")]
    yield "both, far apart", matching(words("+", "a b"), far), [0, 10002]
    yield "one of two and a third", matching(both(either[0], word("c")), far), [5001, 10002]
    yield "one of each pair", matching(both(*either), far), [0, 5001, 10002]


def rows_of_phrases():
    """Counts and scores of phrases."""
    documents = segment(ROWS_OF_PHRASES).documents
    counts = [phrase_count(placed("a b"), 0, it) for it in documents]
    yield "a b, counted", counts, [0, 2, 1]
    yield "a b", scored(phrase("a b"), 1, segment(ROWS_OF_PHRASES)), [(1, 444), (2, 666)]
    three = segment(["a x b c", "a b x c", "a x b x c"])
    yield "a b c, slop 1", matching(phrase("a b c", 1), three), [0, 1]
    rows = [("a b", "b a", 1, []), ("a b", "b a", 2, [0]), ("a a", "a", 1, [0]), ("a a", "a", 0, [])]
    for text, on, slop, want in rows:
        yield f"{text} on {on}, slop {slop}", matching(phrase(text, slop), segment([on])), want
    gap = ((0, body("a")), (1, body("c")))
    document = segment(["a b a c"]).documents[0]
    yield "a and c, a word apart", [phrase_count(gap, slop, document) for slop in (0, 2)], [1, 2]
    for slop, want in [(0, 0), (4294967294, 0), (4294967295, 1)]:
        yield f"offsets far apart, slop {slop}", starts([{4294967295}, {0}], slop), want


def rows_of_prefixes():
    """Counts and scores of phrases that end in a prefix."""
    for most, want in [(50, [(1, 428), (2, 500)]), (1, [(1, 428)]), (0, [])]:
        yield f"aa bb c, {most} terms", scored(prefix("aa bb c", most), 1, segment(BEHIND_TWO)), want
    terms = placed("aa bb c")
    for most, want in [(50, [0, 2, 1]), (1, [0, 1, 0])]:
        of = segment(BEHIND_TWO)
        counts = [prefix_count(terms[:2], terms[2], most, of, it) for it in of.documents]
        yield f"aa bb c, {most} terms, counted", counts, want
    one = segment(BEHIND_ONE)
    yield "aa b", scored(prefix("aa b"), 1, one), [(1, 1), (2, 1)]
    yield "aa b, five times", scored(Boost(5, prefix("aa b")), 1, one), [(1, 5), (2, 5)]
    yield "a prefix alone", scored(prefix("c"), 1, segment(NONE_IN_COMMON)), [(1, 1), (2, 1)]
    yield "aa cc d", matching(prefix("aa cc d"), segment(NONE_IN_COMMON)), []
    rows = [("a b cd", (0, 1), 2, [0]), ("a b cd", (0, 1), 3, []), ("a x cd", (0,), 2, [0])]
    for text, full, at, want in rows:
        tree = Prefix(placed("a b")[: len(full)], (at, body("c")), 50, 1000)
        yield f"prefix at {at} in {text}", matching(tree, segment([text])), want
    fields = segment(["a", "b", "ba", "c"])
    yield "terms from b on", [it for _, it in fields.expansions(body("b"), 50)], ["b", "ba"]


def rows_of_scores():
    """What combiners, boosts and constants make of scores."""
    trees = [
        (Boolean(constants("?", 300, 500), 1, "max 700"), 710),
        (Boolean(constants("?", 300, 500), 2, "max 0"), 500),
        (Boost(3, Boolean(constants("?", 1, 2), 1, "max 500")), 7),
        (Boolean((("+", All()), *constants("?", 4)), 0), 5),
        (Boolean((("+", word("a")), *constants("?", 3, 5)), 1, "max 1000"), 508),
        (Boolean((("?", All()),) * 3, 2), 3),
        (Constant(GREATEST, All()), GREATEST),
        (Term(body("a"), 1000, False), 500),
    ]
    for tree, want in trees:
        yield f"{tree}", scored(tree, 1, segment(["a"])), [(0, want)]
    twice = segment(["a a"])
    yield "counted", scored(word("a"), 1, twice), [(0, 500)]
    yield "not counted", scored(Term(body("a"), 1000, False), 1, twice), [(0, 333)]
    yield "too great a boost", fits(Boost(GREATEST, word("a", 2)), 1), False
    yield "constants too great together", fits(Boolean(constants("?", GREATEST, GREATEST)), 1), False
    yield "half of the greatest score", scored(word("a", GREATEST), 1, segment(["a"])), [(0, 4611686018427387903)]


def rows_of_queries():
    """What the weights of queries stand for."""
    two = [segment(["a b", "a"], deleted=[1]), segment(["a a b"])]
    searcher = Searcher(tuple(two), {body("b"): 500})
    query = Boolean((("+", Term(body("a"))), ("?", Term(body("b")))))
    tree = tree_of(query, searcher, True)
    yield "by segments", [scored(tree, 1, it) for it in two], [[(0, 499), (1, 500)], [(0, 525)]]
    for limit, want in [(0, []), (1, [(1, 0, 525)]), (2, [(1, 0, 525), (0, 0, 499)]), (3, [(1, 0, 525), (0, 0, 499)])]:
        yield f"the best {limit}", best(limit, tree, two), want
    alike = [segment(["a", "a b", "a"]), segment(["a b", "a"], deleted=[1]), segment(["a"])]
    yield "the best of equal ones", best(4, word("a"), alike), [(0, 0, 500), (0, 2, 500), (2, 0, 500), (0, 1, 333)]
    unscored = tree_of(Boost(3, Term(body("a"))), searcher, False)
    yield "without scores", unscored, Term(body("a"), None, False)
    greatest = DisjunctionMax(700, (Term(body("a")), Term(body("b"))))
    weights = Searcher((segment(["a b"]),), {body("a"): 900, body("b"): 1500})
    pairs = scored(tree_of(greatest, weights, True), 1, weights.segments[0])
    yield "the greater of two", (pairs, pruned(pairs, 750, ["score"])), ([(0, 710)], [])
    clauses = (("?", Term(body("a"))), ("-", Term(body("b"))), ("+", Phrase(placed("c d"))))
    terms = [(body("a"), False), (body("b"), False), (body("c"), True), (body("d"), True)]
    yield "terms", query_terms(Boolean(clauses)), terms
    yield from rows_of_counts()


def rows_of_counts():
    """Counts over a field of titles and one of bodies."""
    titles = ["the name of the wind", "the diary of muadib", "a dairy cow", "a dairy cow", "the diary of a young girl"]
    bodies = ["", "", "hidden", "found", ""]
    fields = (Field("title"), Field("body"))
    texts = [{"title": title.split(), "body": it.split()} for title, it in zip(titles, bodies)]
    of, title = Segment(fields, texts), of_field("title")
    diary, cow, girl = (Term(title(it)) for it in ("diary", "cow", "girl"))
    dairy_cow = Phrase(((0, title("dairy")), (1, title("cow"))))
    beside = Boolean((("?", diary), ("?", dairy_cow)), 1)
    queries = [
        (Boolean((("+", diary), ("-", girl))), 1),
        (Boolean((("?", diary), ("?", cow)), 1), 4),
        (beside, 4),
        (both(Term(body("found")), beside), 1),
        (Boolean((("?", cow), ("?", girl), ("?", diary)), 2), 1),
    ]
    for query, want in queries:
        tree = tree_of(query, Searcher((of,), {}), False)
        yield f"{query}", len(of.alive(matching(tree, of))), want
    taxes = segment(["hello happy tax", "hello", "hello", "happy tax"])
    yield "a word and a phrase", matching(both(word("hello"), phrase("happy tax")), taxes), [0]


def rows_of_runs():
    """Pruned runs and slices."""
    pairs = scored(word("a", 20), 1, segment(["a b c d e", "a b c", "a b c d"]))
    yield "what is pruned", pairs, [(0, 3), (1, 5), (2, 4)]
    yield "answers that rise", pruned(pairs, 2, ["score"]), [(0, 3), (1, 5)]
    yield "answers that fall", pruned(pairs, 2, [4, 1]), pairs
    noughts = scored(word("a", 0), 1, segment(["a", "a"]))
    yield "noughts", pruned(noughts, -1, [-1]), [(0, 0), (1, 0)]
    yield "noughts above nought", pruned(noughts, 0, ["score"]), []
    yield "the greatest answer", pruned(pairs, LEAST, [GREATEST]), [(0, 3)]
    yield "the least answer", pruned(pairs, LEAST, [LEAST]), pairs
    yield "slices of 128", slices(All(), list(range(128))), [64, 64, 0]
    yield "one empty slice", slices(Nothing(), []), [0]
    yield "no slice", slices(word("z"), []), []


def rows_of_parts():
    """Parts of an open segment as documents come."""
    yield "one document at a time", parts_built([4, 2], 1), [4, 2, 1]
    yield "one that closes all", parts_built([4, 2, 1], 1), [8]
    yield "fewer than twice as many", parts_built([8, 4, 1], 2), [15]
    yield "twice as many stay", parts_built([8, 4], 2), [8, 4, 2]
    yield "none came", parts_built([4, 1, 1], 0), [4, 1, 1]


def each(score, *documents):
    return dict.fromkeys(documents, score)


def rows_of_scorers():
    """What combined scorers list."""
    first, second = each(1, 1, 3, 9), each(1, 3, 4, 9, 18)
    yield "both lists", sorted(intersection([first, second])), [3, 9]
    yield "three lists", sorted(intersection([first, second, each(1, 1, 5, 9, 111)])), [9]
    greatest = constant(GREATEST, each(1, 0))
    yield "a sum that is held", intersection([greatest, greatest]), {0: GREATEST}
    required = each(1, 1, 3, 7, 8, 9, 10, 13, 15)
    other = each(1, 1, 2, 7, 11, 12, 15)
    yield "with another", list(optional("sum", required, other).values()), [2, 1, 2, 1, 1, 1, 1, 2]
    left_out = exclude(each(1, 1, 2, 5, 8, 10, 15, 24), [each(1, 1, 2, 3, 10, 16, 24)])
    yield "without another", sorted(left_out), [5, 8, 15]
    several = [each(1, *it) for it in ([1, 2], [1, 3], [1, 4], [1, 2], [1, 2])]
    yield "three of five", at_least(3, "sum", several), {1: 5, 2: 3}
    yield "more than there are", at_least(6, "sum", several), {}
    yield "a boost", boosted(3, first), each(3, 1, 3, 9)
    left = Left(at_least(1, "sum", [each(1, 0, 4096), each(1, 4095, 8192)]))
    answers = [left.doc(), left.seek(4095), left.advance(), left.fill(), left.fill(), left.doc()]
    yield "any of two lists", answers, [0, 4095, 4096, [4096, 8192], [], END]
    threes = Left(dict.fromkeys(range(0, 3070, 3), 1))
    moves = [threes.advance(), threes.seek(14), threes.seek(300), threes.seek(10), threes.seek(6000), threes.advance()]
    yield "multiples of three", moves, [3, 15, 300, 300, END, END]


TABLES = (
    rows_of_clauses,
    rows_of_phrases,
    rows_of_prefixes,
    rows_of_scores,
    rows_of_queries,
    rows_of_runs,
    rows_of_parts,
    rows_of_scorers,
)


def differences():
    """What the model answers otherwise than a worked row says."""
    for table in TABLES:
        for what, got, want in table():
            if got != want:
                yield f"{what}: wanted {want}, got {got}"
