"""Cases of cursors and of what is made of several: all small lists, and longer ones by chance."""

import itertools

from generators import calls, spelled
from generators.scorers import Made, at_least, boosted, constant, exclude, intersection, optional
from generators.spelled import row
from model import END, GREATEST

MANNERS = ("list", "least", "greatest", "fickle")
COMBINERS = ("sum", "nothing", "max 0", "max 300", "max 1000")
OPTIONAL = ("sum", "nothing", "max 0")

# ---- leaves


def leaf(documents, manner, points, more=0):
    odd = f" odd {more}" if more else ""
    words = f"{manner} {points}{odd} {' '.join(map(str, documents))}".rstrip()
    return Made(words, {doc: points + more * (doc % 2) for doc in documents}, points + more)


def constant_leaf(points, count):
    return Made(f"const {points} all {count}", dict.fromkeys(range(count), points), points)


# ---- what is made of leaves: the first line of a block, and what its thing lists, or nothing where it is refused


def joined(leaves):
    return " ; ".join(it.words for it in leaves)


def bounded(line, most, listed):
    """The block of what is refused where the bounds together pass the greatest score."""
    return (f"{line} = refused ScoreBound", None) if most > GREATEST else (line, listed)


def gathered(leaves, combiner, minimum, last):
    """The intersection of leaves, their union, and what at least so many of them have."""
    lists, most, words = [it.listed for it in leaves], sum(it.most for it in leaves), joined(leaves)
    if len(leaves) > 1:
        yield f"intersection {last} {words}", intersection(lists)
    yield bounded(f"union {combiner} {last} {words}".rstrip(), most, at_least(1, combiner, lists))
    for name in ("atleast", "unforetold"):
        yield bounded(f"{name} {minimum} {combiner} {words}".rstrip(), most, at_least(minimum, combiner, lists))
    yield bounded(f"enough {minimum} {combiner} {last} {words}".rstrip(), most, at_least(minimum, combiner, lists))


def of_two(first, second, combiner):
    """A cursor with another one beside it."""
    words, lists = joined([first, second]), [first.listed, second.listed]
    yield f"exclude {words}", exclude(lists[0], lists[1:])
    yield bounded(f"optional {combiner} {words}", first.most + second.most, optional(combiner, *lists))


def of_one(it, factor):
    """A cursor as it is, and under a constant and a boost."""
    yield it.words, it.listed
    yield f"boxedscorer {it.words}", it.listed
    yield f"const {factor} {it.words}", constant(factor, it.listed)
    yield bounded(f"boost {factor} {it.words}", factor * it.most, boosted(factor, it.listed))


def plain(documents, last):
    """Cursors without scores: each document scores 1."""
    listed, words = dict.fromkeys(documents, 1), " ".join(map(str, documents))
    for name in ("vec", "boxed", "steps", f"bits {last}"):
        yield f"{name} {words}".rstrip(), listed


# ---- all small lists

SMALL = [[doc for doc in range(4) if bits >> doc & 1] for bits in range(16)]


def all_small(manner):
    """All pairs of lists of documents below 4, and all rows of three of those below 3."""
    yield "given"
    yield "  alive 4 0 2"
    for lists in itertools.product(SMALL, repeat=2):
        first, second = (leaf(docs, manner, points) for docs, points in zip(lists, (1, 5)))
        made = [*gathered([first, second], "sum", 2, 4), *of_two(first, second, "sum")]
        made += [*gathered([first, second], "max 300", 3, 4), *of_two(first, second, "max 0")]
        yield from shown(made)
    small = [docs for docs in SMALL if 3 not in docs]
    for lists in itertools.product(small, repeat=3):
        leaves = [leaf(docs, manner, 2**number) for number, docs in enumerate(lists)]
        others = [it.listed for it in leaves[1:]]
        made = [*gathered(leaves, "sum", 2, 3), (f"exclude {joined(leaves)}", exclude(leaves[0].listed, others))]
        yield from shown(made)


def odd_members(manners):
    """What is made of each two leaves that are odd in these manners, asked for targets in each order."""
    yield "given"
    yield "  alive 4 0 2"
    for lists in itertools.product(SMALL, repeat=2):
        first, second = (leaf(*it) for it in zip(lists, manners, (1, 5)))
        made = [*gathered([first, second], "sum", 2, 4), *of_two(first, second, "sum")]
        made += of_one(first, 3) if second.listed == {} else []
        for line, listed in made:
            for targets in calls.ORDERS:
                yield line
                yield from calls.asked_for(listed, targets)


def shown(made):
    """What each lists, how many documents that are, and a seek to each."""
    for line, listed in made:
        yield line
        yield row("scores", spelled.pairs(sorted(listed.items())))
        yield row("total", 0)
        yield line
        yield row("count", sum(doc in (0, 2) for doc in listed))
        for target in range(1, 4):
            head = min((doc for doc in listed if doc >= target), default=END)
            yield line
            yield row(f"seek {target}", spelled.document(head))
            yield row("score", listed[head]) if head < END else row("doc", "end")


# ---- by chance


def documents(random, last):
    """Documents below a number, here many, there few."""
    density = random.choice([0.01, 0.1, 0.5, 0.95])
    found, doc = [], random.choice([0, 0, random.randrange(last)])
    while doc < last and len(found) < 150:
        found.append(doc)
        if random.random() < 0.03:
            density = random.choice([0.001, 0.1, 0.5, 1])
        doc += 1 + (0 if random.random() < density else random.randrange(1, max(2, last // 20)))
    return found[: random.choice([0, 1, 3, 150, 150, 150])]


def any_leaf(random, last):
    more = random.choice([0, 0, 1, 4294967295])
    return leaf(documents(random, last), random.choice(MANNERS), random.choice([0, 1, 2, 7, 4294967295]), more)


def things(random, last):
    """One thing of each kind over leaves by chance."""
    leaves = [any_leaf(random, last) for _ in range(random.choice([0, 1, 2, 2, 3, 5]))]
    if random.random() < 0.1:
        leaves = [constant_leaf(random.choice([0, 3, 2**62]), random.choice([0, 1, 64, 200])) for _ in leaves]
    yield from gathered(leaves, random.choice(COMBINERS), random.choice([2, 2, 3, 4]), last)
    first, second = any_leaf(random, last), any_leaf(random, last)
    yield from of_two(first, second, random.choice(OPTIONAL))
    others = [any_leaf(random, last) for _ in range(random.choice([2, 3]))]
    lists = [it.listed for it in others]
    yield f"exclude {joined([first, *others])}", exclude(first.listed, lists)
    yield from of_one(first, random.choice([0, 1, 3, 2**30, GREATEST]))
    yield from plain(documents(random, last), min(last, 100000))
    count = random.choice([0, 1, 64, 65, 130])
    yield f"all {count}", dict.fromkeys(range(count), 1)
    yield "empty", {}


def by_chance(random):
    """Things of every kind, each played twice."""
    last = random.choice([8, 70, 200, 5000, 20000, 100000])
    alive = sorted({*documents(random, last), *documents(random, last)})
    yield "given"
    yield f"  alive {last} {' '.join(map(str, alive))}".rstrip()
    for line, listed in things(random, last):
        if listed is None:
            yield line
            continue
        # what is counted are the alive ones
        deleted = set(listed) - set(alive)
        for _ in range(2):
            yield line
            yield from calls.of_scorer(random, listed, random.choice([6, 20, 40]), deleted)


# ---- the windows of a union

# where words of 64 and windows of 4096 begin and end, and the last document that there may be
EDGES = (0, 63, 64, 4095, 4096, 4097)
LAST_DOCUMENT = END - 1


def about_edges(random):
    """Documents where words and windows begin and end, here and there a stretch of many, and the last one."""
    base = random.choice([0, 0, 0, 1, 64, 10000])
    found = {base + doc for doc in EDGES if random.random() < 0.5}
    if random.random() < 0.5:
        first = base + random.choice([0, 1, 60, 300, 4000, 4090])
        found |= set(range(first, first + random.choice([5, 70, 400]), random.choice([1, 1, 3, 17])))
    if random.random() < 0.3:
        found.add(LAST_DOCUMENT)
    return sorted(found)


def windows(random):
    """Unions of documents about the edges of windows."""
    alive = sorted({*EDGES, *random.sample(range(5000), 60)} - {random.choice(EDGES)})
    yield "given"
    yield f"  alive 5000 {' '.join(map(str, alive))}"
    for _ in range(4):
        count = random.choice([1, 2, 2, 3, 4])
        leaves = [
            leaf(about_edges(random), random.choice(MANNERS), random.choice([0, 1, 2, 7]), random.choice([0, 1]))
            for _ in range(count)
        ]
        combiner, most = random.choice(COMBINERS), sum(it.most for it in leaves)
        lists = [it.listed for it in leaves]
        line, listed = bounded(f"union {combiner} {END} {joined(leaves)}", most, at_least(1, combiner, lists))
        yield line
        yield from calls.of_scorer(random, listed, random.choice([6, 20, 40]), set(listed) - set(alive))
