"""Trees of scorers: every pair of kinds of nodes over four sorts of leaves, each sent to every document at once, and
deeper ones by chance. A tree is made as its words and what it lists."""

import itertools
import random as chances

from generators import calls, chance, spelled
from generators.scorers import Made, at_least, boosted, constant, exclude, intersection, optional
from generators.spelled import row
from model import END, GREATEST, Phrase, Prefix, Term, scored


# ---- nodes


def node(kind, members, combiner="sum", number=2):
    """A node of this kind over trees; the number is its boost, its constant, its minimum, or of an intersection how
    many documents it is told that there are."""
    count, words = len(members), " ".join(it.words for it in members)
    lists, most = [it.listed for it in members], sum(it.most for it in members)
    match kind:
        case "boost":
            return Made(f"boost {number} {words}", boosted(number, lists[0]), number * most)
        case "const":
            return Made(f"const {number} {words}", constant(number, lists[0]), number)
        case "optional":
            return Made(f"optional {words}", optional("sum", *lists), most)
        case "exclude":
            return Made(f"exclude {count - 1} {words}", exclude(lists[0], lists[1:]), members[0].most)
        case "union":
            return Made(f"union {combiner} {count} {words}".rstrip(), at_least(1, combiner, lists), max(1, most))
        case "atleast":
            head = f"atleast {combiner} {number} {count} {words}".rstrip()
            return Made(head, at_least(number, combiner, lists), max(1, most))
    listed, within = intersection(lists) if lists else {}, f" in {number}" if number > 2 else ""
    return Made(f"intersection {count}{within} {words}".rstrip(), listed, min(most, GREATEST))


def pair_node(kind, first, second):
    """A node over two trees, of which a boost and a constant take the first alone."""
    members = [first] if kind in ("boost", "const") else [first, second]
    return node(kind, members, "max 0" if kind == "atleast" else "sum", {"boost": 3, "const": 7}.get(kind, 2))


KINDS = ("boost", "const", "optional", "exclude", "union", "atleast", "intersection")
STEPS = {2: "two", 3: "three", 5: "five"}
MANNERS = {2: "least", 3: "greatest", 5: "fickle"}
LAST = 300

# ---- every pair of kinds


def leaf(sort, step):
    """The multiples of a step, each with the step as its score."""
    word, listed = STEPS[step], dict.fromkeys(range(0, LAST, step), step)
    words = {
        "own": f"own {MANNERS[step]} {step} 0..{LAST}/{step} .",
        "term": f"term {word} {2 * step}",
        "phrase": f"boost {step} phrase 2 0 2 0 {word} 1 {word}",
        "prefix": f"boost {step} prefix 2 50 2 0 {word} 1 {word}",
    }
    return Made(words[sort], listed, step)


def given(sort):
    """The segment of a sort of leaves. For phrases a multiple of a step has its word twice, all others once."""
    keeps = "basic" if sort == "term" else "positions"
    yield "given"
    yield f"  field body {keeps}"
    yield "  blocks 3"
    for doc in range(LAST):
        words = []
        for step, word in STEPS.items():
            words += [word] * ((doc % step == 0) + (keeps == "positions"))
        yield f"  doc {' '.join(words)}".rstrip()


def sent(made, target):
    """A tree that is sent to a document at once, and one that is asked for it."""
    docs = sorted(made.listed)
    head = next((doc for doc in docs if doc >= target), END)
    yield f"tree {made.words}"
    yield row(f"seek {target}", spelled.document(head))
    if head < END:
        yield row("score", made.listed[head])
    # asked for it, for it again, and for what is before and past it
    yield f"tree {made.words}"
    yield from calls.asked_for(made.listed, (target, target, max(0, target - 3), target + 2, target))


def pairs_of_kinds(asked):
    """A node of one kind over a node of another, over leaves of a sort: as a whole, by calls in some order, and sent to
    each document of a stride."""
    outer, inner, sort, stride = asked
    yield from given(sort)
    made = pair_node(outer, pair_node(inner, leaf(sort, 2), leaf(sort, 3)), leaf(sort, 5))
    yield f"tree {made.words}"
    yield row("scores", spelled.pairs(sorted(made.listed.items())))
    yield f"tree {made.words}"
    yield row("total", len(made.listed))
    source = chances.Random(f"{sort} {outer} {inner}")
    yield f"run {made.words}"
    yield from calls.of_run(source, made.listed)
    for _ in range(4):
        yield f"tree {made.words}"
        yield from calls.of_scorer(source, made.listed, 60)
    for target in range(0, LAST, stride):
        yield from sent(made, target)


# ---- groups

ROWS = (
    [],
    [[3, 7]],
    [[]],
    [[1, 3, 5], [1, 3, 5], [1, 3, 5]],
    [[1, 2], [4], [3, 9]],
    [[], [2, 4, 6], [4]],
    [[0, 4, 5, 9], [4, 9], [1, 4], [4, 5, 8, 9]],
)
SMALL = [[doc for doc in range(3) if bits >> doc & 1] for bits in range(8)]


def own(documents, points, manner="least", more=0):
    """A cursor of a case's own, whose odd documents score more."""
    listed = {doc: points + more * (doc % 2) for doc in documents}
    odd = f"odd {more} " if more else ""
    words = " ".join(["own", manner, str(points), odd + " ".join(map(str, documents))]).rstrip()
    return Made(f"{words} .", listed, points + more)


def groups(manner):
    """Nodes of several members: what some rows of lists give, and all rows of up to three lists of documents below
    3, the members' scores 1, 2, 4 and so on."""
    small = [list(lists) for count in range(4) for lists in itertools.product(SMALL, repeat=count)]
    # own cursors alone: of the segment nothing is asked
    yield "given"
    yield "  blocks 2"
    for lists in [*ROWS, *small]:
        members = [own(docs, 2**number, manner) for number, docs in enumerate(lists)]
        made = [node("intersection", members)]
        for combiner in ("sum", "nothing", "max 500"):
            made += [node("union", members, combiner)]
            made += [node("atleast", members, combiner, minimum) for minimum in range(1, len(lists) + 2)]
        made += [node("exclude", members)] if len(lists) > 1 else []
        made += [node("optional", members)] if len(lists) == 2 else []
        for it in made:
            yield f"tree {it.words}"
            yield row("scores", spelled.pairs(sorted(it.listed.items())))


def odd_members(manners):
    """Each node over each two cursors of the case's own that are odd in these manners, asked for targets in each
    order."""
    # own cursors alone: of the segment nothing is asked
    yield "given"
    yield "  blocks 2"
    for lists in itertools.product(SMALL, repeat=2):
        members = [own(docs, points, manner) for docs, points, manner in zip(lists, (1, 5), manners)]
        for kind in KINDS:
            made = pair_node(kind, *members)
            for targets in calls.ORDERS:
                yield f"tree {made.words}"
                yield from calls.asked_for(made.listed, targets)


# ---- by chance


class Scorers:
    """Makes trees over a segment by chance."""

    def __init__(self, random, segment):
        self.random, self.segment = random, segment
        self.last = max(len(segment.documents), 3)
        self.present = [term for term in segment.terms]

    def documents(self):
        """Documents in a dense stretch, or far apart."""
        share = self.random.choice([0, 0.02, 0.1, 0.5, 0.9])
        first = self.random.randrange(self.last)
        end = self.random.choice([self.last, first + 10, 2 * self.last])
        return [doc for doc in range(first, end) if self.random.random() < share]

    def of_weight(self, words, tree):
        listed = dict(scored(tree, 1, self.segment))
        return Made(words, listed, max(1, tree.weight))

    def of_segment(self):
        """A term, a phrase or a phrase prefix of words that the segment has."""
        points, kind = self.random.choice([0, 1, 20, 1000]), self.random.random()
        terms = tuple((self.random.choice([0, 1, 1, 2]), self.random.choice(self.present)) for _ in range(3))
        if kind < 0.5:
            tree = Term(terms[0][1], points)
        elif kind < 0.75:
            tree = Phrase(terms[: self.random.choice([2, 2, 3])], self.random.choice([0, 1, 2, 5]), points)
        else:
            tree = Prefix(terms[: self.random.choice([1, 2])], terms[2], self.random.choice([1, 2, 50]), points)
        return self.of_weight(spelled.weight(tree), tree)

    def leaf(self):
        kind = self.random.random()
        if kind < 0.1:
            count = self.random.choice([0, 1, 5, self.last])
            return Made(f"all {count}", dict.fromkeys(range(count), 1), 1)
        if kind < 0.25:
            documents = self.documents()
            points, last = self.random.choice([1, 1, 0, 9]), 2 * self.last + 20
            words = f"bits {last}{f' score {points}' if points != 1 else ''} {' '.join(map(str, documents))}".rstrip()
            return Made(f"{words} .", dict.fromkeys(documents, points), points)
        if kind < 0.6 and self.present:
            return self.of_segment()
        if kind < 0.63:
            return Made("empty", {}, 1)
        manner = self.random.choice(["list", "least", "greatest", "fickle"])
        more = self.random.choice([0, 0, 3])
        return own(self.documents(), self.random.choice([0, 1, 5, 4294967290]), manner, more)

    def tree(self, depth):
        if depth == 0 or self.random.random() < 0.1:
            return self.leaf()
        kind = self.random.choice([*KINDS, "union", "atleast", "intersection"])
        least = {"boost": 1, "const": 1, "optional": 2, "exclude": 1}.get(kind, 0)
        count = least if kind in ("boost", "const", "optional") else max(least, self.random.choice([0, 1, 2, 2, 3, 4]))
        combiner = self.random.choice(["sum", "nothing", "max 0", "max 300", "max 1000"])
        number = self.random.choice([0, 1, 3, 1000] if kind in ("boost", "const") else [1, 2, 2, 3, 5])
        return node(kind, [self.tree(depth - 1) for _ in range(count)], combiner, number)

    def fitting(self, depth):
        """A tree whose bounds, a node's members together, are scores; no node here is deep enough to pass them."""
        made = self.tree(depth)
        return made if made.most <= GREATEST else self.fitting(depth)


def by_chance(random):
    """A segment with positions, and cases of trees over it."""
    made, words = chance.segment(random, chance.size(random))
    yield from spelled.given([made], [words], random.choice(chance.BLOCKS))
    scorers = Scorers(random, made)
    for depth in (0, 1, 1, 2, 2, 2, 3, 3, 3, 4):
        tree = scorers.fitting(depth)
        for _ in range(2):
            yield f"tree {tree.words}"
            # of a document past the last of the segment it isn't said whether it was deleted
            is_inside = max(tree.listed, default=0) < len(made.documents)
            deleted = made.deleted if is_inside else None
            yield from calls.of_scorer(random, tree.listed, random.choice([10, 30]), deleted)
        yield f"run {tree.words}"
        yield from calls.of_run(random, tree.listed)
