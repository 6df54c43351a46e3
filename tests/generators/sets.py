"""Cases of sets of numbers, of lists of documents and of combiners, by chance."""

import itertools

from generators import calls, cursors, spelled
from generators.spelled import row
from model import END, combined


def truth(it):
    return "true" if it else "false"


def or_none(number):
    return "none" if number is None else number


def numbers(members):
    return numbers_in(sorted(members))


def numbers_in(order):
    return " ".join(map(str, order))


def tiny_set(random):
    """Calls on a set of numbers below 64."""
    yield "tinyset"
    members = set()
    for _ in range(30):
        number, call = random.randrange(64), random.randrange(9)
        if call < 2:
            members.add(number)
            yield row(f"insert {number}")
        elif call == 2:
            yield row(f"insert_mut {number}", truth(number not in members))
            members.add(number)
        elif call == 3:
            yield row(f"contains {number}", truth(number in members))
        elif call == 4:
            yield row("pop_lowest", or_none(min(members, default=None)))
            members -= {min(members, default=None)}
        elif call == 5:
            yield row("len", len(members))
            yield row("is_empty", truth(not members))
        elif call == 6:
            start = random.randrange(200)
            members = {it for it in members if it >= start % 64}
            yield row(f"intersect range_greater_or_equal {start}")
        else:
            yield row("members", numbers(members))


def bit_set(random):
    """Calls on a set of numbers below some number."""
    last = random.choice([0, 1, 63, 64, 65, 200, 1000, 100000])
    members = set(cursors.documents(random, last)) if last else set()
    yield f"bitset {last} {numbers(members)}".rstrip()
    for _ in range(15):
        number, bucket = random.randrange(last + 70), random.randrange(last // 64 + 3)
        if number < last and random.random() < 0.4:
            members.add(number)
            yield row(f"insert {number}")
        yield row(f"contains {number}", truth(number in members))
        yield row(f"tinyset {bucket}", numbers(it - 64 * bucket for it in members if it // 64 == bucket))
        buckets = [it // 64 for it in members if it // 64 >= bucket]
        yield row(f"first_non_empty_bucket {bucket}", or_none(min(buckets, default=None)))
    yield row("len", len(members))
    yield row("max_value", last)


def alive_bits(random):
    last = random.choice([0, 1, 64, 100, 1000])
    members = set(cursors.documents(random, last)) if last else set()
    yield f"alivebits {last} {numbers(members)}".rstrip()
    yield row("num_alive_docs", len(members))
    for _ in range(10):
        doc = random.randrange(last + 70)
        yield row(f"is_alive {doc}", truth(doc in members))


def list_of_documents(random):
    """Places in a list, and whether a list ascends."""
    last = random.choice([5, 100, 3000, 100000])
    docs = cursors.documents(random, last)
    yield f"documents {' '.join(map(str, docs))}".rstrip()
    yield row("are_documents", "true")
    for _ in range(12):
        start, target = random.randint(0, len(docs)), random.choice([random.randrange(last + 3), END])
        place = next((it for it in range(start, len(docs)) if docs[it] >= target), len(docs))
        yield row(f"gallop {start} {spelled.document(target)}", place)
    if len(docs) > 1:
        yield f"documents {' '.join(map(str, random.choice([docs[::-1], docs[:2] + docs])))}"
        yield row("are_documents", "false")


def lengths(random):
    docs = cursors.documents(random, 300)
    yield f"length {' '.join(map(str, docs))}".rstrip()
    for target in sorted(random.sample(range(310), 3)):
        yield row("len", len(docs))
        yield row(f"seek {target}", spelled.document(min((it for it in docs if it >= target), default=END)))
    yield row("is_empty", truth(not docs))


def sent(random):
    """A leaf that is made anew for each row and sent to a document, and what it has left."""
    start = random.randrange(300)
    leaf = cursors.any_leaf(random, 300)
    pairs = [(doc, points) for doc, points in sorted(leaf.listed.items()) if doc >= start]
    yield f"from {start} {leaf.words}"
    yield row("documents_left", spelled.documents(doc for doc, _ in pairs))
    yield row("scores_left", spelled.pairs(pairs))
    yield row("scores_left count", len(pairs))
    for call in ("seek", "seek_by_steps"):
        target = random.randrange(310)
        ahead = [doc for doc, _ in pairs if doc >= target] + [END, END]
        yield row(f"{call} {target}", f"{spelled.document(ahead[0])} then {spelled.document(ahead[1])}")


def exclusions(lists, docs):
    """Whether lists exclude each of these documents, which are asked for in turn. The lists are asked in turn, up to
    the first that has the document; each drops what it has below."""
    left = [sorted(it) for it in lists]
    for doc in docs:
        is_found = False
        for number, it in enumerate(left):
            if not is_found:
                left[number] = [other for other in it if other >= doc]
                is_found = doc in it
        yield is_found


def excluded(random):
    """Which documents leaves exclude, asked for in ascending order, in descending order and in any, some twice."""
    leaves = [cursors.any_leaf(random, 300) for _ in range(random.choice([1, 2, 2, 3, 4]))]
    bits = cursors.documents(random, 300)
    things = [(cursors.joined(leaves), [it.listed for it in leaves]), (f"bits 300 {numbers(bits)}".rstrip(), [bits])]
    members = sorted(doc for it in leaves for doc in it.listed)
    for words, lists in things:
        yield f"exclusion {words}"
        for order in range(5):
            docs = [random.choice([*random.choices(members or [0], k=2), random.randrange(310)]) for _ in range(10)]
            docs.sort(reverse=order == 1)
            # others descend here and there, or are asked for twice
            for _ in range(order - 1):
                at = random.randrange(len(docs))
                docs.insert(random.randrange(len(docs)), docs[at])
            yield row(f"contains {numbers_in(docs)}", " ".join(map(truth, exclusions(lists, docs))))


def odd_exclusions(manners):
    """Which documents each two leaves exclude that are odd in these manners, asked for in each order."""
    for lists in itertools.product(cursors.SMALL, repeat=2):
        yield f"exclusion {cursors.joined(cursors.leaf(*it) for it in zip(lists, manners, (1, 5)))}"
        for targets in calls.ORDERS:
            docs = [it for it in targets if it != END]
            yield row(f"contains {numbers_in(docs)}", " ".join(map(truth, exclusions(lists, docs))))


def members(random):
    """Leaves in a row, made anew for each call."""
    leaves = [cursors.any_leaf(random, 60) for _ in range(random.choice([1, 2, 3]))]
    lists = [it.listed for it in leaves]
    yield f"members {cursors.joined(leaves)}"
    yield row("least_document", spelled.document(min((doc for it in lists for doc in it), default=END)))
    for target in random.sample(range(62), 6):
        least = spelled.document(min((doc for it in lists for doc in it if doc >= target), default=END))
        yield row(f"seek_below {target}", least)
        if all(target in it for it in lists):
            yield row(f"seek_each {target}", "found")


def combiner(random):
    """Scores in several orders, and after a clear."""
    name = random.choice(cursors.COMBINERS)
    yield f"combiner {name}"
    scores = []
    for _ in range(20):
        if random.random() < 0.15:
            scores = []
            yield row("clear")
        elif random.random() < 0.6:
            scores.append(random.choice([0, 1, 2, 999, 123456789, 10**17]))
            yield row(f"update {scores[-1]}")
        # one score for none is that of a combiner that was cleared
        none = 1 if name == "nothing" else 0
        yield row("score", combined(name, scores) if scores else none)


def by_chance(random):
    for generate in (tiny_set, bit_set, alive_bits, list_of_documents, lengths, sent, excluded, members, combiner):
        yield from generate(random)
