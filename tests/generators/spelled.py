"""Trees, queries and segments as the words of a case."""

import itertools

from model import END, All, Boolean, Boost, Constant, DisjunctionMax, Phrase, Prefix, Term


def document(doc):
    return "end" if doc == END else str(doc)


def documents(docs):
    return " ".join(map(document, docs))


def pairs(listed):
    return " ".join(f"{doc}:{points}" for doc, points in listed)


def addresses(found):
    return " ".join(f"{number}/{doc}:{points}" for number, doc, points in found)


def row(call, answer=""):
    return f"  {call} = {answer}" if answer != "" else f"  {call} ="


# ---- weights and queries


def placed(terms):
    return " ".join(f"{offset} {word}" for offset, (_, word) in terms)


def term_clauses(clauses):
    """Whether clauses may be spelled as those of a weight of terms, which shares the norms."""
    return all(isinstance(it, Term) for _, it in clauses)


def weight_of_terms(tree):
    """A Boolean of terms as a weight of terms."""
    signed = (f"{sign}{it.term[1]} {'' if it.counted else 'basic:'}{it.weight}" for sign, it in tree.clauses)
    return " ".join((f"terms {tree.combiner} {tree.minimum} on", *signed))


def weight(tree):
    """A tree with scoring on, as a weight is spelled. Of two Booleans of terms one is a weight of terms."""
    match tree:
        case Boolean(clauses, minimum) if term_clauses(clauses) and (len(clauses) + minimum) % 2:
            return weight_of_terms(tree)
        case Term((_, word), points, counted):
            return f"{'term' if counted else 'basic'} {word} {points}"
        case Phrase(terms, slop, points):
            return f"phrase {points} {slop} {len(terms)} {placed(terms)}"
        case Prefix((), (_, (_, word)), most):
            return f"words {most} {word}"
        case Prefix(full, prefix, most, points):
            return f"prefix {points} {most} {len(full) + 1} {placed((*full, prefix))}"
        case Boolean(clauses, minimum, combiner):
            inside = " ".join(f"{sign} {weight(it)}" for sign, it in clauses)
            return f"bool {combiner} {minimum} {len(clauses)} {inside}".rstrip()
        case Boost(by, inside):
            return f"boost {by} {weight(inside)}"
        case Constant(points, inside):
            return f"const {points} {weight(inside)}"
    return "all" if tree == All() else "none"


def minimum_of_new(signs):
    """The minimum of a Boolean query to which none is given."""
    return 1 if signs and set(signs) == {"?"} else 0


def reordered(random, terms):
    """The terms of a query in another order, where their offsets are all different: it sorts them by these."""
    offsets = [offset for offset, _ in terms]
    if random is None or len(set(offsets)) < len(offsets):
        return terms
    return random.sample(terms, len(terms))


def phrase(name, number, terms, random):
    """A phrase, by words alone where each stands behind the one before, else with offsets."""
    words = [word for _, (_, word) in terms]
    if [offset for offset, _ in terms] == list(range(len(terms))):
        return f"{name} {number} {len(words)} {' '.join(words)}"
    return f"{name}at {number} {len(words)} {placed(reordered(random, terms))}"


def boolean(clauses, minimum, random):
    """The ways to make a Boolean query of these clauses, of which one is taken; without chance the first."""
    count, signs = len(clauses), [sign for sign, _ in clauses]
    signed = " ".join(f"{sign} {query(it, random)}" for sign, it in clauses)
    bare = " ".join(query(it, random) for _, it in clauses)
    heads = [(f"bool {minimum} {count}", signed)]
    if set(signs) <= {"?"}:
        heads.append((f"unionmin {minimum} {count}", bare))
    if minimum == minimum_of_new(signs):
        heads = [(f"clauses {count}", signed), (f"from {count}", signed), *heads]
        heads += [(f"union {count}", bare)] if set(signs) <= {"?"} else []
        heads += [(f"intersection {count}", bare)] if set(signs) <= {"+"} else []
        if set(signs) <= {"?"} and all(isinstance(it, Term) and it.counted for _, it in clauses):
            heads.append((f"multiterms {count}", " ".join(it.term[1] for _, it in clauses)))
    return " ".join(random.choice(heads) if random else heads[0]).rstrip()


def query(tree, random=None):
    """A query as it is spelled: by chance in one of the ways to make it, the terms of its phrases in any order."""
    match tree:
        case Term((_, word), _, counted):
            return f"{'term' if counted else 'basic'} {word}"
        case Phrase(terms, slop):
            return phrase("phrase", slop, terms, random)
        case Prefix(full, prefix, most):
            return phrase("prefix", most, (*full, prefix), random)
        case Boolean(clauses, minimum):
            return boolean(clauses, minimum, random)
        case DisjunctionMax(0, inside) if random and random.random() < 0.5:
            return f"best {len(inside)} {' '.join(query(it, random) for it in inside)}".rstrip()
        case DisjunctionMax(tie_breaker, inside):
            return f"max {tie_breaker} {len(inside)} {' '.join(query(it, random) for it in inside)}".rstrip()
        case Boost(by, inside):
            return f"boost {by} {query(inside, random)}"
        case Constant(points, inside):
            return f"const {points} {query(inside, random)}"
    return "all" if tree == All() else "none"


# ---- what cases stand on


def field(it):
    return f"  field {it.name} {it.keeps}{' lengths' if it.lengths else ''}"


def given(segments, texts, blocks, weights=(), default=None, one_field=None, norms=None):
    """The block that makes segments of these texts, lists of words; without norms these are the length ids."""
    yield "given"
    if one_field:
        yield field(one_field)
    yield f"  blocks {blocks}"
    for word, points in weights:
        yield f"  weight {word} {points}"
    if default is not None:
        yield f"  default {default}"
    if norms:
        yield f"  norms {' '.join(map(str, norms))}"
    for number, (segment, words) in enumerate(zip(segments, texts)):
        if number > 0:
            yield "  segment"
        for text in words:
            yield f"  doc {text}".rstrip()
        for doc in sorted(segment.deleted):
            yield f"  delete {doc}"


def one_segment(segment, words, blocks, own_field):
    """The block that makes one segment: a row that adds a document is answered its number."""
    numbers = itertools.count()
    for line in given([segment], [words], blocks, one_field=own_field):
        yield f"{line} = {next(numbers)}" if line.startswith("  doc") else line
