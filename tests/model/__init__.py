"""What queries mean, word for word by their definitions: each document is looked at by itself, as a map from words
to positions. Nothing is known here of cursors, blocks, windows or postings, so that what is built of these can be
compared with it. All numbers are whole.

`python3 -m model`, in the folder of the tests, tries it against worked rows.
"""

from dataclasses import dataclass

END = 2147483647  # what a cursor answers past its last document
GREATEST = 9223372036854775807  # the greatest score
LEAST = -9223372036854775808  # the least threshold
MOST_STARTS = 4294967295  # a phrase is counted no further
SLICE = 64  # how many documents a slice has, and a buffer

# ---- documents


@dataclass(frozen=True)
class Field:
    name: str
    keeps: str = "positions"  # nothing, basic, freqs or positions
    lengths: bool = True


class Document:
    """The places of each term, a pair of a field's name and a word, and the length id of each field."""

    def __init__(self, fields, texts):
        self.fields, self.places = fields, {}
        for name, words in texts.items():
            for position, word in enumerate(words):
                self.places.setdefault((name, word), []).append(position)
        self.lengths = {name: min(len(words), 255) for name, words in texts.items()}

    def holds(self, term):
        return term in self.places and self.fields[term[0]].keeps != "nothing"

    def positions(self, term):
        is_kept = self.fields[term[0]].keeps == "positions"
        return self.places.get(term, []) if is_kept else []

    def frequency(self, term, counted):
        is_counted = counted and self.fields[term[0]].keeps != "basic"
        return len(self.places[term]) if is_counted else 1

    def length_id(self, name):
        return self.lengths.get(name, 0) if self.fields[name].lengths else 1


class Segment:
    """Documents, numbered from 0 on, of which some are deleted, and the norm of each length id."""

    def __init__(self, fields, texts, deleted=(), norms=range(256)):
        self.fields = {field.name: field for field in fields}
        self.documents = [Document(self.fields, text) for text in texts]
        self.deleted, self.norms = frozenset(deleted), norms
        held = {term for document in self.documents for term in document.places if document.holds(term)}
        self.terms = sorted(held, key=lambda term: (term[0], term[1].encode()))

    def alive(self, documents):
        return [doc for doc in documents if doc not in self.deleted]

    def expansions(self, prefix, most):
        """The first terms of the prefix's field, in the order of their bytes, that begin with it."""
        name, beginning = prefix
        found = [term for term in self.terms if term[0] == name and term[1].startswith(beginning)]
        return found[:most]


@dataclass(frozen=True)
class Searcher:
    """Segments, and what a term weighs."""

    segments: tuple
    weights: dict
    default: int = 1000

    def weigh(self, terms):
        return sum(self.weights.get(term, self.default) for term in terms)


# ---- trees, which queries are too. A weight is None in a query, and where scoring is off


@dataclass(frozen=True)
class All:
    pass


@dataclass(frozen=True)
class Nothing:
    pass


@dataclass(frozen=True)
class Term:
    term: tuple
    weight: int | None = None
    counted: bool = True


@dataclass(frozen=True)
class Phrase:
    """Terms with their offsets."""

    terms: tuple
    slop: int = 0
    weight: int | None = None


@dataclass(frozen=True)
class Prefix:
    """Full terms with their offsets, the prefix with its own, and how many terms it is expanded to at most."""

    full: tuple
    prefix: tuple
    most: int = 50
    weight: int | None = None


@dataclass(frozen=True)
class Boolean:
    """Clauses, each a sign and a tree: `+` for one that has to match, `?` for one that may, `-` for one that must
    not. The minimum is how many of those that may have to; the combiner is `sum`, `nothing` or `max` and
    thousandths, and makes one score of theirs."""

    clauses: tuple
    minimum: int = 0
    combiner: str = "sum"


@dataclass(frozen=True)
class Boost:
    by: int
    inside: object


@dataclass(frozen=True)
class Constant:
    score: int
    inside: object


@dataclass(frozen=True)
class DisjunctionMax:
    """A query alone: the tree that it stands for is a Boolean."""

    tie_breaker: int
    inside: tuple


def tree_of(query, searcher, scoring):
    """The tree of a query's weight. With scoring off nothing weighs, boosts and constants are left away, and the
    postings of a term are read without frequencies."""

    def below(inside):
        return tree_of(inside, searcher, scoring)

    def weight_of(terms):
        return searcher.weigh(terms) if scoring else None

    match query:
        case Term(term, _, counted):
            return Term(term, weight_of([term]), counted and scoring)
        case Phrase(terms, slop):
            return Phrase(terms, slop, weight_of([term for _, term in terms]))
        case Prefix(full, prefix, most):
            return Prefix(full, prefix, most, weight_of([term for _, term in full]) if full else None)
        case Boolean(clauses, minimum, combiner):
            return Boolean(tuple((sign, below(inside)) for sign, inside in clauses), minimum, combiner)
        case DisjunctionMax(tie_breaker, inside):
            return Boolean(tuple(("?", below(it)) for it in inside), 1, f"max {tie_breaker}")
        case Boost(by, inside):
            return Boost(by, below(inside)) if scoring else below(inside)
        case Constant(score_of_all, inside):
            return Constant(score_of_all, below(inside)) if scoring else below(inside)
    return query


def query_terms(query):
    """The terms that a query visits, each with whether its positions are wanted."""
    match query:
        case Term(term):
            return [(term, False)]
        case Phrase(terms) | Prefix(terms):
            return [(term, True) for _, term in terms]
        case Boolean(clauses):
            return [it for _, inside in clauses for it in query_terms(inside)]
        case DisjunctionMax(_, inside):
            return [it for part in inside for it in query_terms(part)]
        case Boost(_, inside) | Constant(_, inside):
            return query_terms(inside)
    return []


# ---- phrases


def shifted(document, placed, greatest):
    """The positions of a term, shifted so that the terms of a phrase without gaps stand on one place."""
    offset, term = placed
    return {position + greatest - offset for position in document.positions(term)}


def starts(sets, slop):
    """How many places of some set there are from which on every set has one within the slop."""
    places = set().union(*sets)
    found = [x for x in places if all(any(x <= place <= x + slop for place in it) for it in sets)]
    return min(len(found), MOST_STARTS)


def phrase_count(terms, slop, document):
    greatest = max(offset for offset, _ in terms)
    return starts([shifted(document, placed, greatest) for placed in terms], slop)


def full_places(full, prefix, document):
    """The places that all full terms of a phrase prefix have."""
    greatest = max(offset for offset, _ in (*full, prefix))
    return set.intersection(*(shifted(document, placed, greatest) for placed in full))


def prefix_count(full, prefix, most, segment, document):
    """How many of them an expansion of the prefix has too, over all its expansions."""
    greatest = max(offset for offset, _ in (*full, prefix))
    common, offset = full_places(full, prefix, document), prefix[0]
    ends = [shifted(document, (offset, term), greatest) for term in segment.expansions(prefix[1], most)]
    return min(sum(len(common & places) for places in ends), MOST_STARTS)


# ---- what matches, and what it scores


def matches(tree, segment, document):
    match tree:
        case All():
            return True
        case Nothing():
            return False
        case Term(term):
            return document.holds(term)
        case Phrase(terms, slop):
            return phrase_count(terms, slop, document) > 0
        case Prefix((), (_, prefix), most):
            return any(document.holds(term) for term in segment.expansions(prefix, most))
        case Prefix(full, prefix, most):
            return prefix_count(full, prefix, most, segment, document) > 0
        case Boolean(clauses, minimum):
            return clauses_match(clauses, minimum, segment, document)
        case Boost(_, inside) | Constant(_, inside):
            return matches(inside, segment, document)
    raise ValueError(tree)


def clauses_match(clauses, minimum, segment, document):
    found = [(sign, matches(inside, segment, document)) for sign, inside in clauses]
    must = [it for sign, it in found if sign == "+"]
    may = [it for sign, it in found if sign == "?"]
    must_not = [it for sign, it in found if sign == "-"]
    return all(must) and not any(must_not) and sum(may) >= minimum and (any(must) or any(may))


def weighed(weight, boost, segment, document, name, count):
    """What stands so often in a document scores there: the boost alone where scoring is off."""
    if weight is None:
        return boost
    norm = segment.norms[document.length_id(name)]
    return boost * (weight * count // (count + norm)) if count else 0


def combined(combiner, scores):
    """One score of several; 0 where there is none to combine."""
    if not scores or combiner == "sum":
        return sum(scores)
    if combiner == "nothing":
        return 1
    greatest, tie_breaker = max(scores), int(combiner.removeprefix("max "))
    return greatest + (sum(scores) - greatest) * tie_breaker // 1000


def score(tree, boost, segment, document):
    """What a document that matches scores."""
    match tree:
        case All() | Nothing() | Prefix(()) | Prefix((_,)):
            return boost
        case Term(term, weight, counted):
            return weighed(weight, boost, segment, document, term[0], document.frequency(term, counted))
        case Phrase(terms, slop, weight):
            count = phrase_count(terms, slop, document)
            return weighed(weight, boost, segment, document, terms[0][1][0], count)
        case Prefix(full, prefix, _, weight):
            count = len(full_places(full, prefix, document))
            return weighed(weight, boost, segment, document, full[0][1][0], count)
        case Boolean(clauses, _, combiner):
            return clauses_score(clauses, combiner, boost, segment, document)
        case Boost(by, inside):
            return score(inside, boost * by, segment, document)
        case Constant(score_of_all):
            return boost * score_of_all
    raise ValueError(tree)


def clauses_score(clauses, combiner, boost, segment, document):
    def scores(wanted):
        inside = [tree for sign, tree in clauses if sign == wanted and matches(tree, segment, document)]
        return [score(tree, boost, segment, document) for tree in inside]

    return sum(scores("+")) + combined(combiner, scores("?"))


def matching(tree, segment):
    """The documents that match, ascending, deleted ones too."""
    return [doc for doc, document in enumerate(segment.documents) if matches(tree, segment, document)]


def scored(tree, boost, segment):
    """Each of them with its score."""
    return [(doc, score(tree, boost, segment, segment.documents[doc])) for doc in matching(tree, segment)]


def bound(tree, boost):
    """More than this no document scores."""
    match tree:
        # one full term scores the boost of its weight
        case Prefix((_,), _, _, int(weight)):
            return max(1, boost, boost * weight)
        case Term(_, int(weight)) | Phrase(_, _, int(weight)) | Prefix((_, _, *_), _, _, int(weight)):
            return max(1, boost * weight)
        case Boolean(clauses):
            return max(1, sum(bound(inside, boost) for sign, inside in clauses if sign != "-"))
        case Boost(by, inside):
            return bound(inside, boost * by)
        case Constant(score_of_all):
            return max(1, boost * score_of_all)
    return max(1, boost)


def weighs_too_much(tree):
    """Whether the words of some phrase, or of the full ones before a prefix, weigh more together than may be."""
    match tree:
        case Phrase(_, _, int(weight)) | Prefix(_, _, _, int(weight)):
            return weight > GREATEST
        case Boolean(clauses):
            return any(weighs_too_much(inside) for _, inside in clauses)
        case Boost(_, inside) | Constant(_, inside):
            return weighs_too_much(inside)
    return False


def fits(tree, boost):
    """Whether at every node the bound, and the boosts multiplied down to it, are scores."""
    if bound(tree, boost) > GREATEST or boost > GREATEST:
        return False
    match tree:
        case Boolean(clauses):
            return all(fits(inside, boost) for _, inside in clauses)
        case Boost(by, inside):
            return fits(inside, boost * by)
        case Constant(_, inside):
            return fits(inside, boost)
    return True


# ---- runs


def pruned(pairs, threshold, answers):
    """The calls of a pruned run. Each answer, the last one again and again, is the threshold from there on; `score`
    stands for the score that the call is told."""
    calls = []
    for doc, points in pairs:
        if points > threshold:
            answer = answers[min(len(calls), len(answers) - 1)]
            threshold = points if answer == "score" else answer
            calls.append((doc, points))
    return calls


def best(limit, tree, segments):
    """The best documents of all segments that were not deleted, each with its segment and its score: the highest
    scores first, and of one score the first segment and the first document."""
    found = [
        (number, doc, points)
        for number, segment in enumerate(segments)
        for doc, points in scored(tree, 1, segment)
        if doc not in segment.deleted
    ]
    return sorted(found, key=lambda it: (-it[2], it[0], it[1]))[:limit]


# ---- parts of an open segment


def parts_built(parts, waiting):
    """How many documents each part has once those that wait are built as one, together with the parts before them,
    from the last on, as long as these have fewer than twice as many."""
    found = list(parts)
    while waiting and found and found[-1] < 2 * waiting:
        waiting += found.pop()
    return [*found, waiting] if waiting else found


# ---- blocks


@dataclass(frozen=True)
class Block:
    """So many of a term's postings: the last document, END for the last block, the least length id and the greatest
    frequency. No block has none of them."""

    last: int = END
    least_id: int = 0
    most: int = 0


def blocks(postings, length):
    """The blocks of some postings, triples of a document, a frequency and a length id."""
    parts = [postings[at : at + length] for at in range(0, len(postings), length)]
    return [
        Block(END if part is parts[-1] else part[-1][0], min(it[2] for it in part), max(it[1] for it in part))
        for part in parts
    ]


def looked_at(target, document, listed):
    """The block that is looked at with a target from a document on."""
    if document == END:
        return Block()
    return next(it for it in listed if it.last >= max(target, document))


def block_bound(points, norms, block):
    """What no document of the block scores more than."""
    return points * block.most // (block.most + norms[block.least_id]) if block.most else 0


def thresholds(pairs, threshold, answers):
    """The threshold of a pruned run at each document, before it is called."""
    found, calls = [], 0
    for _, points in pairs:
        found.append(threshold)
        if points > threshold:
            answer = answers[min(calls, len(answers) - 1)]
            threshold = points if answer == "score" else answer
            calls += 1
    return found


def most_ticks(pairs, bounds, threshold, answers):
    """How many documents a pruned run scores at most: those whose block is bounded above the threshold there."""
    return sum(bounds[doc] > here for (doc, _), here in zip(pairs, thresholds(pairs, threshold, answers)))


def single_turns(pairs, bounds, ends, threshold, answers):
    """How many turns the run over one term takes: the documents that it scores, and the blocks that it passes, which
    are those whose bound is not above the threshold at their last document."""
    behind = [doc for doc, _ in pairs[1:]] + [END + 1]
    last = [ends[doc] < after for (doc, _), after in zip(pairs, behind)]
    current = thresholds(pairs, threshold, answers)
    passed = sum(bounds[doc] <= here for (doc, _), here, ends_it in zip(pairs, current, last) if ends_it)
    return most_ticks(pairs, bounds, threshold, answers) + passed


def slices(tree, documents):
    """How long the slices of a run are: full ones and then a shorter one, which may be empty. A term that no document
    holds has none at all."""
    if isinstance(tree, Term) and not documents:
        return []
    return [SLICE] * (len(documents) // SLICE) + [len(documents) % SLICE]
