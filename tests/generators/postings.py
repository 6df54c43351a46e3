"""Cases of postings: phrases over all small lists of positions, and by chance unions, phrases, and the postings of a
segment."""

import itertools

from generators import calls, chance, spelled
from generators.runs import single_runs
from generators.scorers import Left
from generators.spelled import row
from model import (
    END,
    MOST_STARTS,
    Phrase,
    Prefix,
    Term,
    block_bound,
    blocks,
    looked_at,
    phrase_count,
    prefix_count,
    scored,
    starts,
)

# the document of postings that are spelled without one
DOCUMENT = 6


def joined(numbers):
    return ",".join(map(str, numbers))


# ---- how often a phrase stands at given positions

# all lists of up to three positions below 6
LISTS = [docs for count in range(4) for docs in itertools.combinations(range(6), count)]


def shifted(terms, greatest):
    return [{position + greatest - offset for position in positions} for offset, positions in terms]


def count_of(terms, slop):
    return starts(shifted(terms, max(offset for offset, _ in terms)), slop)


def spelled_terms(terms):
    return " ".join(f"{offset}:{joined(positions)}" for offset, positions in terms)


def small_phrases(asked):
    """Phrases of terms at these offsets, each at every list of positions."""
    slop, offsets = asked
    yield f"phrasecounts {slop} 1000"
    for lists in itertools.product(LISTS, repeat=len(offsets)):
        terms = list(zip(offsets, lists))
        yield row(spelled_terms(terms), count_of(terms, slop))


# ---- phrases at positions by chance


def places(random, last):
    """Where phrases begin: some places one behind the other."""
    found = set(random.sample(range(last), min(last, random.choice([1, 1, 2, 3, 8]))))
    return sorted(found | {it + 1 for it in found if random.random() < 0.4})


def positions(random, begins, offset, last):
    """Where a term stands, mostly at its offset behind the beginnings or a little further on, and elsewhere."""
    found = {it + offset + random.choice([0, 0, 0, 0, 1, 2]) for it in begins if random.random() < 0.85}
    found |= {random.randrange(last) for _ in range(random.choice([0, 0, 1, 3]))}
    return sorted(it for it in found if it < 4294967295)


def terms_by_chance(random, count):
    """Terms with their offsets, and where phrases begin."""
    last = random.choice([4, 8, 40, 40, 4294967295])
    begins = places(random, last)
    offsets = [random.choice([0, 1, 1, 2, 3, 7, 7, 4294967295]) for _ in range(count)]
    offsets = list(range(count)) if random.random() < 0.6 else offsets
    return [(offset, positions(random, begins, offset, last)) for offset in offsets], begins, last


def share(points, boost, count, length_id):
    return boost * (points * count // (count + length_id)) if count else 0


def weight(random):
    """What a phrase weighs, a boost, and its words; nothing where it isn't scored."""
    if random.random() < 0.2:
        return None, 1, "none"
    points, boost = random.choice([0, 1, 1000, 10**12]), random.choice([1, 1, 3])
    return points, boost, f"{points}*{boost}" if boost > 1 else str(points)


class Counted(calls.Player):
    """Calls on a phrase, which tells its count besides: by document the count, none where it isn't said, and the
    score."""

    def __init__(self, random, told, deleted=None):
        self.counts = {doc: count for doc, (count, _) in told.items()}
        super().__init__(random, {doc: points for doc, (_, points) in told.items()}, deleted)

    def told(self, doc, points):
        said = [("score", points)]
        return said if self.counts[doc] is None else [*said, ("phrase_count", self.counts[doc])]


def at_once(random, told):
    """What is told of the one document, and some calls."""
    yield row("doc", DOCUMENT if told else "end")
    player = Counted(random, told)
    for doc, (_, points) in told.items():
        yield from (row(call, answer) for call, answer in player.told(doc, points))
    yield from player.rows(3)


def phrase(random):
    terms, _, _ = terms_by_chance(random, random.choice([2, 2, 3, 4]))
    slop, length_id = random.choice([0, 0, 1, 2, 5, 4294967295]), random.choice([0, 1, 4, 255])
    points, boost, words = weight(random)
    count = count_of(terms, slop)
    yield f"phrase {slop} {length_id} {words} {spelled_terms(terms)}"
    # without a weight the count isn't said
    told = (None, 1) if points is None else (count, share(points, boost, count, length_id))
    yield from at_once(random, {DOCUMENT: told} if count else {})


def prefix(random):
    """Full terms, the offset of a prefix, and the positions of the terms that begin with it."""
    (full, begins, last), offset = terms_by_chance(random, random.choice([1, 2, 2, 3])), random.choice([0, 1, 2, 3])
    ends = [positions(random, begins, offset, last) for _ in range(random.choice([0, 1, 2, 4]))]
    greatest = max(offset, *(it for it, _ in full))
    common = set.intersection(*shifted(full, greatest))
    count = min(sum(len(common & it) for it in shifted([(offset, it) for it in ends], greatest)), MOST_STARTS)
    points, boost, words = weight(random)
    length_id = random.choice([0, 1, 4, 255])
    head = f"prefix {offset} {length_id} {words} {spelled_terms(full)}"
    yield f"{head} ; {' '.join(f':{joined(it)}' for it in ends)}".rstrip()
    score = share(points or 0, boost, len(common), length_id) if len(full) > 1 else boost
    yield from at_once(random, {DOCUMENT: (count, 1 if points is None else score)} if count else {})


# ---- unions of postings


class Listed(calls.Player):
    """Calls on postings: by document how often it holds the term, and where."""

    def told(self, _doc, held):
        frequency, places = held
        offset = self.random.choice([0, 1, 5])
        moved = [it + offset for it in places]
        return [
            ("freq", frequency),
            ("positions", " ".join(map(str, places))),
            (f"positions_with_offset {offset}", " ".join(map(str, moved))),
        ]

    def all_left(self):
        def one(doc, frequency, places):
            return f"{doc}:{frequency}" + (f":{joined(places)}" if places else "")

        return row("list", " ".join(one(doc, *held) for doc, held in self.left.take()))


class United(Listed):
    """Calls on a union, which leaves what it appends to sorted and without repeats."""

    def told(self, doc, held):
        before = self.random.choices(range(12), k=self.random.randrange(5))
        after = sorted({*before, *(it + 1 for it in held[1])})
        append = (f"append 1 {' '.join(map(str, before))}".rstrip(), " ".join(map(str, after)))
        return [*super().told(doc, held), append]


def member(random):
    """Documents that hold a term alike: so often, and at these positions."""
    docs = sorted(random.sample(range(40), random.choice([0, 1, 3, 12])))
    places = sorted(random.sample(range(12), random.choice([0, 1, 3])))
    return docs, random.choice([1, 2, 7, 4294967295]), places


def spelled_member(it):
    docs, frequency, places = it
    return f"{joined(docs)}:{frequency}:{joined(places)}"


def held_at(doc, members):
    here = [it for it in members if doc in it[0]]
    frequency = min(sum(it[1] for it in here), 4294967295)
    return frequency, sorted({place for it in here for place in it[2]})


def union(random):
    """A union of members, and one over the documents of a set."""
    members = [member(random) for _ in range(random.choice([0, 1, 2, 3, 5]))]
    words = " ".join(map(spelled_member, members))
    docs = sorted({doc for it in members for doc in it[0]})
    chosen = sorted(random.sample(range(50), random.choice([0, 1, 10, 40])))
    for line, listed in [(f"union {words}", docs), (f"bitsetunion 50 {joined(chosen) or 'none'} {words}", chosen)]:
        yield line.rstrip()
        held = {doc: held_at(doc, members) for doc in listed}
        yield from United(random, held, None).rows(12)


# ---- a segment


class Frequent(calls.Player):
    """Calls on the scorer of a term: by document its score, its frequency and the length id."""

    def told(self, _doc, known):
        return list(zip(("score", "freq", "fieldnorm_id"), known))

    def all_left(self):
        return row("scores", spelled.pairs((doc, known[0]) for doc, known in self.left.take()))


class Looking:
    """Moves over postings, and looks at blocks before and after them; `told` tells of the block looked at. Behind a
    seek that does not find its target nothing is asked: it may have changed the block."""

    def __init__(self, random, left, listed, told):
        self.random, self.left, self.blocks, self.told = random, left, listed, told

    def rows(self, count):
        target = 0
        for _ in range(count):
            yield from self.looked(target)
            move = self.random.choice(["look", "look", "advance", "seek", "fill", "danger"])
            target = self.target()
            if move == "look":
                yield row(f"seek_block {spelled.document(target)}")
            else:
                yield self.moved(move, target)
                target = 0
        yield from self.looked(target)

    def looked(self, target):
        block = looked_at(target, self.left.doc(), self.blocks)
        yield row("last_doc_in_block", spelled.document(block.last))
        yield from (row(call, answer) for call, answer in self.told(block) if self.left.doc() != END)
        yield row("doc", spelled.document(self.left.doc()))

    def target(self):
        last = self.left.pairs[-1][0] if self.left.pairs else 3
        near = self.left.doc() if self.left.doc() != END else last
        return self.random.choice([END, self.random.randint(0, last + 2), near + self.random.randint(0, 9)])

    def moved(self, move, target):
        if move == "advance":
            return row("advance", spelled.document(self.left.advance()))
        if move == "fill" and self.random.random() < 0.3:
            return row("fill", spelled.documents(self.left.fill()))
        if move == "danger" and self.left.doc() != END:
            target = self.random.choice(self.left.left()[:9])[0]
            self.left.seek(target)
            return row(f"seek_danger {target}", "found")
        return row(f"seek {spelled.document(target)}", spelled.document(self.left.seek(target)))


def told_of_postings(block):
    return [("block_least_fieldnorm_id", block.least_id), ("block_max_term_freq", block.most)]


# lists of no document, one, a block, one more, and several, each with lengths and frequencies that differ
SMALL_LISTS = [[], [0], [2, 3], [0, 1, 2], [1, 2, 5, 6, 7], [0, 2, 3, 4, 7, 8, 9], list(range(13))]
CALLS_AFTER_A_LOOK = ("doc", "advance", "seek", "seek_danger", "fill", "total", "freq")


def small_words(doc, docs):
    """The words of a document: the term as often as its number says, where it holds it, and others."""
    return " ".join(["a"] * (1 + doc % 3 if doc in docs else 0) + ["x"] * (doc * 5 % 4))


def blocks_of_small_lists(asked):
    """Each look at a block from each document on, and each call behind it, in blocks of this length."""
    length, docs = asked
    texts = [small_words(doc, docs) for doc in range(max(docs, default=1) + 2)]
    yield "given"
    yield f"  blocks {length}"
    yield from (row(f"doc {text}".rstrip(), number) for number, text in enumerate(texts))
    if not docs:
        yield "segment"
        yield row("postings body a freqs", "none")
        return
    held = {doc: texts[doc].split().count("a") for doc in docs}
    listed = blocks([(doc, held[doc], len(texts[doc].split())) for doc in docs], length)
    for start in [*docs, END]:
        for target in [*range(len(texts) + 1), END]:
            for call in CALLS_AFTER_A_LOOK:
                yield from looked_once(Left(held), listed, start, target, call)


def looked_once(left, listed, start, target, call):
    """Postings that stand on a document, look at a block with a target, and are then called."""
    yield "postings body a freqs"
    yield row(f"seek {spelled.document(start)}", spelled.document(left.seek(start)))
    yield row(f"seek_block {spelled.document(target)}")
    yield from looking(left.doc(), looked_at(target, left.doc(), listed))
    answer = {"doc": left.doc, "advance": left.advance}.get(call)
    if answer:
        yield row(call, spelled.document(answer()))
    elif call == "seek":
        yield row(f"seek {spelled.document(target)}", spelled.document(left.seek(target)))
    elif call == "seek_danger" and left.doc() != END:
        yield row(f"seek_danger {left.left()[-1][0]}", "found")
        left.seek(left.left()[-1][0])
    elif call == "fill":
        yield row("fill", spelled.documents(left.fill()))
    elif call == "total":
        yield row("total", len(left.take()))
    elif call == "freq" and left.doc() != END:
        yield row("freq", left.score())
    is_same = call in ("doc", "freq") or (call == "seek_danger" and start == END)
    yield from looking(left.doc(), looked_at(target if is_same else 0, left.doc(), listed))


def looking(document, block):
    """What the block looked at answers."""
    yield row("last_doc_in_block", spelled.document(block.last))
    yield row("block_max_term_freq", block.most)
    if document != END:
        yield row("block_least_fieldnorm_id", block.least_id)
    yield row("doc", spelled.document(document))


def of_blocks(random, segment, field, term, length):
    """The blocks of a term's postings, of its scorer, and runs over it."""
    option = random.choice(["basic", "freqs", "positions"])
    points, is_counted = random.choice([0, 1, 1000, 10**12]), option != "basic"
    held = [(doc, it) for doc, it in enumerate(segment.documents) if it.holds(term)]
    listed = blocks([(doc, it.frequency(term, is_counted), it.length_id(field.name)) for doc, it in held], length)
    yield f"postings {field.name} {term[1]} {option}"
    yield from Looking(random, Left(dict(held)), listed, told_of_postings).rows(12)
    scores = dict(scored(Term(term, points, is_counted), 1, segment))
    yield f"termscorer {term[1]} {points} {option}"

    def told(block):
        return [("block_max_score", block_bound(points, segment.norms, block))]

    yield from Looking(random, Left(scores), listed, told).rows(12)
    yield f"termscorer {term[1]} {points} {option}"
    yield "  takes no memory"
    yield from single_runs(random, sorted(scores.items()), listed, points, segment.norms)


def of_term(random, segment, field, term):
    """The postings of a term and its scorer, read with each option."""
    option = random.choice(["basic", "freqs", "positions"])
    points, is_counted = random.choice([0, 1, 1000, 10**12]), option != "basic"
    documents = {doc: it for doc, it in enumerate(segment.documents) if it.holds(term)}
    places = {doc: it.positions(term) if option == "positions" else [] for doc, it in documents.items()}
    held = {doc: (it.frequency(term, is_counted), places[doc]) for doc, it in documents.items()}
    yield f"postings {field.name} {term[1]} {option}"
    yield from Listed(random, held, segment.deleted).rows(15)
    scores = dict(scored(Term(term, points, is_counted), 1, segment))
    known = {doc: (scores[doc], held[doc][0], documents[doc].length_id(field.name)) for doc in documents}
    yield f"termscorer {term[1]} {points} {option}"
    yield from Frequent(random, known, segment.deleted).rows(15)
    boost = random.choice([0, 1, 3, 10**6])
    yield f"borrowedscorer {field.name} {term[1]} {points}*{boost} same {option}"
    scores = dict(scored(Term(term, points, is_counted), boost, segment))
    yield from calls.Player(random, scores, segment.deleted).rows(10)


def of_words(random, segment):
    """A phrase and a phrase prefix of words that the segment has."""
    points, boost, words = weight(random)
    terms = tuple((offset, random.choice(segment.terms)) for offset in range(random.choice([2, 2, 3])))
    said = " ".join(term[1] for _, term in terms)
    slop, most = random.choice([0, 0, 1, 2, 5]), random.choice([0, 1, 2, 50])
    count = {doc: phrase_count(terms, slop, it) for doc, it in enumerate(segment.documents)}
    found = dict(scored(Phrase(terms, slop, points), boost, segment))
    told = {doc: (None, 1) if points is None else (count[doc], found[doc]) for doc in found}
    yield f"segmentphrase {slop} {words} {said}"
    yield from Counted(random, told, segment.deleted).rows(12)
    full, last = terms[:-1], terms[-1]
    tree = Prefix(full, last, most, points)
    count = {doc: prefix_count(full, last, most, segment, it) for doc, it in enumerate(segment.documents)}
    # without a weight each score is 1
    found = dict(scored(tree, 1 if points is None else boost, segment))
    yield f"segmentprefix {most} {words} {said}"
    yield from Counted(random, {doc: (count[doc], found[doc]) for doc in found}, segment.deleted).rows(12)


def row_of(segment, field, term):
    """The row of a term: its documents, how often each holds it, and where the field keeps that, its places there."""
    held = {doc: it.places[term] for doc, it in enumerate(segment.documents) if it.holds(term)}
    places = [place for doc in held for place in held[doc]] if field.keeps == "positions" else []
    return ":".join(["0", term[1], joined(held), joined(map(len, held.values())), joined(places)])


def of_rows(random, segment, field):
    """The rows and the column of a segment, which is made of them anew; then what was deleted is deleted once more."""
    yield "segment"
    yield row("rows", " ".join(row_of(segment, field, term) for term in segment.terms))
    ids = [it.length_id(field.name) for it in segment.documents] if field.lengths else []
    yield row(f"columns {field.name}", " ".join(map(str, ids)))
    if random.random() < 0.5:
        yield row("again", "made")
        yield from (row(f"delete {doc}") for doc in sorted(segment.deleted))


def by_chance(random):
    """Phrases and unions on their own, and the postings of a segment."""
    for generate in (phrase, prefix, phrase, prefix, union):
        yield from generate(random)
    if random.random() < 0.3:
        yield from by_segment(random)


def by_segment(random):
    field = random.choice(chance.FIELDS)
    segment, words = chance.segment(random, chance.size(random), field)
    length = random.choice(chance.BLOCKS)
    yield from spelled.one_segment(segment, words, length, field)
    yield from of_rows(random, segment, field)
    for term in random.sample(segment.terms, min(5, len(segment.terms))):
        yield from of_term(random, segment, field, term)
        yield from of_blocks(random, segment, field, term, length)
    # length ids are read of a field that keeps lengths
    if field == chance.BODY and segment.terms:
        for _ in range(5):
            yield from of_words(random, segment)
