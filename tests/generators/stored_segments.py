"""Cases of stored segments, by chance and in tables: all terms looked up and some that are not there, and bytes of
which bits were turned, parts were changed, or some were cut off."""

from generators.spelled import row
from generators.stored import ascending, damaged, joined, spelled
from model.segment_files import NoSegment, Opened, Written, segment_bytes, write
from model.row_bytes import row_bytes

KINDS = ("positions", "positions", "freqs", "basic", "none")
COUNTS = (0, 0, 1, 2, 2, 3, 127, 128, 129, 257, 400)
TEXT_LENGTHS = (0, 1, 1, 2, 2, 2, 14, 15, 200)
# as many parts as the table of turned bits has
PARTS_OF_BITS = 8


class Changed(Written):
    """A segment that is written with one of its pieces changed, under the digest of what it is then."""

    def __init__(self, key, number, random):
        super().__init__(key)
        self.left, self.random = number, random

    def piece(self, found):
        self.left -= 1
        return super().piece(damaged(self.random, found) if self.left == 0 and found else found)


# ---- what is asked


def told(answer):
    return "none" if answer is None else answer if isinstance(answer, str) else " ".join(map(joined, answer))


def answered(opened, ask):
    """What a file answers that was opened, or why it can't be read."""
    try:
        return ask(opened())
    except NoSegment as why:
        return str(why)


def asked(opened, terms, before=""):
    """Rows of a file: how many documents it has, and what it says of terms, each with whether with its positions."""
    yield row(f"{before}open", answered(opened, lambda it: f"{it.count} documents"))
    for field, text, is_placed in terms:
        call = f"{before}row {field} {text or '-'}{' placed' if is_placed else ''}"
        yield row(call, told(answered(opened, lambda it: it.row(field, text.encode(), is_placed))))


def shown(made):
    """How a segment is answered: how many documents it has, and its rows."""
    count, rows = made
    spelled_rows = [[str(field), bytes(text).decode("latin-1"), *map(joined, it)] for (field, text), *it in rows]
    return " ".join([str(count), *map(":".join, spelled_rows)])


def asked_of_several(segment, opened, lists, before=""):
    """Rows of what is read of several terms: of each list of what is wanted, and of all of them."""
    for wanted in lists:
        words = [f"{field}:{text.decode() or '-'}{'*' * is_beginning}" for field, text, is_beginning in wanted]
        call = " ".join([f"{before}wanted", *words])
        yield row(call, answered(opened, lambda it: shown(it.wanted(wanted, segment.fields))))
    yield row(f"{before}whole", answered(opened, lambda it: shown(it.whole(segment.fields))))


def wanted_by_chance(random, segment):
    """Terms of a segment and others, and beginnings of them, in any order and some of them twice."""
    terms = segment.terms()
    found = random.sample(terms, min(random.choice([0, 1, 3, 9]), len(terms)))
    found += random.sample([*beside(random, terms)], 3)
    wanted = []
    for field, text in found:
        cut = random.choice([0, 0, 1, 1, 2, len(text)])
        wanted.append((field, text.encode(), False) if random.random() < 0.5 else (field, text[:cut].encode(), True))
    return [wanted, [(0, b"", True)], random.sample(wanted, min(2, len(wanted))) * 2]


class Segment:
    """A segment: its key, what its fields keep, how many documents it has, its length ids, and its rows."""

    def __init__(self, key, fields, block_len, count, columns, rows):
        self.key, self.fields, self.told = key, fields, (block_len, count, columns, rows)

    def terms(self):
        return [(field, text.decode()) for field, text, *_ in self.told[3]]

    def block(self, file, key=None):
        """The line of a block that opens these bytes, some of them in a file."""
        kind = "filed" if len(file) % 5 == 0 else "stored"
        return f"{kind} {self.key if key is None else key} {','.join(self.fields)} {spelled(file)}"

    def opener(self, file, key=None):
        """What opens a file, once and for all where that goes well."""
        made = []

        def opened():
            if not made:
                keeps = [it.endswith("+lengths") for it in self.fields]
                made.append(Opened(file, self.key if key is None else key, keeps))
            return made[0]

        return opened


# ---- segments by chance


def text_by_chance(random):
    return "".join(random.choice("abzäß") for _ in range(random.choice(TEXT_LENGTHS)))


def terms_by_chance(random, fields, count):
    """So many terms in order, of fields that are indexed."""
    indexed = [number for number, it in enumerate(fields) if not it.startswith("none")]
    found = set()
    while indexed and len(found) < count:
        text = text_by_chance(random) if random.random() < 0.4 else f"{random.randrange(10**6)}"
        found.add((random.choice(indexed), text.encode()))
    return sorted(found)


def row_by_chance(random, is_placed, documents):
    """The documents of a row, with its positions or its frequencies; some have just 64 bytes or 65."""
    if random.random() < 0.15:
        most = random.choice([64, 65])
        return ([random.randrange(64)], [[*range(most - 3)]]) if is_placed else ([*range(most - 1)], [1] * (most - 1))
    found = ascending(random, random.choice([1, 1, 2, 3, 30]), documents)
    if not is_placed:
        return found, [random.choice([1, 1, 2, 300]) for _ in found]
    return found, [ascending(random, random.choice([1, 1, 2, 5]), random.choice([9, 300, 70000])) for _ in found]


def segment_by_chance(random, counts=COUNTS):
    fields = [random.choice(KINDS) + random.choice(["", "+lengths"]) for _ in range(random.choice([1, 1, 2, 3, 4]))]
    count = random.choice([64, 65, 300])
    rows = []
    for field, text in terms_by_chance(random, fields, random.choice(counts)):
        rows.append((field, text, *row_by_chance(random, fields[field].startswith("positions"), count)))
    columns = [[random.randrange(256) for _ in range(count)] if it.endswith("+lengths") else [] for it in fields]
    key = random.choice([0, 1, random.randrange(2**64), 2**64 - 1])
    return Segment(key, fields, random.choice([1, 2, 128]), count, columns, rows)


def beside(random, terms):
    """Terms beside those of a segment: before the first, between, behind the last, and of other fields."""
    yield from ((0, ""), (0, "!"), (9, "a"), (4294967295, "~"))
    for field, text in random.sample(terms, min(8, len(terms))):
        yield from ((field, f"{text}!"), (field, text[:-1]), (field + 1, text), (max(field, 1) - 1, text))


def looked_up(random, segment, most=None):
    """The terms of a segment and others, each with its positions and without them."""
    terms = segment.terms()
    chosen = terms if most is None else random.sample(terms, min(most, len(terms)))
    for field, text in [*chosen, *beside(random, terms)]:
        yield field, text, False
        yield field, text, True


def whole(random):
    """A segment of which all is looked up; and the same bytes with another key, with other fields, or with more behind
    them."""
    segment = segment_by_chance(random)
    file = segment_bytes(segment.key, *segment.told)
    yield segment.block(file)
    yield from asked(segment.opener(file), looked_up(random, segment))
    yield from asked_of_several(segment, segment.opener(file), wanted_by_chance(random, segment))
    key = segment.key ^ (1 << random.randrange(64))
    yield segment.block(file, key)
    yield from asked(segment.opener(file, key), looked_up(random, segment, 1))
    others = Segment(segment.key, segment_by_chance(random).fields, *segment.told)
    yield others.block(file)
    yield from asked(others.opener(file), looked_up(random, others, 1))
    yield from asked_of_several(others, others.opener(file), wanted_by_chance(random, others))
    more = [*file, *random.choice([[0], [255], file[-24:], file])]
    yield segment.block(more)
    yield from asked(segment.opener(more), looked_up(random, segment, 1))


def added(field, text, documents, places):
    """The row of a case that adds a segment's row."""
    often = [it if isinstance(it, int) else len(it) for it in places]
    positions = [place for it in places if not isinstance(it, int) for place in it]
    return row(" ".join(["add", str(field), text.decode() or "-", *map(joined, (documents, often, positions))]))


def written(random):
    """A segment that is given by its rows and written: its bytes, and what is looked up in them."""
    segment = segment_by_chance(random)
    file, (block_len, count, columns, rows) = segment_bytes(segment.key, *segment.told), segment.told
    yield f"written {segment.key} {','.join(segment.fields)} {block_len} {count}"
    for field, column in enumerate(columns):
        yield row(f"column {field} {joined(column)}")
    for it in rows:
        yield added(*it)
    yield row("make", "made")
    yield row("bytes", spelled(file))
    if len(rows) < 10:
        yield row(random.choice(["written", "interrupted", "by 1", "by 2", "by 7"]), spelled(file))
        yield row("each write fails", "failed")
    yield from asked(segment.opener(file), looked_up(random, segment, 20))
    yield from asked_of_several(segment, segment.opener(file), wanted_by_chance(random, segment))


def changed(random):
    """A segment with one of its pieces changed before it was written."""
    segment = segment_by_chance(random, (1, 2, 3, 3, 129))
    file = write(Changed(segment.key, random.randint(1, 7), random), *segment.told)
    yield segment.block(file)
    yield from asked(segment.opener(file), looked_up(random, segment, 12))
    yield from asked_of_several(segment, segment.opener(file), wanted_by_chance(random, segment))


def swapped(random):
    """A segment with two long rows of one length, each in the place of the other."""
    documents = ascending(random, 60, 300)
    rows = [(0, text, documents, [[random.randrange(99)] for _ in documents]) for text in (b"a", b"b")]
    segment = Segment(random.randrange(2**64), ["positions+lengths"], 128, 300, [[7] * 300], rows)
    file, count = segment_bytes(segment.key, *segment.told), len(row_bytes(*rows[0][2:]))
    first, second = file[16 : 16 + count], file[16 + count : 16 + 2 * count]
    file = [*file[:16], *second, *first, *file[16 + 2 * count :]]
    yield segment.block(file)
    yield from asked(segment.opener(file), looked_up(random, segment))
    yield from asked_of_several(segment, segment.opener(file), wanted_by_chance(random, segment))


def by_chance(random):
    yield from random.choice([whole, written, written, changed, changed, changed, swapped])(random)


# ---- tables


def small():
    """A segment of two documents and three terms, one of which has a long row, and its bytes."""
    rows = [(0, b"a", [0], [[*range(62)]]), (0, b"b", [0, 1], [[1], [0]]), (1, b"x", [1], [2])]
    segment = Segment(7, ["positions+lengths", "freqs"], 128, 2, [[63, 1], []], rows)
    return segment, segment_bytes(7, *segment.told)


def asked_of_small(segment, file, before):
    terms = [(0, "a", False), (0, "a", True), (0, "b", True), (1, "x", False)]
    yield from asked(segment.opener(file), terms, before)
    yield from asked_of_several(segment, segment.opener(file), [[(0, b"", True)]], before)


def turned_bits(part):
    """A small segment with one bit turned, each of some of its bytes."""
    segment, file = small()
    yield segment.block(file)
    for place in range(part, len(file), PARTS_OF_BITS):
        for bit in range(8):
            other = [*file[:place], file[place] ^ (1 << bit), *file[place + 1 :]]
            yield from asked_of_small(segment, other, f"turned {place} {bit} ")


def cuts(_):
    """A small segment of which the first bytes are left, down to none."""
    segment, file = small()
    yield segment.block(file)
    for count in range(len(file) + 1):
        yield from asked_of_small(segment, file[:count], f"first {count} ")
