"""Stored segments as bytes, by a plain writer and plain look-ups that know nothing of the program.

The key of a segment is a number, its rows are tuples of a field, a text, documents, and of each document how often it
holds the term, or its positions there. Columns are lists of length ids, one for each field, which has none where the
field keeps no lengths.
"""

import functools
from typing import NamedTuple

from model.row_bytes import MOST, NotThere, Reading, begun_term, number_bytes, read_row, row_parts, term_bytes

KIND = b"birchseg"
VERSION = [1, *bytes(7)]
HEAD = [*KIND, *VERSION]
GROUP, SHORT = 128, 64
MOST_DOCUMENTS = 2147483647
BITS = 2**64 - 1


# ---- digests


def stirred(a, b, c, d):
    """The four numbers of SipHash after one round."""
    a = (a + b) & BITS
    b = ((b << 13) & BITS | b >> 51) ^ a
    a = (a << 32) & BITS | a >> 32
    c = (c + d) & BITS
    d = ((d << 16) & BITS | d >> 48) ^ c
    a = (a + d) & BITS
    d = ((d << 21) & BITS | d >> 43) ^ a
    c = (c + b) & BITS
    b = ((b << 17) & BITS | b >> 47) ^ c
    return a, b, (c << 32) & BITS | c >> 32, d


@functools.lru_cache(maxsize=100_000)
def digest_of(key, at, found):
    """SipHash-1-3 without a key, of a segment's key, a place, and the bytes that stand there."""
    told = key.to_bytes(8, "little") + at.to_bytes(8, "little") + found
    count = len(told) // 8 * 8
    words = [int.from_bytes(told[place : place + 8], "little") for place in range(0, count, 8)]
    words.append(int.from_bytes(told[count:], "little") | (len(told) % 256) << 56)
    state = (0x736F6D6570736575, 0x646F72616E646F6D, 0x6C7967656E657261, 0x7465646279746573)
    for word in words:
        a, b, c, d = stirred(*state[:3], state[3] ^ word)
        state = (a ^ word, b, c, d)
    a, b, c, d = stirred(*stirred(*stirred(*state[:2], state[2] ^ 0xFF, state[3])))
    return a ^ b ^ c ^ d


def digest(key, at, found):
    return digest_of(key, at, bytes(found))


# ---- written


def word_bytes(number):
    return [*number.to_bytes(8, "little")]


class Written:
    """The bytes of a segment, as far as they are written."""

    def __init__(self, key):
        self.key, self.file = key, [*HEAD]

    def piece(self, found):
        """Adds a piece; answers where it stands, how many bytes it has, and its digest."""
        at = len(self.file)
        self.file += found
        return at, len(found), digest(self.key, at, found)

    def named(self, found):
        """Adds a piece; answers the bytes of its name."""
        at, count, checked = self.piece(found)
        return number_bytes(at) + number_bytes(count) + word_bytes(checked)

    def entry(self, field, text, documents, places):
        """The entry of a row, whose parts are added where they are long."""
        postings, positions = row_parts(documents, places)
        is_short = len(postings) + len(positions) <= SHORT
        entry = term_bytes(field, text) + number_bytes(2 * len(postings) + is_short) + number_bytes(len(positions))
        if is_short:
            return entry + postings + positions
        at, _, first = self.piece(postings)
        _, _, second = self.piece(positions)
        return entry + number_bytes(at) + word_bytes(first) + word_bytes(second)

    def index(self, rows):
        """The bytes of the index over the blocks of these rows, which are added."""
        groups = [rows[at : at + GROUP] for at in range(0, len(rows), GROUP)]
        found = number_bytes(len(groups))
        for group in groups:
            block = number_bytes(len(group))
            for row in group:
                block += self.entry(*row)
            found += term_bytes(*group[0][:2]) + self.named(block)
        return found


def write(written, block_len, count, columns, rows):
    """Writes the segment of so many documents that has these rows, in the order of their terms; answers its bytes."""
    index = written.named(written.index(rows))
    lengths = written.named([it for column in columns for it in column])
    numbers = word_bytes(written.key) + number_bytes(block_len) + number_bytes(count)
    ending = written.piece(numbers + index + lengths)
    return written.file + [byte for number in ending for byte in word_bytes(number)]


def segment_bytes(key, *told):
    return write(Written(key), *told)


# ---- read


class NoSegment(Exception):
    """What a file is in place of a segment that can be read."""


class Damaged(NoSegment):
    def __init__(self):
        super().__init__("damaged")


class Piece(NamedTuple):
    at: int
    count: int
    digest: int


class Names(Reading):
    """Bytes that name terms and pieces."""

    def word(self):
        taken, self.left = self.left[:8], self.left[8:]
        if len(taken) < 8:
            raise NotThere
        return int.from_bytes(bytes(taken), "little")

    def term(self):
        begun = begun_term(self.left)
        if begun is None:
            raise NotThere
        field, text, self.left = begun
        return field, text

    def piece(self):
        return Piece(self.number(), self.number(), self.word())

    def taken(self, count):
        if count > len(self.left):
            raise NotThere
        taken, self.left = self.left[:count], self.left[count:]
        return taken

    def end(self):
        if self.left:
            raise NotThere

    def parts(self):
        """Where postings and positions stand: bytes, or pieces."""
        marked, places = self.number(), self.number()
        count, is_here = divmod(marked, 2)
        if is_here:
            return self.taken(count), self.taken(places)
        at, first, second = self.number(), self.word(), self.word()
        return Piece(at, count, first), Piece(at + count, places, second)


class Opened:
    """A file that was opened by a key: how many documents it has, its columns, and its blocks, each with the term that
    it begins with."""

    def __init__(self, file, key, keeps_lengths):
        self.file, self.key, self.entries = file, key, {}
        check_head(KIND, file)
        try:
            index, lengths = self.ending()
            self.blocks = self.read_index(Names(self.at(index)))
            self.columns = self.read_columns(Names(self.at(lengths)), keeps_lengths)
        except NotThere:
            raise Damaged from None

    def at(self, piece):
        """The bytes of a piece, where they are whole and have its digest."""
        if piece.at + piece.count > len(self.file):
            raise NotThere
        found = self.file[piece.at : piece.at + piece.count]
        if digest(self.key, piece.at, found) != piece.digest:
            raise NotThere
        return found

    def ending(self):
        """Where the index and the length ids stand."""
        if len(self.file) < 24:
            raise NotThere
        last = Names(self.file[-24:])
        found = Names(self.at(Piece(last.word(), last.word(), last.word())))
        own, self.block_len, self.count = found.word(), found.number(), found.number()
        pieces = found.piece(), found.piece()
        found.end()
        if own != self.key or self.block_len > MOST or self.count > MOST:
            raise NotThere
        return pieces

    def read_index(self, found):
        blocks = []
        for _ in range(found.number()):
            blocks.append((found.term(), found.piece()))
            if len(blocks) > 1 and blocks[-2][0] >= blocks[-1][0]:
                raise NotThere
        found.end()
        return blocks

    def read_columns(self, found, keeps_lengths):
        columns = [found.taken(self.count if it else 0) for it in keeps_lengths]
        found.end()
        return columns

    def row(self, field, text, is_placed):
        """The row of a term, or nothing where it has none."""
        before = [piece for first, piece in self.blocks if first <= (field, [*text])]
        if not before:
            return None
        try:
            found = [parts for term, parts in self.block(before[-1]) if term == (field, [*text])]
            return self.row_of(found[0][: 1 + is_placed], is_placed) if found else None
        except NotThere:
            raise Damaged from None

    def rows(self, blocks, is_chosen, keeps_positions):
        """The rows of the chosen terms of some blocks: each a term, its documents, frequencies and positions."""
        try:
            found = [(term, parts) for _, piece in blocks for term, parts in self.block(piece) if is_chosen(term)]
            places = [keeps_positions(field) for (field, _), _ in found]
            return [(term, *self.row_of(parts[: 1 + it], it)) for (term, parts), it in zip(found, places)]
        except NotThere:
            raise Damaged from None

    def wanted(self, wanted, kinds):
        """The rows of what is wanted, each a field, a text, and whether all terms are that begin so."""
        found = []
        for one in apart(wanted):
            first = (one[0], [*one[1]])
            before = [block for block in self.blocks if block[0] <= first]
            behind = [block for block in self.blocks if block[0] > first and is_meant(one, block[0])]
            found += self.rows(before[-1:] + behind, lambda term: is_meant(one, term), keeps_positions(kinds))
        return self.segment_of(found, kinds)

    def whole(self, kinds):
        return self.segment_of(self.rows(self.blocks, lambda term: True, keeps_positions(kinds)), kinds)

    def segment_of(self, rows, kinds):
        """How many documents there are, and these rows, where they make a segment."""
        terms = [term for term, *_ in rows]
        ascend = all(it < other for it, other in zip(terms, terms[1:]))
        are_rows = ascend and all(self.is_row(kinds, *it) for it in rows)
        if not are_rows or not 1 <= self.block_len <= 128 or self.count > MOST_DOCUMENTS:
            raise Damaged
        return self.count, rows

    def is_row(self, kinds, term, documents, frequencies, _):
        is_indexed = term[0] < len(kinds) and not kinds[term[0]].startswith("none")
        return is_indexed and documents and documents[-1] < self.count and all(frequencies)

    def block(self, piece):
        """The terms of a block, each with where its postings and its positions stand."""
        if piece not in self.entries:
            block = Names(self.at(piece))
            entries = [(block.term(), block.parts()) for _ in range(block.number())]
            block.end()
            self.entries[piece] = entries
        return self.entries[piece]

    def row_of(self, parts, is_placed):
        found = [byte for part in parts for byte in (self.at(part) if isinstance(part, Piece) else part)]
        row = read_row(found, is_placed)
        if row is None:
            raise NotThere
        return row


# ---- what is wanted


def is_meant(one, term):
    """Whether a term is meant by what is wanted: a field, a text, and whether all terms are that begin so."""
    field, text, is_beginning = one
    return term[0] == field and (bytes(term[1]).startswith(text) if is_beginning else bytes(term[1]) == text)


def apart(wanted):
    """What is wanted in order, without what is meant by something else of it."""
    kept = []
    for one in sorted(wanted, key=lambda it: (it[0], it[1], not it[2])):
        if not any(is_meant(it, one) for it in kept):
            kept.append(one)
    return kept


def keeps_positions(kinds):
    return lambda field: field < len(kinds) and kinds[field].startswith("positions")


def check_head(kind, file):
    if len(file) < 16 or bytes(file[:8]) != kind:
        raise NoSegment("another file")
    if file[8:16] != VERSION:
        raise NoSegment("another version")


def looked_up(file, key, keeps_lengths, field, text, is_placed):
    """What a file says of a term: why it can't be read, nothing, or the row."""
    try:
        return Opened(file, key, keeps_lengths).row(field, text, is_placed)
    except NoSegment as why:
        return str(why)
