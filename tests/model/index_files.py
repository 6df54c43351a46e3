"""The other files of a stored index as bytes, by a plain writer and a plain reader that know nothing of the program.

A file begins with eight bytes that tell its kind, and the version as a word. The last word of deletions and of a manifest
is the digest of all before. A file of places has such a word behind its first 32 bytes, and one behind each piece.
"""

from typing import NamedTuple

from model.segment_files import VERSION, Damaged, Names, check_head, digest, word_bytes
from model.row_bytes import MOST, NotThere, gap_bytes, number_bytes, term_bytes

DELETIONS = b"birchdel"
MANIFEST = b"birchman"
PLACES = b"birchplc"
# how many bytes stand before the pieces of a file of places, how many places a piece has, and how many bytes a place
HEAD, PIECE, PLACE = 40, 256, 16
NORMS = 256
# what postings keep, by the byte that says so
KEPT = ("none", "basic", "freqs", "positions")


def sealed(kind, key, body):
    """The file of a kind that has this body."""
    front = [*kind, *VERSION, *body]
    return front + word_bytes(digest(key, 0, front))


def read_whole(kind, key, file, body_of, read):
    """What the body of a file tells, by what reads it."""
    check_head(kind, file)
    if len(file) < 24 or word_bytes(digest(key, 0, file[:-8])) != file[-8:]:
        raise Damaged
    body = body_of(file[16:-8])
    try:
        found = read(body)
        body.end()
    except NotThere:
        raise Damaged from None
    return found


# ---- deletions


def deletions_body(key, count, numbers):
    return word_bytes(key) + number_bytes(count) + number_bytes(len(numbers)) + gap_bytes(numbers)


def deletions_bytes(key, count, numbers):
    """The file for the segment of a key that has so many documents, of which these are deleted."""
    return sealed(DELETIONS, key, deletions_body(key, count, numbers))


def deletions_read(key, count, file):
    """Which documents a file tells of as deleted."""

    def read(body):
        if (body.word(), body.number()) != (key, count):
            raise NotThere
        deleted = body.number()
        if deleted > count:
            raise NotThere
        numbers = body.positions(deleted)
        if numbers and numbers[-1] >= count:
            raise NotThere
        return numbers

    return read_whole(DELETIONS, key, file, Names, read)


# ---- places


def places_bytes(key, places):
    """The file for the segment of a key whose documents stand there: each place is of a file, a line, the first byte, and
    how many bytes."""
    file = sealed(PLACES, key, word_bytes(key) + word_bytes(len(places)))
    for first in range(0, len(places), PIECE):
        at, piece = len(file), []
        for place in places[first : first + PIECE]:
            for number in place:
                piece += number.to_bytes(4, "little")
        file += piece + word_bytes(digest(key, at, piece))
    return file


def places_size(count):
    return HEAD + PLACE * count + 8 * -(-count // PIECE)


def places_opened(key, count, file):
    """How many documents a file tells the places of, where those of so many are asked for."""

    def read(body):
        if (body.word(), body.word()) != (key, count) or len(file) != places_size(count):
            raise NotThere
        return count

    return read_whole(PLACES, key, file[:HEAD], Names, read)


def place_read(key, count, doc, file):
    """Where a file that was opened says that a document stands."""
    first = doc - doc % PIECE
    at, size = places_size(first), PLACE * min(PIECE, count - first)
    piece, last = file[at : at + size], file[at + size : at + size + 8]
    if word_bytes(digest(key, at, piece)) != last:
        raise Damaged
    place = piece[PLACE * (doc - first) :]
    return tuple(int.from_bytes(bytes(place[4 * number : 4 * number + 4]), "little") for number in range(4))


# ---- a manifest


class Told(NamedTuple):
    """What an index is: fields are tuples of a name, what the postings keep, and whether lengths are kept; weights are
    of a field, a text and a weight, in order of their terms; segments of a key, the number of a file of deletions, and how
    many documents are deleted."""

    block_len: int
    fields: list
    default: int
    norms: list
    weights: list
    segments: list
    note: bytes


def counted_bytes(found):
    return number_bytes(len(found)) + list(found)


def manifest_body(told):
    body = number_bytes(told.block_len) + number_bytes(len(told.fields))
    for name, kept, has_lengths in told.fields:
        body += [*counted_bytes(name), KEPT.index(kept), int(has_lengths)]
    body += word_bytes(told.default)
    for norm in told.norms:
        body += number_bytes(norm)
    body += number_bytes(len(told.weights))
    for field, text, weight in told.weights:
        body += term_bytes(field, text) + word_bytes(weight)
    body += number_bytes(len(told.segments))
    for key, deletions, deleted in told.segments:
        body += word_bytes(key) + word_bytes(deletions) + number_bytes(deleted)
    return body + counted_bytes(told.note)


def manifest_bytes(told):
    return sealed(MANIFEST, 0, manifest_body(told))


class Body(Names):
    """The body of a manifest."""

    def small(self):
        number = self.number()
        if number > MOST:
            raise NotThere
        return number

    def bytes(self):
        return bytes(self.taken(self.number()))

    def choice(self, choices):
        byte = self.taken(1)[0]
        if byte >= len(choices):
            raise NotThere
        return choices[byte]

    def field(self):
        name = self.bytes()
        try:
            name.decode()
        except UnicodeDecodeError:
            raise NotThere from None
        return name, self.choice(KEPT), self.choice((False, True))

    def weights(self):
        found = []
        for _ in range(self.number()):
            (field, text), weight = self.term(), self.word()
            if found and found[-1][:2] >= (field, bytes(text)):
                raise NotThere
            found.append((field, bytes(text), weight))
        return found

    def told(self):
        block_len, fields = self.small(), [self.field() for _ in range(self.small())]
        default, norms = self.word(), [self.small() for _ in range(NORMS)]
        weights = self.weights()
        segments = [(self.word(), self.word(), self.small()) for _ in range(self.number())]
        return Told(block_len, fields, default, norms, weights, segments, self.bytes())


def manifest_read(file):
    """What a file tells that an index is."""
    return read_whole(MANIFEST, 0, file, Body, Body.told)
