#!/usr/bin/env python3
"""Reads the small files of a stored index whole, by what docs/FORMAT.md says and by nothing else:

    read_index_files.py deletions FILE KEY DOCUMENTS
    read_index_files.py places FILE KEY DOCUMENTS
    read_index_files.py manifest FILE

Prints the deleted documents, where each document stands, or what an index is; or why it can't.
"""

import struct
import sys
from itertools import accumulate

from read_stored import MOST, Bytes, sip_hash_1_3, sure

KEPT = ("none", "basic", "freqs", "positions")


def body(file, kind, key):
    """What stands between the first sixteen bytes and the last eight."""
    sure(len(file) >= 16 and file[:8] == kind, "a file of another kind")
    sure(file[8:16] == b"\1" + bytes(7), "a file of another version")
    own = sip_hash_1_3(key.to_bytes(16, "little") + file[:-8])
    sure(len(file) >= 24 and Bytes(file[-8:]).numbers("w") == [own])
    return Bytes(file[16:-8])


def deletions(file, key, documents):
    """Which of so many documents of a segment are deleted."""
    found = body(file, b"birchdel", key)
    sure(found.numbers("wn") == [key, documents])
    deleted = found.number()
    sure(deleted <= documents)
    gaps = [found.number() for _ in range(deleted)]
    numbers = [*accumulate(gaps, lambda low, gap: low + 1 + gap)]
    sure(max([*numbers, -1]) < documents and not found.read())
    return numbers


def places(file, key, documents):
    """Where each of so many documents of a segment stands: the file, the line, the first byte, and how many bytes."""
    sure(body(file[:40], b"birchplc", key).numbers("ww") == [key, documents])
    rest, found = Bytes(file[40:]), []
    for first in range(0, documents, 256):
        at, piece = 40 + rest.tell(), rest.take(16 * min(256, documents - first))
        sure(rest.numbers("w") == [sip_hash_1_3((at << 64 | key).to_bytes(16, "little") + piece)])
        found += struct.iter_unpack("<IIII", piece)
    sure(not rest.read())
    return found


class Manifest(Bytes):
    def small(self):
        number = self.number()
        sure(number <= MOST)
        return number

    def field(self):
        name = self.take(self.number())
        try:
            text = name.decode()
        except UnicodeDecodeError:
            sure(False)
        kept, lengths = self.take(2)
        sure(kept < len(KEPT) and lengths < 2)
        return text, KEPT[kept] + "+lengths" * lengths

    def weight(self):
        field = self.small()
        return (field, self.take(self.number())), *self.numbers("w")


def manifest(file):
    """The block length, the fields, the weight of most terms, the norms, the weights, the segments, and the note."""
    found = Manifest(body(file, b"birchman", 0).read())
    block_len, fields = found.small(), [found.field() for _ in range(found.small())]
    [default] = found.numbers("w")
    norms = [found.small() for _ in range(256)]
    weights = [found.weight() for _ in range(found.number())]
    terms = [term for term, _ in weights]
    sure(terms == sorted({*terms}))
    segments = [(*found.numbers("ww"), found.small()) for _ in range(found.number())]
    note = found.take(found.number())
    sure(not found.read())
    return block_len, fields, default, norms, weights, segments, note


if __name__ == "__main__":
    with open(sys.argv[2], "rb") as given:
        content = given.read()
    if sys.argv[1] == "deletions":
        print(deletions(content, *map(int, sys.argv[3:])))
    elif sys.argv[1] == "places":
        print(*places(content, *map(int, sys.argv[3:])), sep="\n")
    else:
        block_len, fields, default, norms, *others = manifest(content)
        print(block_len, fields, default, f"norms from {norms[0]} to {norms[-1]}", *others, sep="\n")
