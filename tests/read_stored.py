#!/usr/bin/env python3
"""Reads a stored segment whole, by what docs/FORMAT.md says and by nothing else: `read_stored.py FILE KEY FIELD..`

A FIELD says what a field keeps: `none`, `basic`, `freqs` or `positions`, with `+lengths` where it keeps lengths. Prints
the length ids of each, then each term with its documents, its frequencies and its positions; or why it can't.
"""

import io
import sys
from itertools import accumulate

BITS, MOST = 2**64 - 1, 2**32 - 1


def sure(is_so, why="damaged"):
    if not is_so:
        sys.exit(why)


def sip_hash_1_3(found):
    found += bytes(-(len(found) + 1) % 8) + bytes([len(found) % 256])
    words = [int.from_bytes(found[at : at + 8], "little") for at in range(0, len(found), 8)]
    v = [int.from_bytes(it, "big") for it in (b"somepseu", b"dorandom", b"lygenera", b"tedbytes")]
    for last, word in [*((0, word) for word in words), (255, 0), (0, 0), (0, 0)]:
        v[2], v[3] = v[2] ^ last, v[3] ^ word
        for x, y, by, half in ((0, 1, 13, 32), (2, 3, 16, 0), (0, 3, 21, 0), (2, 1, 17, 32)):
            v[x] = (v[x] + v[y]) & BITS
            v[y] = (v[y] << by | v[y] >> (64 - by)) & BITS ^ v[x]
            v[x] = (v[x] << half | v[x] >> (64 - half)) & BITS
        v[0] ^= word
    return v[0] ^ v[1] ^ v[2] ^ v[3]


class Bytes(io.BytesIO):
    def take(self, count):
        found = self.read(count)
        sure(len(found) == count)
        return found

    def number(self, more=8):
        byte = self.take(1)[0]
        sure(byte < 128 or more > 0)
        return byte if byte < 128 else byte - 128 + 128 * self.number(more - 1)

    def numbers(self, kinds):
        """A number for each `n`, a word for each `w`."""
        return [self.number() if it == "n" else int.from_bytes(self.take(8), "little") for it in kinds]


class Segment:
    """The length ids of a file, field by field, and its terms in order, each with its row."""

    def __init__(self, file, key, fields):
        sure(len(file) >= 16 and file[:8] == b"birchseg", "not a stored segment")
        sure(file[8:16] == b"\1" + bytes(7), "a stored segment of another version")
        self.file, self.key, self.fields, self.rows = file, key, fields, {}
        ending = self.piece(*Bytes(file[16:][-24:]).numbers("www"))
        own, self.block_len, self.documents, *names = ending.numbers("wnnnnwnnw")
        sure(own == key and max(self.block_len, self.documents) <= MOST and not ending.read())
        index, lengths = self.piece(*names[:3]), self.piece(*names[3:])
        self.lengths = [list(lengths.take(self.documents * it.endswith("+lengths"))) for it in fields]
        for _ in range(index.number()):
            self.read_block((index.number(), index.take(index.number())), self.piece(*index.numbers("nnw")))
        sure([*self.rows] == sorted(self.rows) and not index.read() and not lengths.read())

    def piece(self, at, count, digest):
        found = self.file[at : at + count]
        own = sip_hash_1_3((at << 64 | self.key).to_bytes(16, "little") + found)
        sure(at + count <= len(self.file) and own == digest)
        return Bytes(found)

    def read_block(self, first, block):
        for place in range(block.number()):
            term, marked, places = (block.number(), block.take(block.number())), *block.numbers("nn")
            sure(term not in self.rows and (place > 0 or term == first) and term[0] < len(self.fields))
            if marked % 2 == 1:
                parts = Bytes(block.take(marked // 2)), Bytes(block.take(places))
            else:
                at, digest, last = block.numbers("nww")
                parts = self.piece(at, marked // 2, digest), self.piece(at + marked // 2, places, last)
            self.rows[term] = self.row(*parts, self.fields[term[0]].startswith("positions"))
        sure(not block.read())

    def row(self, postings, places, is_placed):
        gaps, frequencies, positions = [], [], []
        for _ in range(postings.number()):
            gaps.append(postings.number())
            frequencies.append(1 if gaps[-1] % 2 == 1 else postings.number())
            found = [places.number() for _ in range(frequencies[-1] * is_placed)]
            positions += accumulate(found, lambda low, gap: low + 1 + gap)
        documents = [*accumulate((it // 2 for it in gaps), lambda low, gap: low + 1 + gap)]
        sure(max([*documents, -1]) < self.documents and max([0, *positions]) < MOST and max([0, *frequencies]) <= MOST)
        sure(not postings.read() and not places.read())
        return documents, frequencies, positions


if __name__ == "__main__":
    with open(sys.argv[1], "rb") as given:
        segment = Segment(given.read(), int(sys.argv[2]), sys.argv[3:])
    print(*segment.lengths, *(f"{term} {row}" for term, row in segment.rows.items()), sep="\n")
