#!/usr/bin/env python3
"""Whether the readers that were written from docs/FORMAT.md alone read what the plain writers write, and nothing else.

    python3 tests/format_runs.py

tests/read_stored.py has to read segments by chance as they were made, and tests/read_index_files.py deletions, places
and manifests. Of a small file of each they have to refuse each bit that is turned, each beginning, and bytes behind it, since
each byte is under a digest. Differences are printed, and last how many files were read as wanted; the exit status is 1
where there is a difference.
"""

import random
import sys

sys.dont_write_bytecode = True

from generators.index_files import COUNTS, manifest_of_chance, numbered, small_deletions, small_manifest, small_places
from generators.stored import ascending
from generators.stored_segments import segment_by_chance, small
from model.index_files import deletions_bytes, manifest_bytes, places_bytes
from read_index_files import deletions, manifest, places
from read_stored import Segment
from model.segment_files import segment_bytes

SEGMENTS, OTHERS = 60, 60
KINDS = ("not a stored segment", "a stored segment of another version")
OTHER_KINDS = ("a file of another kind", "a file of another version")


def said(segment, file, key):
    """What the reader says of a file: its length ids and its rows, or why it can't be read."""
    try:
        read = Segment(bytes(file), key, segment.fields)
    except SystemExit as why:
        return str(why)
    return read.block_len, read.documents, read.lengths, read.rows


def wanted(segment):
    block_len, documents, columns, rows = segment.told
    found = {}
    for field, text, held, places in rows:
        is_placed = segment.fields[field].startswith("positions")
        often = [len(it) for it in places] if is_placed else places
        found[field, text] = held, often, [place for it in places for place in it] if is_placed else []
    return block_len, documents, columns, found


def differences_by_chance(source):
    for number in range(SEGMENTS):
        segment = segment_by_chance(source)
        file = segment_bytes(segment.key, *segment.told)
        yield f"segment {number}", said(segment, file, segment.key) == wanted(segment)
        yield f"segment {number} by another key", said(segment, file, segment.key ^ 1) == "damaged"


# ---- deletions, places and manifests


def answer(read, *given):
    """What a reader says, or why it can't read."""
    try:
        return read(*given)
    except SystemExit as why:
        return str(why)


def told(it):
    """What a reader has to say of a manifest."""
    fields = [(name.decode(), kept + "+lengths" * lengths) for name, kept, lengths in it.fields]
    weights = [((field, text), weight) for field, text, weight in it.weights]
    return it.block_len, fields, it.default, it.norms, weights, it.segments, bytes(it.note)


def places_by_chance(name, source, key):
    found = [tuple(source.randrange(2**32) for _ in range(4)) for _ in range(source.choice([0, 1, 256, 257, 600]))]
    file, count = bytes(places_bytes(key, found)), len(found)
    yield name, answer(places, file, key, count) == found
    yield f"{name} by another key", answer(places, file, key ^ 1, count) == "damaged"
    yield f"{name} of more documents", answer(places, file, key, count + 1) == "damaged"


def pieces_exchanged():
    """Whether two pieces that are exchanged are told."""
    file = bytes(places_bytes(7, numbered(512)))
    yield "places in their order", answer(places, file, 7, 512) == numbered(512)
    yield "places exchanged", answer(places, file[:40] + file[4144:] + file[40:4144], 7, 512) == "damaged"


def others_by_chance(source):
    for number in range(OTHERS):
        key, count = source.randrange(2**64), source.choice(COUNTS)
        numbers = ascending(source, source.choice([0, 1, 20, count]), count) if count else []
        file = bytes(deletions_bytes(key, count, numbers))
        yield f"deletions {number}", answer(deletions, file, key, count) == numbers
        yield f"deletions {number} by another key", answer(deletions, file, key ^ 1, count) == "damaged"
        yield f"deletions {number} of more documents", answer(deletions, file, key, count + 1) == "damaged"
        yield from places_by_chance(f"places {number}", source, key)
        it, _ = manifest_of_chance(source)
        yield f"manifest {number}", answer(manifest, bytes(manifest_bytes(it))) == told(it)


# ---- files that were changed


def refusal_at(place, kinds):
    """How a file is refused of which a byte is changed."""
    return kinds[0] if place < 8 else kinds[1] if place < 16 else "damaged"


def changed(file, kinds):
    """A file with a change, by its name, and how it has to be refused."""
    for bit in range(8 * len(file)):
        place, turned = divmod(bit, 8)
        other = [*file[:place], file[place] ^ (1 << turned), *file[place + 1 :]]
        yield f"bit {turned} of byte {place}", other, refusal_at(place, kinds)
    for count in range(len(file)):
        yield f"the first {count} bytes", file[:count], kinds[0] if count < 16 else "damaged"
    for byte in (0, 255):
        yield f"a byte {byte} behind it", [*file, byte], "damaged"


def small_files():
    """Small files of each kind: its name, what reads it, the file, what it has to say, and how other kinds are refused."""
    segment, file = small()
    yield "segment", lambda it: said(segment, it, segment.key), file, wanted(segment), KINDS
    key, count, numbers = small_deletions()
    file = deletions_bytes(key, count, numbers)
    yield "deletions", lambda it: answer(deletions, bytes(it), key, count), file, numbers, OTHER_KINDS
    key, found = small_places()
    file = places_bytes(key, found)
    yield "places", lambda it: answer(places, bytes(it), key, len(found)), file, found, OTHER_KINDS
    it = small_manifest()
    yield "manifest", lambda it: answer(manifest, bytes(it)), manifest_bytes(it), told(it), OTHER_KINDS


def changes():
    for name, read, file, right, kinds in small_files():
        yield f"small {name}", read(file) == right
        for change, other, why in changed(file, kinds):
            yield f"{name}: {change}", read(other) == why


def main():
    source = random.Random(1)
    runs = [*differences_by_chance(source), *others_by_chance(source), *pieces_exchanged(), *changes()]
    faults = [name for name, is_well in runs if not is_well]
    for name in faults:
        print(f"{name}: not read as wanted")
    print(f"format: {len(runs)} as wanted" if not faults else f"format: {len(faults)} not as wanted")
    return 1 if faults else 0


if __name__ == "__main__":
    sys.exit(main())
