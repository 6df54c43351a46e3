"""Cases of the other files of a stored index, by chance: as they are written, and bytes that were changed."""

from generators.spelled import row
from generators.stored import ascending, damaged, joined, spelled
from model.index_files import (
    DELETIONS,
    KEPT,
    MANIFEST,
    MOST,
    NORMS,
    PLACES,
    Told,
    deletions_body,
    deletions_bytes,
    deletions_read,
    manifest_body,
    manifest_bytes,
    manifest_read,
    place_read,
    places_bytes,
    places_opened,
    sealed,
)
from model.segment_files import NoSegment

COUNTS = (0, 1, 2, 64, 65, 300)
KEYS = (0, 1, 2**64 - 1)
# in so many parts the table of a changed manifest goes
PARTS_OF_MANIFEST = 4


def answered(read, tell, *found):
    """What a reader answers, as it is told, or why the bytes can't be read."""
    try:
        return tell(read(*found))
    except NoSegment as why:
        return str(why)


def changed(random, kind, key, body):
    """A file with one thing changed: of its bytes, of its body under the digest of that, or of what it is."""
    file = sealed(kind, key, body)
    match random.randrange(6):
        case 0:
            return damaged(random, file)
        case 1:
            return sealed(kind, key ^ 1, body)
        case 2:
            return sealed(random.choice([b"birchseg", b"birchdel", b"birchman", b"birchplc", b"another!"]), key, body)
        case 3:
            return sealed(kind, key, [*body, *random.choice([[0], [255], body])])
        case _:
            return sealed(kind, key, damaged(random, body))


def deletions_by_chance(random):
    count, key = random.choice(COUNTS), random.choice([*KEYS, random.randrange(2**64)])
    numbers = ascending(random, random.choice([0, 1, 2, 20, count]), count) if count else []
    file = deletions_bytes(key, count, numbers)
    yield f"deletions {key} {count}"
    yield row(f"deleted {joined(numbers)}")
    yield row("bytes", spelled(file))
    yield row("again", joined(numbers))
    body = deletions_body(key, count, numbers)
    others = [file, deletions_bytes(key, count + 1, numbers), deletions_bytes(key ^ 1, count, numbers)]
    others += [deletions_bytes(key, count, [*numbers, count]), *(changed(random, DELETIONS, key, body) for _ in range(12))]
    for other in others:
        yield row(f"read {spelled(other)}", answered(deletions_read, joined, key, count, other))


# ---- places


def numbers_told(found):
    return " ".join(map(str, found))


def documents_told(count):
    return f"{count} documents"


def place_looked_up(key, count, doc, file):
    """Where a file says that a document stands, if it opens."""
    places_opened(key, count, file)
    return place_read(key, count, doc, file)


def place_rows(key, count, docs, file, before=""):
    """What is asked of a file of places: to be opened, and where some documents stand."""
    yield row(f"{before}open", answered(places_opened, documents_told, key, count, file))
    for doc in docs:
        yield row(f"{before}place {doc}", answered(place_looked_up, numbers_told, key, count, doc, file))


def numbered(count):
    """So many places, of which each tells what number it has."""
    return [(number, number + 1, 16 * number, number % 7) for number in range(count)]


def places_by_chance(random):
    key, count = random.choice([*KEYS, random.randrange(2**64)]), random.choice([0, 1, 2, 3, 9, 255, 256, 257, 600])
    places = [tuple(random.choice([0, 1, MOST, random.randrange(2**32)]) for _ in range(4)) for _ in range(count)]
    docs = sorted({doc for doc in (0, 1, 255, 256, 511, 512, count - 1) if 0 <= doc < count})
    file = places_bytes(key, places)
    yield f"places {key}"
    for place in places:
        yield row(f"add {numbers_told(place)}")
    yield row("bytes", spelled(file))
    yield from place_rows(key, count, docs, file)
    body = file[16:32]
    others = [places_bytes(key ^ 1, places), places_bytes(key, [*places, (0, 0, 0, 0)]), places_bytes(key, places[1:])]
    others += [damaged(random, file) for _ in range(4)]
    others += [changed(random, PLACES, key, body) + file[40:] for _ in range(4)]
    for other in others:
        yield f"placed {key} {count} {spelled(other)}"
        yield from place_rows(key, count, docs, other)


# ---- manifests


def digits(found):
    return bytes(found).hex() or "-"


def field_told(field):
    name, kept, has_lengths = field
    return f"{kept}{'+lengths' if has_lengths else ''}"


def manifest_told(told):
    """A manifest as a case spells it."""
    found = [f"blocks {told.block_len} default {told.default} norms {joined(told.norms)} fields"]
    found += [f"{digits(it[0])}:{field_told(it)}" for it in told.fields]
    found += ["weights", *(f"{field}:{digits(text)}:{weight}" for field, text, weight in told.weights)]
    found += ["segments", *(f"{key}:{deletions}:{deleted}" for key, deletions, deleted in told.segments)]
    return " ".join([*found, "note", digits(told.note)])


def norms_of(first, step):
    return [min(MOST, first + min(MOST, step * number)) for number in range(NORMS)]


def manifest_block(told, step):
    """The lines that make a manifest, whose norms rise by a step."""
    fields = [f"{it[0].decode()}:{field_told(it)}" for it in told.fields]
    yield " ".join(["manifest", str(told.block_len), str(told.default), str(told.norms[0]), str(step), *fields])
    for field, text, weight in reversed(told.weights):
        yield row(f"weight {field} {text.decode() or '-'} {weight}")
    for key, deletions, deleted in told.segments:
        yield row(f"segment {key} {deletions} {deleted}")
    yield row(f"note {spelled(told.note)}")


def weights_by_chance(random):
    found = {}
    for _ in range(random.choice([0, 1, 2, 30])):
        text = "".join(random.choice("abzäß") for _ in range(random.choice([0, 1, 2, 14, 15, 90])))
        found[random.choice([0, 1, 200, MOST]), text.encode()] = random.choice([0, 1, random.randrange(2**63)])
    return [(*term, weight) for term, weight in sorted(found.items())]


def manifest_of_chance(random):
    """A manifest, and by how much each of its norms is greater than the one before."""
    names = ["", "title", "ä", "n" * 200, "body"]
    fields = [
        (random.choice(names).encode(), random.choice(KEPT), random.random() < 0.5)
        for _ in range(random.choice([0, 1, 2, 5]))
    ]
    step = random.choice([0, 1, 2**20, 2**25])
    segments = [
        (random.randrange(2**64), random.choice([0, random.randrange(2**64)]), random.choice([0, 7, MOST]))
        for _ in range(random.choice([0, 1, 9]))
    ]
    note = bytes(random.randrange(256) for _ in range(random.choice([0, 1, 200])))
    block_len, default = random.choice([1, 128, MOST]), random.choice([0, 1000, random.randrange(2**64)])
    norms = norms_of(random.choice([0, 1, 500]), step)
    return Told(block_len, fields, default, norms, weights_by_chance(random), segments, note), step


def manifest_by_chance(random):
    told, step = manifest_of_chance(random)
    file, body = manifest_bytes(told), manifest_body(told)
    yield from manifest_block(told, step)
    yield row("bytes", spelled(file))
    yield row("again", manifest_told(told))
    parts = [told._replace(weights=told.weights[::-1]), told._replace(norms=[*told.norms[1:], MOST + 1])]
    parts += [told._replace(fields=[*told.fields, (b"\xff", "basic", True)]), told._replace(segments=[(1, 2, MOST + 1)])]
    others = [manifest_bytes(random.choice(parts)), *(changed(random, MANIFEST, 0, body) for _ in range(6))]
    for other in others:
        yield row(f"read {spelled(other)}", answered(manifest_read, manifest_told, other))


# ---- tables


def each_change(file):
    """What comes before a row that reads a file with one bit turned, or its first bytes alone, and what it is then."""
    for place in range(len(file)):
        for bit in range(8):
            yield f"turned {place} {bit}", [*file[:place], file[place] ^ (1 << bit), *file[place + 1 :]]
    for count in range(len(file)):
        yield f"first {count}", file[:count]


def small_deletions():
    """A key, how many documents its segment has, and which are deleted."""
    return 7, 5, [1, 4]


def small_places():
    """A key, and where the documents of its segment stand."""
    return 7, [(3, 1, 0, 120), (3, 9, 121, MOST)]


def small_manifest():
    return Told(128, [(b"a", "positions", True)], 1, [0] * NORMS, [(0, b"x", 5)], [(7, 8, 2)], b"n")


def changed_deletions(_):
    """A small file of deletions with each of its bits turned, and with each of its ends cut off."""
    key, count, numbers = small_deletions()
    yield f"deletions {key} {count}"
    yield row(f"deleted {joined(numbers)}")
    for before, other in each_change(deletions_bytes(key, count, numbers)):
        yield row(f"{before} again", answered(deletions_read, joined, key, count, other))


def changed_places(_):
    """A small file of places with each of its bits turned, and with each of its ends cut off."""
    key, places = small_places()
    yield f"places {key}"
    for place in places:
        yield row(f"add {numbers_told(place)}")
    for before, other in each_change(places_bytes(key, places)):
        yield from place_rows(key, len(places), (0, 1), other, f"{before} ")


def exchanged_places(_):
    """Two pieces of a file of places, each where the other stood."""
    key, count = 7, 512
    file, docs = places_bytes(key, numbered(count)), (0, 255, 256, 511)
    yield f"places {key}"
    yield row(f"numbered {count}")
    yield from place_rows(key, count, docs, file)
    other = [*file[:40], *file[4144:], *file[40:4144]]
    yield f"placed {key} {count} {spelled(other)}"
    yield from place_rows(key, count, docs, other)


def changed_manifest(part):
    """A small manifest with each of its bits turned, and with each of its ends cut off: each of some of its bytes."""
    told = small_manifest()
    yield from manifest_block(told, 0)
    for number, (before, other) in enumerate(each_change(manifest_bytes(told))):
        if number % PARTS_OF_MANIFEST == part:
            yield row(f"{before} again", answered(manifest_read, manifest_told, other))


def by_chance(random):
    yield from random.choice([deletions_by_chance, places_by_chance, manifest_by_chance])(random)
