"""Cases of segments that are merged, by chance, by a plain model of their documents."""

from generators.spelled import row
from model.merging import Segment

WORDS = ("a", "b", "ba", "c", "cc", "d")
KEPT = ("positions", "positions", "freqs", "basic", "nothing")


def joined(numbers):
    return ",".join(map(str, numbers)) or "-"


def held_by_chance(random, kept):
    """What a document holds of a term in a field that keeps so much."""
    if kept == "positions":
        return sorted({random.randrange(random.choice([5, 4294967295])) for _ in range(random.choice([1, 1, 2, 4]))})
    return random.choice([1, 1, 2, 255, 256, 4294967295])


def document_by_chance(random, fields):
    """Of each indexed field some words, and of each field a length id."""
    terms = {}
    for number, (kept, _) in enumerate(fields):
        for word in WORDS:
            if kept != "nothing" and random.random() < 0.3:
                terms[number, word] = held_by_chance(random, kept)
    return terms, [random.randrange(256) for _ in fields]


def segment_by_chance(random, fields):
    count = random.choice([0, 1, 2, 5, 9])
    documents = [document_by_chance(random, fields) for _ in range(count)]
    share = random.choice([0, 0, 0.3, 1])
    return Segment(documents, [it for it in range(count) if random.random() < share])


def given(part, fields, segment):
    """The lines that give a segment."""
    for number, (kept, has_lengths) in enumerate(fields):
        ids = f" {joined(segment.column(number))}" if has_lengths else ""
        yield f"  {part} field {kept}{ids}"
    yield f"  {part} documents {len(segment.documents)}"
    for (field, word), columns in segment.rows():
        yield f"  {part} row {field} {word} {' '.join(map(joined, columns))}"
    yield f"  {part} deleted {joined(segment.deleted)}"


def answers(fields, block_len, segment):
    """The rows that ask for all that a segment keeps."""
    yield row("rows", " ".join(f"{field}:{word}:" + ":".join(map(joined, it)) for (field, word), it in segment.rows()))
    for number, (_, has_lengths) in enumerate(fields):
        yield row(f"columns {number}", " ".join(map(str, segment.column(number) if has_lengths else [])))
    yield row("alive", " ".join(map(str, segment.alive())))
    yield row("shape", f"{block_len} {len(fields)} {len(segment.documents)}")


def by_chance(random):
    fields = [(random.choice(KEPT), random.random() < 0.5) for _ in range(random.choice([0, 1, 2, 3]))]
    first, second = (segment_by_chance(random, fields) for _ in range(2))
    block_len = random.choice([1, 2, 128])
    yield "merge"
    yield f"  both blocks {block_len}"
    yield from given("first", fields, first)
    yield from given("second", fields, second)
    if random.random() < 0.3:
        merged = first.left()
    else:
        merged = first.merged(second)
        yield row("merge", "made")
        yield from answers(fields, block_len, merged)
        merged = merged.left()
    yield row("leave_out", "made")
    yield from answers(fields, block_len, merged)
