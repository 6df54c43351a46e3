"""Cases of rows and terms as bytes, by chance: those that are written and read again, and bytes that were damaged."""

from generators.spelled import row
from model.row_bytes import begun_term, read_row, row_bytes, term_bytes

# below which number documents, frequencies and positions are
BOUNDS = (4, 70, 300, 20000, 4294967295)


def joined(numbers):
    return ",".join(map(str, numbers)) or "-"


def spelled(found):
    return " ".join(f"{it:02x}" for it in found) or "-"


def ascending(random, count, most):
    """So many numbers that ascend, or as many as there are below a bound."""
    return sorted({random.randrange(most) for _ in range(count)})


def damaged(random, found):
    """The bytes with one of them changed, left out or put in, or with some cut off."""
    place = random.randrange(len(found))
    match random.randrange(5):
        case 0:
            return [*found[:place], found[place] ^ (1 << random.randrange(8)), *found[place + 1 :]]
        case 1:
            return found[:place]
        case 2:
            return found[:place] + found[place + 1 :]
        case 3:
            return [*found[:place], random.randrange(256), *found[place:]]
        case _:
            return [random.choice([0, 1, 2, 127, 128, 255]) for _ in range(random.randrange(14))]


def told(found, has_positions):
    read = read_row(found, has_positions)
    return "none" if read is None else " ".join(map(joined, read))


def told_term(found):
    begun = begun_term(found)
    if begun is None:
        return "none"
    field, text, left = begun
    return " ".join([str(field), "text", *(f"{it:02x}" for it in text), "left", *(f"{it:02x}" for it in left)])


def term_by_chance(random):
    field = random.choice([0, 1, 127, 128, random.randrange(4294967296)])
    text = "".join(random.choice("abzäß") for _ in range(random.choice([0, 1, 2, 14, 15, 90])))
    found = term_bytes(field, text.encode())
    yield f"term {field} {text or '-'}"
    yield row("bytes", spelled([255, *found]))
    for _ in range(20):
        begun = damaged(random, [*found, *random.choice([[], [0], [255, 1]])])
        yield f"begin {spelled(begun)}"
        yield row("term", told_term(begun))


def row_by_chance(random):
    has_positions = random.random() < 0.6
    documents = ascending(random, random.choice([1, 2, 3, 20, 200]), min(random.choice(BOUNDS), 2147483647))
    most = random.choice(BOUNDS)
    if has_positions:
        places = [ascending(random, random.choice([1, 1, 2, 5]), most) for _ in documents]
        frequencies, positions = [len(it) for it in places], [place for it in places for place in it]
    else:
        places = frequencies = [random.choice([1, 1, 2, random.randint(1, most)]) for _ in documents]
        positions = []
    kept, found = "positions" if has_positions else "freqs", row_bytes(documents, places)
    yield f"row {kept} {joined(documents)} {joined(frequencies)} {joined(positions)}"
    yield row("bytes", spelled([255, *found]))
    yield row("again", " ".join(map(joined, (documents, frequencies, positions))))
    yield f"read {kept}"
    yield row(spelled(found), told(found, has_positions))
    for _ in range(20):
        other = damaged(random, found)
        yield row(spelled(other), told(other, has_positions))


def by_chance(random):
    yield from random.choice([row_by_chance, row_by_chance, term_by_chance])(random)
