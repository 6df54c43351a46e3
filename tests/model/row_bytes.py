"""Rows and terms as bytes, by a plain reader and a plain writer that know nothing of the program.

A number has seven bits in each byte, the lowest first, and the eighth is set where more come; nine bytes at most. A row
is how many postings it has, then the postings, then the positions. A posting is the gap between its document and the
one before, doubled, and one more where its frequency is 1; else the frequency stands behind it. Positions are gaps too,
anew in each posting. A term is its field, how many bytes its text has, and these.
"""

MOST = 4294967295


def number_bytes(number):
    found = []
    while number >= 128:
        found.append(number % 128 + 128)
        number //= 128
    return [*found, number]


def gap_bytes(numbers):
    low, found = 0, []
    for number in numbers:
        found += number_bytes(number - low)
        low = number + 1
    return found


def row_parts(documents, places):
    """The postings of a row and its positions, as bytes: documents, and of each how often it holds the term, or its
    positions there."""
    low, postings, positions = 0, [], []
    for document, held in zip(documents, places):
        often = held if isinstance(held, int) else len(held)
        gap = 2 * (document - low)
        postings += number_bytes(gap + 1) if often == 1 else number_bytes(gap) + number_bytes(often)
        positions += [] if isinstance(held, int) else gap_bytes(held)
        low = document + 1
    return number_bytes(len(documents)) + postings, positions


def row_bytes(documents, places):
    """The bytes of a row."""
    postings, positions = row_parts(documents, places)
    return postings + positions


class NotThere(Exception):
    """The bytes are not what is read of them."""


class Reading:
    """What is left of some bytes."""

    def __init__(self, found):
        self.left = list(found)

    def number(self):
        number = 0
        for group in range(9):
            if not self.left:
                raise NotThere
            byte = self.left.pop(0)
            number += (byte % 128) << (7 * group)
            if byte < 128:
                return number
        raise NotThere

    def next(self, low, gap):
        if low + gap >= MOST:
            raise NotThere
        return low + gap

    def postings(self):
        count, low, documents, frequencies = self.number(), 0, [], []
        if count > len(self.left):
            raise NotThere
        for _ in range(count):
            gap, is_one = divmod(self.number(), 2)
            often = 1 if is_one else self.number()
            documents.append(self.next(low, gap))
            if often > MOST:
                raise NotThere
            frequencies.append(often)
            low = documents[-1] + 1
        return documents, frequencies

    def positions(self, count):
        low, found = 0, []
        for _ in range(count):
            found.append(self.next(low, self.number()))
            low = found[-1] + 1
        return found


def read_row(found, has_positions):
    """The documents, the frequencies and the positions that bytes are, or nothing."""
    reading = Reading(found)
    try:
        documents, frequencies = reading.postings()
        positions = [place for often in frequencies for place in reading.positions(often)] if has_positions else []
    except NotThere:
        return None
    return None if reading.left else (documents, frequencies, positions)


def term_bytes(field, text):
    return number_bytes(field) + number_bytes(len(text)) + list(text)


def begun_term(found):
    """The field and the text that bytes begin with, and what is left behind them, or nothing."""
    reading = Reading(found)
    try:
        field, count = reading.number(), reading.number()
    except NotThere:
        return None
    if field > MOST or count > len(reading.left):
        return None
    return field, reading.left[:count], reading.left[count:]
