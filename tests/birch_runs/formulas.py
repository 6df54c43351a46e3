"""What words weigh and documents score, by the formulas of docs/SEARCH.md, with as many digits as it takes."""

from decimal import Decimal, getcontext
from fractions import Fraction

getcontext().prec = 50


def weight(documents, held):
    """What a word weighs that so many of the documents hold."""
    return int(1000 * (Decimal(2 * documents + 2) / Decimal(2 * held + 1)).ln())


def class_of(length):
    """The least length of those that count as this one: it has the first four bits of it, and else zeros."""
    bits = max(length.bit_length() - 4, 0) if length >= 32 else 0
    return length >> bits << bits


def norm(length, documents, words):
    """What is added to a frequency in a document of that length, of so many documents of so many words."""
    exact = Fraction(1, 2) + Fraction(3, 2) * class_of(length) / Fraction(words, documents)
    return int(exact + Fraction(1, 2))


def score(weighs, count, added):
    """What a word scores that stands so often in a document."""
    return weighs * count // (count + added)
