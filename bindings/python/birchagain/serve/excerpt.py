"""Which letters of a text a query has found, and which part of a passage shows most of it."""

from __future__ import annotations

import bisect
from typing import Iterable, Iterator, List, NamedTuple, Sequence, Tuple

from .query import Words
from .words import PlacedWord, placed_words

# in letters: how much of a passage a result shows, and how much of that stands before the first found word
SHOWN = 320
_BEFORE = 60
# how far back the beginning of a word is looked for
_WORD = 30


class Piece(NamedTuple):
    """A part of a text, and whether it was found."""

    text: str
    is_found: bool


class Mark(NamedTuple):
    """From where to where a text was found, and by which of the words and phrases of the query."""

    begin: int
    end: int
    leaf: int


def marks_in(text: str, leaves: Sequence[Words]) -> List[Mark]:
    """The letters of a text that the words and phrases of a query find, ascending and apart from each other."""
    placed = [*placed_words(text)]
    words = [it.word for it in placed]
    found = {}
    for number, leaf in enumerate(leaves):
        for at in _places(leaf, words):
            found.setdefault(at, number)
    return [*_apart(placed, found)]


def _places(leaf: Words, words: Sequence[str]) -> Iterator[int]:
    """The places of the words of a text that a leaf finds: of a phrase whose words may stand apart, those of each."""
    if leaf.slop:
        asked = {*leaf.words}
        yield from (at for at, word in enumerate(words) if word in asked)
        return
    for at in range(len(words)):
        yield from range(at, at + leaf.found_in(words, at))


def _apart(placed: Sequence[PlacedWord], found: dict) -> Iterator[Mark]:
    last = 0
    for at in sorted(found):
        begin, end = max(placed[at].begin, last), placed[at].end
        # two words may lie in one letter, as in a fraction
        if begin < end:
            yield Mark(begin, end, found[at])
            last = end


def excerpt(text: str, marks: Sequence[Mark]) -> Tuple[int, int]:
    """From where to where a passage is shown, so that most of what is asked for is in it."""
    begin = _best_begin(marks)
    begin = max(0, min(begin - _BEFORE, len(text) - SHOWN))
    end = min(len(text), begin + SHOWN)
    if begin:
        space = text.find(" ", begin, begin + _WORD)
        begin = space + 1 if space >= 0 else begin
    if end < len(text):
        space = text.rfind(" ", end - _WORD, end)
        end = space if space >= 0 else end
    return begin, end


def _best_begin(marks: Sequence[Mark]) -> int:
    """The mark from which on most leaves are found, and of those the one from which most words are."""
    best, begin = (0, 0), 0
    ends = [it.end for it in marks]
    for number, mark in enumerate(marks):
        behind = bisect.bisect_right(ends, mark.begin + SHOWN - 2 * _BEFORE)
        seen = (len({it.leaf for it in marks[number:behind]}), behind - number)
        if seen > best:
            best, begin = seen, mark.begin
    return begin


def pieces(text: str, marks: Iterable[Mark], begin: int, end: int) -> Iterator[Piece]:
    """A part of a text in pieces that are found, and those between them."""
    at = begin
    for mark in marks:
        if mark.end <= begin or mark.begin >= end:
            continue
        yield Piece(text[at : max(mark.begin, at)], False)
        yield Piece(text[max(mark.begin, at) : min(mark.end, end)], True)
        at = min(mark.end, end)
    yield Piece(text[at:end], False)
