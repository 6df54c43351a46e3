"""Which words a text has. Passages and queries are cut and folded by this one rule, so that they meet."""

from __future__ import annotations

import re
import unicodedata
from typing import Dict, Iterator, List, NamedTuple

# what a word is made of: letters, numbers, and the marks of scripts that write vowels with them
_PARTS = ("L", "N", "M")
_WORD = re.compile("[^ ]+")


class _Folded(Dict[int, str]):
    """By its number what a letter becomes: a table for `str.translate`, which is filled as letters are met.

    Letters are folded one by one, so that what is found can be marked in the text as it stands.
    """

    def __missing__(self, number: int) -> str:
        folded = unicodedata.normalize("NFKD", unicodedata.normalize("NFKD", chr(number)).casefold())
        self[number] = "".join(map(_kept, folded))
        return self[number]


def _kept(letter: str) -> str:
    """What is left of a letter: nothing of an accent or what only steers the writing, a space of what parts words."""
    kind = unicodedata.category(letter)
    if "\u0300" <= letter <= "\u036f" or kind == "Cf":
        return ""
    return letter if kind[0] in _PARTS else " "


_FOLDED = _Folded()


class PlacedWord(NamedTuple):
    """A word, folded, and where it stands in its text: from a letter up to another."""

    word: str
    begin: int
    end: int


def folded_text(text: str) -> str:
    """The words of a text with spaces between them, in small letters and without accents."""
    return text.translate(_FOLDED)


def words_of(text: str) -> List[str]:
    """The words of a text, in their order."""
    return folded_text(text).split()


def placed_words(text: str) -> Iterator[PlacedWord]:
    """The same words, with their places."""
    pieces = [_FOLDED[ord(letter)] for letter in text]
    places = [at for at, piece in enumerate(pieces) for _ in piece]
    for found in _WORD.finditer("".join(pieces)):
        end = places[found.end() - 1] + 1
        # an accent goes with the letter before it
        while end < len(text) and not pieces[end]:
            end += 1
        yield PlacedWord(found[0], places[found.start()], end)
