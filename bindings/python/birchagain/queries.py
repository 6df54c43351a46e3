"""What queries say, and what they find in an index."""

from __future__ import annotations

import ctypes
from typing import Iterator, List, Literal, NamedTuple, Tuple

from . import _library
from .errors import QueryError, raise_for

# "typed" is the language of docs/QUERIES.md, and "script" a `Q` of docs/SCRIPT.md
Language = Literal["typed", "script"]

_NUMBERS = {"typed": 0, "script": 1}
# the first status of a text that is none of the typed language
_UNTYPED = 101


class Hit(NamedTuple):
    """A document that was found, by its number, and its score."""

    document: int
    score: int


# a query as the library takes it: the number of its language, its bytes, and how many these are
_Passed = Tuple[int, bytes, int]


def _passed(query: str, language: Language) -> _Passed:
    number = _NUMBERS.get(language)
    if number is None:
        raise ValueError(f"there is no language {language!r}, but {' and '.join(map(repr, _NUMBERS))}")
    encoded = query.encode()
    return number, encoded, len(encoded)


def _raise_for(status: int, passed: _Passed) -> None:
    """Raises what a status of a call with this query stands for."""
    if status < _UNTYPED:
        raise_for(status)
        return
    place = ctypes.c_size_t()
    _library.check_query(*passed, place)
    raise QueryError(status, len(passed[1][: place.value].decode()))


def query_words(query: str, *, language: Language = "typed") -> List[str]:
    """The words of a query that weigh anything, in the order in which they stand, each as often as it does: all but the
    beginnings of others.

    Raises `QueryError` where it is not understood.
    """
    passed = _passed(query, language)
    # its words are not more than its bytes, nor are theirs
    room = max(passed[2], 1)
    data, ends = ctypes.create_string_buffer(room), (ctypes.c_size_t * room)()
    size, count = ctypes.c_size_t(), ctypes.c_size_t()
    _raise_for(_library.query_words(*passed, data, room, ends, room, size, count), passed)
    joined, places = data.raw[: size.value], [0, *ends[: count.value]]
    return [joined[start:end].decode() for start, end in zip(places, places[1:])]


class Queries:
    """The calls of an `Index` that take a query.

    A query is in the language that people type (docs/QUERIES.md), or with `language="script"` a `Q` of docs/SCRIPT.md.
    Its words are taken letter by letter, and deleted documents are never found.
    """

    # the same, since it needs no index
    query_words = staticmethod(query_words)

    def _ask(self, call, query: str, language: Language, *arguments) -> None:
        passed = _passed(query, language)
        status = self._answered(call, *passed, *arguments)
        if status:
            _raise_for(status, passed)

    def count(self, query: str, *, language: Language = "typed") -> int:
        """How many documents match a query.

        Raises `QueryError` where it is not understood, or is refused.
        """
        count = ctypes.c_uint64()
        self._ask(_library.count, query, language, count)
        return count.value

    def top(self, query: str, most: int = 10, *, language: Language = "typed") -> List[Hit]:
        """The best documents that match a query, at most so many: by score downwards, and of one score by number
        upwards.

        Raises `QueryError` where it is not understood, or is refused.
        """
        out, filled = (_library.Hit * max(most, 1))(), ctypes.c_size_t()
        self._ask(_library.top, query, language, out, max(most, 0), filled)
        return [Hit(it.document, it.score) for it in out[: filled.value]]

    def page(self, query: str, first: int = 0, most: int = 1000, *, language: Language = "typed") -> List[int]:
        """The documents that match a query, by number upwards from `first` on, at most so many. The next page begins one
        past the last of them.

        Raises `QueryError` where it is not understood, or is refused, and `OverflowError` where `first` is not from 0
        to 18446744073709551615.
        """
        if not 0 <= first < 1 << 64:
            raise OverflowError(f"the number {first} is not within 64 bits")
        out, filled = (ctypes.c_uint64 * max(most, 1))(), ctypes.c_size_t()
        self._ask(_library.page, query, language, first, out, max(most, 0), filled)
        return out[: filled.value]

    def search(self, query: str, *, language: Language = "typed", page: int = 1000) -> Iterator[int]:
        """All documents that match a query, by number upwards. So many are asked for at once, when they are needed:
        documents that are added or deleted meanwhile are found or not as the index then has them.

        Raises `QueryError` where the query is not understood, or is refused, and `ValueError` for pages without room.
        """
        if page < 1:
            raise ValueError("a page has room for one document at least")
        return self._pages(query, self.page(query, 0, page, language=language), page, language)

    def _pages(self, query: str, found: List[int], page: int, language: Language) -> Iterator[int]:
        while found:
            yield from found
            found = self.page(query, found[-1] + 1, page, language=language) if len(found) == page else []

    def weigh_for(self, query: str, *, language: Language = "typed") -> None:
        """Gives each word of a query the weight of BM25, by how many of the documents hold it.

        Raises `QueryError` where the query is not understood.
        """
        self.weigh_by_rarity(dict.fromkeys(query_words(query, language=language)))
