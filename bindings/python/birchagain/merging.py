"""What several indexes answer together, each of which holds a part of the documents."""

from __future__ import annotations

import ctypes
from typing import List, Sequence

from . import _library
from .errors import raise_for
from .queries import Hit

_NUMBERS, _SCORES = 1 << 64, 1 << 63


def _laid_out(hits: Sequence[Hit]) -> ctypes.Array:
    for hit in hits:
        if not (0 <= hit[0] < _NUMBERS and -_SCORES <= hit[1] < _SCORES):
            raise OverflowError(f"the hit {tuple(hit)} is not within 64 bits")
    # an array of C has one place at least, so that there is a pointer to it
    return (_library.Hit * max(len(hits), 1))(*map(tuple, hits))


def merged(first: Sequence[Hit], second: Sequence[Hit], offset: int, most: int = 10) -> List[Hit]:
    """The best hits of two answers to one query, at most so many, each as `Index.top` gives it. Documents of the second are
    numbered from `offset` on: the number of documents of the first index. Where words weigh the same in both indexes, and
    each was asked for as many, these are what one index with the documents of both would answer.

    Raises `MergeError` where a hit scores more than the one before it, or a document's number would be above
    18446744073709551615, and `OverflowError` for numbers that are not within 64 bits.
    """
    if not 0 <= offset < _NUMBERS:
        raise OverflowError(f"the number {offset} is not within 64 bits")
    out, filled = (_library.Hit * max(most, 1))(), ctypes.c_size_t()
    hits = (_laid_out(first), len(first), _laid_out(second), len(second))
    raise_for(_library.merge(*hits, offset, out, max(most, 0), filled))
    return [Hit(it.document, it.score) for it in out[: filled.value]]
