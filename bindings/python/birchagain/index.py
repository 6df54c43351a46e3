"""Documents that are added and deleted in any order, and their words."""

from __future__ import annotations

import ctypes
import threading
from itertools import accumulate, chain
from typing import Iterable, List, Mapping, Optional, Sequence, Sized, Tuple, Union

from . import _library
from .errors import NO_DOCUMENT, NoDocumentError, raise_for
from .queries import Queries
from .stored import StoredIndex

_NUMBERS, _SCORES = 1 << 64, 1 << 63
# lengths of documents that have a norm of their own, and what a norm and a place are below
_LENGTHS, _NORMS, _PLACES = 256, 1 << 32, 1 << 32


def _array(kind: type, numbers: Sequence[int]) -> ctypes.Array:
    """Numbers as an array of C, which has one place at least, so that there is a pointer to it."""
    return (kind * max(len(numbers), 1))(*numbers)


def _ends(parts: Iterable[Sized]) -> ctypes.Array:
    """Where each of these parts ends, one behind the other."""
    return _array(ctypes.c_size_t, [*accumulate(map(len, parts))])


def _laid_out(words: Iterable[str]) -> Tuple[bytes, ctypes.Array, int]:
    """Words one behind the other, where each ends, and how many there are."""
    encoded = [word.encode() for word in words]
    return b"".join(encoded), _ends(encoded), len(encoded)


class Index(Queries, StoredIndex):
    """Documents of words, numbered from 0 up in the order in which they are added.

    It is a context manager: behind the block its memory is freed. Any thread may call it; while one call runs, others
    of the same index wait. A call that is refused raises, and leaves the index as it was.
    """

    def __init__(self, documents: Iterable[Union[str, Iterable[str]]] = ()) -> None:
        """An index of these documents, as `add` takes them."""
        self._begin()
        self._call(_library.open_index)
        try:
            for document in documents:
                self.add(document)
        except BaseException:
            self.close()
            raise

    def _begin(self) -> None:
        self._handle = _library.Handle()
        self._lock = threading.Lock()
        super()._begin()

    def _answered(self, call, *arguments) -> int:
        # ctypes lets other threads run during a call
        with self._lock:
            return call(self._handle, *arguments)

    def _call(self, call, *arguments) -> None:
        status = self._answered(call, *arguments)
        if status:
            raise_for(status)

    def close(self) -> None:
        """Frees its memory. Harmless where it is closed already."""
        with self._lock:
            _library.free(self._handle)

    def __enter__(self) -> Index:
        return self

    def __exit__(self, *_exception) -> None:
        self.close()

    def __del__(self) -> None:
        # where __init__ has failed there is no handle, and at the end of the process no library
        if getattr(self, "_handle", None) is not None and _library is not None:
            _library.free(self._handle)

    def __len__(self) -> int:
        """How many documents were added, deleted ones too."""
        count = ctypes.c_uint64()
        self._call(_library.documents, count)
        return count.value

    def add(self, document: Union[str, Iterable[str]]) -> None:
        """Adds a document: a text, whose words spaces part, or its words, each with one letter at least and no space.

        Raises `WordError` for words that are not such, and `UnicodeEncodeError` for what is no text.
        """
        if isinstance(document, str):
            text = document.encode()
            self._call(_library.add_text, text, len(text))
        else:
            data, ends, count = _laid_out(document)
            self._call(_library.add_words, data, len(data), ends, count)

    def add_placed(self, words: Mapping[str, Sequence[int]], length: Optional[int] = None) -> None:
        """Adds a document with these words, each at its places among all words, which ascend from 0 up; there may be gaps,
        and words that share a place. A word has one letter at least, and may have spaces: then `new*` finds it, the
        beginning of a word. `length` is the document's length, and by default the number of places, held at 255.

        Raises `WordError` for a word that is empty, or has no place, or places that do not ascend or reach 4294967295, and
        `OverflowError` for a place that is not within 32 bits, or a length that is not from 0 to 255.
        """
        data, ends, count = _laid_out(words)
        rows = [*words.values()]
        every = [*chain.from_iterable(rows)]
        if not all(0 <= place < _PLACES for place in every):
            raise OverflowError("a place is not within 32 bits")
        length = min(len(every), _LENGTHS - 1) if length is None else length
        if not 0 <= length < _LENGTHS:
            raise OverflowError(f"the length {length} is not from 0 to 255")
        places = _array(ctypes.c_uint32, every)
        self._call(_library.add_placed, data, len(data), ends, count, places, len(every), _ends(rows), count, length)

    def delete(self, document: int) -> None:
        """Deletes a document, which keeps its number, as all others do. To delete it again changes nothing.

        Raises `NoDocumentError`, an `IndexError`, where there is none of that number.
        """
        if not 0 <= document < _NUMBERS:
            raise NoDocumentError(NO_DOCUMENT)
        self._call(_library.delete, document)

    def end_segment(self) -> None:
        """Ends the segment that takes documents, and opens another."""
        self._call(_library.end_segment)

    def refresh(self) -> None:
        """Builds what was added, so that the next call that reads need not."""
        self._call(_library.refresh)

    def weigh(self, weights: Mapping[str, int]) -> None:
        """Gives each of these words its weight from now on; one that was given none weighs 1000. Words are given theirs
        one after another, so those before one that is refused have it.

        Raises `WordError` for a weight below 0, and `OverflowError` for one above 9223372036854775807.
        """
        for word, weight in weights.items():
            if not -_SCORES <= weight < _SCORES:
                raise OverflowError(f"the weight {weight} is not within 64 bits")
            data = word.encode()
            self._call(_library.weigh, data, len(data), weight)

    def set_norms(self, norms: Sequence[int]) -> None:
        """From now on a document of n words counts as one of `norms[n]`, and one of 255 and more as `norms[255]`. At first
        that is n. `norms_by_mean` makes norms by which lengths count by their mean.

        Raises `WordError` unless there are 256, none less than the one before it, and `OverflowError` for one that is not
        from 0 to 4294967295.
        """
        if not all(0 <= norm < _NORMS for norm in norms):
            raise OverflowError("a norm is not within 32 bits")
        self._call(_library.set_norms, _array(ctypes.c_uint32, norms), len(norms))

    def frequencies(self, words: Iterable[str]) -> List[int]:
        """How many documents hold each of these words, deleted ones too.

        Raises `WordError` for a word that is empty or has a space.
        """
        data, ends, count = _laid_out(words)
        out = (ctypes.c_uint64 * max(count, 1))()
        self._call(_library.frequencies, data, len(data), ends, count, out, count)
        return out[:count]

    def weigh_by_rarity(self, words: Iterable[str]) -> None:
        """Gives each of these words the weight of BM25, by how many of the documents hold it."""
        words = [*words]
        documents = len(self)
        self.weigh({word: rarity(documents, held) for word, held in zip(words, self.frequencies(words))})


def norms_by_mean(mean: float) -> List[int]:
    """Norms by which a document's length counts by its quotient to the mean, in words, as BM25 with k1 = 2 and b = 0.75 has
    it: `0.5 + 1.5 n / mean` for n words, rounded to a whole number.

    Raises `ValueError` for a mean that is not above 0.
    """
    if not mean > 0:
        raise ValueError(f"the mean {mean!r} is not above 0")
    return [int(min(1 + 1.5 * length / mean, _NORMS - 1)) for length in range(_LENGTHS)]


def rarity(documents: int, held: int) -> int:
    """What a word weighs that so many of the documents hold, by BM25, in thousandths.

    Raises `OverflowError` for numbers that are not from 0 to 18446744073709551615.
    """
    if not (0 <= documents < _NUMBERS and 0 <= held < _NUMBERS):
        raise OverflowError("a number of documents is not within 64 bits")
    return _library.rarity(documents, held)
