"""Why a call was refused."""

import ctypes
from typing import Optional

from . import _library

_NO_MEMORY, _EMPTY, NO_DOCUMENT = 13, 64, 67
# what bytes may be refused for, and what an index may be that is to be made bytes
_FORMAT, OPEN_SEGMENT, _NO_NUMBER, NO_ROOM = (80, 81, 82, 83), 84, 85, 86
# what the text of a query may be refused for
_QUERY = (1, 2, 8, 9, 65, 71, 72)
# what two answers may be refused for that are to be merged
_MERGE = (73, 74)
_ROOM = 256


class BirchagainError(Exception):
    """A call was refused, and the index is as it was. `status` is the number of bindings/c/birchagain.h."""

    def __init__(self, status: int) -> None:
        text = ctypes.create_string_buffer(_ROOM)
        length = _library.status_text(status, text, _ROOM)
        super().__init__(text.raw[: min(length, _ROOM)].decode())
        self.status = status

    def __reduce__(self):
        return type(self), (self.status,)


class ClosedError(BirchagainError, ValueError):
    """The index was closed."""


class FormatError(BirchagainError, ValueError):
    """Bytes, or the files of a folder, that are no index, or one that is damaged or of another version."""


class MergeError(BirchagainError, ValueError):
    """Two answers that cannot be merged."""


class NoDocumentError(BirchagainError, IndexError):
    """There is no document of that number."""


class QueryError(BirchagainError, ValueError):
    """The text of a query is not understood, or the query is refused.

    `place` says how many characters stand before what isn't understood in a query of the typed language, and is None
    where the query was refused for something else.
    """

    def __init__(self, status: int, place: Optional[int] = None) -> None:
        super().__init__(status)
        self.place = place
        if place is not None:
            self.args = (f"{self.args[0]} (at character {place})",)

    def __reduce__(self):
        return type(self), (self.status, self.place)


class WordError(BirchagainError, ValueError):
    """A document, a word or a weight that cannot be taken."""


def raise_for(status: int) -> None:
    """Raises what a status stands for, and nothing where the call was done."""
    if status == 0:
        return
    if status == _NO_MEMORY:
        raise MemoryError("birchagain: out of memory")
    if status == _EMPTY:
        raise ClosedError(status)
    if status == NO_DOCUMENT:
        raise NoDocumentError(status)
    if status in _MERGE:
        raise MergeError(status)
    if status in _FORMAT:
        raise FormatError(status)
    if status in (OPEN_SEGMENT, _NO_NUMBER, NO_ROOM):
        raise BirchagainError(status)
    raise (QueryError if status in _QUERY else WordError)(status)
