"""A partition's index on a worker, and what it answers."""

from __future__ import annotations

import threading
import weakref
from typing import Any, Dict, List, NamedTuple, Tuple

from .. import BirchagainError, Hit, Index, Language
from .errors import PartitionError
from .listening import Listener

# what an answer begins with: what was asked for; how many deletions the partition has, where that are too few; that it
# is not here; the status of a refusal; what else went wrong
DONE, BEHIND, ABSENT, REFUSED, FAILED = "done", "behind", "absent", "refused", "failed"


class Recipe(NamedTuple):
    """What a worker needs to make a copy of a partition and to answer for it."""

    name: str
    partition: int
    source: Any
    key: bytes


class Place(NamedTuple):
    """Where a copy of a partition is held."""

    worker: str
    address: Tuple[str, int]
    documents: int


class Partition:
    """A copy of a partition. It is pickled as its recipe: whoever takes it makes it anew."""

    def __init__(self, recipe: Recipe, host: str) -> None:
        """Makes it, in a process that coordinators reach at `host`. Raises `PartitionError` for whatever goes wrong."""
        self.recipe, self.host = recipe, host
        self._lock, self._seen = threading.Lock(), 0
        try:
            self._index: Index = recipe.source.index()
        except Exception as error:
            raise PartitionError(recipe.partition, f"{recipe.source!r}: {error!r}") from error
        self.documents = len(self._index)
        self._door = _Door.of(recipe.key, host)
        self._door.partitions[recipe.name] = self

    def __reduce__(self):
        return Partition, (self.recipe, self.host)

    def place(self, worker: str) -> Place:
        """Where it is held, on a worker of that name."""
        return Place(worker, self._door.listener.address, self.documents)

    def answer(self, asked: Dict[str, Any], since: int, deleted: List[int]) -> Tuple[str, Any]:
        """Deletes what it has not deleted yet, of which `since` were sent before, and answers."""
        # one question at a time: words keep the weights of theirs
        with self._lock:
            if self._seen < since:
                return BEHIND, self._seen
            for document in deleted[self._seen - since :]:
                self._index.delete(document)
                self._seen += 1
            return DONE, _CALLS[asked["call"]](self._index, **asked["arguments"])


def _top(index: Index, queries: List[str], language: Language, most: int, weights: Dict[str, int]) -> List[List[Hit]]:
    index.weigh(weights)
    return [index.top(query, most, language=language) for query in queries]


def _count(index: Index, query: str, language: Language) -> int:
    return index.count(query, language=language)


def _page(index: Index, query: str, language: Language, first: int, most: int) -> List[int]:
    return index.page(query, first, most, language=language)


def _frequencies(index: Index, words: List[str]) -> List[int]:
    return index.frequencies(words)


_CALLS = {"top": _top, "count": _count, "page": _page, "frequencies": _frequencies}


class _Door:
    """The partitions that this process holds for one cluster, and the port at which its coordinator asks. It is shut
    once the last of them is let go."""

    _doors: weakref.WeakValueDictionary = weakref.WeakValueDictionary()
    _making = threading.Lock()

    def __init__(self, key: bytes, host: str) -> None:
        self.partitions: weakref.WeakValueDictionary = weakref.WeakValueDictionary()
        # (the listener has no reference to the door, or it would never be shut)
        self.listener = Listener(host, key, _Answering(self.partitions))
        weakref.finalize(self, self.listener.close)

    @classmethod
    def of(cls, key: bytes, host: str) -> _Door:
        with cls._making:
            found = cls._doors.get(key)
            if found is None:
                found = cls._doors[key] = cls(key, host)
            return found


class _Answering:
    """Answers questions to several partitions. Raises an `OSError` for what is no question."""

    def __init__(self, partitions: weakref.WeakValueDictionary) -> None:
        self._partitions = partitions

    def __call__(self, question: Dict[str, Any]) -> Dict[str, Any]:
        try:
            number, asked, copies = question["id"], question["asked"], question["copies"]
            return {"id": number, "answers": [self._one(asked, *it) for it in copies]}
        except (KeyError, TypeError) as error:
            raise OSError(f"no question: {error!r}") from None

    def _one(self, asked: Dict[str, Any], name: str, since: int, deleted: List[int]) -> Tuple[str, Any]:
        partition = self._partitions.get(name)
        if partition is None:
            return ABSENT, None
        try:
            return partition.answer(asked, since, deleted)
        except BirchagainError as error:
            return REFUSED, error.status
        except Exception as error:
            return FAILED, repr(error)
