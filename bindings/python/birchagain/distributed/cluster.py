"""One index over several machines: the coordinator."""

from __future__ import annotations

import os
import secrets
import threading
from bisect import bisect_right
from typing import Any, Dict, Iterable, Iterator, List, Optional, Sequence, Tuple, Union

from .. import Hit, Language, NoDocumentError, query_words, rarity
from ..errors import NO_DOCUMENT
from .asking import Asking
from .copies import Held
from .deletions import Deletions
from .engine import Engine
from .lines import Lines
from .merging import merge
from .placement import Placement

# as many queries are sent at once, so that no answer takes as long as a worker's patience
_AT_ONCE = 256
# of so many words it keeps how many documents hold them
_WORDS_KEPT = 1 << 20
_KEY_BYTES = 32


class Cluster:
    """An index whose documents stand in partitions, which the workers of an engine hold.

    It answers what one index does whose segments are the partitions, and whose words weigh by their rarity in all.
    Partitions are made from their sources, as often as it takes: a worker that is lost is replaced without a call. Any
    thread may call it; while one call runs, others wait. It is a context manager: behind the block workers have let go.
    """

    def __init__(
        self,
        engine: Any,
        sources: Sequence[Any],
        *,
        log: Union[None, str, os.PathLike] = None,
        copies: int = 1,
        patience: float = 30.0,
        late: float = 0.1,
        give_up: float = 600.0,
    ) -> None:
        """Makes a partition of each source, and returns once all are made.

        `engine` is an `Engine`, or a `distributed.Client`. `log` is a file for deletions, which one coordinator at a
        time has: begun anew with the same sources and log, the same documents are deleted. Of each partition there are
        so many `copies` on different workers, as far as there are workers. All times are in seconds: a worker that has
        not answered within `patience` is taken for lost; a second copy is asked where the first is slower than `late`
        and than twice the slowest of the others; a question that has no answer after `give_up` raises.

        Raises `PartitionError` where one cannot be made, `LogError` where the log is not of these partitions, and
        `ValueError` for fewer copies than one.
        """
        if copies < 1:
            raise ValueError("a partition has one copy at least")
        self._late, self._give_up = late, give_up
        key = secrets.token_bytes(_KEY_BYTES)
        engine = engine if isinstance(engine, Engine) else _dask(engine)
        self._placement, self._lines = Placement(engine, key, copies, give_up), Lines(key, patience)
        self._lock, self._is_open = threading.RLock(), True
        self._frequencies: Dict[str, int] = {}
        self._deletions = Deletions(None if log is None else os.fspath(log))
        try:
            self._placement.add(sources)
            self._deletions.begin([it.documents or 0 for it in self._placement.held])
        except BaseException:
            self.close()
            raise

    def close(self) -> None:
        """Hangs up, and lets the partitions go. Harmless where it is closed already."""
        with self._lock:
            self._is_open = False
            self._lines.close()
            self._placement.close()
            self._deletions.close()

    def __enter__(self) -> Cluster:
        return self

    def __exit__(self, *_exception: object) -> None:
        self.close()

    def __len__(self) -> int:
        """How many documents all partitions have, deleted ones too."""
        return self._placement.documents

    def balance(self) -> None:
        """Has copies made where some are missing, and others moved until all workers hold about as much.

        It ends at once: a copy that moves answers where it was until it is made elsewhere. A question does so by itself
        every few seconds, so it need not be called, but where a new worker shall have its share at once.
        """
        with self._lock:
            self._check_open()
            self._placement.balance()

    def _check_open(self) -> None:
        if not self._is_open:
            raise ValueError("the cluster is closed")

    def _keep_up(self) -> None:
        """What comes before each question."""
        self._check_open()
        self._placement.keep_up()
        self._lines.keep([it.place.address for held in self._placement.held for it in held.copies if it.place])

    def _ask(self, call: str, partitions: Optional[Sequence[Held]] = None, **arguments: Any) -> List[Any]:
        """What each partition answers, in order."""
        asking = Asking(self._placement.engine, self._lines, self._late, self._give_up)
        asked = {"call": call, "arguments": arguments}
        return asking.ask(self._placement.held if partitions is None else partitions, self._deletions.of, asked)

    def frequencies(self, words: Iterable[str]) -> List[int]:
        """How many documents of all partitions hold each of these words, deleted ones too. Workers are asked for a word
        once."""
        words = [*words]
        with self._lock:
            self._keep_up()
            return self._frequencies_of(words)

    def _frequencies_of(self, words: List[str]) -> List[int]:
        if len(self._frequencies) > _WORDS_KEPT:
            self._frequencies.clear()
        new = [it for it in dict.fromkeys(words) if it not in self._frequencies]
        if new:
            found = self._ask("frequencies", words=new)
            self._frequencies.update((word, sum(it[at] for it in found)) for at, word in enumerate(new))
        return [self._frequencies[it] for it in words]

    def weights(self, queries: Iterable[str], *, language: Language = "typed") -> Dict[str, int]:
        """What each word of these queries weighs, by how rare it is in all documents.

        Raises `QueryError` where one is not understood.
        """
        words = [*dict.fromkeys(word for query in queries for word in query_words(query, language=language))]
        with self._lock:
            self._keep_up()
            return {word: rarity(len(self), held) for word, held in zip(words, self._frequencies_of(words))}

    def top(self, query: str, most: int = 10, *, language: Language = "typed") -> List[Hit]:
        """The best documents that match a query, at most so many, as `Index.top` has them.

        Raises `QueryError` where it is not understood, or is refused.
        """
        return self.top_many([query], most, language=language)[0]

    def top_many(self, queries: Iterable[str], most: int = 10, *, language: Language = "typed") -> List[List[Hit]]:
        """The best documents for each query. Many at once cost less than each alone.

        Raises `QueryError` where one is not understood, or is refused.
        """
        queries, most = [*queries], max(most, 0)
        found: List[List[Hit]] = []
        for at in range(0, len(queries), _AT_ONCE):
            some = queries[at : at + _AT_ONCE]
            with self._lock:
                weights = self.weights(some, language=language)
                answers = self._ask("top", queries=some, language=language, most=most, weights=weights)
                firsts = [it.first for it in self._placement.held]
                found += [merge([it[number] for it in answers], firsts, most) for number in range(len(some))]
        return found

    def count(self, query: str, *, language: Language = "typed") -> int:
        """How many documents match a query that weren't deleted.

        Raises `QueryError` where it is not understood, or is refused.
        """
        query_words(query, language=language)
        with self._lock:
            self._keep_up()
            return sum(self._ask("count", query=query, language=language))

    def page(self, query: str, first: int = 0, most: int = 1000, *, language: Language = "typed") -> List[int]:
        """The documents that match a query, by number upwards from `first` on, at most so many. One partition after the
        other is asked, as far as it takes.

        Raises `QueryError` where it is not understood, or is refused, and `OverflowError` where `first` is not from 0
        to 18446744073709551615.
        """
        if not 0 <= first < 1 << 64:
            raise OverflowError(f"the number {first} is not within 64 bits")
        query_words(query, language=language)
        found: List[int] = []
        with self._lock:
            self._keep_up()
            for held in self._placement.held:
                if held.first + (held.documents or 0) <= first or len(found) >= most:
                    continue
                start, room = max(first - held.first, 0), most - len(found)
                page = self._ask("page", [held], query=query, language=language, first=start, most=room)[0]
                found += [held.first + it for it in page]
        return found

    def search(self, query: str, *, language: Language = "typed", page: int = 1000) -> Iterator[int]:
        """All documents that match a query, by number upwards, so many asked for at once, as `Index.search` has them.

        Raises `QueryError` where the query is not understood, or is refused, and `ValueError` for pages without room.
        """
        if page < 1:
            raise ValueError("a page has room for one document at least")
        return self._pages(query, self.page(query, 0, page, language=language), page, language)

    def _pages(self, query: str, found: List[int], page: int, language: Language) -> Iterator[int]:
        while found:
            yield from found
            found = self.page(query, found[-1] + 1, page, language=language) if len(found) == page else []

    def delete(self, document: int) -> None:
        """Deletes a document, which keeps its number. To delete it again changes nothing."""
        self.delete_many([document])

    def delete_many(self, documents: Iterable[int]) -> None:
        """Deletes documents, all or none of them. Behind the call they are in the log, and no answer has them.

        Raises `NoDocumentError` where there is none of a number, and `OSError` where the log cannot be written.
        """
        with self._lock:
            self._keep_up()
            self._deletions.add([self._at(it) for it in documents])

    def _at(self, document: int) -> Tuple[int, int]:
        """The partition of a document, and its number there."""
        if not 0 <= document < len(self):
            raise NoDocumentError(NO_DOCUMENT)
        firsts = [it.first for it in self._placement.held]
        number = bisect_right(firsts, document) - 1
        return number, document - firsts[number]

    def add(self, source: Any) -> range:
        """A partition more, of this source, and the numbers of its documents. Words weigh by all documents from then on.

        Raises `PartitionError` where it cannot be made, and `OSError` where the log cannot be written; then nothing has
        changed.
        """
        with self._lock:
            self._keep_up()
            before, partitions = len(self), len(self._placement.held)
            self._placement.add([source])
            try:
                self._deletions.add_partition(len(self) - before)
            except BaseException:
                self._placement.drop_from(partitions)
                raise
            self._frequencies.clear()
            return range(before, len(self))


def _dask(client: Any) -> Engine:
    # (without Dask the package is of use with other engines)
    from .engine_dask import DaskEngine

    return DaskEngine(client)
