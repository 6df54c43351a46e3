"""The passages of a folder, which are searched, and follow what changes there."""

from __future__ import annotations

import threading
import time
from collections import Counter
from typing import Callable, Dict, List, NamedTuple, Optional

from ..index import rarity
from .files import Change, File, Files
from .passage_index import PassageIndex
from .query import Part, Words, scoring_leaves, whole_words

# the folder is looked at for a twentieth of the time at most
_BETWEEN_LOOKS = 20
# of the other files that hold a passage so many are named
_MOST_OTHERS = 10


class Place(NamedTuple):
    """Where a passage stands: the file, the how manieth it is there, from 0, and its line, from 1."""

    file: File
    number: int
    line: int


class Found(NamedTuple):
    """A passage that was found: its text and score, where it stands first, and some of the others of so many files."""

    text: str
    score: int
    place: Place
    others: List[Place]
    held_by: int


class Weighed(NamedTuple):
    """How many passages hold something, and what it weighs."""

    held: int
    weight: int


class Weights(NamedTuple):
    """What the words of a query weigh, and its words and phrases that go on; the mean length of passages."""

    words: Dict[str, Weighed]
    beginnings: Dict[Words, Weighed]
    length: int

    def of_beginnings(self) -> Dict[Words, int]:
        """What each beginning scores: as a word does that stands once in a passage of mean length."""
        return {part: it.weight // (1 + self.length) for part, it in self.beginnings.items()}


class Answer(NamedTuple):
    """What a query found: of how many passages how many, those of one page, and how many seconds it took."""

    passages: int
    found: int
    page: int
    pages: int
    results: List[Found]
    weights: Weights
    seconds: float


class Summary(NamedTuple):
    """How many texts and different passages there are, and how many files were left out for which reason."""

    texts: int
    passages: int
    left_out: Counter


class Collection:
    """The passages of the texts below a folder. Any thread may call it; while one call runs, others wait."""

    def __init__(self, folder: str, most_bytes: int, tell: Callable[[int], None] = lambda _bytes: None) -> None:
        """Reads the folder; `tell` is called behind each file with the bytes of it that were read."""
        self._lock = threading.Lock()
        self._files = Files(folder, most_bytes, tell)
        self._passages = PassageIndex()
        self._look()
        self._passages.index.end_segment()

    @property
    def folder(self) -> str:
        """The path of the folder."""
        return self._files.folder

    def _look(self) -> None:
        """Takes in what has changed in the folder."""
        begun = time.monotonic()
        for it in self._files.changes():
            self._take_in(it)
        if self._passages.is_worn():
            self._passages = self._made_anew()
        self._summary = Summary(len(self._files.texts()), len(self._passages), self._files.left_out())
        ended = time.monotonic()
        self._next_look = ended + _BETWEEN_LOOKS * (ended - begun)

    def _take_in(self, change: Change) -> None:
        """Adds what a file holds since, and then removes what it holds no more: what it held before stays as it is."""
        old, new = ({it.text: None for it in file.passages} if file else {} for file in change)
        path = (change.new or change.old).path
        self._passages.add(path, [it for it in new if it not in old])
        self._passages.remove(path, [it for it in old if it not in new])
        self._files.keep(change)

    def _made_anew(self) -> PassageIndex:
        passages = PassageIndex()
        for it in self._files.texts():
            passages.add(it.path, {passage.text: None for passage in it.passages})
        passages.index.end_segment()
        return passages

    def _look_where_due(self) -> None:
        if time.monotonic() >= self._next_look:
            self._look()

    def search(self, query: Part, page: int, size: int, most_pages: int) -> Answer:
        """A page of what a query finds, best first; the last one there is, of so many at most, where `page` is past it.

        Raises `QueryError` where its scores might pass the greatest number.
        """
        with self._lock:
            self._look_where_due()
            begun, index = time.perf_counter(), self._passages.index
            weights = self._weigh(query)
            script = query.script(weights.of_beginnings())
            found = index.count(script, language="script")
            pages = max(1, min(-(-found // size), most_pages))
            page = min(page, pages)
            hits = index.top(script, page * size, language="script")[(page - 1) * size :]
            took = time.perf_counter() - begun
            return Answer(len(self._passages), found, page, pages, [self._found(*it) for it in hits], weights, took)

    def _weigh(self, query: Part) -> Weights:
        """Weighs what a query asks for by how many passages hold it."""
        leaves = [*scoring_leaves(query)]
        words = {word: self._weighed(Words((word,))) for word in whole_words(leaves)}
        self._passages.index.weigh({word: it.weight for word, it in words.items()})
        beginnings = {it: self._weighed(it) for it in dict.fromkeys(leaves) if it.goes_on}
        return Weights(words, beginnings, self._passages.mean_length())

    def _weighed(self, part: Words) -> Weighed:
        held = self._passages.index.count(part.script({}), language="script")
        return Weighed(held, rarity(len(self._passages), held))

    def _found(self, document: int, score: int) -> Found:
        text, paths = self._passages.text(document), self._passages.holders(document)
        place, *others = (self._place(path, text) for path in paths[: 1 + _MOST_OTHERS])
        return Found(text, score, place, others, len(paths))

    def _place(self, path: str, text: str) -> Place:
        file = self._files.by_path[path]
        return next(Place(file, number, it.line) for number, it in enumerate(file.passages) if it.text == text)

    def count(self, part: Part) -> int:
        """How many passages something finds."""
        with self._lock:
            return self._passages.index.count(part.script({}), language="script")

    def file(self, key: str) -> Optional[File]:
        """The text of a key, as it stands in the folder, or nothing."""
        with self._lock:
            self._look_where_due()
            file = self._files.by_key.get(key)
            return None if file and file.left_out else file

    def summary(self) -> Summary:
        """What was read at the last look, and what was left out."""
        return self._summary
