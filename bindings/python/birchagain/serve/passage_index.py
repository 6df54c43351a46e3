"""An index of passages. Those of one text are one document, however many files hold it."""

from __future__ import annotations

from typing import Dict, Iterable, List

from ..index import Index
from .words import folded_text

# so many deleted documents don't matter
_FEW_DELETED = 1000


class PassageIndex:
    """The texts of passages as documents, and by the number of each the files that hold it."""

    def __init__(self) -> None:
        self.index = Index()
        # how many documents the index has, deleted ones too
        self._added = 0
        self._numbers: Dict[str, int] = {}
        self._holders: Dict[int, List[str]] = {}
        self._texts: Dict[int, str] = {}
        # how many words the passages have together
        self._words = 0

    def __len__(self) -> int:
        """How many different passages there are."""
        return len(self._numbers)

    def add(self, path: str, texts: Iterable[str]) -> None:
        """A file holds these texts, too, each given once. Where that fails, it holds none of them."""
        added: List[str] = []
        try:
            for it in texts:
                self._add(path, it)
                added.append(it)
        except BaseException:
            self.remove(path, added)
            raise

    def _add(self, path: str, text: str) -> None:
        number = self._numbers.get(text)
        if number is None:
            folded = folded_text(text)
            number = self._added
            self.index.add(folded)
            self._added += 1
            self._words += len(folded.split())
            self._numbers[text], self._texts[number], self._holders[number] = number, text, []
        self._holders[number].append(path)

    def remove(self, path: str, texts: Iterable[str]) -> None:
        """A file holds these texts no more, each given once."""
        for text in texts:
            number = self._numbers[text]
            self._holders[number].remove(path)
            if not self._holders[number]:
                self.index.delete(number)
                self._words -= len(folded_text(text).split())
                del self._numbers[text], self._texts[number], self._holders[number]

    def text(self, number: int) -> str:
        """The text of a document that is not deleted."""
        return self._texts[number]

    def holders(self, number: int) -> List[str]:
        """The paths of the files that hold it."""
        return self._holders[number]

    def mean_length(self) -> int:
        """How many words a passage has, rounded down."""
        return self._words // max(len(self), 1)

    def is_worn(self) -> bool:
        """Whether more documents are deleted than are left, so that it is better made anew."""
        return self._added - len(self) > max(len(self), _FEW_DELETED)
