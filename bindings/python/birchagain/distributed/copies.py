"""Copies of partitions as the coordinator knows them: where each is, and what it has."""

from __future__ import annotations

from typing import Any, List, Optional

from .engine import Engine
from .errors import PartitionError
from .partition import Place, Recipe


class Copy:
    """A copy of a partition that an engine makes and holds."""

    def __init__(self, engine: Engine, recipe: Recipe, worker: Optional[str]) -> None:
        """Begins to make it, on that worker if it can be."""
        self.name, self.partition = recipe.name, recipe.partition
        self._engine, self._to = engine, worker
        self.handle = engine.make(recipe, worker)
        self.place: Optional[Place] = None
        self.error: Optional[PartitionError] = None
        # how many of the partition's deletions it has
        self.seen = 0
        # the copy that it takes the place of
        self.replaces: Optional[Copy] = None

    @property
    def worker(self) -> Optional[str]:
        """The worker that holds it, or is to make it."""
        return self._to if self.place is None else self.place.worker

    def look(self) -> Optional[Place]:
        """Where it is, if that is known. Why it could not be made is in `error`."""
        if self.place is None and self.error is None:
            try:
                self.place = self._engine.where(self.handle)
            except PartitionError as error:
                self.error = error
        return self.place

    def doubt(self) -> None:
        """It did not answer where it was said to be."""
        if self.place is not None:
            self.place = None
            self._to = None
            self._engine.doubt(self.handle)

    def drop(self) -> None:
        self._engine.drop(self.handle)


class Held:
    """A partition: its source, how many documents it has, and its copies."""

    def __init__(self, number: int, source: Any) -> None:
        self.number, self.source = number, source
        self.documents: Optional[int] = None
        self.first = 0
        self.copies: List[Copy] = []

    def look(self) -> List[Copy]:
        """The copies whose places are known.

        Raises `PartitionError` where none could be made, or none with as many documents as it had at first.
        """
        found = [it for it in self.copies if it.look() and self._is_whole(it)]
        if self.copies and all(it.error for it in self.copies):
            raise self.copies[0].error  # type: ignore
        return found

    def _is_whole(self, copy: Copy) -> bool:
        """Whether it has the partition's documents: a source that gives others by now is of no use."""
        assert copy.place is not None
        if self.documents is None:
            self.documents = copy.place.documents
        if copy.place.documents != self.documents:
            said = f"{self.source!r} has given {self.documents} documents, and then {copy.place.documents}"
            copy.error, copy.place = PartitionError(self.number, said), None
        return copy.error is None
