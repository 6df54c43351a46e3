"""Which worker holds which copies of the partitions, from their first making on."""

from __future__ import annotations

import secrets
import time
from itertools import count
from typing import Any, List, Optional, Sequence

from .balance import plan
from .copies import Copy, Held
from .engine import Engine
from .errors import PartitionError
from .partition import Recipe

# so often it looks which workers there are, in seconds
_LOOK_EVERY = 5.0
# so long it waits for an engine at once, and for a first worker
_WAIT, _PAUSE = 1.0, 0.1


class Placement:
    """The partitions, numbered in their order, and where their copies are. Copies that are lost are the engine's to
    make again; this one has more of them made, and moves them."""

    def __init__(self, engine: Engine, key: bytes, copies: int, give_up: float) -> None:
        """Of each partition there are to be so many copies. One that has not been made within `give_up` seconds raises
        `PartitionError`."""
        self.engine, self._key, self._copies, self._give_up = engine, key, copies, give_up
        self._name, self._serial = secrets.token_hex(8), count()
        self._looked = time.monotonic()
        self.held: List[Held] = []
        self.documents = 0

    def add(self, sources: Sequence[Any]) -> None:
        """Makes a partition more of each source, and numbers its documents.

        Raises `PartitionError` where one cannot be made; then there is none more.
        """
        before = len(self.held)
        self.held += [Held(before + number, source) for number, source in enumerate(sources)]
        try:
            self.balance()
            for held in self.held[before:]:
                self._await_made(held)
        except BaseException:
            self.drop_from(before)
            raise
        for held in self.held[before:]:
            held.first = self.documents
            self.documents += held.documents or 0

    def _await_made(self, held: Held) -> None:
        end = time.monotonic() + self._give_up
        while not held.look():
            if time.monotonic() > end:
                raise PartitionError(held.number, f"not made within {self._give_up:g} seconds")
            if not held.copies:
                # (there was no worker)
                time.sleep(_PAUSE)
                self.balance()
            self.engine.wait([it.handle for it in held.copies if it.error is None], _WAIT)

    def close(self) -> None:
        """Lets all partitions go."""
        self.drop_from(0)

    def drop_from(self, first: int) -> None:
        """Lets the partitions from one on go."""
        for copy in [it for held in self.held[first:] for it in held.copies]:
            copy.drop()
        del self.held[first:]
        self.documents = sum(it.documents or 0 for it in self.held)

    def keep_up(self) -> None:
        """What has to be done now and then, before a question."""
        if any(it.replaces or it.error for held in self.held for it in held.copies):
            self._settle()
        if time.monotonic() - self._looked > _LOOK_EVERY or not all(it.copies for it in self.held):
            self.balance()

    def balance(self) -> None:
        """Has copies made where some are missing, and others moved until all workers hold about as much. Ends at once:
        a copy that moves answers where it was until it is made elsewhere."""
        self._settle()
        workers = self.engine.workers()
        held = [[it.worker or "" for it in _staying(partition)] for partition in self.held]
        for partition, leaves, to in plan(held, [it.documents or 0 for it in self.held], workers, self._copies):
            self._move(self.held[partition], leaves, to)
        self._looked = time.monotonic()

    def _move(self, held: Held, leaves: Optional[str], to: Optional[str]) -> None:
        leaving = None if leaves is None else next((it for it in _staying(held) if it.worker == leaves), None)
        if to is not None:
            name = f"{self._name}/{held.number}/{next(self._serial)}"
            copy = Copy(self.engine, Recipe(name, held.number, held.source, self._key), to)
            copy.replaces = leaving
            held.copies.append(copy)
        elif leaving is not None:
            self._drop(held, leaving)

    def _settle(self) -> None:
        """Lets copies go that were replaced, and those that could not be made."""
        for held in self.held:
            for copy in [it for it in held.copies if it.look() and it.replaces]:
                if copy.replaces in held.copies:
                    self._drop(held, copy.replaces)
                copy.replaces = None
            for copy in [it for it in held.copies if it.error]:
                self._drop(held, copy)

    def _drop(self, held: Held, copy: Copy) -> None:
        held.copies.remove(copy)
        copy.drop()


def _staying(held: Held) -> List[Copy]:
    """The copies that are not about to be replaced, and could be made."""
    leaving = [it.replaces for it in held.copies if it.replaces]
    return [it for it in held.copies if it not in leaving and it.error is None]
