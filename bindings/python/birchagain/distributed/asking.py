"""One question to all partitions, until each has answered: by whichever copy does so first."""

from __future__ import annotations

import time
from itertools import count
from typing import Any, Dict, List, Optional, Sequence, Set, Tuple

from ..errors import raise_for
from .copies import Copy, Held
from .engine import Engine
from .errors import PartitionError
from .lines import Line, Lines, ready
from .partition import ABSENT, BEHIND, DONE, FAILED, REFUSED

# so often it is looked whether more is to be done than to listen, in seconds
_LOOK = 0.05
# so long it waits for an engine at once
_WAIT = 1.0
# a worker is late that takes so many times as long as the slowest one that has answered
_TIMES = 2.0
_NUMBERS = count()


class Asking:
    """A question that is under way. What a partition has answered stands, whatever happens to its workers then."""

    def __init__(self, engine: Engine, lines: Lines, late: float, give_up: float) -> None:
        """A second copy is asked where the first has not answered within `late` seconds and twice the time of the
        slowest answer so far; after `give_up` seconds it ends."""
        self._engine, self._lines, self._late = engine, lines, late
        self._number, self._began, self._give_up = next(_NUMBERS), time.monotonic(), give_up
        self._slowest: Optional[float] = None
        self._partitions: Sequence[Held] = ()
        # by line, the copies that were asked there; and by partition, the copies that were asked and have not failed
        self._asked: Dict[Line, List[Tuple[Copy, int]]] = {}
        self._tried: Dict[int, Set[str]] = {}
        self._answers: Dict[int, Any] = {}

    def ask(self, partitions: Sequence[Held], deleted: Sequence[Sequence[int]], asked: Dict[str, Any]) -> List[Any]:
        """An answer of each partition, in order; `deleted` has for each partition of the cluster what was deleted.

        Raises `PartitionError` where one cannot be made, or does not answer in time, and what an index raises that
        refuses.
        """
        self._partitions = partitions
        while True:
            missing = [it for it in partitions if it.number not in self._answers]
            if not missing:
                return [self._answers[it.number] for it in partitions]
            if time.monotonic() - self._began > self._give_up:
                raise PartitionError(missing[0].number, f"no answer within {self._give_up:g} seconds")
            self._send(missing, deleted, asked)
            self._listen(missing)
            self._break_overdue()

    def _send(self, missing: Sequence[Held], deleted: Sequence[Sequence[int]], asked: Dict[str, Any]) -> None:
        """Asks a copy of each partition that nobody is asked for in time."""
        chosen: Dict[Line, List[Copy]] = {}
        loads: Dict[Line, int] = {}
        for held in missing:
            if all(self._is_late(line) for line in self._lines_asked(held)):
                choice = self._choose(held, loads)
                if choice:
                    line, copy = choice
                    chosen.setdefault(line, []).append(copy)
                    loads[line] = loads.get(line, 0) + 1 + (held.documents or 0)
        for line, copies in chosen.items():
            self._send_to(line, copies, deleted, asked)

    def _lines_asked(self, held: Held) -> List[Line]:
        return [line for line, asked in self._asked.items() if any(it.partition == held.number for it, _ in asked)]

    def _choose(self, held: Held, loads: Dict[Line, int]) -> Optional[Tuple[Line, Copy]]:
        """The copy of it to be asked: one that was not asked yet, where the least is asked."""
        usable = []
        for copy in held.look():
            line = None if copy.name in self._tried.get(held.number, ()) else self._line_of(copy)
            if line is not None and not line.is_busy:
                usable.append((line, copy))
        return min(usable, key=lambda it: loads.get(it[0], 0), default=None)

    def _line_of(self, copy: Copy) -> Optional[Line]:
        place = copy.look()
        if place is None:
            return None
        try:
            return self._lines.open(place.address)
        except OSError:
            copy.doubt()
            return None

    def _send_to(self, line: Line, copies: List[Copy], deleted: Sequence[Sequence[int]], asked: Dict[str, Any]) -> None:
        sent = [(copy, len(deleted[copy.partition])) for copy in copies]
        named = [(copy.name, copy.seen, deleted[copy.partition][copy.seen : end]) for copy, end in sent]
        self._asked[line] = sent
        for copy in copies:
            self._tried.setdefault(copy.partition, set()).add(copy.name)
        try:
            line.ask({"id": self._number, "asked": asked, "copies": named})
        except OSError:
            self._break(line)

    def _listen(self, missing: Sequence[Held]) -> None:
        busy = self._lines.busy()
        if not busy:
            if any(self._choose(it, {}) for it in missing):
                return
            unmade = [copy for held in missing for copy in held.copies if copy.look() is None and copy.error is None]
            if unmade:
                self._engine.wait([it.handle for it in unmade], min(_WAIT, self._give_up))
            else:
                time.sleep(_LOOK)
            return
        for line in ready(busy, self._until(busy)):
            try:
                answer = line.hear()
            except OSError:
                self._break(line)
                continue
            # (what answers an earlier question, which another copy has answered, is of no use)
            if answer is not None and answer["id"] == self._number:
                self._slowest = max(line.took, self._slowest or 0.0)
                self._take(self._asked.pop(line), answer["answers"])

    def _until(self, busy: Sequence[Line]) -> float:
        """How long nothing is to be done but to listen."""
        ends = [self._late_after() - line.waited() for line in busy if not self._is_late(line)]
        return min([_LOOK, *ends])

    def _late_after(self) -> float:
        if self._slowest is None:
            return self._lines.patience
        return max(self._late, _TIMES * self._slowest)

    def _is_late(self, line: Line) -> bool:
        return line.waited() >= self._late_after()

    def _take(self, asked: List[Tuple[Copy, int]], answers: List[Any]) -> None:
        for (copy, sent), (kind, value) in zip(asked, answers):
            if kind == DONE:
                copy.seen = sent
                self._answers.setdefault(copy.partition, value)
            elif kind == REFUSED:
                raise_for(value)
            elif kind == FAILED:
                raise PartitionError(copy.partition, value)
            else:
                self._again(copy, kind, value)

    def _again(self, copy: Copy, kind: str, value: Any) -> None:
        """A copy that was made anew has no deletions, and one that is not where it was has to be found."""
        assert kind in (BEHIND, ABSENT), kind
        if kind == BEHIND:
            copy.seen = value
        else:
            copy.doubt()
        self._tried[copy.partition].discard(copy.name)

    def _break(self, line: Line) -> None:
        """Hangs up. Who was asked there, or would be, has to be found again."""
        self._lines.hang_up(line.address)
        for copy, _ in self._asked.pop(line, []):
            self._tried[copy.partition].discard(copy.name)
        for copy in [it for held in self._partitions for it in held.copies]:
            if copy.place and copy.place.address == line.address:
                copy.doubt()

    def _break_overdue(self) -> None:
        for line in self._lines.busy():
            if line.waited() > self._lines.patience:
                self._break(line)
