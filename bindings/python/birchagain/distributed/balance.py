"""Which worker is to hold which copies of partitions."""

from __future__ import annotations

from collections import Counter
from typing import Dict, List, NamedTuple, Optional, Sequence

# A move has to be worth what it costs: at most so much of the difference between two workers moves at once.
SHARE = 0.75


class Move(NamedTuple):
    """A copy of a partition is made on a worker, and then the one at `leaves`, if any, is let go.

    Without `to` nothing is made: the copy is one too many.
    """

    partition: int
    leaves: Optional[str]
    to: Optional[str]


def plan(held: Sequence[Sequence[str]], sizes: Sequence[int], workers: Sequence[str], copies: int) -> List[Move]:
    """The moves after which each partition has its copies on different workers, and all hold about as much.

    `held` has for each partition the workers that hold its copies, one among them as often as it holds copies. What is
    not on one of `workers` is being made, nobody knows where: it counts as a copy, and stays. There are never more
    copies than workers. Costs each move a look at all copies.
    """
    layout = _Layout(held, sizes, workers)
    if workers:
        layout.spread(min(copies, len(workers)))
        layout.even_out()
    return layout.moves


class _Layout:
    """Where copies will be, behind the moves that were decided."""

    def __init__(self, held: Sequence[Sequence[str]], sizes: Sequence[int], workers: Sequence[str]) -> None:
        self.sizes = sizes
        self.moves: List[Move] = []
        self.held = [[it for it in copies if it in workers] for copies in held]
        self.being_made = [len(copies) - len(there) for copies, there in zip(held, self.held)]
        # ties are decided by the order of the workers, so that a plan is the same each time
        self.loads: Dict[str, int] = {worker: 0 for worker in workers}
        for partition, there in enumerate(self.held):
            for worker in there:
                self.loads[worker] += self.weight(partition)

    def weight(self, partition: int) -> int:
        # an empty partition takes a place too
        return self.sizes[partition] + 1

    def copies(self, partition: int) -> int:
        return len(self.held[partition]) + self.being_made[partition]

    def move(self, partition: int, leaves: Optional[str], to: Optional[str]) -> None:
        if leaves is not None:
            self.held[partition].remove(leaves)
            self.loads[leaves] -= self.weight(partition)
        if to is not None:
            self.held[partition].append(to)
            self.loads[to] += self.weight(partition)
        self.moves.append(Move(partition, leaves, to))

    def emptiest_without(self, partition: int) -> Optional[str]:
        """The worker with the least load that has no copy of it."""
        free = [it for it in self.loads if it not in self.held[partition]]
        return min(free, key=self.loads.__getitem__, default=None)

    def spread(self, copies: int) -> None:
        """Makes what is missing, and parts copies that are on one worker; the largest partitions go first."""
        for partition in sorted(range(len(self.held)), key=lambda it: -self.sizes[it]):
            # (what is being made does not answer yet, so one that does stays)
            while self.copies(partition) > copies and len(self.held[partition]) > 1:
                self.move(partition, self.most_crowded(partition), None)
            for worker, count in Counter(self.held[partition]).items():
                for _ in range(count - 1):
                    self.move(partition, worker, self.emptiest_without(partition))
            while self.copies(partition) < copies:
                self.move(partition, None, self.emptiest_without(partition))

    def most_crowded(self, partition: int) -> str:
        """The worker that can best do without a copy of it: where there is another, and then by load."""
        there = self.held[partition]
        return max(there, key=lambda worker: (there.count(worker), self.loads[worker]))

    def even_out(self) -> None:
        """Moves copies from the fullest worker to the emptiest, as long as one makes both more alike. Each move makes
        the sum of the squares of all loads less, so this ends."""
        while True:
            fullest, emptiest = max(self.loads, key=self.loads.__getitem__), min(self.loads, key=self.loads.__getitem__)
            gap = self.loads[fullest] - self.loads[emptiest]
            movable = [it for it, there in enumerate(self.held) if fullest in there and emptiest not in there]
            movable = [it for it in movable if self.weight(it) <= SHARE * gap]
            if not movable:
                return
            self.move(min(movable, key=lambda it: (abs(gap - 2 * self.weight(it)), it)), fullest, emptiest)
