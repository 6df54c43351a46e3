"""What a cluster asks of the engine that holds its partitions."""

from __future__ import annotations

from abc import ABC, abstractmethod
from typing import Any, List, Optional, Sequence

from .partition import Place, Recipe


class Engine(ABC):
    """Processes that make partitions and hold them: when one is lost, its partitions are made again by another, or by
    the one that takes its place. A handle stands for a copy of a partition, wherever that is made."""

    @abstractmethod
    def workers(self) -> List[str]:
        """The names of the workers that can be handed partitions, in an order that stays."""

    @abstractmethod
    def make(self, recipe: Recipe, worker: Optional[str]) -> Any:
        """Begins to make a copy of a partition, on that worker if it can, and gives its handle."""

    @abstractmethod
    def where(self, handle: Any) -> Optional[Place]:
        """Where it is held; None while it is being made. Ends at once.

        Raises `PartitionError` where it could not be made.
        """

    @abstractmethod
    def doubt(self, handle: Any) -> None:
        """It is not where it was: `where` is None until it is known again. Ends at once."""

    @abstractmethod
    def wait(self, handles: Sequence[Any], seconds: float) -> None:
        """Until `where` may say something new of one of these, which are being made, or so long."""

    @abstractmethod
    def drop(self, handle: Any) -> None:
        """Lets a copy go. Ends at once."""

    def close(self) -> None:
        """Lets go what it holds itself. Handles are dropped before."""
