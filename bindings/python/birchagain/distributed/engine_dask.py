"""Partitions that the workers of a Dask cluster hold.

Dask says where each is made and has it made again where a worker is lost. Whatever reaches Dask's own ports may run
code there: see docs/SCALE.md.
"""

from __future__ import annotations

from typing import Any, List, Optional, Sequence

import distributed
from dask.sizeof import sizeof

from .engine import Engine
from .errors import PartitionError
from .partition import Partition, Place, Recipe

# so often a partition is made once more where workers ended that were making it, since what ends them may be elsewhere
_TRIES = 3
# so many seconds a worker may take to hand over where a partition is
_HANDING_OVER = 2.0
# Dask moves a task to another worker where what it needs is small: a partition is said to be of so many bytes
_IMMOVABLE = 1 << 40


def _make(recipe: Recipe) -> Partition:
    return Partition(recipe, distributed.get_worker().ip)


def _place(partition: Partition) -> Place:
    return partition.place(distributed.get_worker().address)


@sizeof.register(Partition)
def _size(_partition: Partition) -> int:
    return _IMMOVABLE


class _Handle:
    def __init__(self, recipe: Recipe) -> None:
        self.recipe, self.tries = recipe, 0
        self.made: Any = None
        self.placed: Any = None
        self.place: Optional[Place] = None
        # the worker that it was to be made on
        self.worker: Optional[str] = None


class DaskEngine(Engine):
    """The workers that a `distributed.Client` reaches. The client is the caller's, who closes it."""

    def __init__(self, client: distributed.Client) -> None:
        self._client = client

    def workers(self) -> List[str]:
        return sorted(self._client.scheduler_info()["workers"])

    def make(self, recipe: Recipe, worker: Optional[str]) -> _Handle:
        handle = _Handle(recipe)
        self._submit(handle, worker)
        return handle

    def _submit(self, handle: _Handle, worker: Optional[str]) -> None:
        where = {} if worker is None else {"workers": [worker], "allow_other_workers": True}
        handle.worker = worker
        handle.made = self._client.submit(_make, handle.recipe, pure=False, **where)
        self.doubt(handle)

    def doubt(self, handle: _Handle) -> None:
        # a task that needs the partition runs where it is, once it is made again
        handle.place = None
        handle.placed = self._client.submit(_place, handle.made, pure=False)

    def where(self, handle: _Handle) -> Optional[Place]:
        if handle.place is None and handle.placed.status in ("error", "cancelled"):
            self._failed(handle)
        if handle.place is None and handle.placed.status == "finished":
            self._take_place(handle)
        return handle.place

    def _take_place(self, handle: _Handle) -> None:
        try:
            handle.place = handle.placed.result(timeout=_HANDING_OVER)
            handle.tries = 0
        except (TimeoutError, distributed.TimeoutError):
            # (that worker is lost, too, and the next call may know more)
            pass

    def _failed(self, handle: _Handle) -> None:
        """Has it made again where workers were lost over it, a few times, and raises else."""
        error = handle.placed.exception() if handle.placed.status == "error" else handle.placed.status
        if isinstance(error, PartitionError):
            raise error
        if handle.tries == _TRIES:
            raise PartitionError(handle.recipe.partition, f"{handle.recipe.source!r}: {error!r}")
        handle.tries += 1
        self._submit(handle, None)

    def wait(self, handles: Sequence[_Handle], seconds: float) -> None:
        self._free(handles)
        try:
            distributed.wait([it.placed for it in handles], timeout=seconds, return_when="FIRST_COMPLETED")
        except (TimeoutError, distributed.TimeoutError, distributed.client.CancelledError):
            pass

    def _free(self, handles: Sequence[_Handle]) -> None:
        """Dask never does a task that was to go to some worker, where all workers were gone at once and others came.
        So one that nobody does, and whose worker is gone, may go anywhere."""
        bound = [it for it in handles if it.worker is not None and it.made.status != "finished"]
        if not bound:
            return
        workers = self._client.scheduler_info()["workers"]
        lost = [it for it in bound if it.worker not in workers]
        if lost and workers:
            done = {key for keys in self._client.processing().values() for key in keys}
            for handle in [it for it in lost if it.made.key not in done]:
                self._submit(handle, None)

    def drop(self, handle: _Handle) -> None:
        handle.made.release()
        handle.placed.release()
