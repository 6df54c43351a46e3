"""Where the documents of a partition come from, wherever and however often it is made.

A source has to give the same documents each time. It travels to a worker as a pickle, so its function has to be one
that the worker can import, or, over Dask, one that `cloudpickle` can take along.
"""

from __future__ import annotations

import os
from abc import ABC, abstractmethod
from typing import Callable, Iterable, Optional, Union

from .. import Index

Documents = Iterable[Union[str, Iterable[str]]]


class Source(ABC):
    """Gives the index of a partition."""

    @abstractmethod
    def index(self) -> Index:
        """Makes it, all built, so that a first query need not wait for that. Called on a worker."""


class Texts(Source):
    """The documents that a function gives for these arguments: texts or rows of words, as `Index.add` takes them."""

    def __init__(self, function: Callable[..., Documents], *arguments: object) -> None:
        self.function, self.arguments = function, arguments

    def __repr__(self) -> str:
        named = getattr(self.function, "__qualname__", repr(self.function))
        return f"Texts({', '.join([named, *map(repr, self.arguments)])})"

    def index(self) -> Index:
        index = Index(self.function(*self.arguments))
        index.end_segment()
        index.refresh()
        return index


class Stored(Source):
    """The index that was saved in a folder, by `Index.save`, which all hosts see. To load it takes a small part of the
    time that it takes to make it."""

    def __init__(self, path: Union[str, os.PathLike], otherwise: Optional[Source] = None) -> None:
        """Where there is no index in the folder, `otherwise` gives it, and it is saved there: so whatever is made again
        is not made from texts again."""
        self.path, self.otherwise = os.path.abspath(path), otherwise

    def __repr__(self) -> str:
        return f"Stored({self.path!r})"

    def index(self) -> Index:
        try:
            return Index.open(self.path)
        except FileNotFoundError:
            if self.otherwise is None:
                raise
        index = self.otherwise.index()
        index.save(self.path)
        return index
