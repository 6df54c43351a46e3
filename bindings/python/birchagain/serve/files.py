"""The texts that a folder has, as they were last read, and what has changed since."""

from __future__ import annotations

import hashlib
import os
import time
from collections import Counter
from typing import Callable, Dict, Iterator, List, NamedTuple, Optional

from .passages import Passage, passages_of
from .reading import LeftOut, Stamp, files_below, read_text

# a file is known again by its stamp where nothing of it had changed for so many nanoseconds when it was read
_SETTLED = 2_000_000_000


class File(NamedTuple):
    """A file as it was read: its path in the folder, a key that stands for it in addresses, and its passages.

    One that is no text has no passages, and the reason why it is left out.
    """

    path: str
    key: str
    stamp: Stamp
    is_settled: bool
    passages: List[Passage]
    left_out: str = ""


class Change(NamedTuple):
    """A file as it was and as it is: the first is missing of a new one, and the second of one that is gone."""

    old: Optional[File]
    new: Optional[File]


class Files:
    """The files below a folder."""

    def __init__(self, folder: str, most_bytes: int, tell: Callable[[int], None]) -> None:
        """None at first. `tell` is called behind each file with the bytes of it that were read."""
        self.folder, self._most_bytes, self._tell = os.path.realpath(folder), most_bytes, tell
        self.by_path: Dict[str, File] = {}
        self.by_key: Dict[str, File] = {}
        self._not_listed: Counter = Counter()

    def changes(self) -> Iterator[Change]:
        """Looks at the folder, and reads what has changed in it, a file at a time."""
        listing = files_below(self.folder)
        self._not_listed = listing.left_out
        for path in [it for it in self.by_path if it not in listing.files]:
            yield Change(self.by_path[path], None)
        for path, stamp in listing.files.items():
            old = self.by_path.get(path)
            if old and old.stamp == stamp and old.is_settled:
                continue
            new = self._read(path, stamp)
            if old and (old.passages, old.left_out) == (new.passages, new.left_out):
                self.keep(Change(old, new))
            else:
                yield Change(old, new)

    def _read(self, path: str, stamp: Stamp) -> File:
        text, left_out, begun = "", "", time.time_ns()
        try:
            stamp, text = read_text(os.path.join(self.folder, path), self._most_bytes)
        except LeftOut as it:
            left_out = it.reason
        self._tell(stamp.size if not left_out else 0)
        key = hashlib.blake2b(os.fsencode(path), digest_size=8).hexdigest()
        return File(path, key, stamp, stamp.changed + _SETTLED < begun, [*passages_of(text)], left_out)

    def keep(self, change: Change) -> None:
        """Takes a change in: from here on the file is known as it is."""
        if change.new:
            self.by_path[change.new.path] = self.by_key[change.new.key] = change.new
        elif change.old:
            del self.by_path[change.old.path], self.by_key[change.old.key]

    def texts(self) -> List[File]:
        """The files that are texts."""
        return [it for it in self.by_path.values() if not it.left_out]

    def left_out(self) -> Counter:
        """How many files are left out for which reason."""
        return self._not_listed + Counter(it.left_out for it in self.by_path.values() if it.left_out)
