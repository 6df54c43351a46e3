"""The coordinator's log: how many documents each partition has, and which were deleted, in a file if it is to last.

Each record is a line: a checksum, what it records, and numbers. A record is on the disk before a call that makes one
ends. What a crash left unfinished can only be the last line, which nobody was told of: it is dropped.
"""

from __future__ import annotations

import fcntl
import os
import zlib
from typing import List, Optional, Sequence, Tuple

from .errors import LogError

_PARTITION, _DELETED = "partition", "deleted"


class Deletions:
    """Which documents were deleted, by partition, in the order in which they were."""

    def __init__(self, path: Optional[str] = None) -> None:
        """Reads the log again where there is one. Without a path nothing lasts.

        Raises `LogError` where it cannot be read, or another coordinator has it.
        """
        self.sizes: List[int] = []
        self.of: List[List[int]] = []
        self._deleted: List[set] = []
        self._file = None if path is None else _File(path)
        try:
            for record in self._file.records() if self._file else []:
                self._replay(*record)
        except (IndexError, TypeError) as error:
            self.close()
            raise LogError(f"{path} is no log of deletions: {error}") from error
        except BaseException:
            self.close()
            raise

    def close(self) -> None:
        """Lets the file go. Harmless where it is closed already."""
        if self._file is not None:
            self._file.close()

    def _replay(self, kind: str, numbers: Sequence[int]) -> None:
        if kind == _PARTITION:
            self._take_partition(*numbers)
            return
        for partition, document in zip(numbers[::2], numbers[1::2]):
            self._take(partition, document)

    def _take_partition(self, size: int) -> None:
        self.sizes.append(size)
        self.of.append([])
        self._deleted.append(set())

    def _take(self, partition: int, document: int) -> None:
        self._deleted[partition].add(document)
        self.of[partition].append(document)

    def begin(self, sizes: Sequence[int]) -> None:
        """Says how many documents each partition has, in order.

        Raises `LogError` where the log has others: then it belongs to another cluster.
        """
        kept = self.sizes[: len(sizes)]
        if kept != [*sizes[: len(kept)]] or len(self.sizes) > len(sizes):
            raise LogError(f"the log is of partitions with {self.sizes} documents, and not of {[*sizes]}")
        for size in sizes[len(kept) :]:
            self.add_partition(size)

    def add_partition(self, size: int) -> None:
        """A partition more, of so many documents."""
        self._write(_PARTITION, [size])
        self._take_partition(size)

    def add(self, documents: Sequence[Tuple[int, int]]) -> None:
        """Records documents, each by its partition and its number there. One that was deleted already changes
        nothing. Nothing of it is recorded where the log cannot be written."""
        new = [(at, number) for at, number in dict.fromkeys(documents) if number not in self._deleted[at]]
        if new:
            self._write(_DELETED, [number for both in new for number in both])
        for at, number in new:
            self._take(at, number)

    def _write(self, kind: str, numbers: Sequence[int]) -> None:
        if self._file is not None:
            self._file.write(kind, numbers)


def _line(kind: str, numbers: Sequence[int]) -> bytes:
    said = " ".join([kind, *map(str, numbers)]).encode()
    return b"%08x %s\n" % (zlib.crc32(said), said)


def _record(line: bytes) -> Optional[Tuple[str, List[int]]]:
    """What a line records, or None where it is not as it was written."""
    checksum, _, said = line.rstrip(b"\n").partition(b" ")
    if line[-1:] != b"\n" or checksum != b"%08x" % zlib.crc32(said):
        return None
    kind, *numbers = said.decode().split(" ")
    return kind, [*map(int, numbers)]


class _File:
    """The file of a log, which one process at a time has."""

    def __init__(self, path: str) -> None:
        self.path, self._end = path, 0
        is_new = not os.path.exists(path)
        self._file = open(path, "a+b", buffering=0)
        try:
            fcntl.flock(self._file, fcntl.LOCK_EX | fcntl.LOCK_NB)
        except OSError as error:
            self._file.close()
            raise LogError(f"{path} is held by another coordinator: {error}") from None
        if is_new:
            self._sync_folder()

    def _sync_folder(self) -> None:
        """So that a new file is found behind a crash."""
        folder = os.open(os.path.dirname(os.path.abspath(self.path)), os.O_RDONLY)
        try:
            os.fsync(folder)
        finally:
            os.close(folder)

    def close(self) -> None:
        self._file.close()

    def records(self) -> List[Tuple[str, List[int]]]:
        """All records. A last line that is not whole is taken off."""
        self._file.seek(0)
        lines = self._file.read().split(b"\n")
        # (behind the last end of a line nothing stands, or what is torn)
        lines = [it + b"\n" for it in lines[:-1]] + [it for it in lines[-1:] if it]
        found = [_record(it) for it in lines]
        if found and found[-1] is None:
            found.pop()
            lines.pop()
        if None in found:
            raise LogError(f"{self.path}: line {found.index(None) + 1} is not as it was written")
        self._end = sum(map(len, lines))
        self._file.truncate(self._end)
        return [it for it in found if it is not None]

    def write(self, kind: str, numbers: Sequence[int]) -> None:
        """Puts a record at the end; it is on the disk behind this call, or nothing of it is in the file."""
        line = _line(kind, numbers)
        try:
            if self._file.write(line) != len(line):
                raise OSError(f"{self.path}: no room for a record")
            os.fsync(self._file.fileno())
        except OSError:
            # (where even that fails, nothing more is written behind what is torn)
            try:
                self._file.truncate(self._end)
            except OSError:
                self._file.close()
            raise
        self._end += len(line)
