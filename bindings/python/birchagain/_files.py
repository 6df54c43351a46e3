"""The files of an index: one behind the other as bytes, and in a folder. docs/FORMAT.md says what they are."""

from __future__ import annotations

import errno
import fcntl
import os
import re
import struct
from contextlib import contextmanager
from typing import Collection, Dict, Iterator, List, Mapping, Optional, Tuple, Union

Buffer = Union[bytes, bytearray, memoryview]

MANIFEST, STAGED = "manifest", "manifest.new"
_LOCK, _UNFINISHED = "lock", ".new"
_HEAD = b"birchall" + struct.pack("<Q", 1)
_LENGTHS = struct.Struct("<QQ")
# the name of a file that has a number
_NUMBERED = re.compile(r"([0-9]+)\.(?:seg|del)")
# above the number of each file
NO_NUMBER = (1 << 64) - 1
# how many bytes are read or written at once
_PIECE = 1 << 24


def number_of(name: str) -> Optional[int]:
    """The number of a file of a segment, or of what is deleted of one; none of any other file."""
    found = _NUMBERED.fullmatch(name)
    return int(found[1]) if found and int(found[1]) < NO_NUMBER else None


def split(data: Buffer) -> Iterator[Tuple[str, memoryview]]:
    """The files that stand one behind the other, as the library has made them: their names and their bytes."""
    view = memoryview(data)
    at = len(_HEAD)
    while at < len(view):
        name_length, length = _LENGTHS.unpack_from(view, at)
        at += _LENGTHS.size
        name = str(view[at : at + name_length], "ascii")
        at += name_length
        yield name, view[at : at + length]
        at += length


def join(files: Mapping[str, Buffer]) -> bytearray:
    """These files, one behind the other."""
    out = bytearray(_HEAD)
    for name, data in files.items():
        encoded = name.encode()
        out += _LENGTHS.pack(len(encoded), len(data))
        out += encoded
        out += data
    return out


class Folder:
    """A folder that has the files of an index, or will have them."""

    def __init__(self, path: Union[str, os.PathLike]) -> None:
        self.path = os.fsdecode(path)

    def make(self) -> None:
        """Makes it where it is missing, and those above it."""
        os.makedirs(self.path, exist_ok=True)

    def identity(self) -> Tuple[int, int]:
        """By what it is known, whatever path leads to it."""
        found = os.stat(self.path)
        return found.st_dev, found.st_ino

    @contextmanager
    def locked(self) -> Iterator[None]:
        """Keeps others that save in it waiting."""
        lock = os.open(self._path(_LOCK), os.O_RDWR | os.O_CREAT | os.O_CLOEXEC, 0o666)
        try:
            fcntl.flock(lock, fcntl.LOCK_EX)
            yield
        finally:
            os.close(lock)

    def names(self) -> List[str]:
        """The names of the files of segments, and of what is deleted of them."""
        return [name for name in os.listdir(self.path) if number_of(name) is not None]

    def read(self, name: str) -> Optional[bytes]:
        """The bytes of a file; none where there is none of that name."""
        try:
            with open(self._path(name), "rb") as it:
                return it.read()
        except FileNotFoundError:
            return None

    def write_once(self, name: str, data: Buffer) -> None:
        """Writes a file, which has its name when all of it is on the disk. One that is there with these bytes is left.

        Raises `FileExistsError` where it is there with others.
        """
        there = self.read(name)
        if there is None:
            self._write_synced(name + _UNFINISHED, data)
            os.replace(self._path(name + _UNFINISHED), self._path(name))
        elif there != data:
            raise FileExistsError(errno.EEXIST, "the folder has a file of another index", self._path(name))

    def write_manifest(self, data: Buffer) -> None:
        """Makes a new manifest count: from then on the index is the one that it names."""
        self._write_synced(STAGED, data)
        self._sync_names()
        os.replace(self._path(STAGED), self._path(MANIFEST))
        self._sync_names()

    def remove_others(self, names: Collection[str]) -> None:
        """Removes the files that an index had, but for those of these names, and what a save has left unfinished."""
        for name in os.listdir(self.path):
            whole = name[: -len(_UNFINISHED)] if name.endswith(_UNFINISHED) else name
            if number_of(whole) is not None and (whole != name or name not in names):
                os.unlink(self._path(name))

    def _path(self, name: str) -> str:
        return os.path.join(self.path, name)

    def _write_synced(self, name: str, data: Buffer) -> None:
        file = os.open(self._path(name), os.O_WRONLY | os.O_CREAT | os.O_TRUNC | os.O_CLOEXEC, 0o666)
        try:
            left = memoryview(data)
            while left:
                left = left[os.write(file, left[:_PIECE]) :]
            os.fsync(file)
        finally:
            os.close(file)

    def _sync_names(self) -> None:
        folder = os.open(self.path, os.O_RDONLY | os.O_DIRECTORY | os.O_CLOEXEC)
        try:
            os.fsync(folder)
        finally:
            os.close(folder)


def read_all(folder: Folder) -> Dict[str, bytes]:
    """The files of the index that is in a folder. Raises `FileNotFoundError` where there is none."""
    while True:
        manifest = folder.read(MANIFEST)
        if manifest is None:
            raise FileNotFoundError(errno.ENOENT, "there is no index in the folder", folder.path)
        files = {name: folder.read(name) for name in folder.names()}
        # a save that came between may have removed what that manifest names
        if folder.read(MANIFEST) == manifest and files.keys() <= set(folder.names()) and None not in files.values():
            return {MANIFEST: manifest, **files}
