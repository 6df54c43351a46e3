"""An index as bytes, as the files of a folder, and pickled."""

from __future__ import annotations

import ctypes
import os
import time
from typing import Optional, Sequence, Set, Tuple, Type, TypeVar, Union

from . import _library
from ._files import MANIFEST, Buffer, Folder, join, number_of, read_all, split
from .errors import NO_ROOM, OPEN_SEGMENT, raise_for

# how many bytes there is room for at first
_ROOM = 1 << 16
# what an index has for itself, and a copy of it for its own
_OWN = ("_handle", "_lock", "_room", "_kept")

Self = TypeVar("Self", bound="StoredIndex")


class StoredIndex:
    """What keeps an index elsewhere than in memory."""

    def _begin(self) -> None:
        # how many bytes it had when it was last made such
        self._room = _ROOM
        # the folder that has its files, and the names of these
        self._kept: Optional[Tuple[Tuple[int, int], Set[str]]] = None

    def to_bytes(self) -> bytes:
        """The index as bytes, of which `from_bytes` makes it again: its documents, what is deleted of them, and what
        words weigh. Ends the segment that takes documents, where it has any.
        """
        return bytes(self._packed((), time.time_ns()))

    @classmethod
    def from_bytes(cls: Type[Self], data: Buffer) -> Self:
        """The index that `to_bytes` made bytes of.

        Raises `FormatError` for bytes that are no index, or one that is damaged or of another version.
        """
        index = cls.__new__(cls)
        index._begin()
        if isinstance(data, bytearray):
            passed = (ctypes.c_char * len(data)).from_buffer(data)
        else:
            passed = data if isinstance(data, bytes) else bytes(memoryview(data))
        index._call(_library.from_bytes, passed, len(data))
        return index

    def save(self, path: Union[str, os.PathLike]) -> None:
        """Saves the index in a folder, which is made where it is missing. `open` reads it from there.

        What of it is there already is not written again: a save after some changes writes these, and a small file.
        A crash at any moment, and a save that raises, leaves the index that was there before, or this one. Others that
        save there wait; others that open it meanwhile get the one or the other. Ends the segment that takes documents,
        where it has any.

        Raises `OSError` where the folder cannot be written.
        """
        folder = Folder(path)
        folder.make()
        with folder.locked():
            there = set(folder.names())
            known = there & self._names_kept(folder)
            last = max(map(number_of, there), default=0)
            moment = max(time.time_ns(), last + 1)
            files = dict(split(self._packed(sorted(map(number_of, known)), moment)))
            manifest = files.pop(MANIFEST)
            for name in files.keys() - known:
                folder.write_once(name, files[name])
            if folder.read(MANIFEST) != manifest:
                folder.write_manifest(manifest)
            folder.remove_others(files.keys())
            self._kept = folder.identity(), set(files)

    @classmethod
    def open(cls: Type[Self], path: Union[str, os.PathLike]) -> Self:
        """The index that was saved in a folder, all of it in memory.

        Raises `FileNotFoundError` where there is none, and `FormatError` where its files are damaged or of another
        version.
        """
        folder = Folder(path)
        files = read_all(folder)
        index = cls.from_bytes(join(files))
        index._kept = folder.identity(), set(files) - {MANIFEST}
        return index

    def __reduce__(self):
        more = {name: value for name, value in vars(self).items() if name not in _OWN}
        return type(self).from_bytes, (self.to_bytes(),), more or None

    def _names_kept(self, folder: Folder) -> Set[str]:
        """The names of the files that it has in a folder."""
        return self._kept[1] if self._kept and self._kept[0] == folder.identity() else set()

    def _packed(self, known: Sequence[int], moment: int) -> memoryview:
        """The index as bytes, without those of files of known numbers, which ascend."""
        # an array of C has one place at least, so that there is a pointer to it
        numbers, size = (ctypes.c_uint64 * max(len(known), 1))(*known), ctypes.c_size_t()
        # no other thread adds a document between two of these calls
        with self._lock:
            while True:
                out = (ctypes.c_uint8 * self._room)()
                status = _library.to_bytes(self._handle, moment, numbers, len(known), out, self._room, size)
                if status == NO_ROOM:
                    self._room = size.value
                elif status == OPEN_SEGMENT:
                    raise_for(_library.end_segment(self._handle))
                else:
                    break
        raise_for(status)
        return memoryview(out).cast("B")[: size.value]
