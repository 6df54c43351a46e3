"""Which text files a folder has, and what stands in them."""

from __future__ import annotations

import codecs
import os
import stat
from collections import Counter
from typing import Dict, Iterator, NamedTuple, Tuple

# why a file is left out, as it is told of one and of more
BINARY, TOO_LARGE, LINK, NO_FILE, UNREADABLE = "binary file", "file too large", "link", "no plain file", "unreadable"
_OF_MORE = {BINARY: "binary files", TOO_LARGE: "files too large", LINK: "links", NO_FILE: "no plain files"}
_HEAD = 8192
_UTF_16 = {codecs.BOM_UTF16_LE: "utf-16-le", codecs.BOM_UTF16_BE: "utf-16-be"}


class LeftOut(Exception):
    """A file is no text to be searched, for this reason."""

    def __init__(self, reason: str) -> None:
        super().__init__(reason)
        self.reason = reason


class Stamp(NamedTuple):
    """By what a file is known again where it has not changed."""

    device: int
    number: int
    size: int
    modified: int
    changed: int


class Listing(NamedTuple):
    """The files below a folder by their paths from there on, and how many were left out for which reason."""

    files: Dict[str, Stamp]
    left_out: Counter


def stamp_of(status: os.stat_result) -> Stamp:
    """The stamp of a file of that status."""
    return Stamp(status.st_dev, status.st_ino, status.st_size, status.st_mtime_ns, status.st_ctime_ns)


def files_below(folder: str) -> Listing:
    """The plain files below a folder. Names that begin with a dot are passed over, and links are not followed."""
    listing = Listing({}, Counter())
    waiting = [""]
    while waiting:
        below = waiting.pop()
        try:
            entries = sorted(os.scandir(os.path.join(folder, below)), key=lambda it: it.name)
        except OSError:
            listing.left_out[UNREADABLE] += 1
            continue
        folders = []
        for entry, path in ((it, os.path.join(below, it.name)) for it in entries if not it.name.startswith(".")):
            if _is_folder(entry):
                folders.append(path)
            else:
                _list_file(entry, path, listing)
        waiting.extend(reversed(folders))
    return listing


def _is_folder(entry: os.DirEntry) -> bool:
    try:
        return entry.is_dir(follow_symlinks=False)
    except OSError:
        return False


def _list_file(entry: os.DirEntry, path: str, listing: Listing) -> None:
    try:
        status = entry.stat(follow_symlinks=False)
    except OSError:
        # it vanished while the folder was listed
        return
    if stat.S_ISREG(status.st_mode):
        listing.files[path] = stamp_of(status)
    else:
        listing.left_out[LINK if stat.S_ISLNK(status.st_mode) else NO_FILE] += 1


def read_text(path: str, most: int) -> Tuple[Stamp, str]:
    """A file's stamp and its text. Raises `LeftOut` where it is no text, or has more than so many bytes."""
    try:
        # neither a link nor a pipe that took the file's place is waited for or followed
        descriptor = os.open(path, os.O_RDONLY | os.O_NOFOLLOW | os.O_NONBLOCK | os.O_CLOEXEC)
        with open(descriptor, "rb") as file:
            status = os.fstat(descriptor)
            if not stat.S_ISREG(status.st_mode):
                raise LeftOut(NO_FILE)
            # most binary files show it soon, and needn't be read on
            data = file.read(min(_HEAD, most + 1))
            if not _is_binary(data):
                data += file.read(most + 1 - len(data))
    except OSError as error:
        raise LeftOut(UNREADABLE) from error
    if len(data) > most:
        raise LeftOut(TOO_LARGE)
    return stamp_of(status), _text_of(data)


def _text_of(data: bytes) -> str:
    """A text is UTF-8, or UTF-16 where a mark in front says so; U+FFFD stands for bytes that are neither."""
    if _is_binary(data):
        raise LeftOut(BINARY)
    encoding = _UTF_16.get(data[:2])
    text = data[2:].decode(encoding, "replace") if encoding else data.decode("utf-8-sig", "replace")
    return text.replace("\r\n", "\n").replace("\r", "\n")


def _is_binary(data: bytes) -> bool:
    return data[:2] not in _UTF_16 and b"\0" in data


def told(left_out: Counter) -> Iterator[str]:
    """Each reason with how many files it left out."""
    for reason, count in sorted(left_out.items()):
        yield f"{count:,} {reason if count == 1 else _OF_MORE.get(reason, reason)}"
