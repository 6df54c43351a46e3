"""The command `python -m birchagain serve`."""

from __future__ import annotations

import argparse
import errno
import os
import sys
import threading
import time
import webbrowser

from .collection import Collection
from .layout import counted, told_left_out
from .server import ADDRESS, Server
from .site import Site

_MEGABYTE = 1 << 20
# how often the reading tells how far it is
_STEP = 10 * _MEGABYTE


def add_to(commands: argparse._SubParsersAction) -> None:
    """Adds the command with its options to those of the program."""
    text = (
        "Serves a page at 127.0.0.1 that searches the text files of a folder. Nobody but this machine reaches it. "
        "What changes in the folder is found at the next search. Ctrl-C ends it. docs/SERVE.md has more."
    )
    parser = commands.add_parser("serve", help="a page that searches the text files of a folder", description=text)
    parser.add_argument("folder", metavar="FOLDER", help="the folder whose text files are searched")
    parser.add_argument(
        "--port", type=_port, default=8000, metavar="N", help="the port, or 0 for any that is free (8000)"
    )
    size = "larger files are left out, in megabytes (16)"
    parser.add_argument("--max-size", type=_megabytes, default=16, metavar="MB", help=size)
    parser.add_argument("--open", action="store_true", help="open the page in a browser")
    parser.set_defaults(run=run)


def _port(text: str) -> int:
    return _number(text, 0, 65535)


def _megabytes(text: str) -> int:
    return _number(text, 1, 4096)


def _number(text: str, least: int, most: int) -> int:
    if not (text.isascii() and text.isdigit() and least <= int(text[:9]) <= most):
        raise argparse.ArgumentTypeError(f"{text!r} is no number from {least} to {most}")
    return int(text)


def run(arguments: argparse.Namespace) -> int:
    """Reads the folder and serves the page until Ctrl-C. The status is 2 where it can't."""
    try:
        return _serve(arguments)
    except KeyboardInterrupt:
        print(file=sys.stderr)
        return 0


def _serve(arguments: argparse.Namespace) -> int:
    folder = arguments.folder
    if not os.path.isdir(folder):
        return _refuse(f"{_printable(folder)} is no folder")
    try:
        # the port is taken before the folder is read: who can't have it needn't wait
        server = Server(arguments.port)
    except OSError as error:
        return _refuse(_told_port(error, arguments.port))
    with server:
        collection = _read(folder, arguments.max_size * _MEGABYTE)
        address = f"http://{ADDRESS}:{server.server_port}/"
        print(f"{address} (Ctrl-C ends it)", flush=True)
        if arguments.open:
            threading.Thread(target=webbrowser.open, args=(address,), daemon=True).start()
        server.serve(Site(collection, os.path.basename(os.path.realpath(folder)) or "/"))
    return 0


def _read(folder: str, most_bytes: int) -> Collection:
    """Reads a folder, tells how far it is at each ten megabytes, and what it came to."""
    begun, read = time.monotonic(), 0

    def tell(count: int) -> None:
        nonlocal read
        if (read + count) // _STEP > read // _STEP:
            print(f"{(read + count) // _MEGABYTE} MB are read ..", file=sys.stderr, flush=True)
        read += count

    collection = Collection(folder, most_bytes, tell)
    summary, took = collection.summary(), time.monotonic() - begun
    texts, passages = counted(summary.texts, "text"), counted(summary.passages, "passage")
    print(f"{texts} with {passages}, read in {took:.1f} s. {told_left_out(summary.left_out)}.", flush=True)
    return collection


def _told_port(error: OSError, port: int) -> str:
    if error.errno == errno.EADDRINUSE:
        return f"port {port} is taken: choose another by --port, or 0 for any that is free"
    if error.errno == errno.EACCES:
        return f"port {port} may not be taken: choose one from 1024 on by --port"
    return f"port {port} can't be taken: {error.strerror}"


def _refuse(said: str) -> int:
    print(f"birchagain: {said}", file=sys.stderr)
    return 2


def _printable(text: str) -> str:
    """A text without letters that would steer a terminal."""
    return "".join(it if it.isprintable() else "?" for it in text)
