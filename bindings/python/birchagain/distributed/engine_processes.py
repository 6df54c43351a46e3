"""Partitions in processes that this one starts: on this machine, or by a command that reaches another, as ssh."""

from __future__ import annotations

import json
import os
import pickle
import select
import subprocess
import sys
import threading
import time
from typing import Any, Dict, List, Optional, Sequence, Tuple, Union

from .engine import Engine
from .errors import PartitionError
from .partition import Place, Recipe

# so many seconds a process has until it says something for the first time
_STARTING = 120.0
# a process that ends at once is started again after so many seconds
_PAUSE = 0.5
_PROGRAM = ("-m", "birchagain.distributed.worker")


class _Handle:
    def __init__(self, recipe: Recipe, worker: _Worker) -> None:
        self.recipe, self.worker, self.tries = recipe, worker, 0
        # what the process is sent: it says what it cannot read
        self.data = pickle.dumps(recipe)
        self.place: Optional[Place] = None
        self.said: Optional[str] = None


class Processes(Engine):
    """Workers that are processes. One that ends, or says nothing for `silence` seconds, is killed and started anew, and
    makes its partitions again."""

    def __init__(
        self, starts: Union[int, Sequence[Tuple[str, Sequence[str]]]] = 1, silence: float = 10.0, tries: int = 3
    ) -> None:
        """So many workers on this machine, which listen at 127.0.0.1; or for each the host by which it is reached and
        the words that start Python there, as `("10.0.0.7", ["ssh", "10.0.0.7", "python3"])`.

        A partition over which processes end is made so many times more: it may be what ends them.
        """
        if isinstance(starts, int):
            starts = [("127.0.0.1", [sys.executable])] * starts
        self._changed = threading.Condition()
        self._silence, self._tries = silence, tries
        self._workers: Dict[str, _Worker] = {}
        self._count = 0
        for host, words in starts:
            self.start(host, words)

    def start(self, host: str = "127.0.0.1", words: Sequence[str] = (sys.executable,)) -> str:
        """One worker more, and its name."""
        with self._changed:
            name = f"{self._count}@{host}"
            self._count += 1
            self._workers[name] = _Worker(name, host, words, self)
        return name

    def pid(self, worker: str) -> int:
        """The process of a worker, as long as that lives."""
        return self._workers[worker].process.pid

    def holder(self, handle: Any) -> str:
        """The worker that holds a copy or makes it."""
        return handle.worker.name

    def workers(self) -> List[str]:
        return [*self._workers]

    def make(self, recipe: Recipe, worker: Optional[str]) -> _Handle:
        with self._changed:
            at = self._workers.get(worker or "") or min(self._workers.values(), key=lambda it: len(it.handles))
            handle = _Handle(recipe, at)
            at.take(handle)
        return handle

    def where(self, handle: _Handle) -> Optional[Place]:
        if handle.said is not None:
            raise PartitionError(handle.recipe.partition, handle.said)
        return handle.place

    def doubt(self, handle: _Handle) -> None:
        with self._changed:
            handle.worker.find(handle)

    def wait(self, handles: Sequence[_Handle], seconds: float) -> None:
        with self._changed:
            self._changed.wait_for(lambda: any(it.place or it.said is not None for it in handles), seconds)

    def drop(self, handle: _Handle) -> None:
        with self._changed:
            handle.worker.let_go(handle)

    def close(self) -> None:
        """Ends all workers."""
        with self._changed:
            ending = [*self._workers.values()]
            self._workers = {}
            for it in ending:
                it.end()
        for it in ending:
            it.thread.join()


class _Worker:
    """A process that holds partitions, and the thread that hears what it says. All but that thread has the lock."""

    def __init__(self, name: str, host: str, words: Sequence[str], engine: Processes) -> None:
        self.name, self._host, self._words = name, host, [*words]
        self._changed, self._silence, self._tries = engine._changed, engine._silence, engine._tries
        self.handles: Dict[str, _Handle] = {}
        self._is_ending = False
        self.process = self._begin()
        self.thread = threading.Thread(target=self._keep, daemon=True)
        self.thread.start()

    def _begin(self) -> subprocess.Popen:
        """Starts the process, which makes all that this worker holds."""
        words = [*self._words, *_PROGRAM, self._host]
        self.process = subprocess.Popen(words, stdin=subprocess.PIPE, stdout=subprocess.PIPE, env=_environment())
        for handle in [it for it in self.handles.values() if it.said is None]:
            handle.place = None
            self._tell("make", handle)
        return self.process

    def _tell(self, command: str, handle: _Handle) -> None:
        """What it is to do. A process that takes nothing any more will be started anew, and told again."""
        try:
            pickle.dump((command, handle.recipe.name, handle.data if command == "make" else None), self.process.stdin)
            self.process.stdin.flush()
        except (OSError, ValueError):
            # (the pipe is broken or closed)
            pass

    def take(self, handle: _Handle) -> None:
        self.handles[handle.recipe.name] = handle
        self._tell("make", handle)

    def find(self, handle: _Handle) -> None:
        if handle.said is None:
            handle.place = None
            self._tell("find", handle)

    def let_go(self, handle: _Handle) -> None:
        del self.handles[handle.recipe.name]
        self._tell("drop", handle)

    def end(self) -> None:
        self._is_ending = True
        self.process.kill()

    def _keep(self) -> None:
        """Hears the process until it ends, and starts it again unless it is to end."""
        while True:
            began = time.monotonic()
            is_ended = self._hear()
            self.process.kill()
            self.process.wait()
            self.process.stdout.close()
            self._close_input()
            if time.monotonic() - began < _PAUSE:
                time.sleep(_PAUSE)
            with self._changed:
                if is_ended:
                    self._count_ends()
            while not self._is_begun_again():
                time.sleep(_PAUSE)
            if self._is_ending:
                return

    def _is_begun_again(self) -> bool:
        """Starts it again, unless it is to end. Where there is no memory or no process for it, there may be later."""
        with self._changed:
            try:
                if not self._is_ending:
                    self._begin()
            except OSError:
                return False
            self._changed.notify_all()
            return True

    def _close_input(self) -> None:
        try:
            self.process.stdin.close()
        except OSError:
            pass

    def _count_ends(self) -> None:
        """A partition that is never made since each process ends over it is not made for ever."""
        for handle in self.handles.values():
            handle.tries += handle.place is None
            if handle.tries > self._tries and handle.said is None:
                handle.said = f"{handle.recipe.source!r}: {handle.tries} processes ended while they made it"

    def _hear(self) -> bool:
        """Until the process ends, or says nothing for too long; whether it has ended."""
        heard, out, patience = b"", self.process.stdout.fileno(), _STARTING
        while select.select([out], [], [], patience)[0]:
            patience = self._silence
            chunk = os.read(out, 1 << 16)
            if not chunk:
                return True
            *lines, heard = (heard + chunk).split(b"\n")
            with self._changed:
                for line in lines:
                    self._note(line)
                self._changed.notify_all()
        return False

    def _note(self, line: bytes) -> None:
        try:
            said = json.loads(line)
            handle = self.handles.get(said.get("name", ""))
        except (ValueError, AttributeError):
            # (a shell on the way may say something of its own)
            return
        if handle is None:
            return
        if "failed" in said:
            handle.said = said["failed"]
        else:
            handle.tries = 0
            handle.place = Place(self.name, (said["host"], said["port"]), said["documents"])


def _environment() -> Dict[str, str]:
    """The process finds the package where this one does."""
    package = os.path.dirname(os.path.dirname(os.path.dirname(os.path.abspath(__file__))))
    paths = [package, *filter(None, [os.environ.get("PYTHONPATH")])]
    return {**os.environ, "PYTHONPATH": os.pathsep.join(paths)}
