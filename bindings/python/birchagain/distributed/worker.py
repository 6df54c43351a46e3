"""A worker of `Processes`: python3 -m birchagain.distributed.worker HOST, which that starts.

It takes pickled commands at its standard input, which has to be its starter's alone, and ends with that. What it says
is a line of JSON each at its standard output. Partitions are made one after another.
"""

from __future__ import annotations

import json
import os
import pickle
import sys
import threading
import time
from queue import SimpleQueue
from typing import Any, Dict

from .errors import PartitionError
from .partition import Partition

# how often it says that it lives, in seconds
_BEAT = 1.0


class Worker:
    def __init__(self, host: str, said: Any) -> None:
        self._host, self._said = host, said
        self._held: Dict[str, Partition] = {}
        self._saying = threading.Lock()

    def say(self, **what: Any) -> None:
        with self._saying:
            self._said.write(json.dumps(what).encode() + b"\n")
            self._said.flush()

    def make(self, name: str, recipe: bytes) -> None:
        try:
            self._held[name] = Partition(pickle.loads(recipe), self._host)
        except PartitionError as error:
            self.say(name=name, failed=error.said)
        except Exception as error:
            # (what the recipe needs cannot be imported)
            self.say(name=name, failed=repr(error))
        else:
            self.find(name)

    def find(self, name: str) -> None:
        """Says where it is held; one that is being made is said once it is."""
        partition = self._held.get(name)
        if partition is not None:
            place = partition.place("")
            self.say(name=name, host=place.address[0], port=place.address[1], documents=place.documents)

    def work(self, commands: SimpleQueue) -> None:
        """Makes partitions and drops them, in the order in which that was asked for."""
        while True:
            command, name, recipe = commands.get()
            if command == "make":
                self.make(name, recipe)
            else:
                self._held.pop(name, None)


def beat(worker: Worker) -> None:
    while True:
        worker.say()
        time.sleep(_BEAT)


def main() -> None:
    # what a source prints is no answer
    said = os.fdopen(os.dup(1), "wb")
    os.dup2(2, 1)
    worker, commands = Worker(sys.argv[1], said), SimpleQueue()
    threading.Thread(target=beat, args=(worker,), daemon=True).start()
    threading.Thread(target=worker.work, args=(commands,), daemon=True).start()
    try:
        while True:
            command = pickle.load(sys.stdin.buffer)
            if command[0] == "find":
                worker.find(command[1])
            else:
                commands.put(command)
    except EOFError:
        # (what is being made is of no use any more)
        os._exit(0)


if __name__ == "__main__":
    main()
