"""Partitions that are stored: whoever makes one again loads it, and does not read its texts again."""

import os
import random
import tempfile
import time

from birchagain import Index
from birchagain.distributed import Cluster, PartitionError, Processes, Stored, Texts

from distributed_runs import corpus
from distributed_runs.checks import Checks
from distributed_runs.losses import Asked, kill

DOCUMENTS, PARTITIONS = 4000, 4


def calls(path):
    """How often the texts were read."""
    return os.path.getsize(path)


def main():
    checks, chance = Checks("stored"), random.Random(6)
    engine = Processes(2)
    parts = corpus.borders(DOCUMENTS, PARTITIONS)
    with tempfile.TemporaryDirectory() as room:
        read = f"{room}/read"
        texts = [Texts(corpus.counted_texts, *it, read) for it in parts]
        sources = [Stored(f"{room}/{number}", it) for number, it in enumerate(texts)]
        with Cluster(engine, sources) as cluster:
            asked = Asked(cluster, parts)
            checks.same("what is stored as it is made", True, asked.right())
            checks.same("texts are read once", PARTITIONS, calls(read))
            for number in range(4):
                worker = kill(engine, chance)
                start = time.monotonic()
                checks.same(f"killed, and loaded, {number}", True, asked.right())
                print(f"stored: {worker} was killed, and is replaced after {time.monotonic() - start:.2f} s")
            checks.same("texts are not read again", PARTITIONS, calls(read))
        # another coordinator, with folders alone
        with Cluster(engine, [Stored(f"{room}/{number}") for number in range(PARTITIONS)], copies=2) as cluster:
            checks.same("what was stored before", True, Asked(cluster, parts).right())
        checks.same("texts are not read at all", PARTITIONS, calls(read))
        said = r"partition 1: Stored\(.*nowhere'\).*no index in the folder"
        nowhere = [sources[0], Stored(f"{room}/nowhere")]
        checks.raises("no folder", PartitionError, said, lambda: Cluster(engine, nowhere))
        with open(f"{room}/1/manifest", "r+b") as it:
            it.write(b"x")
        said = r"partition 1: Stored\(.*FormatError"
        checks.raises("a folder that is damaged", PartitionError, said, lambda: Cluster(engine, sources))
        with Index(corpus.texts(0, 7)) as index:
            index.delete(3)
            index.save(f"{room}/one")
        with Cluster(engine, [Stored(f"{room}/one"), sources[2]]) as cluster:
            others = parts[2][1] - parts[2][0]
            checks.same("deleted before it was stored", 6 + others, cluster.count("all", language="script"))
            checks.same("documents of it", 7 + others, len(cluster))
    engine.close()
    checks.end()


if __name__ == "__main__":
    main()
