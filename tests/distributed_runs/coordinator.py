"""A coordinator that is ended at any moment, and one that is begun anew over the same log.

    python3 -m distributed_runs.coordinator [LOG]

With a log it is the coordinator that is ended: it deletes documents, and prints each once that is done.
"""

import functools
import os
import random
import signal
import subprocess
import sys
import tempfile
import time

from birchagain.distributed import Cluster, LogError, Processes, Texts

from distributed_runs import corpus
from distributed_runs.checks import Checks

DOCUMENTS, PARTITIONS, ROUNDS, MOST = 2000, 4, 5, 10
PARTS = corpus.borders(DOCUMENTS, PARTITIONS)
SCRIPT = {"language": "script"}


def begun(engine, log):
    return Cluster(engine, [Texts(corpus.texts, *it) for it in PARTS], log=log)


def delete_until_ended(log):
    """Prints the processes of its workers, and then what it has deleted."""
    engine = Processes(2)
    with begun(engine, log) as cluster:
        print(*(engine.pid(it) for it in engine.workers()), flush=True)
        while True:
            document = random.randrange(DOCUMENTS)
            cluster.delete(document)
            print(document, flush=True)


def lives(pid):
    try:
        with open(f"/proc/{pid}/stat", encoding="utf-8") as it:
            return it.read().rpartition(")")[2].split()[0] != "Z"
    except FileNotFoundError:
        return False


def end_one(checks, number, log, chance):
    """Runs such a coordinator, ends it, and gives what it says to have deleted."""
    # (the log is looked at before any worker is)
    idle = Processes([])
    words = [sys.executable, "-m", "distributed_runs.coordinator", log]
    with subprocess.Popen(words, stdout=subprocess.PIPE, text=True) as it:
        pids = [int(pid) for pid in it.stdout.readline().split()]
        wanted = chance.choice([1, 5, 50])
        deleted = [int(it.stdout.readline()) for _ in range(wanted)]
        checks.raises(f"the log of one that lives, {number}", LogError, "held by another", lambda: begun(idle, log))
        time.sleep(chance.random() / 20)
        it.send_signal(signal.SIGKILL)
        deleted += [int(line) for line in it.stdout if line.endswith("\n")]
    checks.comes(f"its workers end, {number}", lambda: not any(lives(pid) for pid in pids))
    return deleted


def main():
    checks, chance = Checks("coordinator"), random.Random(3)
    engine, told = Processes(2), set()
    queries = corpus.Queries("coordinator", DOCUMENTS).take(60)
    with tempfile.TemporaryDirectory() as room, corpus.one_index(PARTS) as one:
        log = f"{room}/deleted"
        for number in range(ROUNDS):
            told.update(end_one(checks, number, log, chance))
            if number % 2:
                # a crash of the machine may leave a part of what was being written
                with open(log, "ab") as it:
                    it.write(b"0123abcd deleted 1 ")
            with begun(engine, log) as cluster:
                left = {*range(DOCUMENTS)} - {*cluster.search("all", **SCRIPT)}
                checks.same(f"what was deleted for certain, {number}", set(), told - left)
                checks.same(f"what else is deleted, {number}", True, len(left - told) <= number + 1)
                for it in left:
                    one.delete(it)
                one.weigh_by_rarity(cluster.weights(queries, **SCRIPT))
                for query, found in zip(queries, cluster.top_many(queries, MOST, **SCRIPT)):
                    checks.same(f"begun anew, {number}: {query}", one.top(query, MOST, **SCRIPT), found)
        others = [Texts(corpus.texts, 0, 100)] * PARTITIONS
        other = functools.partial(Cluster, engine, others, log=log)
        checks.raises("the log of other partitions", LogError, "of partitions with", other)
        checks.same("the log behind that", True, os.path.getsize(log) > 0)
    engine.close()
    checks.end()


if __name__ == "__main__":
    if sys.argv[1:]:
        delete_until_ended(sys.argv[1])
    else:
        main()
