"""Workers that are killed and stopped, between questions, during questions and while partitions are made; and workers
that are slow, or new."""

import os
import random
import signal
import tempfile
import threading
import time
from collections import Counter

from birchagain.distributed import Cluster, PartitionError, Processes, Texts

from distributed_runs import corpus
from distributed_runs.checks import Checks

DOCUMENTS, PARTITIONS, QUERIES, MOST = 4000, 8, 120, 10
SCRIPT = {"language": "script"}
# seconds in which a worker answers whatever else the machine does, and in which it says that it lives
PATIENCE, SILENCE = 5.0, 8.0
# so often may a worker be killed while it makes one partition
KILLED = 1000
DURING = 4.0


class Asked:
    """A cluster, and what it has to answer to some queries."""

    def __init__(self, cluster, parts, deleted=()):
        self.cluster, self.queries = cluster, corpus.Queries("losses", DOCUMENTS).take(QUERIES)
        with corpus.one_index(parts) as one:
            one.weigh_by_rarity(cluster.weights(self.queries, **SCRIPT))
            for it in deleted:
                one.delete(it)
            self.wanted = [one.top(query, MOST, **SCRIPT) for query in self.queries]

    def right(self, start=0, count=20):
        """Whether some queries are answered so."""
        got = self.cluster.top_many(self.queries[start : start + count], MOST, **SCRIPT)
        return got == self.wanted[start : start + count]

    def by_two(self):
        """Whether two copies of each partition are made."""
        return self.right() and all(len(it.look()) == 2 for it in self.cluster._placement.held)


def kill(engine, chance, how=signal.SIGKILL):
    """Ends or stops a worker, and gives its name."""
    while True:
        worker = chance.choice(engine.workers())
        try:
            os.kill(engine.pid(worker), how)
            return worker
        except ProcessLookupError:
            # (it has just ended)
            time.sleep(0.01)


def between(checks, engine, asked, chance):
    for number in range(6):
        kill(engine, chance)
        checks.same(f"killed between questions, {number}", True, asked.right(20 * number))


def during(checks, engine, asked, chance, how=signal.SIGKILL):
    """Every answer is right, whatever is killed meanwhile."""
    over = threading.Event()

    def work():
        while not over.wait(0.2 + chance.random()):
            kill(engine, chance, how)

    killer = threading.Thread(target=work)
    killer.start()
    start = time.monotonic()
    try:
        while time.monotonic() - start < DURING:
            at = chance.randrange(QUERIES - 20)
            checks.same(f"{how.name} during questions, at {at}", True, asked.right(at))
    finally:
        over.set()
        killer.join()


def making(checks, engine, chance):
    """Workers are killed while partitions are made for the first time; few enough times for each."""
    parts = corpus.borders(DOCUMENTS, 3)
    timers = [threading.Timer(0.3 * it, kill, (engine, chance)) for it in range(1, 4)]
    for it in timers:
        it.start()
    with Cluster(engine, [Texts(corpus.late_texts, *it, 0.5) for it in parts], patience=PATIENCE) as cluster:
        for it in timers:
            it.join()
        checks.same("killed while partitions are made", True, Asked(cluster, parts).right())


def stopped_alone(checks, engine, asked, chance):
    """Of each partition there is one copy: what is stopped is taken for lost, and made again."""
    for number in range(2):
        kill(engine, chance, signal.SIGSTOP)
        checks.same(f"stopped between questions, {number}", True, asked.right(20 * number))
    timer = threading.Timer(0.05, kill, (engine, chance, signal.SIGSTOP))
    timer.start()
    for number in range(6):
        checks.same(f"stopped during questions, {number}", True, asked.right(20 * number))
    timer.join()


def single_copies(checks, engine, chance):
    parts = corpus.borders(DOCUMENTS, PARTITIONS)
    with Cluster(engine, [Texts(corpus.texts, *it) for it in parts], patience=PATIENCE) as cluster:
        deleted = chance.sample(range(DOCUMENTS), 40)
        cluster.delete_many(deleted)
        asked = Asked(cluster, parts, deleted)
        between(checks, engine, asked, chance)
        during(checks, engine, asked, chance)
        stopped_alone(checks, engine, asked, chance)
        checks.same("documents that are left", DOCUMENTS - 40, cluster.count("all", **SCRIPT))


def second_copies(checks, chance):
    """Where a worker is slow, or stopped for a while, the other copies answer: nobody waits for patience to end."""
    engine = Processes(3, silence=600, tries=KILLED)
    parts = corpus.borders(DOCUMENTS, PARTITIONS)
    with Cluster(engine, [Texts(corpus.texts, *it) for it in parts], copies=2, patience=600, late=0.05) as cluster:
        asked = Asked(cluster, parts)
        checks.comes("both copies of each are made", asked.by_two)
        for number in range(3):
            worker = kill(engine, chance, signal.SIGSTOP)
            start = time.monotonic()
            for at in range(5):
                checks.same(f"a worker is slow, {number}", True, asked.right(20 * at))
            checks.same(f"nobody waits for a slow worker, {number}", True, time.monotonic() - start < 300)
            os.kill(engine.pid(worker), signal.SIGCONT)
            checks.same(f"a worker is slow no more, {number}", True, asked.right())
        for number in range(3):
            kill(engine, chance)
            checks.same(f"killed where there are two copies, {number}", True, asked.right())
    engine.close()


def new_worker(checks):
    """It gets its share, and every answer meanwhile is right."""
    engine = Processes(2)
    parts = corpus.borders(DOCUMENTS, PARTITIONS)
    with Cluster(engine, [Texts(corpus.texts, *it) for it in parts], copies=2) as cluster:
        asked = Asked(cluster, parts)
        engine.start()
        engine.start()
        cluster.balance()

        def held():
            checks.same("while copies move", True, asked.right())
            cluster._placement.keep_up()
            return Counter(engine.holder(copy.handle) for it in cluster._placement.held for copy in it.copies)

        checks.comes("each worker holds as much", lambda: [*held().values()] == [PARTITIONS // 2] * 4)
        holders = [{engine.holder(copy.handle) for copy in it.copies} for it in cluster._placement.held]
        twice = [number for number, workers in enumerate(holders) if len(workers) != 2]
        checks.same("partitions whose copies are on one worker", [], twice)
        checks.same("behind that", True, asked.right())
    engine.close()


def other_documents(checks, room):
    """A source that gives other documents later is not taken for the one that it was."""
    path = f"{room}/lines"
    engine = Processes(1)
    with open(path, "w", encoding="utf-8") as it:
        it.write("a b\na\nb\n")
    with Cluster(engine, [Texts(corpus.texts, 0, 10), Texts(corpus.lines_of, path)]) as cluster:
        cluster.count("all", **SCRIPT)
        with open(path, "a", encoding="utf-8") as it:
            it.write("a c\n")
        os.kill(engine.pid(engine.workers()[0]), signal.SIGKILL)
        said = r"partition 1: Texts\(lines_of, .*\) has given 3 documents, and then 4"
        for name in ("a source that has one document more", "the same, asked again"):
            checks.raises(name, PartitionError, said, lambda: cluster.count("all", **SCRIPT))
        with open(path, "w", encoding="utf-8") as it:
            it.write("a b\na\nb\n")
        checks.same("a source that gives what it gave", 13, cluster.count("all", **SCRIPT))
    engine.close()


def main():
    checks, chance = Checks("losses"), random.Random(5)
    engine = Processes(3, silence=SILENCE, tries=KILLED)
    single_copies(checks, engine, chance)
    making(checks, engine, chance)
    engine.close()
    second_copies(checks, chance)
    new_worker(checks)
    with tempfile.TemporaryDirectory() as room:
        other_documents(checks, room)
    checks.end()


if __name__ == "__main__":
    main()
