"""The same over Dask: one index's answers, workers that are killed and stopped, a new one, errors."""

import logging
import os
import random
import signal
import tempfile
import threading
import time
from collections import Counter

import dask
from birchagain.distributed import Cluster, PartitionError, Stored, Texts
from distributed import Client, LocalCluster

from distributed_runs import corpus
from distributed_runs.checks import Checks
from distributed_runs.losses import DOCUMENTS, PARTITIONS, Asked

PATIENCE, DURING = 5.0, 4.0
SCRIPT = {"language": "script"}
# for so long a worker is stopped: longer than the coordinator's patience, and not so long that Dask takes it for lost
STOPPED = 2 * PATIENCE

SETTINGS = {
    # workers are killed on purpose, and where the machine is busy one may need long to be there again
    "distributed.scheduler.allowed-failures": 100,
    "distributed.deploy.lost-worker-timeout": "300s",
    # what Dask's processes do all the time, so that they hardly do without a question
    "distributed.worker.profile.interval": "10s",
    "distributed.worker.profile.cycle": "100s",
    "distributed.admin.tick.interval": "1s",
    "distributed.admin.system-monitor.interval": "10s",
}


class Workers:
    """The worker processes of a Dask cluster."""

    def __init__(self, client):
        self.client = client

    def pids(self):
        """The process of each worker, by its address."""
        return {address: it["pid"] for address, it in self.client.run(_named).items()}

    def signal(self, cluster, how):
        """Sends it to the worker that holds the most copies, and gives its process and how many these are."""
        pids = self.pids()
        held = Counter(copy.worker for it in cluster._placement.held for copy in it.copies)
        worker = max(pids, key=lambda it: held[it])
        os.kill(pids[worker], how)
        return pids[worker], held[worker]


def _named():
    return {"pid": os.getpid()}


def sources(parts):
    return [Texts(corpus.texts, *it) for it in parts]


def losses(checks, cluster, workers, asked, chance):
    for number in range(3):
        (_, lost), start = workers.signal(cluster, signal.SIGKILL), time.monotonic()
        checks.same(f"killed between questions, {number}", True, asked.right(20 * number))
        print(f"over Dask: killed, {lost} copies lost: right again after {time.monotonic() - start:.2f} s")
    timer = threading.Timer(0.1, workers.signal, (cluster, signal.SIGKILL))
    timer.start()
    start = time.monotonic()
    while time.monotonic() - start < DURING:
        at = chance.randrange(100)
        checks.same(f"killed during questions, at {at}", True, asked.right(at))
    timer.join()


def stopped(checks, name, cluster, workers, asked):
    """A worker says nothing for a while. Where there are other copies, nobody waits for it."""
    (worker, lost), start = workers.signal(cluster, signal.SIGSTOP), time.monotonic()
    timer = threading.Timer(STOPPED, os.kill, (worker, signal.SIGCONT))
    timer.start()
    checks.same(f"{name}, stopped between questions", True, asked.right())
    took = time.monotonic() - start
    print(f"over Dask: {name}, {lost} of them stopped for {STOPPED:g} s: right again after {took:.2f} s")
    timer.join()
    checks.same(f"{name}, behind that", True, asked.right())


def even(checks, cluster, workers, asked):
    """Behind losses, and behind new workers, all hold as much."""

    def is_even():
        cluster.balance()
        checks.same("while copies move", True, asked.right())
        held = Counter(copy.worker for it in cluster._placement.held for copy in it.copies)
        live = workers.client.scheduler_info()["workers"]
        is_whole = {*held} == {*live} and sum(held.values()) == 2 * PARTITIONS
        return is_whole and max(held.values()) - min(held.values()) <= 1

    checks.comes("each worker holds as much", is_even)


def main():
    checks, chance = Checks("over Dask"), random.Random(8)
    # (it tells of each worker that is killed)
    logging.getLogger("distributed").setLevel(logging.ERROR)
    how = {"threads_per_worker": 1, "host": "127.0.0.1", "dashboard_address": "127.0.0.1:0", "memory_limit": None}
    how["silence_logs"] = logging.ERROR
    parts = corpus.borders(DOCUMENTS, PARTITIONS)
    with dask.config.set(SETTINGS), tempfile.TemporaryDirectory() as room:
        with LocalCluster(n_workers=3, **how) as processes, Client(processes) as client:
            workers = Workers(client)
            with Cluster(client, sources(parts), patience=PATIENCE) as cluster:
                deleted = chance.sample(range(DOCUMENTS), 40)
                cluster.delete_many(deleted)
                asked = Asked(cluster, parts, deleted)
                checks.same("over Dask", True, asked.right(0, len(asked.queries)))
                losses(checks, cluster, workers, asked, chance)
                stopped(checks, "one copy", cluster, workers, asked)
            stored = [Stored(f"{room}/{number}", it) for number, it in enumerate(sources(parts))]
            with Cluster(client, stored, copies=2, patience=PATIENCE, late=0.05, log=f"{room}/log") as cluster:
                cluster.delete_many(deleted)
                asked = Asked(cluster, parts, deleted)
                losses(checks, cluster, workers, asked, chance)
                even(checks, cluster, workers, asked)
                processes.scale(4)
                client.wait_for_workers(4)
                even(checks, cluster, workers, asked)
                stopped(checks, "two copies", cluster, workers, asked)
            with Cluster(client, stored, log=f"{room}/log") as cluster:
                checks.same("begun anew", True, Asked(cluster, parts, deleted).right())
            said = "partition 1: .*the shelf is empty"
            failing = [Texts(corpus.texts, 0, 5), Texts(corpus.failing_texts)]
            checks.raises("a source that fails", PartitionError, said, lambda: Cluster(client, failing))
    checks.end()


if __name__ == "__main__":
    main()
