"""Three hosts, each in a network of its own (`ip netns`), over Dask and by plain processes; the link of one is cut.

Where the machine allows no such networks it says so, and counts nothing.
"""

import logging
import os
import subprocess
import sys
import time
from contextlib import ExitStack, contextmanager

import dask
from birchagain.distributed import Cluster, Processes, Texts
from distributed import Client, LocalCluster

from distributed_runs import corpus
from distributed_runs.checks import Checks
from distributed_runs.losses import DOCUMENTS, PARTITIONS, Asked
from distributed_runs.over_dask import SETTINGS

PATIENCE = 5.0


def ip(*words):
    return subprocess.run(["ip", *words], check=True, capture_output=True, text=True)


class Hosts:
    """Three of them, at a bridge of this machine."""

    def __init__(self):
        self.tag = f"{os.getpid() % 100000:05}"
        self.net = f"10.{200 + os.getpid() % 50}.{os.getpid() // 50 % 250}"
        self.bridge, self.here = f"br{self.tag}", f"{self.net}.1"
        self.names = [f"host{number}-{self.tag}" for number in range(3)]
        self.addresses = [f"{self.net}.{number + 10}" for number in range(3)]

    def begin(self):
        ip("link", "add", self.bridge, "type", "bridge")
        ip("addr", "add", f"{self.here}/24", "dev", self.bridge)
        ip("link", "set", self.bridge, "up")
        for number, (name, address) in enumerate(zip(self.names, self.addresses)):
            near, far = self.link(number), f"vf{number}{self.tag}"
            ip("netns", "add", name)
            ip("link", "add", near, "type", "veth", "peer", "name", far)
            ip("link", "set", far, "netns", name)
            ip("link", "set", near, "master", self.bridge)
            ip("link", "set", near, "up")
            ip("-n", name, "addr", "add", f"{address}/24", "dev", far)
            for it in (far, "lo"):
                ip("-n", name, "link", "set", it, "up")

    def link(self, number):
        return f"vn{number}{self.tag}"

    def end(self):
        for words in [("netns", "del", it) for it in self.names] + [("link", "del", self.bridge)]:
            subprocess.run(["ip", *words], check=False, capture_output=True)

    def within(self, number, *words):
        return ["ip", "netns", "exec", self.names[number], *words]

    @contextmanager
    def cut(self, number):
        """Nothing comes to a host or from it."""
        ip("link", "set", self.link(number), "down")
        try:
            yield
        finally:
            ip("link", "set", self.link(number), "up")


def play(checks, name, hosts, cluster, parts):
    asked = Asked(cluster, parts)
    checks.same(f"{name}: three hosts", True, asked.right(0, len(asked.queries)))
    checks.comes(f"{name}: both copies of each are made", asked.by_two)
    for number in range(3):
        with hosts.cut(number):
            start = time.monotonic()
            for at in range(3):
                checks.same(f"{name}: host {number} is cut off", True, asked.right(20 * at))
            print(f"three hosts: {name}: 3 batches while one is cut off: {time.monotonic() - start:.2f} s")
        checks.same(f"{name}: host {number} is there again", True, asked.right())


def by_processes(checks, hosts, parts):
    starts = [(address, hosts.within(number, sys.executable)) for number, address in enumerate(hosts.addresses)]
    engine = Processes(starts, silence=600)
    with Cluster(engine, [Texts(corpus.texts, *it) for it in parts], copies=2, patience=PATIENCE) as cluster:
        play(checks, "plain processes", hosts, cluster, parts)
    engine.close()


def over_dask(checks, hosts, parts):
    with ExitStack() as stack:
        stack.enter_context(dask.config.set(SETTINGS))
        how = {"host": hosts.here, "dashboard_address": f"{hosts.here}:0", "silence_logs": logging.ERROR}
        scheduler = stack.enter_context(LocalCluster(n_workers=0, **how))
        client = stack.enter_context(Client(scheduler))
        for number, address in enumerate(hosts.addresses):
            words = ["-m", "distributed.cli.dask_worker", scheduler.scheduler_address, "--host", address]
            words += ["--nthreads", "1", "--no-dashboard", "--memory-limit", "0"]
            words += ["--local-directory", f"/tmp/{hosts.names[number]}"]
            quiet = {"stdout": subprocess.DEVNULL, "stderr": subprocess.DEVNULL}
            worker = subprocess.Popen(hosts.within(number, sys.executable, *words), **quiet)
            stack.callback(worker.wait)
            stack.callback(worker.terminate)
        client.wait_for_workers(3)
        with Cluster(client, [Texts(corpus.texts, *it) for it in parts], copies=2, patience=PATIENCE) as cluster:
            play(checks, "Dask", hosts, cluster, parts)


def main():
    checks, hosts, parts = Checks("three hosts"), Hosts(), corpus.borders(DOCUMENTS, PARTITIONS)
    logging.getLogger("distributed").setLevel(logging.ERROR)
    try:
        hosts.begin()
    except (OSError, subprocess.CalledProcessError) as error:
        why = str(getattr(error, "stderr", error)).rstrip()
        print(f"three hosts: left out, this machine allows no networks of their own: {why}")
        hosts.end()
        checks.end()
    try:
        by_processes(checks, hosts, parts)
        over_dask(checks, hosts, parts)
    finally:
        hosts.end()
    checks.end()


if __name__ == "__main__":
    main()
