#!/usr/bin/env python3
"""Measures what an index costs on one machine and in a cluster: the tables of docs/SCALE.md, in Markdown.

    python3 bench/measure_scale.py one DOCUMENTS..       # memory, disk and time, and the time of queries by class
    python3 bench/measure_scale.py cluster DOCUMENTS     # what a query costs in one index, and by 1, 2 and 4 workers
    python3 bench/measure_scale.py replaced DOCUMENTS    # how long a worker that was killed is missed

Documents are those of bench/scale_corpus.py, 70 words each. Times are of a processor, unless they say otherwise. The
library is the one that BIRCHAGAIN_LIBRARY names, else bindings/c/out/libbirchagain.so (`make -C bindings/c`).
`replaced` takes Dask too where this Python has it (`python3-distributed`).
"""

import multiprocessing
import os
import platform
import resource
import signal
import statistics
import subprocess
import sys
import tempfile
import time

HERE = os.path.dirname(os.path.abspath(__file__))
ROOT = os.path.dirname(HERE)
sys.dont_write_bytecode = True
# workers, too, are to find the package and the documents
PATHS = [f"{ROOT}/bindings/python", HERE]
sys.path[:0] = PATHS
os.environ["PYTHONPATH"] = os.pathsep.join(PATHS)
os.environ.setdefault("BIRCHAGAIN_LIBRARY", f"{ROOT}/bindings/c/out/libbirchagain.so")

from birchagain import Index
from birchagain.distributed import Cluster, Processes, Stored, Texts
from birchagain.distributed import wire
from scale_corpus import queries, texts

SCRIPT = {"language": "script"}
MOST, PARTITIONS, ROUNDS = 10, 8, 3
TICK = os.sysconf("SC_CLK_TCK")


def machine():
    """Where this was measured."""
    with open("/proc/cpuinfo", encoding="utf-8") as it:
        model = next(line.partition(":")[2].strip() for line in it if line.startswith("model name"))
    words = ["git", "-C", os.path.realpath(HERE), "rev-parse", "--short=8", "HEAD"]
    commit = subprocess.run(words, check=True, capture_output=True, text=True).stdout.strip()
    python, load = platform.python_version(), os.getloadavg()[0]
    return f"{model}, {os.cpu_count()} cores, Python {python}, commit {commit}, load {load:.0f}"


def table(head, rows):
    lines = [f"| {' | '.join(map(str, it))} |" for it in (head, *rows)]
    print("\n".join(["", lines[0], f"|{'---|' * len(head)}", *lines[1:], ""]))


def resident():
    """Bytes of memory that this process has."""
    with open("/proc/self/statm", encoding="utf-8") as it:
        return int(it.read().split()[1]) * os.sysconf("SC_PAGE_SIZE")


def size_of(folder):
    return sum(it.stat().st_size for it in os.scandir(folder))


def apart(call, *arguments):
    """What a call answers in a process of its own, whose memory is its own too."""
    with multiprocessing.get_context("spawn").Pool(1) as pool:
        return pool.apply(call, arguments)


# One machine


def made(documents, folder):
    """Makes an index and saves it: seconds without those for the texts, and the most memory."""
    before, spent, index = resident(), 0.0, Index()
    for text in texts(0, documents):
        start = time.process_time()
        index.add(text)
        spent += time.process_time() - start
    start = time.process_time()
    index.end_segment()
    index.refresh()
    spent += time.process_time() - start
    peak = resource.getrusage(resource.RUSAGE_SELF).ru_maxrss * 1024 - before
    start = time.process_time()
    index.save(folder)
    return spent, peak, time.process_time() - start


def opened(folder):
    """Opens it, and asks: seconds, memory, and microseconds a query of each class."""
    before, start = resident(), time.process_time()
    index = Index.open(folder)
    spent, memory, took = time.process_time() - start, resident() - before, {}
    for name, some in queries().items():
        for query in some:
            index.weigh_for(query, **SCRIPT)
        start = time.process_time()
        for _ in range(ROUNDS):
            for query in some:
                index.top(query, MOST, **SCRIPT)
        took[name] = (time.process_time() - start) / ROUNDS / len(some) * 1e6
    return spent, memory, took


def one_machine(counts):
    rows, took = [], {}
    for documents in counts:
        with tempfile.TemporaryDirectory() as room:
            spent, peak, saving = apart(made, documents, room)
            on_disk = size_of(room)
            opening, memory, took[documents] = apart(opened, room)
        sizes = [f"{it / 1e6:,.0f} MB" for it in (peak, on_disk, memory)]
        times = [f"{spent:.1f} s", f"{saving:.1f} s", f"{opening:.2f} s"]
        rows.append([f"{documents:,}", *(it for both in zip(times, sizes) for it in both)])
    print(f"{machine()}:")
    table(["Documents", "Made in", "Most memory meanwhile", "Saved in", "On disk", "Opened in", "In memory then"], rows)
    print(f"Microseconds a query, best {MOST}:")
    names = [*queries()]
    rows = [[name, *(f"{took[it][name]:.0f}" for it in counts)] for name in names]
    table(["Query", *(f"{it:,}" for it in counts)], rows)


# A cluster


def spent_by(pids):
    """Seconds of a processor that processes have taken."""
    total = 0
    for pid in pids:
        with open(f"/proc/{pid}/stat", encoding="utf-8") as it:
            total += sum(map(int, it.read().rpartition(")")[2].split()[11:13]))
    return total / TICK


class Counted:
    """Bytes and messages at the coordinator's end."""

    def __init__(self):
        self.sent = self.taken = self.messages = 0
        send, take = wire.Wire.send_bytes, wire.Wire._take

        def counting_send(it, data):
            self.sent, self.messages = self.sent + len(data) + 8, self.messages + 1
            send(it, data)

        def counting_take(it, most):
            before = len(it._taken)
            take(it, most)
            self.taken += len(it._taken) - before

        wire.Wire.send_bytes, wire.Wire._take = counting_send, counting_take


def parts_of(documents):
    return [(at * documents // PARTITIONS, (at + 1) * documents // PARTITIONS) for at in range(PARTITIONS)]


def asked_once(cluster, pids, counted, asked, at_once):
    """What queries cost, so many at once: a row."""
    before, own, start = spent_by(pids), time.process_time(), time.perf_counter()
    sent, taken, messages, took = counted.sent, counted.taken, counted.messages, []
    for at in range(0, len(asked), at_once):
        began = time.perf_counter()
        cluster.top_many(asked[at : at + at_once], MOST, **SCRIPT)
        took.append((time.perf_counter() - began) * 1e3)
    count = len(asked)
    here, there = (time.process_time() - own) / count * 1e3, (spent_by(pids) - before) / count * 1e3
    rate = count / (time.perf_counter() - start)
    sizes = [f"{(counted.sent - sent) / count:.0f}", f"{(counted.taken - taken) / count:.0f}"]
    waited = f"{statistics.median(took):.1f} ms" if at_once == 1 else f"{rate:.0f} a second"
    messages = (counted.messages - messages) / len(took)
    return [at_once, f"{here:.2f} ms", f"{there:.2f} ms", waited, f"{messages:.0f}", *sizes]


def in_cluster(documents):
    asked, counted, rows = [it for some in zip(*queries().values()) for it in some] * ROUNDS, Counted(), []
    with tempfile.TemporaryDirectory() as room, Index() as index:
        for start, end in parts_of(documents):
            with Index(texts(start, end)) as part:
                part.save(f"{room}/{start}")
        for text in texts(0, documents):
            index.add(text)
        for query in asked:
            index.weigh_for(query, **SCRIPT)
        start = time.process_time()
        for query in asked:
            index.top(query, MOST, **SCRIPT)
        rows.append(["one index", 1, f"{(time.process_time() - start) / len(asked) * 1e3:.2f} ms", *[""] * 5])
        for workers in (1, 2, 4):
            engine = Processes(workers)
            pids = [engine.pid(it) for it in engine.workers()]
            with Cluster(engine, [Stored(f"{room}/{start}") for start, _ in parts_of(documents)]) as cluster:
                cluster.top_many(asked, MOST, **SCRIPT)
                for at_once in (1, 120):
                    rows.append([f"{workers} workers" if workers > 1 else "1 worker", *asked_once(cluster, pids, counted, asked, at_once)])
            engine.close()
    print(f"{machine()}; {documents:,} documents in {PARTITIONS} partitions:")
    head = ["", "Queries at once", "Processor at the coordinator", "at the workers", "Waited", "Messages"]
    head += ["Bytes sent a query", "taken"]
    table(head, rows)


# A worker that is lost


def missed(cluster, kill, query):
    """Seconds from the end of a worker until all is answered again."""
    kill()
    start = time.perf_counter()
    cluster.top(query, MOST, **SCRIPT)
    return time.perf_counter() - start


def told(times):
    return f"{statistics.median(times):.2f} s ({min(times):.2f} to {max(times):.2f})"


def by_processes(sources, query):
    engine, times = Processes(4), []
    with Cluster(engine, sources) as cluster:
        for at in range(5):
            cluster.top(query, MOST, **SCRIPT)
            worker = engine.workers()[at % 4]
            times.append(missed(cluster, lambda: os.kill(engine.pid(worker), signal.SIGKILL), query))
            time.sleep(1)
    engine.close()
    return told(times)


def over_dask(sources, query):
    import logging

    import dask
    from distributed import Client, LocalCluster

    how = {"threads_per_worker": 1, "host": "127.0.0.1", "dashboard_address": "127.0.0.1:0", "memory_limit": None}
    how["silence_logs"] = logging.CRITICAL
    dask.config.set({"distributed.deploy.lost-worker-timeout": "300s"})
    times = []
    with LocalCluster(n_workers=4, **how) as workers, Client(workers) as client, Cluster(client, sources) as cluster:
        for _ in range(5):
            cluster.top(query, MOST, **SCRIPT)
            pids = client.run(os.getpid)
            # one that holds something
            worker = next(copy.worker for held in cluster._placement.held for copy in held.copies)
            times.append(missed(cluster, lambda: os.kill(pids[worker], signal.SIGKILL), query))
            client.wait_for_workers(4)
            cluster.balance()
            time.sleep(3)
    return told(times)


def replaced(documents):
    query, parts = queries()["or of two"][0], parts_of(documents)
    engines = {"plain processes": by_processes}
    try:
        import distributed  # noqa: F401

        engines["Dask"] = over_dask
    except ImportError:
        print("Dask is left out: this Python has none")
    with tempfile.TemporaryDirectory() as room:
        folders = [f"{room}/{start}" for start, _ in parts]
        for folder, part in zip(folders, parts):
            with Index(texts(*part)) as index:
                index.save(folder)
        start = time.perf_counter()
        Index.open(folders[0]).close()
        loading = time.perf_counter() - start
        kinds = {"stored": [*map(Stored, folders)], "from texts": [Texts(texts, *part) for part in parts]}
        rows = [[name, *(call(sources, query) for sources in kinds.values())] for name, call in engines.items()]
    print(f"{machine()}; {documents:,} documents in {PARTITIONS} partitions on 4 workers, time on the clock:")
    table(["Right again after a worker was killed", *kinds], rows)
    print(f"To open one of these partitions takes {loading:.3f} s.")


def main(words):
    what, *counts = words or ["one", "100000"]
    if what == "one":
        one_machine([int(it) for it in counts])
    elif what == "cluster":
        in_cluster(int(counts[0]))
    elif what == "replaced":
        replaced(int(counts[0]))
    else:
        sys.exit(f"no such measurement: {what}")


if __name__ == "__main__":
    main(sys.argv[1:])
