"""Who has no key is told nothing and harms nothing: neither who sends what is no message, nor who sends nothing."""

import os
import random
import re
import socket
import struct
import time
from multiprocessing import AuthenticationError

from birchagain.distributed import Cluster, Processes, Texts
from birchagain.distributed.lines import Line
from birchagain.distributed.wire import MOST, Wire

from distributed_runs import corpus
from distributed_runs.checks import Checks

DOCUMENTS, SILENT = 500, 300
SCRIPT = {"language": "script"}
# as much as a worker may grow by what it is sent, in kilobytes
GROWTH = 100_000


def memory(pid):
    """The most that a process had in memory, in kilobytes."""
    with open(f"/proc/{pid}/status", encoding="utf-8") as it:
        return int(re.search(r"VmHWM:\s+(\d+)", it.read())[1])


def sent(address, data):
    """What comes back for some bytes, behind the challenge, until the connection ends."""
    with socket.create_connection(address, timeout=60) as it:
        try:
            it.sendall(data)
            it.shutdown(socket.SHUT_WR)
            got = b""
            while chunk := it.recv(1 << 16):
                got += chunk
            return got
        except (BrokenPipeError, ConnectionResetError):
            return b""


def is_challenge_alone(data):
    """At most the challenge came, and maybe that it was failed: nothing of documents."""
    return len(data) <= 256 and b"WELCOME" not in data and b"answers" not in data


def garbage(chance):
    yield "nothing", b""
    yield "a page of the web", b"GET / HTTP/1.1\r\nHost: here\r\n\r\n"
    for length in (257, MOST, MOST + 1, 1 << 40, (1 << 63) - 1, (1 << 64) - 1):
        yield f"a length of {length}", struct.pack(">Q", length) + b"x" * 100_000
    yield "lengths without end", struct.pack(">Q", 0) * 10_000
    for number in range(50):
        yield f"bytes by chance, {number}", chance.randbytes(chance.choice([1, 7, 8, 100, 10_000]))


def without_key(checks, address, ask, chance):
    for name, data in garbage(chance):
        checks.same(f"{name} is told nothing", True, is_challenge_alone(sent(address, data)))
        checks.same(f"behind {name} questions are answered", True, ask())
    for key in (b"", b"x", os.urandom(32)):
        checks.raises("a wrong key", OSError, "AuthenticationError", lambda: Line(address, key, 60))


def silent(checks, address, cluster, ask):
    """More than may wait for their key: the coordinator still gets its line."""
    waiting = [socket.create_connection(address, timeout=60) for _ in range(SILENT)]
    start = time.monotonic()
    cluster._lines.close()
    checks.same("beside many who say nothing", True, ask())
    print(f"hostile: a new line beside {SILENT} silent ones took {time.monotonic() - start:.2f} s")
    for it in waiting:
        it.close()


def with_key(checks, address, key, ask):
    """Who has the key and sends what is no question is hung up on, and no more."""
    for data in (b"", b"{", b"[]", b"1", b'{"id":1}', b'{"id":1,"asked":{},"copies":3}', b"[" * 100_000, b"\xff\xfe"):
        line = Line(address, key, 60)
        line.wire.send_bytes(data)
        checks.raises(f"no question: {data[:20]}", EOFError, "", lambda: line.wire.recv_bytes(MOST))
        line.wire.close()
        checks.same(f"behind {data[:20]} questions are answered", True, ask())
    line = Line(address, key, 60)
    line.wire._socket.sendall(struct.pack(">Q", 1 << 50))
    refused = (EOFError, ConnectionResetError)
    checks.raises("a great length with the key", refused, "", lambda: line.wire.recv_bytes(MOST))
    line.wire.close()


def false_worker(checks):
    """A coordinator tells nothing to a worker that has not the key."""
    with socket.create_server(("127.0.0.1", 0)) as server:
        caller = socket.create_connection(server.getsockname())
        taken, _ = server.accept()
        false, wire = Wire(taken, 60), Wire(caller, 60)
        # it answers as a worker does whose key is another
        false.send_bytes(b"#CHALLENGE#" + bytes(20))
        false.send_bytes(b"#WELCOME#")
        false.send_bytes(b"#CHALLENGE#" + bytes(20))
        refused = (AuthenticationError, EOFError, OSError)
        checks.raises("a worker without the key", refused, "", lambda: wire.introduce(b"k" * 32))
        false.close()
        wire.close()


def main():
    checks, chance = Checks("hostile"), random.Random(4)
    engine = Processes(1)
    with Cluster(engine, [Texts(corpus.texts, 0, DOCUMENTS)]) as cluster:
        query = f"term {corpus.RANKED[3]}"
        wanted = cluster.count(query, **SCRIPT)
        (address,), pid = [*cluster._lines._open], engine.pid(engine.workers()[0])

        def ask():
            return cluster.count(query, **SCRIPT) == wanted

        before = memory(pid)
        without_key(checks, address, ask, chance)
        silent(checks, address, cluster, ask)
        with_key(checks, address, cluster._placement._key, ask)
        checks.same("a worker that has grown", True, memory(pid) - before < GROWTH)
        checks.same("the same process", pid, engine.pid(engine.workers()[0]))
    false_worker(checks)
    engine.close()
    checks.end()


if __name__ == "__main__":
    main()
