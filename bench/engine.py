"""The engines: how each is built, started and asked, and what it takes of the processor."""

import glob
import os
import shutil
import subprocess
import sys
import threading
import time

HERE = os.path.dirname(os.path.abspath(__file__))
ROOT = os.path.dirname(HERE)
# the name of the repository's own program in the tables
OWN, PLAIN = "birchagain", "plain Rust"
# a line that every engine answers
NOTHING = b"count none\n"
ANSWERED = "0"
# what an engine says that has no such query
NOT_ASKED = "not asked"
# the system's own Python has what Debian's packages bring
PYTHONS = (sys.executable, "/usr/bin/python3")
JARS = ("/usr/share/java/lucene-core-8*.jar", "/usr/share/java/lucene-analyzers-common-8*.jar")


class Missing(Exception):
    """An engine is not there; says what it lacks."""


def build_own(file):
    """The repository's program, of the sources that the gate proved, optimised and without checks."""
    words = [sys.executable, f"{ROOT}/tests/unproved.py", "qm_search", file, "--unchecked"]
    if subprocess.run(words, check=False, stdout=sys.stderr).returncode:
        raise SystemExit("bench: the program qm_search was not built")
    return [file]


def build_plain(room):
    if not shutil.which("cargo"):
        raise SystemExit("bench: there is no cargo, which builds bench/plain")
    environment = {**os.environ, "CARGO_TARGET_DIR": f"{room}/cargo"}
    words = ["cargo", "build", "-q", "--release", "--offline", "--manifest-path", f"{HERE}/plain/Cargo.toml"]
    if subprocess.run(words, check=False, env=environment).returncode:
        raise SystemExit("bench: bench/plain was not built")
    return [f"{room}/cargo/release/plain"]


def build_lucene(room):
    jars = [path for it in JARS for path in sorted(glob.glob(it))[-1:]]
    if len(jars) < len(JARS):
        raise Missing("Debian's liblucene8-java is not installed")
    if not (shutil.which("javac") and shutil.which("java")):
        raise Missing("there is no javac or java")
    classes = f"{room}/lucene"
    words = ["javac", "-cp", ":".join(jars), "-d", classes, f"{HERE}/engines/AskLucene.java"]
    if subprocess.run(words, check=False).returncode:
        raise SystemExit("bench: bench/engines/AskLucene.java was not built")
    return ["java", "-Xmx4g", "-cp", ":".join([*jars, classes]), "AskLucene", classes]


def of_python(module, package):
    """A Python that has the module."""
    for python in PYTHONS:
        if subprocess.run([python, "-c", f"import {module}"], check=False, capture_output=True).returncode == 0:
            return python
    raise Missing(f"{package} is not installed")


def build_xapian(_room):
    return [of_python("xapian", "Debian's python3-xapian"), f"{HERE}/engines/ask_xapian.py"]


def build_fts5(_room):
    python = of_python("sqlite3", "Python's sqlite3")
    made = "import sqlite3; sqlite3.connect(':memory:').execute('create virtual table t using fts5(b)')"
    if subprocess.run([python, "-c", made], check=False, capture_output=True).returncode:
        raise Missing("SQLite has no FTS5")
    return [python, f"{HERE}/engines/ask_fts5.py"]


OTHERS = {"Lucene": build_lucene, "Xapian": build_xapian, "FTS5": build_fts5}


def commands(room, program=None, others=True):
    """The command of each engine, the repository's own first, and why others are left out."""
    found = {OWN: [os.path.abspath(program)] if program else build_own(f"{room}/qm_search"), PLAIN: build_plain(room)}
    lacking = []
    for name, build in OTHERS.items() if others else ():
        try:
            found[name] = build(room)
        except Missing as missing:
            lacking.append(f"{name} is left out: {missing}.")
    return found, lacking


class Engine:
    """An engine that runs: it is handed documents once, and asked as often as one likes."""

    def __init__(self, name, words, processor=None):
        self.name = name
        pinned = {processor} if processor is not None else os.sched_getaffinity(0)
        how = {"stdin": subprocess.PIPE, "stdout": subprocess.PIPE, "bufsize": 0}
        self.process = subprocess.Popen(words, preexec_fn=lambda: os.sched_setaffinity(0, pinned), **how)
        answers, _ = self.ask(NOTHING, 1)
        assert answers == [ANSWERED], answers

    def spent(self):
        """Seconds of the processor so far, of all its threads."""
        time.sleep(0.001)
        nanoseconds = 0
        for path in glob.glob(f"/proc/{self.process.pid}/task/*/schedstat"):
            try:
                with open(path, encoding="ascii") as it:
                    nanoseconds += int(it.read().split()[0])
            except OSError:
                # the thread has ended since
                continue
        return nanoseconds / 1e9

    def memory(self):
        """Megabytes that it holds, and that it held at most."""
        with open(f"/proc/{self.process.pid}/status", encoding="ascii") as it:
            found = dict(line.split(":", 1) for line in it)
        return tuple(int(found[name].split()[0]) / 1024 for name in ("VmRSS", "VmHWM"))

    def ask(self, script, count, is_kept=True):
        """Hands it the script, and answers its `count` lines of answers, where these are kept, and the seconds that it
        took."""
        before = self.spent()
        writer = threading.Thread(target=self.write, args=(script,))
        writer.start()
        parts, lines = [], 0
        while lines < count:
            part = os.read(self.process.stdout.fileno(), 1 << 20)
            if not part:
                raise SystemExit(f"bench: {self.name} ended early")
            lines += part.count(b"\n")
            if is_kept:
                parts.append(part)
        writer.join()
        return b"".join(parts).decode().split("\n")[:-1], self.spent() - before

    def write(self, script):
        try:
            self.process.stdin.write(script)
        except BrokenPipeError:
            # who reads its answers sees that it has ended
            return

    def take(self, path):
        """Hands it the documents of a file, a document a line; answers the seconds that it took."""
        before = self.spent()
        with open(path, "rb") as it:
            while lines := it.readlines(1 << 20):
                self.process.stdin.write(b"".join(b"doc " + line for line in lines))
        answers, _ = self.ask(NOTHING, 1)
        assert answers == [ANSWERED], answers
        return self.spent() - before

    def close(self):
        self.process.stdin.close()
        self.process.stdout.close()
        self.process.wait()
