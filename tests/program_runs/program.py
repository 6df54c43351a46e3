"""Runs of the program, on scripts in memory, as tests/native/faulty_io.c makes them go."""

import os
import resource
import subprocess
from typing import NamedTuple

# No run takes ten seconds on a machine that does nothing else; one that takes so many is taken never to end.
LIMIT = 100


# what is preloaded
LIBRARY = os.path.join(os.path.dirname(os.path.abspath(__file__)), "..", "native", "faulty_io.c")


def build_library(room):
    """Builds what is preloaded."""
    library = os.path.join(room, "faulty_io.so")
    flags = "-O2 -Wall -Wextra -Werror -shared -fPIC".split()
    subprocess.run(["cc", *flags, "-o", library, LIBRARY], check=True)
    return library


class NeverEnded(Exception):
    """A run took too long, and was ended."""


class Call(NamedTuple):
    """A call that the library noted, with its bytes or its error: "read", "write", "read interrupted",
    "write interrupted", "read failed", "write failed" or "request refused"."""

    what: str
    number: int


class Outcome(NamedTuple):
    """How a run ended: what it wrote, its exit status, and the calls that the library noted."""

    text: bytes
    status: int
    calls: list


class Program:
    """The program, and the library that is preloaded where calls of a run are to go badly."""

    def __init__(self, path, library):
        self.path = path
        self.library = library
        self.runs = 0

    def run(self, script):
        """Runs the script, whose bytes are a file."""
        return self._run(script, os.environ, None)

    def run_faulty(self, script, **faults):
        """The same with these settings of the library, each named by its variable's last words:
        `reads=9` for FAULTY_READS. All calls are noted."""
        notes = os.memfd_create("notes")
        settings = {f"FAULTY_{name.upper()}": str(value) for name, value in faults.items()}
        settings |= {"LD_PRELOAD": self.library, "FAULTY_NOTES": str(notes)}
        try:
            return self._run(script, os.environ | settings, notes)
        finally:
            os.close(notes)

    def run_with_stack(self, script, size):
        """The same with a stack of so many bytes; and how many seconds of a processor it took."""

        def bound():
            resource.setrlimit(resource.RLIMIT_STACK, (size, size))

        before = seconds_of_runs()
        outcome = self._run(script, os.environ, None, preexec_fn=bound)
        return outcome, seconds_of_runs() - before

    def start(self, **how):
        """Starts the program; all its runs are started here, and counted."""
        self.runs += 1
        return subprocess.Popen([self.path], **how)

    def _run(self, script, environment, notes, **how):
        noted = [] if notes is None else [notes]
        # a file, and no pipe, so that each read gives as much as it is asked for
        with open(os.memfd_create("script"), "r+b") as given:
            given.write(script)
            given.seek(0)
            # nothing is wanted where errors go
            both = {"stdout": subprocess.PIPE, "stderr": subprocess.STDOUT}
            running = self.start(stdin=given, **both, env=environment, pass_fds=noted, **how)
        with running:
            text, status = ended(running)
        return Outcome(text, status, _calls(notes) if noted else [])


def ended(running, script=None):
    """What the run writes until it ends, and its status."""
    try:
        text, _ = running.communicate(script, timeout=LIMIT)
    except subprocess.TimeoutExpired:
        running.kill()
        raise NeverEnded from None
    return text, running.returncode


def seconds_of_runs():
    """How many seconds of a processor all runs that have ended took."""
    used = resource.getrusage(resource.RUSAGE_CHILDREN)
    return used.ru_utime + used.ru_stime


def _calls(notes):
    lines = os.pread(notes, os.fstat(notes).st_size, 0).decode().splitlines()
    parts = [line.rpartition(" ") for line in lines]
    return [Call(what, int(number)) for what, _, number in parts]


def calls_of(outcome, *kinds):
    """Those of the calls that are of these kinds."""
    return [call for call in outcome.calls if call.what in kinds]


def written_at_reads(calls):
    """How many bytes had been written at each read, in order, and how many at the end."""
    counts, written = [], 0
    for call in calls:
        if call.what == "read":
            counts.append(written)
        elif call.what == "write":
            written += call.number
    return counts, written
