"""Runs of `birch` in a folder."""

import json
import os
import subprocess
from typing import NamedTuple

# No run takes so many seconds, on a machine that proves beside it too; one that does is taken never to end.
LIMIT = 300


class Outcome(NamedTuple):
    """How a run ended: what it wrote, its exit status, and what it told on standard error."""

    text: str
    status: int
    told: str


class Command:
    """The program, and how often it was run."""

    def __init__(self, path, library):
        self.path, self.library, self.runs = path, library, 0

    def start(self, *words, folder, **how):
        """Starts the program in a folder; all its runs are started here, and counted."""
        self.runs += 1
        return subprocess.Popen([self.path, *words], cwd=folder, **how)

    def run(self, *words, folder, given=b"", environment=None, **how):
        """Runs it with these words and this standard input."""
        pipes = {"stdin": subprocess.PIPE, "stdout": subprocess.PIPE, "stderr": subprocess.PIPE}
        with self.start(*words, folder=folder, env=environment, **pipes, **how) as running:
            text, told = running.communicate(given, timeout=LIMIT)
        return Outcome(text.decode(), running.returncode, told.decode())

    def run_refused(self, number, *words, folder):
        """The same where that request for memory is refused; and whether there was one of that number."""
        notes = os.memfd_create("notes")
        settings = {"LD_PRELOAD": self.library, "FAULTY_NOTES": str(notes), "FAULTY_REQUEST": str(number)}
        pipes = {"stdin": subprocess.DEVNULL, "stdout": subprocess.PIPE, "stderr": subprocess.PIPE}
        try:
            how = {"env": os.environ | settings, "pass_fds": [notes], **pipes}
            with self.start(*words, folder=folder, **how) as running:
                text, told = running.communicate(timeout=LIMIT)
            noted = os.pread(notes, os.fstat(notes).st_size, 0)
        finally:
            os.close(notes)
        return Outcome(text.decode(), running.returncode, told.decode()), b"refused" in noted


def results(text):
    """What lines of JSON tell of each result: its path, line and score."""
    found = [json.loads(line) for line in text.splitlines()]
    return [(it["path"], it["line"], it["score"]) for it in found]
