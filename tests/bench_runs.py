#!/usr/bin/env python3
"""Whether the bench runs: `bench/run --small` over a program `qm_search`, as `rt ci` built it, or over the one that is
named.

    python3 tests/bench_runs.py [PROGRAM]

Every class has to be answered by the plain program in bench/plain as by `qm_search`, and to have a time for both. An
answer that differs, be it one that was changed on its way, has to be named, without a time. What of Lucene, Xapian and
FTS5 is not installed has to be named too. Prints what went wrong, and then how many runs went as wanted. Called by
tests/gate.py.
"""

import json
import os
import re
import subprocess
import sys
import tempfile

sys.dont_write_bytecode = True
ROOT = os.path.realpath(os.path.join(os.path.dirname(os.path.abspath(__file__)), ".."))
sys.path.insert(0, f"{ROOT}/bench")

from classes import CLASSES
from engine import OTHERS, OWN, PLAIN
from program_runs.report import Report

BUILT = f"{ROOT}/crates/qm_search/out/qm_search"
# A program that says of each count a document more than there are. It hands on what it reads at once, as it came.
WRONG = """#!{python}
import subprocess, sys, threading
with subprocess.Popen([{program!r}], stdin=subprocess.PIPE, stdout=subprocess.PIPE, bufsize=0) as it:
    def read():
        for line in it.stdout:
            number = line.strip()
            one_more = b"%d\\n" % (int(number) + 1) if number.isdigit() and number != b"0" else line
            sys.stdout.buffer.write(one_more)
            sys.stdout.buffer.flush()
    reader = threading.Thread(target=read)
    reader.start()
    for line in sys.stdin.buffer:
        it.stdin.write(line)
    it.stdin.close()
    reader.join()
"""


class Runs:
    def __init__(self, program, room):
        self.program, self.room, self.report, self.count = program, room, Report("bench runs"), 0

    def run(self, program, *words):
        """What a run printed, the rows that it wrote, and its status."""
        told = f"{self.room}/told.json"
        command = [sys.executable, f"{ROOT}/bench/run", "--small", "--program", program, "--room", self.room]
        ran = subprocess.run([*command, "--json", told, *words], capture_output=True, text=True, check=False)
        if ran.returncode not in (0, 1) or not os.path.exists(told):
            return ran.stdout + ran.stderr, [], ran.returncode
        with open(told, encoding="utf-8") as it:
            rows = json.load(it)["rows"]
        os.remove(told)
        return ran.stdout, rows, ran.returncode

    def expect(self, name, wanted, got):
        self.count += 1
        self.report.expect_same(name, wanted, got)

    def answers(self):
        """Each class, asked of all engines that are there."""
        text, rows, status = self.run(self.program)
        self.expect("the status, and what was printed", (0, ""), (status, text[-2000:] if status else ""))
        asked = sorted((row["class"], row["verb"]) for row in rows)
        self.expect("what was asked", sorted((name, verb) for name, it in CLASSES.items() for verb in it.verbs), asked)
        for row in rows:
            both = [it for it in (OWN, PLAIN) if row["microseconds"].get(it, 0) > 0]
            self.expect(f"times of {row['class']}, {row['verb']}", [OWN, PLAIN], both)
        head = text.split("\n\n")[0]
        for name in OTHERS:
            is_named = f"{name} is left out: " in head
            is_timed = any(name in row["microseconds"] for row in rows)
            self.expect(f"{name}, which is left out or timed", True, is_named != is_timed)

    def wrong_answers(self):
        """Counts that are one too great, where nothing else is wrong."""
        path = f"{self.room}/wrong"
        with open(path, "w", encoding="utf-8") as it:
            it.write(WRONG.format(python=sys.executable, program=self.program))
        os.chmod(path, 0o755)
        text, rows, status = self.run(path, "--alone", "--classes", "any-2,one-frequent", "--verbs", "docs,count")
        self.expect("the status where counts differ", 1, status)
        for row in rows:
            timed = [OWN, PLAIN] if row["verb"] == "docs" else [OWN]
            got = sorted(row["microseconds"])
            self.expect(f"times of {row['class']}, {row['verb']}, where counts differ", timed, got)
        named = re.findall(r"plain Rust answers `count` otherwise of ([^.]+)\.", text)
        self.expect("the answers that are named", [CLASSES[it].text for it in ("any-2", "one-frequent")], named)

    def play(self):
        self.answers()
        self.wrong_answers()
        return self.report.close(self.count)


def main(words):
    program = os.path.abspath(words[0] if words else BUILT)
    if not os.access(program, os.X_OK):
        print(f"bench runs: there is no {program}")
        return 1
    with tempfile.TemporaryDirectory() as room:
        return Runs(program, room).play()


if __name__ == "__main__":
    sys.exit(main(sys.argv[1:]))
