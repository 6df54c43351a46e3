#!/usr/bin/env python3
"""Whether what the documents show is so: runs each command of README.md, CONTRIBUTING.md, bench/README.md, docs/ and
tests/cases/ as it stands there, at the top of the repository.

    python3 tests/documented_commands.py

- A fenced block `console` has commands behind `$ `, each with what it prints below it, to the letter.
- A fenced block `sh` has a command a line; nothing is said of what they print.
- A command of NOT_RUN is not run, for the reason that stands beside it; a command in the text must be one of
  those, or be run in a block. Words such as CRATE and NAME stand for others, so a command with one is none.
- A fenced block `rust` stands, line by line, in the file that is named last before it.
- A table of a script, `| Line | Prints | |`, has the lines of the file that is named last before it, and what the
  program prints for them.
- A file that is named, or that a link leads to, is there.

Commands of one document are run one after another, and documents beside each other; one that stands twice is run
once. Each has to end with status 0.
"""

import os
import re
import subprocess
import sys
import threading
from concurrent.futures import Future, ThreadPoolExecutor

ROOT = os.path.realpath(os.path.join(os.path.dirname(os.path.abspath(__file__)), ".."))
# commands that are not run here, by how they begin
NOT_RUN = {
    "python3 tests/quick.py": "it runs this",
    "python3 tests/gate.py": "it runs this",
    "python3 tests/documented_commands.py": "it is this",
    "python3 tests/definitions.py": "it writes; the gate and quick.py run it with --check",
    "python3 tests/growth.py": "quick.py and the gate run it",
    "python3 tests/sentences.py": "quick.py and the gate run it",
    "python3 tests/layers.py": "it writes; the gate and quick.py run it with --check",
    "python3 tests/layout.py": "quick.py runs it, and rt ci looks itself",
    "python3 tests/limits.py": "quick.py and the gate run it",
    "python3 tests/using_runs.py": "quick.py and the gate run it",
    "python3 tests/api.py": "it needs python3-markdown; tests/api_runs.py makes the pages",
    "python3 tests/distributed_runs.py": "quick.py and the gate run it",
    "python3 tests/cases.py": "quick.py and the gate run it; with other seeds it takes as long as one likes",
    "python3 tests/wrong_bodies.py": "the gate runs it; it takes proofs",
    "python3 bench/": "a measurement: it takes minutes, some of them a proof or valgrind",
    "bench/": "a measurement: it takes minutes; tests/bench_runs.py runs a small one",
    "(cd crates/": "it proves, or compiles, for minutes; the gate proves and runs all programs",
    "./birch --proved": "it proves, for an hour; tests/installed_runs.py runs it over a stand-in",
    "make install": "tests/installed_runs.py runs it, into a folder of its own",
    "make uninstall": "tests/installed_runs.py runs it",
    "pip install": "tests/library_runs.py runs it, into a folder of its own",
    "python -m birchagain serve": "it ends when it is interrupted; tests/library_runs.py runs it",
    "cd crates/": "it proves, or compiles, for minutes; the gate proves and runs all programs",
}
NAMED = re.compile(r"`((?:bindings|crates|tests|docs|examples|bench|packaging)/[\w./+-]+|[A-Z]+\.md|crates\.txt|\.ci/run)`")
COMMAND = re.compile(r"`((?:(?:python3|cd|out/|\./birch|bench/run|bench/plot)[ \w]|make \w)[^`]*)`")
STOOD_FOR = re.compile(r"(?<![A-Z])(CRATE|FILE|FOLDER|NAME|PATH|PROGRAM|TOPIC)(?![A-Z])")
PROGRAM = "out/qm_search"
# the runs so far, by their commands
RUNS, LOCK = {}, threading.Lock()


def documents():
    pages = [f"{at}/{it}" for at in ("docs", "tests/cases") for it in os.listdir(f"{ROOT}/{at}") if it.endswith(".md")]
    return ["README.md", "CONTRIBUTING.md", "bench/README.md", *sorted(pages)]


def read(path):
    with open(f"{ROOT}/{path}", encoding="utf-8") as it:
        return it.read()


class Document:
    """A document: its text, the fenced blocks, and where each of them stands."""

    def __init__(self, path):
        self.path, self.faults, self.ran = path, [], []
        self.text = read(path)
        self.blocks = [(it[1], it[2], it.start()) for it in re.finditer(r"^```(\w*)\n(.*?)^```$", self.text, re.M | re.S)]
        self.prose = re.sub(r"^```.*?^```$", "", self.text, flags=re.M | re.S)

    def named_before(self, at):
        """The file that is named last before this place."""
        found = [it[1] for it in NAMED.finditer(self.text[:at]) if os.path.isfile(f"{ROOT}/{it[1]}")]
        return found[-1] if found else None

    def says(self, fault):
        self.faults.append(f"{self.path}: {fault}")

    def commands(self):
        """Its commands, each with the lines that it prints, or None where it isn't said."""
        for kind, block, _ in self.blocks:
            if kind == "sh":
                yield from ((line.partition("  #")[0].strip(), None) for line in block.split("\n") if line.strip())
            if kind == "console":
                for part in re.split(r"^\$ ", block, flags=re.M)[1:]:
                    command, _, printed = part.partition("\n")
                    yield command, printed

    def run(self):
        for command, printed in self.commands():
            if is_left_out(command):
                continue
            ran = result_of(command)
            if ran.returncode:
                self.says(f"`{command}` ends with status {ran.returncode}: {ran.stdout[-400:]}{ran.stderr[-400:]}")
            elif printed is not None and ran.stdout != printed:
                self.says(f"`{command}` prints otherwise:\n{ran.stdout}")
            self.ran.append(command)

    def check_files(self):
        for path in {it[1] for it in NAMED.finditer(self.prose)}:
            if not STOOD_FOR.search(path) and not is_there(path):
                self.says(f"there is no {path}")
        for path in re.findall(r"\]\((?!\w+:)([^)#\s]+)[^)]*\)", self.prose):
            if not os.path.exists(f"{ROOT}/{os.path.dirname(self.path)}/{path}"):
                self.says(f"a link leads to {path}, which is not there")

    def check_code(self):
        for kind, block, at in self.blocks:
            if kind == "rust":
                path = self.named_before(at)
                stands = [line.strip() for line in read(path).split("\n")] if path else []
                wanted = [line.strip() for line in block.strip().split("\n")]
                if not any(stands[at : at + len(wanted)] == wanted for at in range(len(stands))):
                    self.says(f"a block is not what stands in {path}")

    def check_inline(self, ran):
        for command in {it[1] for it in COMMAND.finditer(self.prose)}:
            if not (STOOD_FOR.search(command) or is_left_out(command) or command in ran):
                self.says(f"`{command}` is in no block, so it was not run")

    def check_scripts(self):
        for table in re.finditer(r"^\| Line \| Prints \| \|\n\|[-|]+\n((?:\|.*\n)+)", self.text, re.M):
            rows = [[cell.strip().strip("`") for cell in row.split("|")[1:]] for row in table[1].strip().split("\n")]
            script = "".join(row[0] + "\n" for row in rows)
            printed = "".join(("" if row[1] == "an empty line" else row[1]) + "\n" for row in rows if row[1])
            path = self.named_before(table.start())
            ran = subprocess.run([f"{ROOT}/{PROGRAM}"], input=script, capture_output=True, text=True)
            if script != read(path) or printed != ran.stdout:
                self.says(f"the table of {path} is not what that has and prints")


def result_of(command):
    """What a command came to, which is run once, wherever it stands."""
    with LOCK:
        is_first = command not in RUNS
        result = RUNS.setdefault(command, Future())
    if is_first:
        how = {"shell": True, "executable": "/bin/bash", "capture_output": True, "text": True}
        result.set_result(subprocess.run(command, cwd=ROOT, **how))
    return result.result()


def is_left_out(command):
    return any(command.startswith(it) for it in NOT_RUN)


def is_there(path):
    return os.path.exists(f"{ROOT}/{path}") or os.path.exists(f"{ROOT}/docs/{path}")


def main():
    read_all = [Document(path) for path in documents()]
    with ThreadPoolExecutor(os.cpu_count()) as pool:
        list(pool.map(Document.run, read_all))
    ran = {command for it in read_all for command in it.ran}
    for it in read_all:
        it.check_files()
        it.check_code()
        it.check_inline(ran)
        it.check_scripts()
    for fault in (fault for it in read_all for fault in it.faults):
        print(fault)
    is_well = ran and not any(it.faults for it in read_all)
    print(f"documented commands: {len(ran)} as wanted" if is_well else "documented commands: NOT AS WANTED")
    return 0 if is_well else 1


if __name__ == "__main__":
    sys.exit(main())
