#!/usr/bin/env python3
"""The merge gate: every proof, every wrong body, every case and every run of the program.

    python3 tests/gate.py

`rt ci` proves all crates from nothing, but for those that an earlier run on this machine proved as they are, tries the
wrong bodies of must-fail/ and runs the programs. Crates on which none stands, but for the largest, get what the others
leave.

As soon as `rt ci` says of a crate that it is proved or kept, tests/wrong_bodies.py tries the others of that crate beside
it, at the lowest priority, so that proofs wait for nothing: those whose refusal does not stand, and some by chance
(refused_before.py).

What is played needs programs that are proved, or none: PLAYED says which. Each part begins once these are there, one
beside the proofs, where memory has room for it, and two behind them; what it prints stays together.
tests/refusal_rows.py has rows of what counts as refused, and tests/gate_rows.py of this script. tests/refused_calls.py
looks whether each public call has its rows under refused memory, tests/cases.py plays the cases, tests/format_runs.py
holds two plain readings of docs/FORMAT.md against each other, tests/program_runs.py and tests/birch_runs.py run the
programs `qm_search` and `birch`, tests/library_runs.py calls the library from C, Rust and Python,
tests/distributed_runs.py holds it in several processes and hosts, and tests/bench_runs.py runs the bench over a few
documents. What docs/ has of specs/, of crates.txt and of limits is compared with these, its sentences are looked
through, a repository of one's own takes a crate, the API pages are made and looked through, the commands that the
documents show are run, and tests/installed_runs.py installs `birch`.

At last two tables say how many minutes each crate and each stage took, for docs/TESTS.md. The last line counts what
passed; the exit status is 1 where anything did not. Called by .ci/run.
"""

import os
import re
import subprocess
import sys
import threading
import time
from concurrent.futures import ThreadPoolExecutor

sys.dont_write_bytecode = True
HERE = os.path.dirname(os.path.abspath(__file__))
sys.path.insert(0, HERE)

import kit  # noqa: E402
import wrong_bodies  # noqa: E402
from cases import PROGRAMS  # noqa: E402
from crate_minutes import CrateMinutes  # noqa: E402

ROOT = os.path.realpath(os.path.join(HERE, ".."))
# what each stage counts in its last line
COUNTED = {
    "proofs and wrong bodies of must-fail": r"(\d+) passed, \d+ failed",
    "wrong bodies": r"wrong bodies: (\d+) as wanted, \d+ undecided, \d+ not",
    "rows of refusals": r"refusal rows: (\d+) as wanted",
    "rows of the gate": r"gate rows: (\d+) as wanted",
    "calls under refusals": r"refused calls: (\d+) as wanted",
    "rows": r"cases: (\d+) rows, \d+ wrong",
    "files of the format": r"format: (\d+) as wanted",
    "program runs": r"program runs: (\d+) as wanted",
    "birch runs": r"birch runs: (\d+) as wanted",
    "library runs": r"library runs: (\d+) as wanted",
    "distributed runs": r"distributed runs: (\d+) as wanted",
    "bench runs": r"bench runs: (\d+) as wanted",
    "forms that grow as wanted": r"growth: (\d+) as wanted",
    "words": r"definitions: (\d+) as specs/ says",
    "crates drawn": r"layers: (\d+) crates as crates.txt says",
    "limits": r"limits: (\d+) as the sources say",
    "programs' assumptions": r"assumptions: (\d+) programs as crates.txt says",
    "readable pages": r"sentences: (\d+) pages as wanted",
    "uses elsewhere": r"use elsewhere: (\d+) as wanted",
    "items of the API pages": r"api pages: (\d+) as wanted",
    "documented commands": r"documented commands: (\d+) as wanted",
    "installed runs": r"installed runs: (\d+) as wanted",
}
# the proofs and the wrong bodies, which need nothing
PROVED, REFUSED = "proofs and wrong bodies of must-fail", "wrong bodies"
# what is played: the stage that a part is of, its words, and what it needs: programs that are proved, or other stages
PLAYED = [
    ("library runs", ["library_runs.py"], []),
    # (over the library that the runs before it built)
    ("distributed runs", ["distributed_runs.py"], ["library runs"]),
    ("rows of refusals", ["refusal_rows.py"], []),
    ("rows of the gate", ["gate_rows.py"], []),
    ("calls under refusals", ["refused_calls.py"], []),
    ("files of the format", ["format_runs.py"], []),
    ("words", ["definitions.py", "--check"], []),
    ("crates drawn", ["layers.py", "--check"], []),
    ("limits", ["limits.py"], []),
    ("programs' assumptions", ["assumptions.py"], []),
    ("readable pages", ["sentences.py"], []),
    ("items of the API pages", ["api_runs.py"], []),
    ("documented commands", ["documented_commands.py"], []),
    *(("rows", ["cases.py", it], [it]) for it in PROGRAMS),
    ("program runs", ["program_runs.py"], ["qm_search"]),
    ("forms that grow as wanted", ["growth.py"], ["qm_search"]),
    ("bench runs", ["bench_runs.py"], ["qm_search"]),
    ("birch runs", ["birch_runs.py"], ["birch"]),
    ("installed runs", ["installed_runs.py"], ["birch"]),
    # (it waits for a run of `rt ci` over the same crates)
    ("uses elsewhere", ["using_runs.py"], [PROVED]),
]
PRINTING = threading.Lock()
PROCESSORS = len(os.sched_getaffinity(0))
# what a proof takes at most, and a part of what is played, in bytes
PROOF = 4_000_000_000


class Stage:
    """A stage of the gate: whether all of it passed, how much did, and how many minutes its parts took."""

    def __init__(self, name):
        self.name, self.has_run, self.is_well, self.count, self.minutes = name, False, True, 0, 0.0

    def run(self, words, heard=lambda line: None, begun=lambda process: None):
        """Runs a part of it and prints what that says, line by line."""
        start, last = time.monotonic(), ""
        how = {"stdout": subprocess.PIPE, "stderr": subprocess.STDOUT, "text": True}
        with subprocess.Popen(words, cwd=ROOT, **how) as it:
            begun(it)
            for last in it.stdout:
                with PRINTING:
                    print(last, end="", flush=True)
                heard(last.rstrip("\n"))
        self.take(it.returncode, last, start)

    def play(self, words):
        """The same, printed at once when it has ended."""
        start = time.monotonic()
        how = {"stdout": subprocess.PIPE, "stderr": subprocess.STDOUT, "text": True, "errors": "replace"}
        ran = subprocess.run([sys.executable, f"tests/{words[0]}", *words[1:]], cwd=ROOT, check=False, **how)
        with PRINTING:
            print(ran.stdout, end="", flush=True)
        self.take(ran.returncode, ran.stdout.rpartition("\n")[0].rpartition("\n")[2], start)

    def take(self, status, last, start):
        """Takes what a part counts in its last line."""
        counted = re.fullmatch(COUNTED[self.name], last.rstrip("\n"))
        # (two parts may end at once)
        with PRINTING:
            self.has_run, self.is_well = True, self.is_well and status == 0 and counted is not None
            self.count += int(counted[1]) if counted else 0
            self.minutes += (time.monotonic() - start) / 60


class Playing:
    """What is played, each part once what it needs is there."""

    def __init__(self):
        self.left, self.there, self.changed = [*PLAYED], set(), threading.Condition()
        self.stages = {name: Stage(name) for name, *_ in PLAYED}

    def tell(self, name):
        """Tells that this program is proved, or that this stage has ended."""
        with self.changed:
            self.there.add(name)
            self.changed.notify_all()

    def give_up(self):
        """Leaves out what has not begun."""
        with self.changed:
            self.left.clear()
            self.changed.notify_all()

    def take(self):
        """The first part that has all it needs, once there is one; none where no part is left."""
        with self.changed:
            while self.left:
                for part in self.left:
                    if self.there.issuperset(part[2]):
                        self.left.remove(part)
                        return part
                self.changed.wait()
        return None

    def play(self):
        """Plays one part after another, until none is left."""
        while part := self.take():
            name, words, _ = part
            self.stages[name].play(words)
            self.tell(name)


class Proofs:
    """The proofs, and beside them the wrong bodies of each crate once that is proved."""

    def __init__(self, pool, playing):
        known = kit.crates_of(ROOT)
        self.pool, self.playing = pool, playing
        self.told, self.tried, self.seconds = CrateMinutes(waiting=last_crates(known)), [], {}
        self.stage, self.wrong_bodies = Stage(PROVED), Stage(REFUSED)
        self.waiting = {*wrong_bodies.crates_with_edits()}
        chance = ",".join(sorted(wrong_bodies.plan_of(known, []).chance))
        self.beside = ["nice", "-n", "19", sys.executable, "tests/wrong_bodies.py", "--built", "--chance", chance]

    def run(self):
        self.told.start()
        self.stage.run([*in_lanes(), "rt", "ci"], self.hear, self.begin)
        self.told.over.set()
        self.told.join()

    def begin(self, process):
        self.told.roots.add(process.pid)

    def hear(self, line):
        crate = self.told.hear(line, time.monotonic())
        if crate:
            self.playing.tell(crate)
        if crate in self.waiting:
            self.waiting.remove(crate)
            self.tried.append(self.pool.submit(self.try_wrong_bodies, crate))

    def try_wrong_bodies(self, crate):
        start = time.monotonic()
        self.wrong_bodies.run([*self.beside, crate])
        self.seconds[crate] = time.monotonic() - start


def last_crates(known):
    """The crates on which none stands, but for the largest of them."""
    used = {low.name for it in known.values() for low in it.deps}
    sizes = {it.name: sum(it.read(path).count("\n") for path in it.files()) for it in known.values() if it.name not in used}
    return {*sizes} - {max(sizes, key=sizes.get)}


def has_room(parts):
    """Whether there is memory for so many proofs at once."""
    return wrong_bodies.free_memory() >= PROOF * parts


def in_lanes():
    """The words before `rt ci` by which it uses all processors, where there is memory for a proof on each: it reckons with
    thrice what one takes, and leaves processors idle beside large crates."""
    return ["env", f"RT_JOBS={PROCESSORS}"] if has_room(PROCESSORS) else []


def main():
    playing = Playing()
    # two crates' wrong bodies beside the proofs, which leaves memory for these; and what is played
    with ThreadPoolExecutor(2) as pool, ThreadPoolExecutor(2) as players:
        proofs = Proofs(pool, playing)
        played = [players.submit(playing.play)] if has_room(PROCESSORS + 1) else []
        proofs.run()
        if proofs.stage.is_well:
            playing.tell(PROVED)
            played += [players.submit(playing.play) for _ in range(2 - len(played))]
        else:
            # what is not proved is not built either
            playing.give_up()
        for it in [*played, *proofs.tried]:
            it.result()
    return told_of(proofs, [proofs.stage, proofs.wrong_bodies, *playing.stages.values()])


def told_of(proofs, stages):
    """Prints what the gate found, and gives its exit status."""
    stages = [it for name in COUNTED for it in stages if it.name == name and it.has_run]
    is_well = all(it.is_well for it in stages) and len(stages) == len(COUNTED) and not proofs.waiting
    print("\n".join(["", "Minutes by crate:", "", *proofs.told.table(proofs.seconds)]))
    rows = [f"| {it.name} | {it.minutes:.1f} |" for it in stages]
    print("\n".join(["", "Minutes by stage:", "", "| Stage | Minutes |", "|---|---|", *rows, ""]))
    told = ", ".join(f"{it.count} {it.name} ({it.minutes:.0f} min)" for it in stages)
    print(f"gate {'passed' if is_well else 'FAILED'}: {told}")
    return 0 if is_well else 1


if __name__ == "__main__":
    sys.exit(main())
