"""How long each crate of a run of `rt ci` takes, in minutes of the clock and of processors.

`rt ci` says when a crate is proved and not when it begins, so what it has running is looked at once a second: a
process of the prover names its crate. A table tells of all crates; one that an earlier run proved is kept.
"""

import os
import re
import threading
import time

CRATE = re.compile(rb"\0--crate-name\0(\w+)\0")
# what `rt ci` says of a crate that it has proved, or that an earlier run on this machine had
PROVED = re.compile(r"rt: (\w+) (proved|is kept: .*)")
TICKS = os.sysconf("SC_CLK_TCK")
# the priority of what others do not wait for: below that of proofs, above that of wrong bodies
LOW = 10


class CrateMinutes(threading.Thread):
    """Looks at what the processes below some take, until it is stopped."""

    def __init__(self, processes=None, waiting=()):
        """Those of these crates get what others leave of the processors."""
        super().__init__(daemon=True)
        self.processes, self.over, self.waiting = processes or running, threading.Event(), {*waiting}
        self.roots, self.begun, self.took, self.seconds, self.kept = set(), {}, {}, {}, set()

    def run(self):
        while not self.over.wait(1):
            self.look(time.monotonic())

    def look(self, now):
        """Notes what each process has taken so far, and when its crate was first seen."""
        for number, crate, seconds, is_edit in self.processes(self.roots):
            self.seconds[number, crate, is_edit] = seconds
            if not is_edit:
                self.begun.setdefault(crate, now)
            if crate in self.waiting:
                lower(number)

    def hear(self, line, now):
        """The crate that a line of `rt ci` says is proved, if it is such a line."""
        said = PROVED.fullmatch(line)
        if not said:
            return None
        if said[2] == "proved":
            self.took[said[1]] = now - self.begun.get(said[1], now)
            self.kept.discard(said[1])
        elif said[1] not in self.took:
            self.kept.add(said[1])
        return said[1]

    def table(self, tried):
        """The table of all crates, with the seconds that their wrong bodies took, in the order in which they were
        proved."""
        lines = ["| Crate | Proof | of processors | Wrong bodies |", "|---|---|---|---|"]
        spent = {}
        for (_, crate, is_edit), seconds in self.seconds.items():
            spent[crate, is_edit] = spent.get((crate, is_edit), 0) + seconds
        for crate, seconds in self.took.items():
            lines.append(row(crate, [seconds, spent.get((crate, False), 0), tried.get(crate)]))
        if self.kept:
            lines.append(row(f"kept: {len(self.kept)}", [None, None, sum(tried.get(it, 0) for it in self.kept)]))
        edits = sum(seconds for (_, is_edit), seconds in spent.items() if is_edit)
        proofs = sum(seconds for (_, is_edit), seconds in spent.items() if not is_edit)
        lines.append(row("all proofs", [None, proofs, sum(tried.values())]))
        return [*lines, row("all of must-fail/", [None, edits, None])]


def row(name, seconds):
    cells = ["" if it is None else f"{it / 60:.1f}" for it in seconds]
    return f"| {' | '.join([name, *cells])} |"


def running(roots):
    """The prover's processes below these: number, crate, seconds of a processor, whether it tries an edit."""
    found, parents = [], {}
    for number in (it for it in os.listdir("/proc") if it.isdigit()):
        try:
            with open(f"/proc/{number}/stat", "rb") as it:
                words = it.read().rpartition(b")")[2].split()
            parents[int(number)] = int(words[1])
            with open(f"/proc/{number}/cmdline", "rb") as it:
                line = it.read()
        except OSError:
            continue  # (it has just ended)
        crate = CRATE.search(line)
        if crate:
            seconds = (int(words[11]) + int(words[12])) / TICKS
            found.append((int(number), crate[1].decode(), seconds, b"/rt-edit" in line))
    return [it for it in found if is_below(it[0], roots, parents)]


def lower(number):
    """Has each thread of a process wait for others."""
    try:
        for thread in os.listdir(f"/proc/{number}/task"):
            os.setpriority(os.PRIO_PROCESS, int(thread), LOW)
    except OSError:
        pass  # (it has just ended)


def is_below(number, roots, parents):
    """Whether a process was started by one of some, or by one that these started, and so on."""
    while number and number not in roots:
        number = parents.get(number)
    return number in roots
