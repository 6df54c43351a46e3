"""What was refused before, and which wrong bodies are tried again.

tests/wrong_bodies/refused.txt has a line for each edit that was refused: its name, and checksums of its text, of
its crate's files, of the contracts and definitions that the crate stands on, and of what judges it: the toolchain's
logic, refusals.py, renamed_proof.py and same_body.py. Comments count for nothing, since no proof sees them. Only wrong_bodies.py writes it, and it goes with the repository, so
that a machine which never tried an edit knows of it. What this machine refused itself is kept in ~/.cache/birchagain/wrong_bodies
too, or in the folder that WRONG_BODIES_KEPT names, a file for each, named by the same sums.

An edit is tried where its text, its crate or its judge changed since. Where only contracts or definitions below
changed, a tenth is tried, which the commit chooses. Of all that the file alone vouches for, each run tries `CHANCES`
more by chance; one that is not refused makes the file void.
"""

import fcntl
import functools
import hashlib
import os
from typing import NamedTuple

import kit

HERE = os.path.dirname(os.path.abspath(__file__))
FILE = f"{HERE}/wrong_bodies/refused.txt"
HEAD = "# edit, sums of its text, its crate, what that stands on, its judge: tests/wrong_bodies.py writes this"
CHANCES = 40


class Sums(NamedTuple):
    """Checksums of all that a refusal hangs on."""

    edit: str
    crate: str
    below: str
    judge: str

    def of(self, text):
        """The same with the sum of an edit's text."""
        return self._replace(edit=sum_of(text))


def sum_of(*words):
    return hashlib.sha256(repr(words).encode()).hexdigest()[:16]


@functools.cache
def judge_sum():
    """A checksum of what says whether an edit is refused."""
    texts = []
    for name in ("refusals.py", "renamed_proof.py", "same_body.py"):
        with open(f"{HERE}/{name}", encoding="utf-8") as it:
            texts.append(it.read())
    return sum_of(kit.logic(), *texts)


def around(crate):
    """The sums of an edit of this crate, as it now stands, but for the edit's own: `of` fills that in."""
    return Sums("", sum_of(crate.own_sum()), sum_of(crate.contracts_sum()), judge_sum())


def why_tried(name, now, before, commit):
    """Why an edit is tried, or nothing where its refusal stands."""
    if before is None:
        return "not refused before"
    if now.edit != before.edit:
        return "its text changed"
    if now.crate != before.crate:
        return "its crate changed"
    if now.judge != before.judge:
        return "the logic changed, or what counts as refused"
    if now.below != before.below and is_of_the_tenth(name, commit):
        return "contracts below changed, and it is of this commit's tenth"
    return None


def is_of_the_tenth(name, commit):
    return int(sum_of(commit, name), 16) % 10 == 0


def by_chance(names, seed, count=CHANCES):
    """As many of the names as are tried by chance: those from one on, by name, which the seed chooses. So each is as
    likely as any other, and they are of few crates, each of which costs a first check."""
    names = sorted(names)
    first = int(sum_of(seed), 16) % max(len(names), 1)
    return [*names[first:], *names[:first]][:count]


def parsed(lines):
    """What lines of the file say: the sums of each edit that was refused, by its name."""
    found = [line.split() for line in lines if not line.startswith("#")]
    return {words[0]: Sums(*words[1:]) for words in found if len(words) == 1 + len(Sums._fields)}


def read(path=FILE):
    """What the file says."""
    try:
        with open(path, encoding="utf-8") as it:
            fcntl.flock(it, fcntl.LOCK_SH)
            return parsed(it)
    except FileNotFoundError:
        return {}


def may_write():
    """Whether the file is written: a machine that decides what lands only reads it."""
    return os.environ.get("CI") != "true"


def write(changed, path=FILE):
    """Puts these edits' sums into the file, in which crates that are tried beside each other write in turn; takes
    out those that have none, and those whose edit is gone."""
    if not may_write():
        return
    try:
        with open(path, "a+", encoding="utf-8") as it:
            fcntl.flock(it, fcntl.LOCK_EX)
            it.seek(0)
            found, folder = {**parsed(it), **changed}, os.path.dirname(path)
            left = {name: sums for name, sums in found.items() if sums and os.path.isfile(f"{folder}/{name}")}
            it.truncate(0)
            it.write("\n".join([HEAD, *(f"{name} {' '.join(left[name])}" for name in sorted(left)), ""]))
    except OSError as why:
        print(f"wrong bodies: {path} is not written: {why}", flush=True)


def void(path=FILE):
    """Takes all that the file says out of it."""
    write(dict.fromkeys(read(path)), path)


class Here:
    """What this machine refused itself."""

    def __init__(self):
        self.folder = os.environ.get("WRONG_BODIES_KEPT") or os.path.expanduser("~/.cache/birchagain/wrong_bodies")

    def file(self, name, sums):
        return f"{self.folder}/{sum_of(name, *sums)}"

    def has(self, name, sums):
        return os.path.isfile(self.file(name, sums))

    def keep(self, name, sums):
        try:
            os.makedirs(self.folder, exist_ok=True)
            with open(self.file(name, sums), "w", encoding="utf-8") as it:
                it.write(f"{name}\n")
        except OSError:
            pass  # (where nothing can be kept it is tried again)


class Plan:
    """Which edits a run tries: those whose refusal does not stand, and those that it draws by chance."""

    def __init__(self, commit, is_all=False, before=None, here=None):
        self.before, self.here = read() if before is None else before, here or Here()
        self.commit, self.is_all, self.chance = commit, is_all, set()

    def stands(self, name, sums):
        """Where a refusal stands: here, or in the repository's file alone; and else why the edit is tried."""
        if self.here.has(name, sums):
            return "here", ""
        why = why_tried(name, sums, self.before.get(name), self.commit)
        return ("" if why else "in the repository"), why

    def why_tried(self, name, sums):
        """Why an edit is tried in this run, or nothing where it is not."""
        where, why = self.stands(name, sums)
        if self.is_all:
            return "all are"
        return why or ("by chance" if where != "here" and name in self.chance else None)

    def is_vouched_for(self, name, sums):
        """Whether the file says that the edit is refused, whatever changed below its crate."""
        before = self.before.get(name)
        return before is not None and before == sums._replace(below=before.below)
