#!/usr/bin/env python3
"""Tries wrong bodies: each edit in tests/wrong_bodies/CRATE must be refused by that crate's contracts.

    python3 tests/wrong_bodies.py [--built] [--all] [--write] [--said FOLDER] [--chance NAMES] [CRATE..]
    python3 tests/wrong_bodies.py --look [CRATE..]

wrong_edit.py says what an edit is. A function's proof stands on the contracts of what it calls and not on
their bodies, so edits of different functions are tried in one check. A batch has at most one edit of a
function. Functions of a cycle have one proof, whose goals are named by the functions. An edit counts only where the
check says of its own function that it is not proved and shows which goal fails; that a function only calls another
which is not proved, or that a proof only lost a name, does not count (refusals.py). What a batch leaves undecided so is
tried once more, and at last alone, with the names that it lost changed along in its proof (renamed_proof.py). First the crate as it stands must be proved for these functions; each check of a
batch begins with the work that this one kept. Right behind `rt ci`, which has proved it, the first batch goes
without that, and the others begin with the work that the first one kept, two beside each other where there are
processors and memory for them.

A wrong body changes a value in the function nearest to callers, where there is a choice, and keeps the names, so that
a clause refuses it and not a name that a proof lost. None but one lies in crates/CRATE/must-fail, where `rt ci` tries it
anew whenever anything below changed, over one more proof of the whole crate: it names no function.

An edit whose line says `refused by: the compiler, CODE` must not reach the prover: it is tried alone, and the
check must end with that error.

What was refused is kept, in the repository and on this machine, and tried again where refused_before.py says so;
--all tries every one. A run draws by chance what it tries of those that the repository alone vouches for, and prints
what it drew by; --chance has the names, with commas between them, where the gate has drawn. What stays undecided is
named and counted apart. Libraries are built where
they have changed; with --built they are taken as `rt ci` has left them. --write writes the lines `refused by:` anew
from what the checks say, and --said keeps what they wrote. --look tries none, and says at once which can't be tried. RT_JOBS says how many processors are used. The exit
status is 1 where an edit is proved, or can't be tried.
"""

import os
import re
import shutil
import subprocess
import sys
import tempfile
import threading
import time
from concurrent.futures import ThreadPoolExecutor

sys.dont_write_bytecode = True
HERE = os.path.dirname(os.path.abspath(__file__))
sys.path.insert(0, HERE)

import kit  # noqa: E402
import refused_before  # noqa: E402
from refusals import Verdict, goals_of, messages, own_folders  # noqa: E402
from renamed_proof import renamed, renames_of  # noqa: E402
from wrong_edit import COMPILER, BadEdit, Edit, batches_of  # noqa: E402

ROOT = os.path.dirname(HERE)
EDITS = f"{HERE}/wrong_bodies"
FLAGS = ("--built", "--all", "--write", "--said", "--chance", "--look")
# what a check takes at most, in bytes
ROOM = 3_000_000_000
# how often a proof gets names that an edit changed
ROUNDS = 4
PRINTING = threading.Lock()


class Lanes:
    """The processors, shared by the crates that are still being tried."""

    def __init__(self):
        fixed = os.environ.get("RT_JOBS", "")
        here = len(os.sched_getaffinity(0))
        self.count = max(1, int(fixed) if fixed.isdigit() else min(here, free_memory() // ROOM))
        self.crates = 0

    def done(self):
        self.crates -= 1

    def jobs(self):
        """How many jobs a check gets: more than one where fewer crates are left than processors."""
        return max(1, self.count // max(self.crates, 1))


class Trial:
    """The edits of one crate: how many went as wanted, how many did not, and how many stay undecided."""

    def __init__(self, crate, options, lanes, plan):
        self.crate, self.options, self.lanes, self.plan = crate, options, lanes, plan
        self.around, self.counts = refused_before.around(crate), [0, 0, 0]
        self.left = self.edits_left()
        # how many of its checks run beside each other
        self.beside = 1

    def tell(self, name, is_well, said, how="not tried"):
        self.count(not is_well, name, said, how)

    def tell_undecided(self, edit, said, how):
        """Says that no goal shows whether a contract refuses an edit."""
        self.count(2, edit.name, said, how)

    def count(self, which, name, said, how):
        self.counts[which] += 1
        with PRINTING:
            print(f"wrong body {self.crate.name}/{name} ({how}): {' '.join(said.split())}", flush=True)

    def tell_not_refused(self, edit, said, how):
        """Says that a check has not refused an edit; where the repository's file vouched for it, that is void."""
        self.tell(edit.name, False, said, how)
        if self.plan.is_vouched_for(f"{self.crate.name}/{edit.name}", self.around.of(edit.text)):
            with PRINTING:
                print(f"wrong bodies: {refused_before.FILE} vouched for it, and is void: --all is to run", flush=True)
            refused_before.void()

    def run(self):
        """Tries the edits that are left."""
        with tempfile.TemporaryDirectory(prefix="wrong-bodies-") as room:
            self.try_all(self.left, room)
        self.lanes.done()

    def edits_left(self):
        """The edits that are tried: all but those whose refusal stands."""
        left = []
        for edit in self.edits():
            name, sums = f"{self.crate.name}/{edit.name}", self.around.of(edit.text)
            if self.plan.why_tried(name, sums):
                left.append(edit)
            else:
                where, _ = self.plan.stands(name, sums)
                self.tell(edit.name, True, f"refused before by {edit.refused_by}", f"kept {where}")
        return left

    def keep(self, edit):
        """Notes that an edit was refused, here and in the repository."""
        name, sums = f"{self.crate.name}/{edit.name}", self.around.of(edit.text)
        self.plan.here.keep(name, sums)
        refused_before.write({name: sums})

    def is_current(self):
        """Whether nobody has changed the crate since."""
        return self.around == refused_before.around(self.crate)

    def edits(self):
        """The crate's edits that can be tried."""
        folder = f"{EDITS}/{self.crate.name}"
        for name in sorted(os.listdir(folder)):
            with open(f"{folder}/{name}", encoding="utf-8") as it:
                text = it.read()
            try:
                edit = Edit(self.crate, name, text)
                if not edit.refused_by and "--write" not in self.options:
                    raise BadEdit("it has no line refused by:")
                yield edit
            except BadEdit as why:
                self.tell(name, False, f"BAD EDIT: {why}")

    def try_text(self, edit):
        """Checks an edit that the compiler must refuse."""
        start = time.monotonic()
        with tempfile.TemporaryDirectory(prefix="wrong-bodies-") as kept:
            status, lines = self.check(edit.name, [edit], edit.apply(self.crate, {}), kept)
        how, code = f"{time.monotonic() - start:.0f} s, alone", edit.refused_by.removeprefix(COMPILER)
        said = next((it for it in lines if f"error[{code}]" in it), None)
        if said and self.is_current():
            self.keep(edit)
        if said or status is None:
            self.tell(edit.name, said is not None, said or f"the compiler does not say {code}: {lines[-1]}", how)
        else:
            self.tell_not_refused(edit, f"NOT REFUSED: {lines[-1]}", how)

    def try_all(self, edits, room):
        """Checks the crate as it stands, then the edits in batches, and at last alone what two batches left."""
        for edit in edits:
            if edit.is_of_compiler():
                self.try_text(edit)
        edits = [it for it in edits if not it.is_of_compiler()]
        seed = f"{room}/seed"
        linked(kit.kept_work(self.crate), seed)
        left, undecided = edits if "--built" in self.options else self.proved_before(edits, seed), []
        while left:
            # without any kept work the first batch goes alone, and leaves some
            batches = batches_of(self.crate, left)[: self.room() if os.listdir(seed) else 1]
            again = self.try_batches(batches, seed, room)
            tried = [it for batch, _ in batches for it in batch]
            # what a batch does not decide shares a later one
            left = [it for it in left if it not in tried] + [it for it in again if it not in undecided]
            undecided += again
        alone = dict.fromkeys(it for it in undecided if undecided.count(it) > 1)
        self.try_batches([([it], it.apply(self.crate, {})) for it in alone], seed, room)

    def room(self):
        """How many checks may run beside each other, with two processors each, while memory is left for others."""
        return max(1, min(self.lanes.jobs() // 2, free_memory() // (2 * ROOM)))

    def try_batches(self, batches, seed, room):
        """Tries batches beside each other, and returns the edits that they leave undecided."""
        self.beside = max(1, min(self.room(), len(batches)))
        with ThreadPoolExecutor(self.beside) as pool:
            left = pool.map(lambda it: self.try_batch(*it, seed, room), batches)
            return [edit for it in left for edit in it]

    def proved_before(self, edits, seed):
        """Those of the edits whose functions are proved in the crate as it stands: all or none, but for those
        that name no function."""
        if not edits:
            return []
        start = time.monotonic()
        status, lines = self.check("as it stands", edits, {}, seed)
        unknown = re.search(r"has no function `(\S+)`", lines[-1])
        if unknown and any(it.path == unknown[1] for it in edits):
            for edit in edits:
                if edit.path == unknown[1]:
                    self.tell(edit.name, False, f"BAD EDIT: {lines[-1]}")
            return self.proved_before([it for it in edits if it.path != unknown[1]], seed)
        if status != 0:
            for edit in edits:
                self.tell(edit.name, False, f"the crate as it stands is not proved: {lines[-1]}")
            return []
        with PRINTING:
            print(f"{self.crate.name} as it stands ({time.monotonic() - start:.0f} s): proved", flush=True)
        return edits

    def try_batch(self, batch, texts, seed, room):
        """Tries these edits in one check, and returns those that it leaves undecided."""
        start, left = time.monotonic(), []
        status, lines = self.check_over(batch, texts, seed, room)
        # (whoever changes the crate while it is checked has it checked again)
        is_kept = self.is_current()
        how = f"{time.monotonic() - start:.0f} s, {f'one of {len(batch)}' if len(batch) > 1 else 'alone'}"
        for edit in batch:
            verdict, along = Verdict(self.crate, edit, lines), ""
            if len(batch) == 1 and status is not None and verdict.is_undecided():
                verdict, along = self.with_renamed_proof(edit, lines, seed, room), ", its proof's names changed along"
            refusal = verdict.refusal() if status is not None else None
            if refusal and is_told_apart(edit, batch, refusal[1]):
                self.settle(edit, *refusal, f"{how}{along}", is_kept)
            elif len(batch) > 1 and (status is not None or self.is_read(edit, seed)):
                left.append(edit)
            elif status is not None and verdict.is_undecided():
                self.tell_undecided(edit, verdict.why_not(), f"{how}{along}")
            elif status is not None:
                self.tell_not_refused(edit, verdict.why_not(), f"{how}{along}")
            elif len(batch) == 1:
                self.tell(edit.name, False, f"BAD EDIT: it did not reach the prover: {' '.join(lines)[:300]}", how)
        return left

    def check_over(self, batch, texts, seed, room):
        """Checks a batch over what was proved before."""
        if not os.listdir(seed):
            # what is proved beside the wrong bodies need not be proved again
            return self.check(batch[0].name, batch, texts, seed)
        with tempfile.TemporaryDirectory(dir=room) as over:
            linked(seed, f"{over}/seed")
            return self.check(batch[0].name, batch, texts, f"{over}/seed")

    def with_renamed_proof(self, edit, lines, seed, room):
        """What checks say of an edit whose proof has lost names, once it has those that are there now. Each check
        shows what the names before it hid."""
        texts, verdict, names = edit.apply(self.crate, {}), Verdict(self.crate, edit, lines), {}
        own = [it for it in self.crate.files(("proofs",)) if re.match(own_folders(edit), it)]
        for _ in range(ROUNDS):
            found = renames_of(messages(lines), names)
            if not found or not verdict.is_undecided():
                break
            names |= found
            texts |= {path: renamed(texts.get(path) or self.crate.read(path), found) for path in own}
            status, lines = self.check_over([edit], texts, seed, room)
            if status is None:
                break
            verdict = Verdict(self.crate, edit, lines)
        return verdict

    def is_read(self, edit, seed):
        """Whether the crate with this edit alone is one that can be checked, as a batch with it was not."""
        status, lines = self.check(edit.name, [], edit.apply(self.crate, {}), seed)
        if status != 0:
            self.tell(edit.name, False, f"BAD EDIT: it does not reach the prover: {' '.join(lines)[:300]}")
        return status == 0

    def settle(self, edit, words, message, how, is_kept):
        """Says by what an edit is refused, and keeps it."""
        if "--write" in self.options:
            rest = re.sub(r"^refused by: .*\n", "", edit.text, flags=re.M)
            edit.text = re.sub(r"^(checked: .*\n)", rf"\1refused by: {words[0]}\n", rest, count=1, flags=re.M)
            edit.refused_by = words[0]
            with open(f"{EDITS}/{self.crate.name}/{edit.name}", "w", encoding="utf-8") as it:
                it.write(edit.text)
        if is_kept:
            self.keep(edit)
        if edit.refused_by in words:
            said = edit.refused_by
        else:
            said = f"{words[0]} (and not, as its line says, by {edit.refused_by})"
        self.tell(edit.name, True, f"refused by {said}: {message[:160]}", how)

    def check(self, name, edits, texts, kept):
        """Checks the functions of these edits in a copy of the crate with these texts in place of its own:
        the status, or None where the check came to no answer, and its lines. Of no edit, it reads the crate."""
        with tempfile.TemporaryDirectory(prefix="wrong-bodies-") as room:
            for path in self.crate.files():
                os.makedirs(os.path.dirname(f"{room}/{path}"), exist_ok=True)
                with open(f"{room}/{path}", "w", encoding="utf-8") as it:
                    it.write(texts.get(path) or self.crate.read(path))
            paths = sorted({it.path for it in edits}) or [""]
            jobs = max(1, self.lanes.jobs() // self.beside)
            status, lines = kit.check(self.crate, room, kept, paths, jobs)
        said = option(self.options, "--said")
        if said:
            os.makedirs(said, exist_ok=True)
            with open(f"{said}/{self.crate.name} {name} {len(edits)}", "w", encoding="utf-8") as it:
                it.write("\n".join(lines))
        is_answer = re.fullmatch(r"only=\d+ proved=\d+", lines[-1]) and status in (0, 1)
        return (status if is_answer else None), lines


def is_told_apart(edit, batch, message):
    """Whether a message is about this edit: that of a proof which a cycle's functions share names a goal of one of them,
    where other edits of the batch are of that cycle too."""
    is_shared = any(edit.cycles() & other.cycles() for other in batch if other is not edit)
    return not is_shared or any("::" in it for it in goals_of(message))


def linked(folder, to):
    """Makes a second folder of the same files, where there is the first: a check replaces a file and never
    writes into one."""
    def link(one, other):
        try:
            os.link(one, other)
        except FileNotFoundError:
            pass  # (a check that runs there has just replaced it)
        except OSError:
            shutil.copyfile(one, other)

    if os.path.isdir(folder):
        shutil.copytree(folder, to, copy_function=link)
    else:
        os.makedirs(to)


def free_memory():
    """The free memory in bytes, under the limit of the control group too."""
    with open("/proc/meminfo", encoding="utf-8") as it:
        found = 1024 * int(re.search(r"MemAvailable:\s+(\d+)", it.read())[1])
    try:
        with open("/sys/fs/cgroup/memory.max", encoding="utf-8") as limit:
            most = int(limit.read())
        with open("/sys/fs/cgroup/memory.stat", encoding="utf-8") as it:
            return min(found, most - int(re.search(r"anon (\d+)", it.read())[1]))
    except (OSError, ValueError):
        return found  # (there is no such group, or it has no limit)


def option(words, name):
    """The word after this one."""
    return words[words.index(name) + 1] if name in words else None


def has_libraries(crates, is_after_ci, jobs):
    """Has all libraries below these crates built. What `rt ci` leaves bears no stamp, and is only taken where
    all of them come from it: where it found a library of whoever works here it has put that back, which may
    be old and fits no other."""
    below = {it.name: it for crate in crates for it in crate.below()}.values()
    if is_after_ci and all(os.path.isdir(it.rlib) and not kit.has_stamp(it) for it in below):
        return True
    return all(kit.build_library(it, jobs) for it in below)


def size(crate):
    """About how long the crate takes: its text, and more for each crate below."""
    return (1 + len(crate.below())) * sum(len(crate.read(it)) for it in crate.files())


def head():
    """The commit that is checked out, which chooses the tenth."""
    ran = subprocess.run(["git", "rev-parse", "HEAD"], cwd=ROOT, capture_output=True, text=True)
    return ran.stdout.strip()


def crates_with_edits():
    return sorted(it for it in os.listdir(EDITS) if os.path.isdir(f"{EDITS}/{it}"))


def plan_of(known, words):
    """What a run tries: what its words name by chance, or else what it draws."""
    plan, named = refused_before.Plan(head(), "--all" in words), option(words, "--chance")
    plan.chance = {*(drawn(known, plan) if named is None else named.split(","))}
    return plan


def drawn(known, plan):
    """What is tried by chance of the edits that the repository's file alone vouches for."""
    if plan.is_all:
        return []
    names = []
    for crate in (known[it] for it in crates_with_edits()):
        around = refused_before.around(crate)
        for name in os.listdir(f"{EDITS}/{crate.name}"):
            with open(f"{EDITS}/{crate.name}/{name}", encoding="utf-8") as it:
                where, _ = plan.stands(f"{crate.name}/{name}", around.of(it.read()))
            names += [f"{crate.name}/{name}"] * (where == "in the repository")
    seed = f"{plan.commit[:12]}-{time.time_ns()}"
    found = refused_before.by_chance(names, seed)
    if found:
        print(f"wrong bodies: {len(found)} of {len(names)} by chance, drawn by {seed}", flush=True)
    return found


def look(crates):
    """Reads the edits of these crates: 1 where one can't be tried, else 0."""
    count = bad = 0
    for crate in crates:
        for name in sorted(os.listdir(f"{EDITS}/{crate.name}")):
            count += 1
            try:
                with open(f"{EDITS}/{crate.name}/{name}", encoding="utf-8") as it:
                    Edit(crate, name, it.read())
            except BadEdit as error:
                bad += 1
                print(f"wrong body {crate.name}/{name}: BAD EDIT: {error}")
    print(f"wrong bodies: {count - bad} can be tried, {bad} not")
    return 1 if bad else 0


def main(words):
    # (a word that is misspelled, or --help, is not to start hours of work)
    if not {it for it in words if it.startswith("-")} <= {*FLAGS}:
        print(__doc__)
        return 2
    given = [option(words, it) for it in ("--said", "--chance")]
    names = [it for it in words if not it.startswith("--") and it not in given] or crates_with_edits()
    known = kit.crates_of(ROOT)
    if not {*names} <= {*known}:
        print(f"wrong bodies: no such crate among {' '.join(names)}")
        return 1
    if "--look" in words:
        return look(known[it] for it in names)
    lanes = Lanes()
    plan = plan_of(known, words)
    trials = [Trial(known[it], words, lanes, plan) for it in names]
    waiting = sorted((it for it in trials if it.left), key=lambda it: size(it.crate), reverse=True)
    if not has_libraries([it.crate for it in waiting], "--built" in words, lanes.count):
        return 1
    lanes.crates = len(waiting)
    with ThreadPoolExecutor(lanes.count) as pool:
        list(pool.map(Trial.run, waiting))
    wanted, failed, undecided = (sum(it) for it in zip(*(it.counts for it in trials)))
    print(f"wrong bodies: {wanted} as wanted, {undecided} undecided, {failed} not")
    return 1 if failed else 0


if __name__ == "__main__":
    sys.exit(main(sys.argv[1:]))
