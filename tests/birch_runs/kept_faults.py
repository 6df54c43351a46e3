"""Runs of `birch` by an index that is kept, whose files are damaged, locked, or fail; none costs an answer."""

import errno
import fcntl
import os
import random
import shutil
import signal
import subprocess
import time

from .kept import PATHS, SETTLING, Kept, compared, write_file

SEED = 13
# of the bytes of all files so many are turned
TURNED = 100
# no small index has as many
MANY_BYTES = 5000
QUERY = 'fox "quick brown"~2 do* name:g1'
ASKED = ["--json", "--repeats", "-k", "10000", QUERY, "some"]
LIBRARY = os.path.join(os.path.dirname(os.path.abspath(__file__)), "..", "native", "faulty_files.c")
# no run makes so many calls on the files of such a small index
MANY = 300


def check(command, report, room):
    kept, chance = Kept(command, f"{room}/faults"), random.Random(SEED)
    for path in PATHS:
        write_file(kept.folder, path, chance, [])
    time.sleep(SETTLING)
    kept.run("--index", "some")
    # so that it has a file of deletions
    write_file(kept.folder, PATHS[0], chance, [])
    time.sleep(SETTLING)
    kept.run("fox", "some")
    wanted = compared(kept.run(*ASKED))
    report.expect_same("a run without an index", compared(kept.run("--no-index", *ASKED)), wanted)
    check_turned(kept, report, chance, wanted, TURNED)
    check_small(command, report, chance, room)
    check_locked(kept, report, chance)
    check_faults(kept, report, chance, room)


def check_small(command, report, chance, room):
    """Of an index of two files and one that was left out each byte is turned."""
    kept = Kept(command, f"{room}/small")
    for name, content in (("a.txt", b"quick brown fox\n\ndog\n"), ("b.txt", b"fox g1\n"), ("c.bin", b"fox\0")):
        os.makedirs(f"{kept.folder}/some", exist_ok=True)
        with open(f"{kept.folder}/some/{name}", "wb") as it:
            it.write(content)
    time.sleep(SETTLING)
    kept.run("--index", "some")
    check_turned(kept, report, chance, compared(kept.run("--no-index", *ASKED)), MANY_BYTES)


def check_turned(kept, report, chance, wanted, most):
    """So many bytes of all files at most are turned, one in each run; then each file is missing."""
    index = kept.index_folder()
    shutil.copytree(index, f"{kept.folder}/good")
    places = [(name, at) for name in sorted(os.listdir(index)) for at in range(os.path.getsize(f"{index}/{name}"))]
    for name, at in chance.sample(places, min(most, len(places))):
        with open(f"{index}/{name}", "r+b") as it:
            it.seek(at)
            (byte,) = it.read(1)
            it.seek(at)
            it.write(bytes([byte ^ (1 << chance.randrange(8))]))
        report.expect_same(f"byte {at} of {name} turned", wanted[:3], compared(kept.run(*ASKED))[:3])
        restore(kept, index)
    for name in sorted(os.listdir(index)):
        os.remove(f"{index}/{name}")
        report.expect_same(f"{name} missing", wanted[:3], compared(kept.run(*ASKED))[:3])
        restore(kept, index)


def restore(kept, index):
    """The index as it was."""
    shutil.rmtree(index)
    shutil.copytree(f"{kept.folder}/good", index)


def check_locked(kept, report, chance):
    """Another run holds the lock while a file has changed."""
    write_file(kept.folder, PATHS[1], chance, [])
    with open(f"{kept.index_folder()}/lock", "rb") as held:
        fcntl.flock(held, fcntl.LOCK_EX)
        got = kept.run(*ASKED)
        report.expect_same("a locked one is told", True, "another run brings it up to date" in got.told)
        report.expect_same("--index says so", 2, kept.run("--index", "some").status)
    wanted = compared(kept.run("--no-index", *ASKED))
    report.expect_same("a locked one", wanted[:3], compared(got)[:3])
    report.expect_same("and behind it", wanted, compared(kept.run(*ASKED)))


def check_faults(kept, report, chance, room):
    """Each call on the index fails, or ends the run, while a file has changed."""
    library = f"{room}/faulty_files.so"
    flags = "-O2 -Wall -Wextra -Werror -shared -fPIC".split()
    subprocess.run(["cc", *flags, "-o", library, LIBRARY], check=True)
    index = kept.index_folder()
    shutil.rmtree(f"{kept.folder}/good")
    shutil.copytree(index, f"{kept.folder}/good")
    write_file(kept.folder, PATHS[2], chance, [])
    wanted = compared(kept.run("--no-index", *ASKED))
    full, broken = ({"FAULTY_ERROR": str(it)} for it in (errno.ENOSPC, errno.EIO))
    for how, words in [(full, ASKED), (broken, ["--index", "some"]), ({"FAULTY_END": "1"}, ASKED)]:
        calls = check_each_call(kept, report, wanted, library, how, words)
        report.expect_same(f"that calls failed: {calls}", True, 20 < calls < MANY - 1)


def check_each_call(kept, report, wanted, library, how, words):
    """Each call goes wrong in turn; how many there are."""
    index = kept.index_folder()
    for number in range(1, MANY):
        restore(kept, index)
        settings = {"LD_PRELOAD": library, "FAULTY_FOLDER": kept.indexes, "FAULTY_CALL": str(number), **how}
        got, is_reached = run_noted(kept, settings, words)
        name = f"call {number} of {words[0]} with {how}"
        if not is_reached:
            return number
        if "FAULTY_END" in how:
            report.expect_same(f"{name} ends it", -signal.SIGKILL, got.status)
        elif words is ASKED:
            report.expect_same(name, wanted[:3], compared(got)[:3])
        else:
            report.expect_same(f"{name} is told", True, got.status == 0 or got.told != "")
        report.expect_same(f"a run behind {name}", wanted[:3], compared(kept.run(*ASKED))[:3])
    return MANY


def run_noted(kept, settings, words):
    """A run, and whether the call was reached."""
    notes = os.memfd_create("notes")
    os.set_inheritable(notes, True)
    try:
        got = kept.run(*words, environment=settings | {"FAULTY_NOTES": str(notes)}, pass_fds=[notes])
        return got, os.fstat(notes).st_size > 0
    finally:
        os.close(notes)
