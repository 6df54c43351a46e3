#!/usr/bin/env python3
"""The command `./birch` at the top of the repository, and what `make install` puts where: what a user sees first.

    python3 tests/installed_runs.py [PROGRAM]

The script is run in a folder of its own, where tests/unproved.py and `rt` only put PROGRAM in its place and note that
they did. Manual page and completions are made of PROGRAM, and read by groff, mandoc and the shells that the machine
has. PROGRAM is the one that `rt ci` built, unless it is said. Prints each difference, and then how many runs went as
wanted, or how much did not. Called by tests/gate.py.
"""

import os
import re
import shutil
import subprocess
import sys
import tempfile

sys.dont_write_bytecode = True

from birch_runs.command import Outcome
from birch_runs.formulas import norm, score, weight
from program_runs.report import Report

ROOT = os.path.realpath(os.path.join(os.path.dirname(os.path.abspath(__file__)), ".."))
BUILT = f"{ROOT}/crates/birch/out/birch"
# no run takes so many seconds
LIMIT = 300
# stands for tests/unproved.py: notes that it was called, and takes a while, or fails where a file says so
BUILDER = """import os, shutil, sys, time
open("builds", "a").write(" ".join(sys.argv[1:]) + "\\n")
time.sleep(0.3)
if os.path.exists("broken"):
    sys.exit("a source is broken")
shutil.copy({program!r}, sys.argv[2])
"""
# stands for the toolchain
TOOLCHAIN = """#!/bin/sh
echo "$PWD $*" >>"{tree}/proofs"
[ ! -e "{tree}/broken" ] || exit 1
mkdir -p out && cp {program} out/birch && exec out/birch --version
"""
NOTES = {"one/trees.txt": "An old apple tree.\n", "one/birds.txt": "An owl.\n"}
# a word that one of two documents holds, in one of four words beside one of two
POINTS = score(weight(2, 1), 1, norm(4, 2, 6))
FOUND = f"1. one/trees.txt:1  {POINTS}\n    An old [apple] tree.\n"


class Runs:
    """Runs of programs, and how many there were."""

    def __init__(self, program, report, room):
        self.program, self.report, self.room, self.count = program, report, room, 0
        self.path = os.environ["PATH"]

    def start(self, *words, folder, **how):
        self.count += 1
        pipes = {"stdin": subprocess.DEVNULL, "stdout": subprocess.PIPE, "stderr": subprocess.PIPE, "text": True}
        return subprocess.Popen(words, cwd=folder, env={**os.environ, "PATH": self.path}, **pipes, **how)

    def run(self, *words, folder):
        with self.start(*words, folder=folder) as running:
            text, told = running.communicate(timeout=LIMIT)
        return Outcome(text, running.returncode, told)

    def expect(self, name, wanted, *words, folder):
        self.report.expect_same(name, wanted, self.run(*words, folder=folder))

    def expect_same(self, name, wanted, got):
        self.report.expect_same(name, wanted, got)


def write(path, text, mode=0o644):
    os.makedirs(os.path.dirname(path), exist_ok=True)
    with open(path, "w", encoding="utf-8") as it:
        it.write(text)
    os.chmod(path, mode)


def lines_of(path):
    if not os.path.exists(path):
        return []
    with open(path, encoding="utf-8") as it:
        return it.read().splitlines()


def tree_of(runs):
    """A repository of the script and a source, in a folder whose name has a space, and notes beside it."""
    tree = f"{runs.room}/the tree"
    write(f"{tree}/crates.txt", "birch: birch_text anyhow\n")
    for crate in ("birch", "birch_text"):
        write(f"{tree}/crates/{crate}/src/main.rt", "")
    write(f"{tree}/tests/unproved.py", BUILDER.format(program=runs.program))
    write(f"{tree}/tests/kit.py", "")
    shutil.copy(f"{ROOT}/birch", tree)
    for path, text in NOTES.items():
        write(f"{runs.room}/notes/{path}", text)
    return tree


def younger(path):
    """Gives a source a time of its own, as an editor does."""
    with open(path, "a", encoding="utf-8") as it:
        it.write("\n")


def check_script(runs):
    tree, notes = tree_of(runs), f"{runs.room}/notes"
    script, source = f"{tree}/birch", f"{tree}/crates/birch_text/src/main.rt"
    first = runs.run(script, "apple", "one", folder=notes)
    runs.expect_same("a first run", (FOUND, 0, 1), (*first[:2], len(first.told.splitlines())))
    runs.expect_same("its progress", "birch: building", first.told[:15])
    runs.expect_same("what it builds", ["birch out/birch.new --unchecked"], lines_of(f"{tree}/builds"))
    runs.expect("a second run", (FOUND, 0, ""), script, "apple", "one", folder=notes)
    runs.expect("nothing found", ("", 1, ""), script, "pear", "one", folder=notes)
    os.symlink(script, f"{runs.room}/link")
    os.symlink("../link", f"{notes}/second")
    runs.expect("by a link of a link", (FOUND, 0, ""), "./second", "apple", "one", folder=notes)
    runs.expect_same("one build so far", 1, len(lines_of(f"{tree}/builds")))
    younger(source)
    both = [runs.start(script, "apple", "one", folder=notes) for _ in range(2)]
    runs.expect_same("two at once", [FOUND, FOUND], [it.communicate(timeout=LIMIT)[0] for it in both])
    runs.expect_same("one build for both", 2, len(lines_of(f"{tree}/builds")))
    check_failed_builds(runs, tree, script, source)
    check_proved(runs, tree, script)


def check_failed_builds(runs, tree, script, source):
    younger(source)
    write(f"{tree}/broken", "")
    failed = runs.run(script, "apple", "one", folder=f"{runs.room}/notes")
    said = ["a source is broken", "birch: the build failed, so nothing is searched"]
    runs.expect_same("a failed build", ("", 3, said), (*failed[:2], failed.told.splitlines()[1:]))
    os.remove(f"{tree}/broken")
    # only these commands are there
    commands = f"{runs.room}/commands"
    os.mkdir(commands)
    for path in filter(None, map(shutil.which, ("sh", "sed", "find", "dirname", "readlink", "mkdir", "flock"))):
        os.symlink(path, f"{commands}/{os.path.basename(path)}")
    runs.path = commands
    without = runs.run(script, "apple", "one", folder=f"{runs.room}/notes")
    runs.expect_same("no toolchain", ("", 3), without[:2])
    runs.expect_same("where it comes from", True, "no command rt" in without.told and "README.md" in without.told)
    runs.path = os.environ["PATH"]


def check_proved(runs, tree, script):
    notes, own = f"{runs.room}/notes", f"{runs.room}/own"
    write(f"{own}/rt", TOOLCHAIN.format(tree=tree, program=runs.program), 0o755)
    runs.path = f"{own}:{os.environ['PATH']}"
    write(f"{tree}/broken", "")
    runs.expect_same("a failed proof", ("", 3), runs.run(script, "--proved", "apple", "one", folder=notes)[:2])
    os.remove(f"{tree}/broken")
    proved = runs.run(script, "--proved", "apple", "one", folder=notes)
    runs.expect_same("the proved program", (FOUND, 0), proved[:2])
    proofs = [f"{tree}/crates/birch run -- --version"] * 2
    runs.expect_same("how it is proved", proofs, lines_of(f"{tree}/proofs"))
    told = f"birch: {tree}/crates/birch/out/birch is proved: the toolchain builds only what it has proved\n"
    runs.expect("what it is", ("", 0, told), script, "--proved", folder=notes)
    runs.expect_same("no further proof", proofs, lines_of(f"{tree}/proofs"))
    runs.path = os.environ["PATH"]


def version():
    """The first version of CHANGELOG.md."""
    with open(f"{ROOT}/CHANGELOG.md", encoding="utf-8") as it:
        return re.search(r"^## (\d+\.\d+\.\d+)", it.read(), re.M)[1]


def make(runs, *words):
    """Runs make with the program; what it made is left in a folder of the tests."""
    given = [f"PROGRAM={runs.program}", f"PAGES={runs.room}/pages"]
    return runs.run("make", "-s", *words, *given, folder=ROOT)


def files_below(folder):
    return sorted(f"{at}/{name}".removeprefix(f"{folder}/") for at, _, names in os.walk(folder) for name in names)


def check_install(runs):
    prefix, staged = f"{runs.room}/prefix", f"{runs.room}/staged"
    wanted = [
        "bin/birch",
        "share/bash-completion/completions/birch",
        "share/doc/birch/LICENSE",
        "share/fish/vendor_completions.d/birch.fish",
        "share/man/man1/birch.1",
        "share/zsh/site-functions/_birch",
    ]
    runs.expect_same("make install", ("", 0, ""), make(runs, "install", f"PREFIX={prefix}"))
    runs.expect_same("what is installed", wanted, files_below(prefix))
    runs.expect("as installed", (FOUND, 0, ""), f"{prefix}/bin/birch", "apple", "one", folder=f"{runs.room}/notes")
    runs.expect("its version", (f"birch {version()}\n", 0, ""), f"{prefix}/bin/birch", "--version", folder=prefix)
    make(runs, "install", f"DESTDIR={staged}", "PREFIX=/usr")
    runs.expect_same("what is staged", [f"usr/{it}" for it in wanted], files_below(staged))
    runs.expect_same("make uninstall", ("", 0, ""), make(runs, "uninstall", f"DESTDIR={staged}", "PREFIX=/usr"))
    runs.expect_same("what is left", ([], False), (files_below(staged), os.path.exists(f"{staged}/usr/share/doc/birch")))
    check_manual(runs, f"{prefix}/share/man/man1/birch.1")
    check_completions(runs, f"{prefix}/share")


def options(runs):
    """The options that the program names."""
    text = runs.run(runs.program, "--help", folder=runs.room).text
    return re.findall(r"^ +(?:-\w, )?(--[\w-]+)", text, re.M)


def check_manual(runs, page):
    words = options(runs)
    runs.expect_same("that there are options", True, {"--csv", "--help", "--version"} <= {*words})
    if shutil.which("groff"):
        runs.expect("groff's warnings", ("", 0, ""), "groff", "-man", "-ww", "-z", page, folder=runs.room)
        shown = runs.run("groff", "-man", "-Tascii", "-P-cbou", page, folder=runs.room).text
        runs.expect_same("options not in the page", [], [it for it in words if it not in shown])
        runs.expect_same("its version", True, f"birch {version()}" in shown)
    if shutil.which("mandoc"):
        runs.expect("mandoc's warnings", ("", 0, ""), "mandoc", "-Tlint", "-Wwarning", page, folder=runs.room)


# completes these words, of which the last is begun, and prints what they may go on with
COMPLETE = """. "$0"; COMP_WORDS=("$@"); COMP_CWORD=$(($# - 1)); _birch; printf '%s\\n' "${COMPREPLY[@]}" """


def check_completions(runs, share):
    bash, zsh = f"{share}/bash-completion/completions/birch", f"{share}/zsh/site-functions/_birch"
    fish = f"{share}/fish/vendor_completions.d/birch.fish"
    for shell, file in (("bash", bash), ("zsh", zsh), ("fish", fish)):
        if shutil.which(shell):
            runs.expect(f"{file} in {shell}", ("", 0, ""), shell, "-n", file, folder=runs.room)
    words = options(runs)
    for begun, wanted in (
        (["--"], words),
        (["--co"], [it for it in words if it.startswith("--co")]),
        (["--color", "a"], ["auto", "always"]),
        (["--color", "=", "n"], ["never"]),
        (["app"], [""]),
    ):
        found = runs.run("bash", "-c", COMPLETE, bash, "birch", *begun, folder=runs.room)
        runs.expect_same(f"completions of {begun}", (sorted(wanted), ""), (sorted(found.text.splitlines()), found.told))
    for file in (zsh, fish):
        text = "\n".join(lines_of(file))
        named = [it for it in words if f"{it}" in text or f"-l {it[2:]} " in text]
        runs.expect_same(f"options in {file}", words, named)


def main():
    program = os.path.abspath(sys.argv[1] if len(sys.argv) > 1 else BUILT)
    if not os.access(program, os.X_OK):
        print(f"installed runs: {program} is missing")
        return 1
    report = Report("installed runs")
    with tempfile.TemporaryDirectory() as room:
        runs = Runs(program, report, room)
        check_script(runs)
        check_install(runs)
    return report.close(runs.count)


if __name__ == "__main__":
    sys.exit(main())
