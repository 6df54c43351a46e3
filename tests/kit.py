"""What the tests take of the toolchain: the one file that knows its folders and the words of its commands.

`rt lib` builds a library, `rt version` names the toolchain, and `rattle check` checks a copy of a crate. Where
a crate stands, and what it uses, is read from crates.txt, which the toolchain reads too.
"""

import hashlib
import os
import shutil
import subprocess

from contracts import contracts_of, without_comments

PARTS = ("src", "specs", "proofs")
HOME = os.path.dirname(os.path.dirname(os.path.realpath(shutil.which("rt") or "")))


class Crate:
    """A crate of the repository: its line in crates.txt, its folder, and the crates that it uses."""

    def __init__(self, root, line, known):
        head, _, uses = line.partition(":")
        self.line, (self.name, *kind) = line, head.split()
        self.is_static = "staticlib" in kind
        self.folder = f"{root}/crates/{self.name}"
        self.rlib = f"{self.folder}/out/rlib/{self.name}.rlib"
        uses = uses.replace(",", " ").split()
        self.deps = [known[it] for it in uses if it in known]
        self.of_kit = ["std", *[it for it in uses if it not in known]]

    def below(self):
        """The crates that this one stands on, each after those that it uses."""
        found = []
        for dep in self.deps:
            found += [it for it in [*dep.below(), dep] if it not in found]
        return found

    def files(self, parts=PARTS):
        """What its proof is about: each file, by its path in the crate."""
        for part in parts:
            for at, folders, names in os.walk(f"{self.folder}/{part}"):
                folders.sort()
                yield from (os.path.relpath(f"{at}/{name}", self.folder) for name in sorted(names))

    def read(self, path):
        with open(f"{self.folder}/{path}", encoding="utf-8") as it:
            return it.read()

    def sum(self, parts):
        """A checksum of these folders of the crate, and of all below it, and of the toolchain."""
        made = hashlib.sha256(version().encode())
        for crate in [*self.below(), self]:
            made.update(crate.line.encode())
            for path in crate.files(parts):
                made.update(repr((path, crate.read(path))).encode())
        return made.hexdigest()

    def own_sum(self):
        """A checksum of the crate's own line and files, but for their comments."""
        made = hashlib.sha256(self.line.encode())
        for path in self.files():
            made.update(repr((path, without_comments(path, self.read(path)))).encode())
        return made.hexdigest()

    def contracts_sum(self):
        """A checksum of the contracts and definitions of the crates below, which its proof stands on."""
        made = hashlib.sha256()
        for crate in self.below():
            made.update(crate.line.encode())
            for path in crate.files():
                seen = contracts_of(path, crate.read(path))
                if seen is not None:
                    made.update(repr((path, without_comments(path, seen))).encode())
        return made.hexdigest()


def crates_of(root):
    """The crates that crates.txt names, by name."""
    with open(f"{root}/crates.txt", encoding="utf-8") as it:
        lines = [line.partition("#")[0].strip() for line in it]
    known, left = {}, [line for line in lines if line]
    names = {line.partition(":")[0].split()[0] for line in left}
    while left:
        # a line may name a crate whose own line stands further down
        waits = [line for line in left if {*line.partition(":")[2].split()} & (names - {*known})]
        for line in (it for it in left if it not in waits):
            made = Crate(root, line, known)
            known[made.name] = made
        if len(waits) == len(left):
            raise SystemExit(f"crates.txt: {waits[0]} uses a crate that uses it")
        left = waits
    return known


def version():
    return subprocess.run(["rt", "version"], capture_output=True, text=True, check=True).stdout.strip()


def logic():
    """The sum of the logic that proves. Kits of other names may have the same, and refuse the same."""
    return version().partition(" logic ")[2]


def build_library(crate, jobs):
    """Has the crate's library built, which takes no time where nothing changed: whether it is there."""
    ran = subprocess.run(["rt", "lib", "--jobs", str(jobs)], cwd=crate.folder, capture_output=True, text=True)
    if ran.returncode:
        print(f"{crate.name}: no library was built: {ran.stdout[-900:]}{ran.stderr[-900:]}")
    return ran.returncode == 0


def has_stamp(crate):
    """Whether `rt lib` or `rt check` built the library that is there, and not `rt ci`, which leaves no stamp."""
    return os.path.exists(f"{os.path.dirname(crate.rlib)}/stamp")


def kept_work(crate):
    """The folder in which checks of the crate keep their work, for the next to begin with."""
    return f"{crate.folder}/out/incremental"


def check(crate, folder, kept, paths, jobs):
    """Checks these functions of a copy of the crate, in this folder, over the work in the folder `kept`: the
    command's status, and the lines that it wrote."""
    root = "src/main.rt" if os.path.isfile(f"{folder}/src/main.rt") else "src/lib.rt"
    words = [f"{HOME}/bin/rattle", "check", "--crate-name", crate.name, root]
    words += ["--crate-type", "staticlib"] * crate.is_static
    for name in crate.of_kit:
        words += ["--extern", f"{name}={HOME}/rlibs/{name}.rlib"]
    for dep in crate.deps:
        words += ["--extern", f"{dep.name}={dep.rlib}"]
    for at in [f"{HOME}/rlibs", *[os.path.dirname(it.rlib) for it in crate.below()]]:
        words += ["-L", f"dependency={at}"]
    words += ["--antt-project", f"{HOME}/rattle/logic/antt-project.json", "--logic-built", f"{HOME}/logic_built"]
    words += ["--links", f"{crate.name}=", "--jobs", str(jobs), "--incremental", kept]
    words += [word for path in paths for word in ("--only", path)]
    how = {"stdin": subprocess.DEVNULL, "stdout": subprocess.PIPE, "stderr": subprocess.STDOUT, "errors": "replace"}
    ran = subprocess.run(words, cwd=folder, **how)
    return ran.returncode, ran.stdout.rstrip("\n").split("\n")
