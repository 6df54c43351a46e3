#!/usr/bin/env python3
"""The library as C, Rust and Python call it: over the sources as they stand, of which nothing is proved here.

    python3 tests/library_runs.py [--built FOLDER]

The library is built with its checks, and with the makefile of bindings/c, whose header has to be C11 and C++ without a
warning. Header and package have to declare what the library exports (library_header.py). The example and all calls are
run under valgrind, which must find no fault and nothing lost. Then each of its requests for memory is refused in turn,
some of them under valgrind. It is installed, and taken away again. The example in Rust is built and run, the tests of
the Python package, and what `pip install` makes of the package. Its search page is drawn by chromium; a line says so
where there is none. What Python saves in a folder is opened by a program in Rattle, and the other way. FOLDER has
libraries that were built before. Prints what went wrong, and then how many runs went as wanted. Called by tests/gate.py.
"""

import os
import re
import shutil
import subprocess
import sys
import tempfile

sys.dont_write_bytecode = True

from library_header import declared, differ_in_python, exported, unlike_statuses, unlike_texts
from program_runs.report import Report
from unproved import give

ROOT = os.path.realpath(os.path.join(os.path.dirname(os.path.abspath(__file__)), ".."))
C, PYTHON, RUST = f"{ROOT}/bindings/c", f"{ROOT}/bindings/python", f"{ROOT}/examples/rust"
VALGRIND = ["valgrind", "-q", "--leak-check=full", "--show-leak-kinds=all", "--errors-for-leak-kinds=all", "--error-exitcode=9"]
# the files that have the library's own refusals, with their statuses
REFUSALS = ("birchagain/src/refusal.rt", "birchagain_bytes/src/refusal.rt", "birchagain_partitions/src/merge_refusal.rt", "birchagain_queries/src/refusal.rt")
# no run takes so many seconds
LIMIT = 1200
# of the runs with a refused request, one in so many is under valgrind
LOOKED_AT = 25
WEIGHED = """old: in 2 of 3, weighs 470
apple: in 2 of 3, weighs 470
owl: in 0 of 3, weighs 2079
"""
# 470 / (1 + 4) for each of its words, and of five words 470 / (1 + 5)
EXAMPLE = f"""{WEIGHED}188  an old apple tree
94  an apple a day
78  woodpeckers nest in old trees
tre*: an old apple tree
tre*: woodpeckers nest in old trees
"""
IN_RUST = f"""{WEIGHED}188  an old apple tree
78  woodpeckers nest in old trees
the quote isn't ended (at byte 4)
3 documents as bytes, 2 found
the weight is below 0
"""
# prints the same by the package that is installed
INSTALLED = """
from birchagain import Index, rarity
texts = ["an old apple tree", "an apple a day", "woodpeckers nest in old trees"]
with Index(texts) as index:
    words = ["old", "apple", "owl"]
    for word, held in zip(words, index.frequencies(words)):
        print(f"{word}: in {held} of {len(index)}, weighs {rarity(len(index), held)}")
    index.weigh_by_rarity(words)
    for hit in index.top("old apple"):
        print(f"{hit.score}  {texts[hit.document]}")
    for document in index.search("tre*"):
        print(f"tre*: {texts[document]}")
"""
# serves the notes of the repository by the package that is installed, and asks for what README asks the command
SERVED = """
import re, subprocess, sys, urllib.request
words = [sys.executable, "-m", "birchagain", "serve", f"{sys.argv[1]}/examples/notes", "--port", "0"]
process = subprocess.Popen(words, stdout=subprocess.PIPE, text=True)
process.stdout.readline()
address = process.stdout.readline().split()[0]
page = urllib.request.urlopen(f"{address}?q=%22old+apple%22+nest*").read().decode()
process.terminate()
process.wait(60)
print(re.search("<h1>(.*?)</h1>", page)[1])
"""


# saves the index of a text in a folder, of which each line is a document, and one is deleted
SAVES = """
import sys
from birchagain import Index
with open(sys.argv[1], encoding="utf-8") as it, Index(it.read().splitlines()) as index:
    index.delete(1)
    index.save(sys.argv[2])
"""
# opens the index of a text in a folder, adds a document and saves it again; prints what it finds
GOES_ON = """
import sys
from birchagain import Index
with Index.open(sys.argv[1]) as index:
    print(len(index), index.frequencies(["old", "apple", "owl"]), [it.document for it in index.top("apple")])
    index.add("an owl")
    index.save(sys.argv[1])
"""
TEXT = "an old apple tree\nan apple a day\nwoodpeckers nest in old trees\n"


def read(path):
    with open(path, encoding="utf-8") as it:
        return it.read()


def shown_in_readme():
    """What README's lines of Python print, and the lines."""
    program, printed = re.search(r"```python\n(.*?)```\n\n```\n(.*?)```", read(f"{ROOT}/README.md"), re.S).groups()
    return printed, program


class Runs:
    """Runs over the libraries in a folder, and how many there were."""

    def __init__(self, folder, room):
        self.folder, self.room, self.report, self.count = folder, room, Report("library runs"), 0

    def run(self, *words, cwd=None, **environment):
        """The run's status and all that it wrote."""
        how = {"stdout": subprocess.PIPE, "stderr": subprocess.STDOUT, "text": True, "errors": "replace"}
        env = {**os.environ, "PYTHONDONTWRITEBYTECODE": "1", **environment}
        try:
            ran = subprocess.run(words, check=False, cwd=cwd, env=env, timeout=LIMIT, stdin=subprocess.DEVNULL, **how)
        except FileNotFoundError:
            return None, f"there is no {words[0]}"
        return ran.returncode, ran.stdout

    def expect(self, name, wanted, *words, **how):
        """A run that ends well, and writes something that fits the pattern `wanted`, all of it or the last line."""
        self.count += 1
        status, text = self.run(*words, **how)
        if status == 0 and re.search(rf"(?:\A|\n){wanted}\Z", text):
            return text
        self.report.expect_same(name, (0, wanted), (status, text[-2000:]))
        return None

    def make(self, *targets, **variables):
        words = ["make", "-s", "-C", C, f"OUT={self.folder}", f"ARCHIVE={self.folder}/built.a"]
        words += [f"{name}={value}" for name, value in variables.items()]
        return self.expect(f"make {' '.join(targets)}", "", *words, *targets) is not None

    def header(self):
        """What the header and the package declare is what the library exports."""
        header = read(f"{C}/birchagain.h")
        refusals = "".join(read(f"{ROOT}/crates/{it}") for it in REFUSALS)
        kinds = read(f"{ROOT}/crates/qm_parser/src/refusal_kind.rt")
        exports = exported(f"{ROOT}/crates/birchagain_c")
        os.environ["BIRCHAGAIN_LIBRARY"] = f"{self.folder}/libbirchagain.so"
        sys.path.insert(0, PYTHON)
        from birchagain import BirchagainError, _library

        self.count += 5
        self.report.expect_same("what the header declares", exports, declared(header))
        self.report.expect_same("what the package declares otherwise", [], differ_in_python(exports, _library))
        self.report.expect_same("refusals without their status", [], unlike_statuses(header, refusals))
        told = unlike_texts(header, kinds, lambda status: str(BirchagainError(status)))
        self.report.expect_same("what is said of a typed query", [], told)
        _, symbols = self.run("nm", "-D", "--defined-only", f"{self.folder}/libbirchagain.so")
        self.report.expect_same("what the shared library has", sorted(exports), sorted(re.findall(r" T (\w+)", symbols)))

    def c_callers(self):
        """The header, the example, each call, and each of them where memory is refused."""
        header = f"{C}/birchagain.h"
        self.expect("the header as C++", "", "c++", "-std=c++11", "-Wall", "-Wextra", "-Werror", "-x", "c++", "-fsyntax-only", header)
        self.expect("the example", EXAMPLE, *VALGRIND, f"{self.folder}/example")
        self.expect("each call", r"calls: \d+ as wanted, 0 not\n", *VALGRIND, f"{self.folder}/calls")
        self.expect("an index as bytes", r"bytes: \d+ as wanted, 0 not\n", *VALGRIND, f"{self.folder}/bytes")
        self.refuse_each("refused")
        self.refuse_each("refused_bytes")

    def refuse_each(self, program):
        """Refuses the first request for memory, the second, and so on, until there are no more."""
        at, wrong = 0, None
        while wrong is None:
            at += 1
            looked_at = VALGRIND if at % LOOKED_AT == 1 else []
            status, text = self.run(*looked_at, f"{self.folder}/{program}", FAIL_AT=str(at))
            if status == 2 and at > LOOKED_AT:
                break
            self.count += 1
            if status != 0:
                wrong = (at, status, text)
        self.report.expect_same(f"a refused request for memory: {program}", None, wrong)

    def install(self):
        """Installs header and libraries, builds a program by what was installed alone, and takes it all away again."""
        to = f"{self.room}/prefix"
        if not self.make("install", PREFIX=to):
            return
        words = ["cc", f"{C}/example.c", f"-I{to}/include", f"-L{to}/lib", "-lbirchagain", "-o", f"{self.room}/shared"]
        self.expect("a program over the shared library", "", *words)
        self.expect("its run", EXAMPLE, f"{self.room}/shared", LD_LIBRARY_PATH=f"{to}/lib")
        self.make("uninstall", PREFIX=to)
        left = [name for _, _, names in os.walk(to) for name in names]
        self.report.expect_same("what is left behind an uninstall", [], left)

    def rust_caller(self):
        environment = {"BIRCHAGAIN": self.folder, "CARGO_TARGET_DIR": f"{self.room}/cargo"}
        self.expect("the example in Rust", IN_RUST, "cargo", "run", "-q", "--offline", cwd=RUST, **environment)

    def python_package(self):
        python = python_with("pytest")
        words = [python, "-m", "pytest", "-q", "-rs", "-p", "no:cacheprovider", "tests"]
        text = self.expect("pytest", r"\d+ passed.*\n", *words, cwd=PYTHON, BIRCHAGAIN_LIBRARY=f"{self.folder}/libbirchagain.so")
        if text:
            self.count += int(re.search(r"(\d+) passed", text)[1]) - 1
            # what was left out, and why
            print("".join(re.findall(r"^SKIPPED .*\n", text, re.M)), end="", flush=True)

    def beside_a_program(self):
        """A program in Rattle opens what Python saves in a folder, and Python opens what it saves."""
        program, text, python = f"{self.room}/bench_store", f"{self.room}/text", python_with("ctypes")
        if not give("bench_store", program, "--optimised"):
            self.report.expect_same("bench_store", "built", "not built")
            return
        with open(text, "w", encoding="utf-8") as it:
            it.write(TEXT)
        environment = {"PYTHONPATH": PYTHON, "BIRCHAGAIN_LIBRARY": f"{self.folder}/libbirchagain.so"}
        self.expect("Python saves", "", python, "-c", SAVES, text, f"{self.room}/python", **environment)
        self.expect("a program opens it", r"open \d+\ndocuments 3\n", program, "open", f"{self.room}/python")
        self.expect("a program saves", r"(?s:.*)", program, "save", text, f"{self.room}/program")
        found = r"3 \[2, 2, 0\] \[0, 1\]\n"
        self.expect("Python opens it, and saves there", found, python, "-c", GOES_ON, f"{self.room}/program", **environment)
        self.expect("a program opens that", r"open \d+\ndocuments 4\n", program, "open", f"{self.room}/program")

    def wheel(self):
        """Builds a wheel where no index of packages is reached, and takes the package that is in it."""
        python, copy, target = python_with("setuptools", "wheel", "pip"), f"{self.room}/package", f"{self.room}/installed"
        # setuptools writes beside the sources
        shutil.copytree(PYTHON, copy, ignore=shutil.ignore_patterns("build", "*.egg-info", "__pycache__"))
        words = ["-m", "pip", "install", "-q", "--no-index", "--no-deps", "--no-build-isolation", "--disable-pip-version-check"]
        library = f"{self.folder}/libbirchagain.so"
        self.expect("pip install", r"(?s:.*)", python, *words, "--root-user-action=ignore", "--target", target, copy, BIRCHAGAIN_LIBRARY=library)
        programs = [("the installed package", EXAMPLE, INSTALLED), ("what README shows", *shown_in_readme())]
        programs.append(("the search page", "3 passages found\n", SERVED))
        for name, printed, program in programs:
            words = [python, "-c", program, ROOT]
            self.expect(name, printed, *words, cwd=self.room, PYTHONPATH=target, BIRCHAGAIN_LIBRARY="")

    def play(self):
        if not self.make("all", *(f"{self.folder}/{name}" for name in ("calls", "refused", "bytes", "refused_bytes"))):
            return
        self.header()
        self.c_callers()
        self.install()
        self.rust_caller()
        self.python_package()
        self.beside_a_program()
        self.wheel()


def python_with(*modules):
    """A Python that has these modules: the one that runs this, or that of the system."""
    for python in (sys.executable, "/usr/bin/python3"):
        if subprocess.run([python, "-c", f"import {', '.join(modules)}"], check=False, capture_output=True).returncode == 0:
            return python
    return sys.executable


def build(archive):
    words = [sys.executable, f"{ROOT}/tests/unproved.py", "birchagain_c", archive, "--optimised"]
    return subprocess.run(words, check=False).returncode == 0


def main(words):
    with tempfile.TemporaryDirectory() as room:
        folder = os.path.abspath(words[1]) if words[:1] == ["--built"] else f"{room}/built"
        if not words:
            os.mkdir(folder)
            if not build(f"{folder}/built.a"):
                return 1
        runs = Runs(folder, room)
        runs.play()
        return runs.report.close(runs.count)


if __name__ == "__main__":
    sys.exit(main(sys.argv[1:]))
