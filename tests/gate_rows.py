#!/usr/bin/env python3
"""Rows of the gate itself: whether it ends, and with what verdict, where its parts pass or don't.

    python3 tests/gate_rows.py

A gate that waits for what never comes is seen only when its time is over. So here it runs in a folder with a toolchain
and parts that only say what they are told to: all well, one part or another that fails, proofs that fail, little memory.
Nothing is proved or played. The last line counts; the exit status is 1 where a row is wrong.
"""

import os
import re
import shutil
import subprocess
import sys
import tempfile

sys.dont_write_bytecode = True
HERE = os.path.dirname(os.path.abspath(__file__))
# what is tried is this text, and what it stands on
REAL = ("gate.py", "kit.py", "contracts.py", "crate_minutes.py")
# the programs of the folder, which all stand on one library
CRATES = "low:\ncases_low: low\nqm_search: low\nbirch: low\n"
RT = """#!/usr/bin/env python3
import os, sys
if sys.argv[1] == "ci":
    failed = os.environ.get("FAILING") == "rt"
    names = [line.partition(":")[0] for line in open("crates.txt", encoding="utf-8")]
    for name in names[: 1 if failed else None]:
        print(f"== {name}\\nrt: {name} proved", flush=True)
    print(f"{len(names) - failed} passed, {int(failed)} failed")
    sys.exit(failed)
print("kit logic 0")
"""
# a part: it says the line that its stage counts, unless it is the one that fails
PART = """import os, sys
PROGRAMS = {"cases_low": []}
if __name__ == "__main__":
    failing = os.environ.get("FAILING", "")
    if os.environ.get("SILENT") != NAME:
        print("a line before\\n" + LINE)
    sys.exit(failing == NAME)
"""
WRONG_BODIES = """
from types import SimpleNamespace
def crates_with_edits(): return ["low"]
def plan_of(known, words): return SimpleNamespace(chance=set())
def free_memory(): return int(os.environ["FREE"])
"""
AMPLE, LITTLE = str(10**12), "0"


def line_of(pattern):
    """A line that a stage counts, with 3 as wanted."""
    return re.sub(r"\\d\+", "0", pattern.replace(r"(\d+)", "3"))


def lay(room):
    """Lays the folder: the real gate, and parts that only speak."""
    os.makedirs(f"{room}/tests")
    os.makedirs(f"{room}/bin")
    for name in REAL:
        shutil.copyfile(f"{HERE}/{name}", f"{room}/tests/{name}")
    with open(f"{HERE}/gate.py", encoding="utf-8") as it:
        text = it.read()
    counted = dict(re.findall(r'^    "([^"]+)": r"([^"]+)",$', text, flags=re.M))
    parts = dict((file, stage) for stage, file in re.findall(r'\("([^"]+)", \["(\w+\.py)"', text))
    parts["wrong_bodies.py"] = "wrong bodies"
    for file, stage in parts.items():
        body = PART.replace("NAME", repr(file)).replace("LINE", repr(line_of(counted[stage])))
        with open(f"{room}/tests/{file}", "w", encoding="utf-8") as it:
            it.write(body.replace("\nPROGRAMS", f"{WRONG_BODIES}\nPROGRAMS") if file == "wrong_bodies.py" else body)
    with open(f"{room}/crates.txt", "w", encoding="utf-8") as it:
        it.write(CRATES)
    with open(f"{room}/bin/rt", "w", encoding="utf-8") as it:
        it.write(RT)
    os.chmod(f"{room}/bin/rt", 0o755)
    return parts


def run(room, **told):
    """Runs the gate of the folder: its exit status, how its last line begins, and how many stages that names."""
    words = {"PATH": f"{room}/bin:{os.environ['PATH']}", "FREE": AMPLE, **told}
    how = {"env": {**os.environ, **words}, "stdin": subprocess.DEVNULL, "capture_output": True, "text": True}
    try:
        ran = subprocess.run([sys.executable, f"{room}/tests/gate.py"], timeout=300, check=False, **how)
    except subprocess.TimeoutExpired:
        return "it does not end"
    last = ran.stdout.rstrip("\n").rpartition("\n")[2]
    return ran.returncode, last.partition(":")[0], last.count(" min)")


def rows(room):
    """Each row: its name, what the gate did, and what is wanted."""
    stages = len({*lay(room).values()}) + 1
    for memory in (AMPLE, LITTLE):
        yield "all is well", run(room, FREE=memory), (0, "gate passed", stages)
    # one for whom others wait, one of several parts, the last, and what goes on beside them
    for file in ("library_runs.py", "cases.py", "using_runs.py", "wrong_bodies.py"):
        yield f"{file} fails", run(room, FAILING=file), (1, "gate FAILED", stages)
    yield "a part says nothing", run(room, SILENT="birch_runs.py"), (1, "gate FAILED", stages)
    # what needs no program has run, or has not begun
    status, verdict, _ = run(room, FAILING="rt")
    yield "a crate is not proved", (status, verdict), (1, "gate FAILED")


def main():
    with tempfile.TemporaryDirectory() as room:
        found = [*rows(room)]
    wrong = [it for it in found if it[1] != it[2]]
    for name, said, wanted in wrong:
        print(f"{name}: {said!r}, and not {wanted!r}")
    print(f"gate rows: {len(found) - len(wrong)} as wanted" + (f", {len(wrong)} not" if wrong else ""))
    return 1 if wrong else 0


if __name__ == "__main__":
    sys.exit(main())
