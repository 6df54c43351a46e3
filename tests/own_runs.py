#!/usr/bin/env python3
"""Runs each program as `rt ci` does behind its proofs: in a folder of its own with what lies in crates/PROGRAM/data,
with the words of its file `args`, on its `stdin`. What it must write stands in `stdout`, its exit status in `status`.

    python3 tests/own_runs.py FOLDER

FOLDER holds the programs. `rt ci` fails where one of them writes something else, an hour after it began.
"""

import os
import shutil
import subprocess
import sys
import tempfile

sys.dont_write_bytecode = True

from cases import ROOT


def file_of(program, name, otherwise):
    """What a file beside a program's sources holds."""
    try:
        with open(f"{ROOT}/crates/{program}/{name}", "rb") as it:
            return it.read()
    except FileNotFoundError:
        return otherwise


def run(folder, program):
    """Runs a program, and says what it did otherwise than is wanted; nothing where all is well."""
    with tempfile.TemporaryDirectory() as room:
        data = f"{room}/data"
        if os.path.isdir(f"{ROOT}/crates/{program}/data"):
            shutil.copytree(f"{ROOT}/crates/{program}/data", data)
        else:
            os.mkdir(data)
        words = [f"{folder}/{program}", *file_of(program, "args", b"").decode().splitlines()]
        environment = {"PATH": "/usr/local/bin:/usr/bin:/bin", "HOME": data, "TMPDIR": data, "LANG": "C.UTF-8"}
        how = {"cwd": data, "env": environment, "capture_output": True, "timeout": 120}
        ran = subprocess.run(words, check=False, input=file_of(program, "stdin", b""), **how)
    status = int(file_of(program, "status", b"0"))
    if ran.returncode != status:
        return f"ended with {ran.returncode} instead of {status}: {ran.stderr.decode(errors='replace')}"
    if ran.stdout != file_of(program, "stdout", b""):
        return f"wrote something else than its file stdout: {ran.stdout[:2000].decode(errors='replace')}"
    return None


def main(folder):
    programs = sorted(it for it in os.listdir(f"{ROOT}/crates") if os.path.exists(f"{ROOT}/crates/{it}/src/main.rt"))
    wrong = 0
    for program in programs:
        said = run(folder, program)
        if said:
            wrong += 1
            print(f"own run of {program}: it {said}")
    print(f"own runs: {len(programs) - wrong} as wanted, {wrong} not")
    return 1 if wrong else 0


if __name__ == "__main__":
    sys.exit(main(os.path.abspath(sys.argv[1])) if len(sys.argv) == 2 else __doc__)
