#!/usr/bin/env python3
"""An index over several machines, as bindings/python has it: on a build of which nothing is proved.

    python3 tests/distributed_runs.py [--built FOLDER] [PART..]

Each part is a program of tests/distributed_runs. They hold clusters of 1, 3 and 8 partitions beside one index with the
same segments, kill and stop workers, end coordinators, send garbage, and cut off a host of three. FOLDER has a
libbirchagain.so that was built before. Prints what went wrong, and then how many checks went as wanted. Called by
tests/gate.py.
"""

import os
import re
import subprocess
import sys
import tempfile
import time

sys.dont_write_bytecode = True

from library_runs import PYTHON, ROOT, C, build, python_with

PARTS = ("pieces", "alike", "losses", "coordinator", "hostile", "stored", "over_dask", "three_hosts")
# no part takes so many seconds
LIMIT = 1200


def run(part, library):
    """How many checks of a part went as wanted; none where one did not."""
    words = [python_with("distributed"), "-m", f"distributed_runs.{part}"]
    environment = {
        **os.environ,
        "BIRCHAGAIN_LIBRARY": library,
        "PYTHONDONTWRITEBYTECODE": "1",
        "PYTHONPATH": os.pathsep.join([PYTHON, f"{ROOT}/tests"]),
    }
    start = time.monotonic()
    how = {"stdout": subprocess.PIPE, "stderr": subprocess.STDOUT, "text": True, "errors": "replace", "cwd": "/"}
    ran = subprocess.run(words, check=False, env=environment, timeout=LIMIT, stdin=subprocess.DEVNULL, **how)
    print(f"{ran.stdout.rstrip()} ({time.monotonic() - start:.0f} s)", flush=True)
    *_, last = ran.stdout.rstrip().splitlines() or [""]
    counted = re.fullmatch(r".*: (\d+) as wanted", last)
    return int(counted[1]) if counted and ran.returncode == 0 else None


def made(room):
    """Builds the library in a folder."""
    make = ["make", "-s", "-C", C, f"OUT={room}", f"ARCHIVE={room}/built.a", f"{room}/libbirchagain.so"]
    return build(f"{room}/built.a") and subprocess.run(make, check=False).returncode == 0


def main(words):
    with tempfile.TemporaryDirectory() as room:
        folder = room
        if words[:1] == ["--built"]:
            folder, words = os.path.abspath(words[1]), words[2:]
        elif not made(room):
            return 1
        library = f"{folder}/libbirchagain.so"
        counts = [run(part, library) for part in words or PARTS]
    if None in counts:
        print(f"distributed runs: {counts.count(None)} parts failed")
        return 1
    print(f"distributed runs: {sum(counts)} as wanted")
    return 0


if __name__ == "__main__":
    sys.exit(main(sys.argv[1:]))
