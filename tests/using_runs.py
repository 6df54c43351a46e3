#!/usr/bin/env python3
"""Whether docs/USING.md leads to a program that runs: makes the repository that it shows, and runs its lines there.

    python3 tests/using_runs.py

Nothing is proved: the lines end with `rt try`. Crates are those of the last commit, as for whoever has a clone.
"""

import os
import re
import subprocess
import sys
import tempfile

ROOT = os.path.realpath(os.path.join(os.path.dirname(os.path.abspath(__file__)), ".."))
PAGE = "docs/USING.md"


def block(text, kind):
    """The one fenced block of a kind."""
    (found,) = re.findall(rf"^```{kind}\n(.*?)^```$", text, re.M | re.S)
    return found


def main():
    with open(f"{ROOT}/{PAGE}", encoding="utf-8") as it:
        text = it.read()
    # (a block of no kind begins behind an empty line, where another one's end does not stand)
    printed = re.search(r"\n\n```\n(.*?)^```$", text, re.M | re.S)[1]
    lines, program = block(text, "bash"), block(text, "rs")
    with tempfile.TemporaryDirectory() as room:
        top = f"{room}/own"
        os.symlink(ROOT, f"{room}/birchagain")
        os.makedirs(f"{top}/crates/hello/src")
        with open(f"{top}/crates/hello/src/main.rt", "w", encoding="utf-8") as it:
            it.write(program)
        how = {"cwd": top, "capture_output": True, "text": True, "check": False}
        subprocess.run(["git", "init", "--quiet"], **how)
        ran = subprocess.run(["bash", "-e", "-o", "pipefail", "-c", lines], **how)
    is_well = ran.returncode == 0 and printed in ran.stdout
    if not is_well:
        print(f"{PAGE}: its lines end with status {ran.returncode}: {ran.stdout[-600:]}{ran.stderr[-600:]}")
    print("use elsewhere: 1 as wanted" if is_well else "use elsewhere: NOT AS WANTED")
    return 0 if is_well else 1


if __name__ == "__main__":
    sys.exit(main())
