#!/usr/bin/env python3
"""Looks whether each crate's files stand in the layout of `rt fmt`, within seconds.

    python3 tests/layout.py

`rt ci` takes a crate that does not for one that is not proved, and so all above it. The last line counts the crates.
"""

import os
import subprocess
import sys

sys.dont_write_bytecode = True

import kit

ROOT = os.path.realpath(os.path.join(os.path.dirname(os.path.abspath(__file__)), ".."))


def out_of_layout(crate):
    """What the toolchain says of each of the crate's files that does not stand in its layout."""
    files = [it for it in crate.files() if it.endswith((".rt", ".antt"))]
    words = [f"{kit.HOME}/bin/rattle", "fmt", "--check", *files]
    ran = subprocess.run(words, cwd=crate.folder, stdout=subprocess.PIPE, stderr=subprocess.STDOUT, text=True, check=False)
    return f"{crate.name}: {ran.stdout.strip()}: run rt fmt" if ran.returncode else ""


def main():
    crates = kit.crates_of(ROOT).values()
    told = [it for it in map(out_of_layout, crates) if it]
    print("\n".join([*told, f"layout: {len(crates) - len(told)} crates as wanted"]))
    return 1 if told else 0


if __name__ == "__main__":
    sys.exit(main())
