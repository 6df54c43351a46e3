#!/usr/bin/env python3
"""Whether docs/ASSUMPTIONS.md names the toolchain's crates that each program of crates.txt stands on.

    python3 tests/assumptions.py
"""

import os
import re
import sys

sys.dont_write_bytecode = True

import kit

ROOT = os.path.realpath(os.path.join(os.path.dirname(os.path.abspath(__file__)), ".."))
PAGE = "docs/ASSUMPTIONS.md"
# std is always there
EVERYWHERE = "std"


def told():
    """What the table says, by program."""
    with open(f"{ROOT}/{PAGE}", encoding="utf-8") as it:
        table = it.read().partition("| Program | Crates |\n|---|---|\n")[2]
    rows = [[re.findall(r"`(\w+)`", cell) for cell in row] for row in re.findall(r"^\|(.*)\|(.*)\|$", table, re.M)]
    return {program: {*crates} for programs, crates in rows for program in programs}


def used():
    """What crates.txt says, by program."""
    crates = [it for it in kit.crates_of(ROOT).values() if os.path.isfile(f"{it.folder}/src/main.rt")]
    return {it.name: {name for low in [it, *it.below()] for name in low.of_kit} - {EVERYWHERE} for it in crates}


def main():
    said, so = told(), used()
    faults = [it for it in sorted({*said, *so}) if said.get(it) != so.get(it)]
    for it in faults:
        print(f"{PAGE}: {it} stands on {sorted(so.get(it, ()))}, and the page says {sorted(said.get(it, ()))}")
    print(f"assumptions: {'NOT AS crates.txt SAYS' if faults else f'{len(so)} programs as crates.txt says'}")
    return 1 if faults else 0


if __name__ == "__main__":
    sys.exit(main())
