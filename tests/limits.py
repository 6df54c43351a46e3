#!/usr/bin/env python3
"""Whether docs/LIMITS.md says what the sources do: looks up each limit in the file that stands beside it.

    python3 tests/limits.py

A row ends with a file and what stands in it. Where that is a constant, its value has to be the first number of the
row's limit; else it stands in the file to the letter, and has that number in it. A refusal that a row names has to be
one of the libraries' errors.
"""

import glob
import os
import re
import sys

sys.dont_write_bytecode = True

import kit

ROOT = os.path.realpath(os.path.join(os.path.dirname(os.path.abspath(__file__)), ".."))
PAGE = "docs/LIMITS.md"
WHERE = re.compile(r"`([^`]+)`(?: of the toolchain)?: `([^`]+)`")
# where the libraries have their refusals
ERRORS = ("crates/qm_*/src/*error.rt", "crates/qm_*/src/refusal_kind.rt")
# what stands for a number in the sources
NAMED = {"u32": 2**32 - 1, "u64": 2**64 - 1, "i64": 2**63 - 1, "Score": 2**63 - 1}
UNITS = {"": 1, "K": 1 << 10, "M": 1 << 20, "G": 1 << 30}


def read(path):
    for folder in (ROOT, kit.HOME):
        if os.path.isfile(f"{folder}/{path}"):
            with open(f"{folder}/{path}", encoding="utf-8") as it:
                return it.read()
    raise SystemExit(f"{PAGE}: there is no {path}")


def numbers_of(text):
    """The numbers that a piece of source says."""
    found = {NAMED[it] for it in re.findall(r"\w+", text) if it in NAMED}
    for digits, unit, shift in re.findall(r"\b(\d[\d_]*)([KMG]?)\b(?: << (\d+))?", text):
        found.add(int(digits.replace("_", "")) * UNITS[unit] << int(shift or 0))
    # (positions stand below a bound)
    return found | {int(it) - 1 for it in re.findall(r"\bbelow (\d+)", text)}


def fault_of(limit, past, where, refusals):
    """What is wrong with a row, if anything is."""
    found = WHERE.fullmatch(where)
    if not found:
        return "says no file and what stands in it"
    file, said = found.groups()
    text = read(file)
    constant = re.search(rf"\bconst {re.escape(said)}: [^=]+ = ([^;]+);", text)
    if not constant and said not in " ".join(text.split()):
        return f"names `{said}`, which is not in {file}"
    if int(re.search(r"\d+", limit)[0]) not in numbers_of(constant[1] if constant else said):
        return f"is not what {file} says"
    unknown = [it for it in re.findall(r"`([A-Z]\w+)`", past) if it not in refusals]
    return f"names {unknown}, which is no refusal" if unknown else None


def main():
    files = [path for it in ERRORS for path in glob.glob(f"{ROOT}/{it}")]
    refusals = {it for path in files for it in re.findall(r"^    ([A-Z]\w+)", read(os.path.relpath(path, ROOT)), re.M)}
    rows = [line.strip("| ").split(" | ") for line in read(PAGE).split("\n") if line.startswith("| ")]
    rows = [it for it in rows if it[0] != "What"]
    faults = [f"{PAGE}: the row of {it[0]} {fault}" for it in rows if (fault := fault_of(*it[1:], refusals))]
    print("\n".join(faults), end="\n" if faults else "")
    print(f"limits: {'NOT AS THE SOURCES SAY' if faults else f'{len(rows)} as the sources say'}")
    return 1 if faults else 0


if __name__ == "__main__":
    sys.exit(main())
