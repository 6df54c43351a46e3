#!/usr/bin/env python3
"""Prints what the readers say of the examples of docs/FORMAT.md, whose bytes stand there part by part.

    python3 tests/format_example.py

They have to be those of a case, and those that the plain writers write; else the exit status is 1. The page shows what
is printed, which tests/documented_commands.py compares.
"""

import os
import re
import subprocess
import sys
import tempfile

sys.dont_write_bytecode = True

from model.index_files import Told, deletions_bytes, manifest_bytes, places_bytes
from model.segment_files import segment_bytes

ROOT = os.path.realpath(os.path.join(os.path.dirname(os.path.abspath(__file__)), ".."))
PAGE, CASES = "docs/FORMAT.md", "tests/cases/qm_store"
KEY, FIELDS = 7, ["positions+lengths", "freqs"]
ROWS = [(0, b"a", [0], [[0, 2]]), (0, b"b", [0, 1], [[1], [0]]), (1, b"x", [0], [1])]
DOCUMENTS, DELETED = 5, [1, 4]
PLACES = [(3, 1, 0, 120), (3, 9, 121, 300)]
INDEX = Told(128, [(b"body", "positions", True)], 1000, [1] * 256, [(0, b"a", 2000)], [(KEY, 8, 2)], b"hi")


def read(path):
    with open(f"{ROOT}/{path}", encoding="utf-8") as it:
        return it.read()


def page_bytes(title):
    """The bytes of the listing under a title, each line once or as often as it says. Behind the name of a part they
    stand up to two spaces."""
    example = read(PAGE).partition(f"\n## {title}\n")[2].partition("\n## ")[0]
    listing = example.partition("```text\n")[2].partition("```")[0]
    rows = re.findall(r"^.{18}((?:[0-9a-f]{2}| (?=[0-9a-f]{2}))+)(?: (\d+) times)?(?:  |$)", listing, re.MULTILINE)
    assert len(rows) == listing.count("\n"), f"{PAGE}: a line of {title} is not understood"
    return b"".join(bytes.fromhex(found) * int(often or 1) for found, often in rows)


def case_has(name, found):
    """Whether a file of cases has these bytes."""
    return f" {found.hex(' ')}" in read(f"{CASES}/{name}.case")


def differences(name, title, case, written):
    """How the bytes of an example differ from those of a case, and from those that a plain writer writes."""
    found = page_bytes(title)
    if not case_has(case, found):
        yield f"the bytes of {name} in {PAGE} are not in {CASES}/{case}.case"
    if found != bytes(written):
        yield f"the bytes of {name} in {PAGE} are not those that the plain writer writes"


def said(reader, before, title, behind):
    """Whether a reader reads the bytes of an example, and prints what it says."""
    with tempfile.NamedTemporaryFile() as it:
        it.write(page_bytes(title))
        it.flush()
        words = [f"{ROOT}/tests/{reader}", *before, it.name, *behind]
        return subprocess.run([sys.executable, *words], check=False).returncode == 0


def main():
    segment, deletions, manifest = "An example", "An example of deletions", "An example of a manifest"
    places = "An example of places"
    faults = [
        *differences("the segment", segment, "stored_segment", segment_bytes(KEY, 128, 2, [[3, 1], []], ROWS)),
        *differences("the deletions", deletions, "deletions", deletions_bytes(KEY, DOCUMENTS, DELETED)),
        *differences("the places", places, "places", places_bytes(KEY, PLACES)),
        *differences("the manifest", manifest, "manifest", manifest_bytes(INDEX)),
    ]
    print("".join(f"{fault}\n" for fault in faults), end="", flush=True)
    ran = [
        said("read_stored.py", [], segment, [str(KEY), *FIELDS]),
        said("read_index_files.py", ["deletions"], deletions, [str(KEY), str(DOCUMENTS)]),
        said("read_index_files.py", ["places"], places, [str(KEY), str(len(PLACES))]),
        said("read_index_files.py", ["manifest"], manifest, []),
    ]
    return 1 if faults or not all(ran) else 0


if __name__ == "__main__":
    sys.exit(main())
