"""What the proof of a crate above sees of a crate's files: all but the bodies of functions, and their proofs.

A proof stands on the signatures and contracts of what a function calls, on the definitions of specs/ and on lemmas
of proofs/, and never on bodies. So a body is left out of a .rt file where it stands as `rt fmt` lays it out, and an
answer to a function's own goals out of proofs/. What is laid out otherwise stays, so that a cut that goes wrong
leaves too much: then a crate counts as changed that is not.
"""

import os
import re

# (a `const fn` may be computed where a constant of a crate above is made, so its body stays)
FUNCTION = re.compile(r"( *)(?:pub(?:\([^)]*\))? )?fn \w+")
# what begins a line that is a comment
COMMENTS = {".rt": "//", ".antt": "--"}
# what proves a function, in its own folder of proofs/
ANSWERS = ("Answers.antt", "Invariants.antt", "Proof.antt")


def contracts_of(path, text):
    """What the proofs of crates above see of this file of a crate, or None where they see nothing of it."""
    if path.startswith("proofs/") and os.path.basename(path) in ANSWERS:
        return None
    return without_bodies(text) if path.endswith(".rt") else text


def without_comments(path, text):
    """The lines of a file that say something to a proof. (No string of a source goes over several lines.)"""
    mark = COMMENTS.get(os.path.splitext(path)[1])
    lines = (line for line in text.split("\n") if line.strip())
    return "\n".join(line for line in lines if mark is None or not line.lstrip().startswith(mark))


def without_bodies(text):
    """The text of a .rt file without the bodies of its functions."""
    if "macro_rules!" in text:
        return text
    lines, kept, at = text.split("\n"), [], 0
    while at < len(lines):
        opening = opening_of(lines, at)
        ending = None if opening is None else ending_of(lines, at, opening)
        if ending is None:
            kept.append(lines[at])
            at += 1
        else:
            kept += lines[at : opening + 1]
            at = ending
    return "\n".join(kept)


def opening_of(lines, at):
    """The line that opens the body of the function whose head begins in this one, if it does."""
    head = FUNCTION.match(lines[at])
    if not head:
        return None
    margin = head[1]
    for number in range(at, len(lines)):
        line = lines[number]
        if line == f"{margin}{{":
            return number
        if number == at or line.startswith(f"{margin})"):
            if line.endswith(" {"):
                return number
        elif not line.startswith(f"{margin}    "):
            return None
        # (a body in one line, or none)
        if line.endswith(";") or number == at and line.endswith("}"):
            return None
    return None


def ending_of(lines, at, opening):
    """The line that closes the body."""
    closing = f"{FUNCTION.match(lines[at])[1]}}}"
    return next((it for it in range(opening + 1, len(lines)) if lines[it] == closing), None)
