"""A function's proof with other names, where an edit changed those that it cites.

A step of a body is named after what it calls or compares, or after the variable that holds it. Where an edit changes
such a name, what a proof says of the step is lost, whatever the body does. The check says which name it has now. With
that in the place of the old one the proof is tried again: then it fits, or fails by what the body does.
"""

import re

FIELD = re.compile(r"has no\s+field `([^`\s]+)`")
NEAREST = re.compile(r"\(nearest: \.([^\s,)]+)")
# the names that the check has of goals, places and invariants, behind one that it lacks
NAMES = re.compile(r"help: `(?:Goals|Given)` has no `([^`\s]+)`[;:] (.*)")
# what a name keeps where its step has another: its first word, and what it is of
KEPT = re.compile(r"([^-]+)(?:-.*?)?(-clause-.*|-requires|-init|-preserved|-smaller)?")


def renames_of(messages, before=()):
    """The names that the check lacks, each with the one that it has in its place; a field's begins with a dot. A
    loop's variable is what the loop is named after: names that were found before say so."""
    found, of_loops = {}, {old: new for old, new in dict(before).items() if ".loop-" in old and ".loop-" in new}
    for message in messages:
        field, nearest = FIELD.search(message), NEAREST.search(message)
        of_loop = field and of_loops.get(f".loop-{field[1]}", "").replace("loop-", "")
        if field and (of_loop or nearest):
            found[f".{field[1]}"] = of_loop or f".{nearest[1]}"
        named = NAMES.match(message)
        if named:
            names = re.findall(r"`([^`\s]+)`", named[2].partition("; `invariant-L`")[0])
            likest = [it for it in names if KEPT.fullmatch(it).groups() == KEPT.fullmatch(named[1]).groups()]
            found.update({named[1]: likest[0]} if likest else {})
    return found


def renamed(text, names):
    """A text of a proof with these names in the place of others. (The path of a `use` has dots as well.)"""
    fields = [it for it in names if it.startswith(".")]
    lines = []
    for line in text.split("\n"):
        olds = [it for it in names if it not in fields or not line.startswith("use ")]
        # the longest first, since one may begin another
        each = [("" if it in fields else r"(?<![\w-])") + re.escape(it) for it in sorted(olds, key=len, reverse=True)]
        lines.append(re.sub(rf"(?:{'|'.join(each)})(?![\w-])", lambda it: names[it[0]], line) if each else line)
    return "\n".join(lines)
