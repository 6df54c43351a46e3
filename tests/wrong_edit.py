"""An edit that makes a function's body wrong: how its file reads, and what of the crate it changes.

    file: src/vec_docset.rt
    checked: vec_docset::VecDocSetDocSet::advance
    refused by: ensures left of advance
    old:             self.cursor += 1;
    new:             self.cursor += 0;

`checked` is the function whose body becomes wrong, as `rattle check --only` takes it; `refused by` is the
clause or the call whose proof fails, as `short_words` of refusals.py spells it. Each `old` text stands in its
file exactly once; there may be several pairs of `old` and `new`, and a `file` before each. An edit that says by its
form what the code says (same_body.py) is none, nor is one of which no text stands in the function that is checked.
"""

import re

from checked_name import what_lacks
from same_body import says_the_same

# what an edit is refused by that the compiler does not take, before the error's code
COMPILER = "the compiler, "
HEAD = re.compile(r"^ *(?:pub(?:\([^)]*\))? )?(?:const )?(?:extern \"C\" )?fn (\w+)", re.M)
# an item at the left margin that has no body of a function in it
BARE = re.compile(r"(?:pub(?:\([^)]*\))? )?(?:struct|enum|static|type|use|mod|ghost|const(?! fn))\b")


class BadEdit(Exception):
    """Why an edit cannot be tried."""


class Edit:
    def __init__(self, crate, name, text):
        self.name, self.text = name, text
        self.path, self.refused_by = line_of(text, "checked"), line_of(text, "refused by")
        self.pairs = pairs_of(text)
        if not self.pairs or not self.path:
            raise BadEdit("it has no pair of lines old: and new:, or no line checked:")
        lacking = what_lacks(crate, self.path)
        if lacking:
            raise BadEdit(f"there is no {self.path}: {lacking}")
        if says_the_same(*("\n".join(it[at] for it in self.pairs) for at in (1, 2))):
            raise BadEdit("it says what the code says, by other names or in another order")
        # what it can break the proof of: two edits of one function are not told apart by one check
        self.units = {self.path}
        self.apply(crate, {}, self.units)
        if not self.changes_checked():
            raise BadEdit(f"no text old: of it stands in {self.path}")

    def apply(self, crate, texts, units=None):
        """These texts of the crate, by path, with this edit over them; notes the units that it changes."""
        texts = dict(texts)
        for file, old, new in self.pairs:
            text = texts[file] if file in texts else crate.read(file)
            found = text.count(old)
            if found != 1:
                raise BadEdit(f"a text old: is in {file} {found} times, and not once")
            if units is not None:
                units |= units_at(file, text, old)
            texts[file] = text.replace(old, new)
        return texts

    def changes_checked(self):
        """Whether a change stands in the function that is checked, or makes it; one in a cycle or in no function may."""
        name, changed = self.path.split("::")[-1], self.units - {self.path}
        functions = {it.split(" ")[1] for it in changed if " " in it}
        is_made = any(re.search(rf"\bfn {name}\b", new) for _, _, new in self.pairs)
        return is_made or name in functions or any(" " not in it for it in changed)

    def is_of_compiler(self):
        """Whether it must not reach the prover."""
        return bool(self.refused_by) and self.refused_by.startswith(COMPILER)

    def is_of_bodies(self):
        """Whether it changes functions alone, and no type or number that others use."""
        return not self.units & {file for file, _, _ in self.pairs}

    def functions(self):
        """The functions that it changes."""
        return {it for it in self.units if not it.startswith("+")}

    def cycles(self):
        """The cycles of functions that it changes."""
        return {it[1:] for it in self.units if it.startswith("+")}


def line_of(text, word):
    found = re.search(rf"^{word}: (.+)$", text, re.M)
    return found[1].strip() if found else None


def pairs_of(text):
    """The edit's changes: file, old text, new text."""
    found, file, old = [], None, None
    for line in text.split("\n"):
        if line.startswith("file: "):
            file = line[len("file: ") :].strip()
        elif line.startswith("old: "):
            old = line[len("old: ") :]
        elif line.startswith("new:"):
            if not file or not old:
                raise BadEdit("a line new: stands before any line file: or old:")
            found.append((file, old, line[len("new:") :].removeprefix(" ")))
    return found


def units_at(file, text, old):
    """The function in which a text stands, by its file, name and place, and the cycle of functions that it is in, since
    those have one proof; or the file alone where it stands in no function."""
    before = text[: text.index(old)] + old.split("\n")[0]
    heads = list(HEAD.finditer(before))
    items = re.findall(r"^[a-z].*", before, re.M)
    if not heads or (items and BARE.match(items[-1])):
        return {file}
    # its attributes stand right above it
    above = before[: heads[-1].start()].rpartition("\n\n")[2]
    cycle = re.findall(r"#\[cycle\((\w+)\)\]", above)
    return {f"{file} {heads[-1][1]} {len(heads)}", *(f"+{it}" for it in cycle[-1:])}


def batches_of(crate, edits):
    """The edits in batches, none of which has two of one function, or two that do not fit together: each with the
    texts that it makes, by path. The goals of a cycle's functions are named by these, so that one proof tells them
    apart. An edit of more than bodies can break other proofs too, and stands alone."""
    batches = []
    for edit in sorted(edits, key=Edit.is_of_bodies, reverse=True):
        for batch in batches:
            if not edit.functions() & batch["units"] and edit.is_of_bodies() and fits(crate, edit, batch):
                break
        else:
            batch = {"texts": {}, "units": set(), "edits": []}
            batches.append(batch)
        batch["texts"] = edit.apply(crate, batch["texts"])
        batch["units"] |= edit.units
        batch["edits"].append(edit)
    return [(batch["edits"], batch["texts"]) for batch in batches]


def fits(crate, edit, batch):
    try:
        return bool(edit.apply(crate, batch["texts"]))
    except BadEdit:
        return False
