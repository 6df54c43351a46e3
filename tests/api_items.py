"""What a library hands out: its public items, from its sources as tests/contracts.py leaves them, without bodies.

An item is public where src/lib.rt hands it out by `pub use`; its public methods, fields and variants go with it. Files
are laid out by `rt fmt`, which the gate asks of them, so what is deeper set in than a line belongs to it.
"""

import os
import re

from contracts import without_bodies

DECLARED = re.compile(r"(?:pub )?(?:(?:const|unsafe|extern \"C\") )*(trait|struct|enum|fn|const|type) (\w+)")
CLAUSE = re.compile(r"\s*(requires|ensures)(?: (\w+))? (\{.*)", re.S)
HANDED_OUT = re.compile(r"pub use ([\w:]+)(?:::\{(.*)\})?;", re.S)
CITED = re.compile(r"\buse Rattle\.(\w+)\.specs\.(\w+)\.\{(.*?)\}", re.S)
IMPORTED = re.compile(r"^use (\w+)::(?:\{(.*?)\}|(\w+));", re.M | re.S)


def depth(line):
    return len(line) - len(line.lstrip())


def cited_in(text):
    """Which file of which crate's specs/ each word is of that a text names in a `use`."""
    return {word: (it[1], it[2]) for it in CITED.finditer(text) for word in re.split(r",\s*", it[3].strip(" ,\n"))}


class Part:
    """A group of lines that belong together: an item, or a member of one, with what stands above it."""

    def __init__(self, margin):
        self.margin, self.docs, self.notes, self.attributes, self.lines = margin, [], [], [], []

    def docs_text(self):
        return "\n".join(it.removeprefix(" ") for it in self.docs)

    def text(self):
        return "\n".join(line[self.margin :] for line in self.lines)

    def opening(self):
        """How many of its lines come before its members or its body."""
        edge = " " * self.margin
        ends = (at for at, line in enumerate(self.lines) if line == f"{edge}{{" or line.endswith((" {", " {}", ";")))
        return next(ends, len(self.lines) - 1) + 1

    def head(self):
        """Its text up to its members or its body."""
        text = "\n".join(line[self.margin :] for line in self.lines[: self.opening()])
        return re.sub(r"(\s*\{\}?|;|,)$", "", text.rstrip())

    def members(self):
        return parts_of(self.lines[self.opening() : -1], self.margin + 4)

    def derived(self):
        return [it for found in re.findall(r"derive\((.*?)\)", " ".join(self.attributes)) for it in re.findall(r"\w+", found)]


def parts_of(lines, margin):
    """The parts that begin at this margin, each with the lines that are set in below it."""
    found, part, is_attribute = [], Part(margin), False
    for line in lines:
        said = line.strip()
        if is_attribute or depth(line) == margin and said.startswith("#"):
            part.attributes.append(said)
            is_attribute = not said.endswith("]")
        elif not said or depth(line) < margin:
            continue
        elif depth(line) == margin and re.match(r"//(?!/)", said):
            part.notes.append(said)
        elif depth(line) > margin or re.match(r"[)}{>]|where\b|for\b", said):
            # (what ends a part, or goes on with it)
            if found:
                found[-1].lines.append(line)
        elif said.startswith("///"):
            part.docs.append(said[3:])
        else:
            part.lines.append(line)
            found.append(part)
            part = Part(margin)
    return found


class Clause:
    """A `requires` or an `ensures` of a call: its word, its name, and what it says."""

    def __init__(self, text):
        found = CLAUSE.match(text)
        self.word, self.name = found[1], found[2] or ""
        said = re.sub(r"\s*\n\s*", "\n    ", found[3].rstrip("; \n"))
        self.text = said[1:-1].strip()


class Item:
    """A public item or a member of one: its kind, names, signature, docs, clauses and members."""

    def __init__(self, kind, name, part, source, owner=None):
        self.kind, self.name, self.source, self.owner = kind, name, source, owner
        self.id = f"{owner.id}.{name}" if owner else name
        self.docs, self.derived = part.docs_text(), part.derived()
        self.signature, self.clauses = signature_of(part)
        if kind == "variant":
            self.signature = part.text().rstrip(",")
        self.members, self.ghosts, self.traits, self.types = [], [], [], []

    def every(self):
        return [self, *(it for member in self.members for it in member.every())]


def signature_of(part):
    """The signature without ghosts, and the clauses."""
    signature, clauses = [], []
    for line in part.head().split("\n"):
        if CLAUSE.match(line) and depth(line) == 4:
            clauses.append(line)
        elif clauses and depth(line) > 4:
            clauses[-1] += "\n" + line
        elif line.strip() != "{":
            signature.append(line)
    return re.sub(r"(\s*\{\}?|,)$", "", "\n".join(signature).rstrip()), [Clause(it) for it in clauses]


class Source:
    """A file of a library: its parts, and which words of specs/ and which crates' items it names."""

    def __init__(self, crate, path):
        text = crate.read(path)
        self.crate, self.path = crate.name, path
        self.docs = "\n".join(it[3:].strip() for it in text.split("\n") if it.startswith("//!"))
        self.parts = parts_of(without_bodies(text).split("\n"), 0)
        self.cited = cited_in(text)
        imports = [(it[1], word) for it in IMPORTED.finditer(text) for word in re.findall(r"\w+", it[2] or it[3])]
        self.imported = {word: crate for crate, word in imports}

    def handed_out(self):
        """Each `pub use`: the module that it names, and the item."""
        for part in self.parts:
            found = HANDED_OUT.match(part.text())
            if found:
                module, names = (found[1], re.findall(r"\w+", found[2])) if found[2] else found[1].rsplit("::", 1)
                yield from ((module, name) for name in ([names] if isinstance(names, str) else names))


class Library:
    """A library: what it says of itself, and its public items in the order of their names in src/lib.rt."""

    def __init__(self, crate):
        self.name = crate.name
        paths = [it for it in crate.files(("src",)) if it.endswith(".rt")]
        self.sources = {it: Source(crate, it) for it in paths}
        self.docs = self.sources["src/lib.rt"].docs
        self.items = [self.found("src", module, name) for module, name in self.sources["src/lib.rt"].handed_out()]
        self.named = {it.name: it for it in self.items}
        declared = (re.search(r"\btrait (\w+)", part.lines[0]) for it in self.sources.values() for part in it.parts)
        self.own_traits = {it[1] for it in declared if it} - {*self.named}
        for source in self.sources.values():
            for part in source.parts:
                if re.match(r"impl\b", part.lines[0]):
                    self.take_impl(source, part)

    def found(self, folder, module, name):
        """The item that a module of a folder declares or hands out."""
        at = f"{folder}/{module.removeprefix('self::').replace('::', '/')}"
        source = self.sources[f"{at}.rt"]
        for part in source.parts:
            declared = DECLARED.match(part.lines[0])
            if declared and declared[2] == name:
                return item_of(declared[1], name, part, source)
        inner = next(it for it, known in source.handed_out() if known == name)
        return self.found(at, inner, name)

    def take_impl(self, source, part):
        """Takes in the public methods of an impl, or which trait it is of, if others can name that."""
        head = " ".join(part.head().split())
        trait, named = subject_of(head)
        item = self.named.get(named)
        if item and trait == "Model":
            item.ghosts = ghosts_of(part)
        elif item and trait and trait.split("<")[0] not in self.own_traits:
            item.traits.append(trait)
        elif item and not trait:
            item.members += [it for it in members_of(part, source, item) if it.kind != "field"]

    def every(self):
        return [it for item in self.items for it in item.every()]


def subject_of(head):
    """Which trait an impl is of, if it is of one, and which type it is for."""
    at, open_ones = 4, 0
    if head.startswith("impl<"):
        for at in range(4, len(head)):
            open_ones += {"<": 1, ">": 0 if head[at - 1] == "-" else -1}.get(head[at], 0)
            if not open_ones:
                break
        at += 1
    subject = head[at:].partition(" where ")[0].strip()
    trait, is_for, named = subject.partition(" for ")
    named = named if is_for else trait
    return (trait if is_for else None), re.sub(r"^&('\w+ )?(mut )?", "", named).split("<")[0].split("::")[-1].strip()


def item_of(kind, name, part, source):
    item = Item(kind, name, part, source)
    if kind in ("struct", "enum", "trait"):
        item.members = members_of(part, source, item)
    if kind == "trait":
        item.ghosts = ghosts_of(part)
    return item


def ghosts_of(part):
    """What contracts see of a trait's values, or of a type's by its Model, with the notes above each."""
    ghosts = [it for it in part.members() if re.match(r" *ghost (?!use\b|coded\b)", it.lines[0])]
    return [line for it in ghosts for line in (*it.notes, it.text())]


def members_of(part, source, owner):
    """The public members: of a trait and an enum all, of others what says `pub`."""
    found = []
    for it in part.members():
        line = it.lines[0].strip()
        is_shown = owner.kind in ("trait", "enum") and not part.lines[0].startswith("impl")
        declared = DECLARED.match(line)
        field = re.match(r"pub (\w+):", line)
        if line.startswith("ghost ") or not (is_shown or line.startswith("pub ")):
            continue
        if declared:
            found.append(Item(declared[1], declared[2], it, source, owner))
        elif field:
            found.append(Item("field", field[1], it, source, owner))
        elif owner.kind == "enum" and re.match(r"[A-Z]\w*", line):
            found.append(Item("variant", re.match(r"\w+", line)[0], it, source, owner))
    return found


def libraries(crates):
    """The libraries among the crates of crates.txt, in its order."""
    return [Library(it) for it in crates.values() if os.path.isfile(f"{it.folder}/src/lib.rt")]
