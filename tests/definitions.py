#!/usr/bin/env python3
"""Writes out/definitions.md: the words of the contracts, by the comments above them in crates/*/specs.

    python3 tests/definitions.py [--check]

Crates stand in the order of crates.txt, files in that of specs/Lib.antt, words in that of their file. Of a word
without a comment of its own its equations are shown, where they are short, and else its type.

With --check nothing is written. The exit status is 1 where a file of specs/ is in no Lib.antt or begins with no
comment, where a definition says nothing, and where docs/LAYERS.md does not say what the sources do. Each word of its
dozen has to be defined, and is handed as many things as there; each link has to lead to a file that declares the word.
"""

import os
import re
import sys

ROOT = os.path.realpath(os.path.join(os.path.dirname(os.path.abspath(__file__)), ".."))
MADE, PAGE, DOZEN = "out/definitions.md", "docs/LAYERS.md", "A dozen words to read first"
# the members of a cursor are words of its trait
TRAIT = "crates/qm_docset/src/docset.rt"
HEAD = """# The words of the contracts

Made by `python3 tests/definitions.py` of the comments in `crates/*/specs`. `docs/LAYERS.md` has a dozen to read first.
"""
HOW = """A word that begins with `Is` or `Are`, or is a verb, is a fact; every other one is a value. Files whose names end
in `Facts` have what is proved of the words of others, for callers.
"""
# a line that declares a public name, and what kind of thing that is
DECLARED = re.compile(r" *(?:(abbrev|unfoldable) )?pub (?:(record|data) )?(?!mod\b|use\b|ruleset\b|infix|syntax\b)(\S+)")
# the lines that begin a group of declarations which stand deeper
GROUP = re.compile(r" *((?:abbrev|unfoldable) )?(mutual|module .*)$")
LONGEST = 160


def depth(line):
    return len(line) - len(line.lstrip())


class Word:
    """A public name of specs/: its comment, what it is handed, and what it says."""

    def __init__(self, lines, at, match, is_definition):
        self.name, self.is_definition = match[3], is_definition
        self.comment = comment_above(lines, at)
        if not self.comment and at and lines[at - 1].strip().endswith("mutual"):
            self.comment = comment_above(lines, at - 1)
        self.type = "" if match[2] else lines[at].partition(" : ")[2].strip()
        self.equations, self.parts = [], []
        indent = depth(lines[at])
        for after, line in enumerate(lines[at + 1 :], at + 1):
            if not line.strip() or line.strip().startswith("unfolding "):
                continue
            if depth(line) == indent and line.split()[0] == self.name:
                self.equations.append(line.strip())
            elif depth(line) > indent and match[2]:
                self.add_part(lines, after)
            elif self.equations and (depth(line) > indent or line.strip() == "}"):
                self.equations[-1] += " " + line.strip()
            else:
                break
        self.handed = handed(lines[at], self)

    def add_part(self, lines, at):
        """Takes in a field or a constructor, with the comment of its own."""
        part = re.match(r" *(?:pub )?([^\s:-][^\s:]*) :", lines[at])
        if part:
            said = comment_above(lines, at)
            self.parts.append(code(part[1]) + (f": {said}" if said else ""))

    def meaning(self):
        if self.comment:
            text = self.comment
        elif len(self.equations) == 1 and len(self.equations[0]) <= LONGEST:
            text = code(self.equations[0].partition(" = ")[2])
        elif self.equations and len(said := "; ".join(self.equations)) <= LONGEST:
            text = code(said)
        else:
            text = code(self.type) if self.type else ""
        if self.parts:
            parts = ("; " if any(":" in it for it in self.parts) else ", ").join(self.parts)
            text += f" ({parts})" if text else parts
        return text


def handed(line, word):
    """The word with the names of what it is handed, where its head or its one equation says them."""
    names = re.findall(r"\(([^():]+?) : ", line) if re.search(r"\b(record|data) ", line) else []
    if not word.is_definition:
        return word.name
    if len(word.equations) == 1:
        left = word.equations[0].partition(" = ")[0].split()[1:]
        if all(re.fullmatch(r"[a-z_][\w']*", it) for it in left):
            names = left
    return " ".join([word.name, *names])


def code(text):
    return "`" + text.replace("|", "\\|") + "`"


def comment_above(lines, at):
    """The comment right above a line, on one line; a part that is set in stands behind a semicolon."""
    text, first = "", at
    while first > 0 and lines[first - 1].lstrip().startswith("--") and not is_section(lines[first - 1]):
        first -= 1
    for line in lines[first:at]:
        said = line.lstrip()[2:]
        part = re.match(r" {4,}(\S+) {2,}(.*)", said)
        text += f"; `{part[1]}`: {part[2]}" if part else " " + " ".join(said.split())
    return text.replace(".;", ":", 1).replace("|", "\\|").strip()


def is_section(line):
    return line.lstrip().startswith("-- ----")


def head_of(lines):
    """The comment that a file begins with."""
    count = next(at for at, line in enumerate(lines + [""]) if not line.startswith("--"))
    return comment_above(lines, count)


def is_definition(lines, at, match):
    """Whether a line declares a definition: by its own word, or by that of the group that it stands in. None for
    the part of a record."""
    if match[1] or match[2]:
        return True
    indent = depth(lines[at])
    for line in reversed(lines[:at]):
        if line.strip() and depth(line) < indent:
            group = GROUP.match(line)
            if not group:
                return None if re.search(r"\b(record|data) ", line) else False
            if group[1]:
                return True
            indent = depth(line)
    return False


def read(path):
    with open(f"{ROOT}/{path}", encoding="utf-8") as it:
        return it.read()


def lines_of(crate, name):
    return read(f"crates/{crate}/specs/{name}.antt").split("\n")


def words_of(crate, name):
    """The words of one file, and whether each is a definition; and between them the titles of its sections."""
    lines = lines_of(crate, name)
    for at, line in enumerate(lines):
        if is_section(line):
            yield line.strip("- "), None, False
        match = DECLARED.match(line)
        defines = is_definition(lines, at, match) if match else None
        if defines is not None:
            yield None, Word(lines, at, match, defines), defines


def file_of(crate, name):
    """What is written of one file."""
    rows, bare = [], []
    for title, word, defines in words_of(crate, name):
        if title is not None:
            rows.append(f"| | *{title}* |")
        elif defines or word.comment:
            rows.append(f"| {code(word.handed)} | {word.meaning()} |")
        else:
            bare.append(code(word.name))
    while rows and rows[-1].startswith("| | *"):
        rows.pop()
    text = f"### {name}\n\n{head_of(lines_of(crate, name))}\n"
    if rows:
        text += "\n| Word | What it means |\n|---|---|\n" + "\n".join(rows) + "\n"
    if bare:
        text += f"\nFacts besides: {', '.join(bare)}.\n"
    return text


def crates():
    """The crates that have specs/, in the order of crates.txt."""
    lines = [line.partition("#")[0].strip() for line in read("crates.txt").split("\n")]
    names = [line.partition(":")[0].split()[0] for line in lines if line]
    return [name for name in names if os.path.isfile(f"{ROOT}/crates/{name}/specs/Lib.antt")]


def files_of(crate):
    """The files of a crate's specs/, in the order of its Lib.antt."""
    return re.findall(r"^pub mod (\w+)", read(f"crates/{crate}/specs/Lib.antt"), re.M)


def written():
    """The whole file."""
    parts = [HEAD, HOW]
    for crate in crates():
        parts += [f"## {crate}\n", *(file_of(crate, name) for name in files_of(crate))]
    return "\n".join(parts)


def definitions():
    """The definitions of all crates, each with its file."""
    files = [(crate, name) for crate in crates() for name in files_of(crate)]
    return [(crate, name, word) for crate, name in files for _, word, defines in words_of(crate, name) if defines]


def faults_of_specs(found):
    """What specs/ lacks: a file that no Lib.antt has, the comment that a file begins with, what a definition says."""
    for crate in crates():
        there = {it.removesuffix(".antt") for it in os.listdir(f"{ROOT}/crates/{crate}/specs") if it.endswith(".antt")}
        for name in sorted(there - {"Lib"} - {*files_of(crate)}):
            yield f"crates/{crate}/specs/{name}.antt is not in Lib.antt"
        for name in files_of(crate):
            if not head_of(lines_of(crate, name)):
                yield f"crates/{crate}/specs/{name}.antt begins with no comment"
    for crate, name, word in found:
        if not word.meaning():
            yield f"{word.name} of crates/{crate}/specs/{name}.antt says nothing"


def faults_of_page(found):
    """What the page says otherwise than the sources, of each word and link."""
    page, words = read(PAGE), {}
    for _, _, word in found:
        words.setdefault(word.name, set()).add(len(word.handed.split()))
    members = {*re.findall(r"^    ghost (\w+): ", read(TRAIT), re.M)}
    dozen = page.partition(f"\n## {DOZEN}\n")[2].partition("\n## ")[0]
    rows = re.findall(r"^\| `([^`]+)` \|", dozen, re.M)
    for said in rows:
        name, count = said.split()[0], len(said.split())
        # a word that is defined by several equations is handed what its type says
        if name not in members and not words.get(name, set()) & {count, 1}:
            yield f"{PAGE}: `{said}` is not defined so in specs/"
    links = re.findall(r"\[`(\w+)`\]\(\.\./([^)]+)\)", page)
    for name, path in links:
        if not os.path.isfile(f"{ROOT}/{path}") or not re.search(declared_as(name, path), read(path), re.M):
            yield f"{PAGE}: {path} does not declare `{name}`"
    if not rows or not links:
        yield f"{PAGE}: has no words or no links"


def declared_as(name, path):
    """How a file declares a name."""
    kinds = r"(?:record |data )?" if path.endswith(".antt") else r"(?:fn|trait|struct|enum) "
    return rf"^ *(?:unfoldable |abbrev )?(?:pub )?(?:extern \S+ )?{kinds}{name}\b"


def check():
    found = definitions()
    faults = [*faults_of_specs(found), *faults_of_page(found)]
    print("\n".join(faults), end="\n" if faults else "")
    print("definitions: NOT AS WANTED" if faults else f"definitions: {len(found)} as specs/ says")
    return 1 if faults else 0


def main(words):
    if words == ["--check"]:
        return check()
    os.makedirs(f"{ROOT}/out", exist_ok=True)
    with open(f"{ROOT}/{MADE}", "w", encoding="utf-8") as it:
        it.write(written())
    print(f"definitions: {MADE} is written")
    return 0


if __name__ == "__main__":
    sys.exit(main(sys.argv[1:]))
