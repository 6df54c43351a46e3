#!/usr/bin/env python3
"""Writes out/api: a page of each library, of its `///` texts, signatures and contracts, and index.html of all.

    python3 tests/api.py

A clause is folded away below its signature. Its words lead to where specs/ define them, and these files are pages too.
Texts are markdown, for which Debian's package python3-markdown is wanted; what stands in them of HTML is shown as it is.
"""

import html
import os
import re
import shutil
import sys
from urllib.parse import quote

sys.dont_write_bytecode = True
HERE = os.path.dirname(os.path.abspath(__file__))
sys.path.insert(0, HERE)
# where Debian has it, for a python3 that is not Debian's own
sys.path.append("/usr/lib/python3/dist-packages")

import markdown  # noqa: E402

import api_items  # noqa: E402
import definitions  # noqa: E402
import kit  # noqa: E402

ROOT = os.path.realpath(os.path.join(HERE, ".."))
MADE = f"{ROOT}/out/api"
# in which order the libraries are listed, by how their names begin
ORDER = ("qm_", "birchagain", "birch", "")
LINK = re.compile(r"\[(`[\w:]+`)\](?!\()|\[([^\]]+)\]\(([\w:]+)\)")
WORD = re.compile(r"[^\s(){}\[\],;.]+")
PAGE = """<!DOCTYPE html>
<html lang="en">
<meta charset="utf-8">
<meta name="viewport" content="width=device-width, initial-scale=1">
<title>{title}</title>
<link rel="stylesheet" href="style.css">
{body}
</html>
"""
STYLE = """:root { color-scheme: light dark; --line: #8884; --faint: #8882; }
body { max-width: 52rem; margin: 0 auto; padding: 1rem; font: 16px/1.5 system-ui, sans-serif; }
h2 { margin: 2.5rem 0 .5rem; padding-top: .5rem; border-top: 1px solid var(--line); }
h3 { margin: 1.5rem 0 .25rem; }
h2, h3, p, code, pre { overflow-wrap: anywhere; }
code, pre { font: .9em/1.45 ui-monospace, monospace; }
pre { margin: .5rem 0; padding: .5rem .75rem; background: var(--faint); border-radius: 4px; white-space: pre-wrap; }
small { font-weight: normal; opacity: .7; }
.part { margin-left: 1rem; }
.part .part { margin-left: 0; }
details { margin: .25rem 0; }
summary { cursor: pointer; }
table { border-collapse: collapse; }
td { padding: .25rem .75rem .25rem 0; vertical-align: top; }
td p { margin: 0; }
:target { background: #fc04; }
@media (max-width: 40rem) { .part { margin-left: 0; } td { display: block; padding: 0; } td:first-child { padding-top: .5rem; } }
"""


class Pages:
    """All pages, by the names of their files, and where each item and each word of specs/ stands in them."""

    def __init__(self):
        crates = kit.crates_of(ROOT)
        self.libraries = api_items.libraries(crates)
        self.items = {it.name: {item.id for item in it.every()} for it in self.libraries}
        self.specs = {(it.name, name): it.read(f"specs/{name}.antt") for it in crates.values() for name in specs_of(it)}
        self.words = {key: {*words_of(text).values()} for key, text in self.specs.items()}

    def written(self):
        pages = {"style.css": STYLE, "index.html": self.index()}
        pages |= {f"{it.name}.html": self.library(it) for it in self.libraries}
        return pages | {words_page(*key): self.words_of(*key) for key in self.specs}

    def index(self):
        ordered = sorted(self.libraries, key=lambda it: [it.name.startswith(begins) for begins in ORDER].index(True))
        rows = [f"<tr><td>{link(f'{it.name}.html', it.name)}<td>{self.marked(first_of(it.docs), it)}" for it in ordered]
        return page("The libraries", "\n".join(["<h1>The libraries</h1>", "<table>", *rows, "</table>"]))

    def library(self, it):
        firsts = [self.marked(first_of(item.docs), it, item) for item in it.items]
        listed = [f"<tr><td>{link('#' + item.id, item.name)}<td>{first}" for item, first in zip(it.items, firsts)]
        parts = [f"<p>{link('index.html', 'All libraries')}", f"<h1>{escaped(it.name)}</h1>", self.marked(it.docs, it)]
        parts += ["<table>", *listed, "</table>", *(self.item(item, it) for item in it.items)]
        return page(it.name, "\n".join(parts))

    def item(self, item, library):
        """An item: its signature, its clauses, its text, and its members."""
        level = 3 if item.owner else 2
        parts = [f'<section class="{"part" if item.owner else "item"}" id="{escaped(item.id)}">']
        if item.kind not in ("variant", "field"):
            parts.append(f"<h{level}><small>{kind_of(item)}</small> {escaped(item.name)}</h{level}>")
        parts.append(f"<pre>{escaped(item.signature)}</pre>")
        parts.append(self.marked(item.docs, library, item))
        parts += [self.fold(f"{it.word} {it.name}".strip(), it.text, item) for it in item.clauses]
        if item.ghosts:
            parts.append(self.fold("What contracts see of it", "\n".join(item.ghosts), item))
        if item.derived or item.traits:
            traits = [f"<code>{self.trait(it, item)}</code>" for it in item.traits + item.derived]
            parts.append(f"<p>Implements {', '.join(traits)}.")
        parts += [self.item(it, library) for it in item.members]
        return "\n".join([*parts, "</section>"])

    def fold(self, head, text, item):
        said = f"<pre>{self.linked(text, item.source.cited)}</pre>"
        return f"<details><summary><code>{escaped(head)}</code></summary>\n{said}</details>"

    def linked(self, text, cited):
        """Words of specs/, each with a link to its definition where what the file cites tells it."""

        def one(found):
            key = cited.get(found[0])
            is_known = key in self.words and found[0] in self.words[key]
            return link(f"{words_page(*key)}#{quote(found[0])}", found[0]) if is_known else escaped(found[0])

        return replaced(WORD, text, one)

    def trait(self, text, item):
        """A trait, with a link to it where it is one of these libraries'."""
        at = self.place(re.match(r"\w+", text)[0], item.source)
        return link(at, text) if at else escaped(text)

    def marked(self, text, library, item=None):
        """A text in markdown, whose links to items lead there."""
        source = item.source if item else library.sources["src/lib.rt"]

        def one(found):
            said = found[1] or found[2]
            at = self.place((found[3] or said.strip("`")).removeprefix("crate::"), source, item)
            return f"[{said}]({at})" if at else said

        reader = markdown.Markdown(extensions=["tables", "fenced_code"])
        reader.preprocessors.deregister("html_block")
        reader.inlinePatterns.deregister("html")
        return reader.convert(LINK.sub(one, text))

    def place(self, path, source, item=None):
        """Where the item stands that a path of this file means, if it is one of these libraries'."""
        words = path.split("::")
        if words[0] == "Self" and item:
            words[0] = (item.owner or item).name
        crate = words.pop(0) if words[0] in self.items else source.imported.get(words[0], source.crate)
        names = [crate if crate in self.items else source.crate, *(it for it in self.items if it.startswith("qm_"))]
        known = (it for it in names if ".".join(words) in self.items[it])
        found = next(known, None)
        return f"{found}.html#{'.'.join(words)}" if found else None

    def words_of(self, crate, name):
        """A file of specs/, in which each public word is a place to come to, and what it cites leads on."""
        text, lines = self.specs[crate, name], []
        cited, places = api_items.cited_in(text), words_of(text)
        for at, line in enumerate(text.split("\n")):
            said = escaped(line) if line.lstrip().startswith("--") else self.linked(line, cited)
            lines.append(f'<span id="{escaped(places[at])}">{said}</span>' if at in places else said)
        parts = [f"<p>{link('index.html', 'All libraries')}", f"<h1>{escaped(name)}</h1>"]
        parts.append(f"<p>The definitions of <code>crates/{escaped(crate)}/specs/{escaped(name)}.antt</code>.")
        return page(f"{crate}: {name}", "\n".join([*parts, "<pre>" + "\n".join(lines) + "</pre>"]))


def specs_of(crate):
    """The files of definitions of a crate."""
    has_specs = os.path.isfile(f"{crate.folder}/specs/Lib.antt")
    return re.findall(r"^pub mod (\w+)", crate.read("specs/Lib.antt"), re.M) if has_specs else []


def words_of(text):
    """The words that a file of specs/ declares, by their lines, without the parts of records."""
    lines = text.split("\n")
    found = {at: definitions.DECLARED.match(line) for at, line in enumerate(lines)}
    return {at: it[3] for at, it in found.items() if it and definitions.is_definition(lines, at, it) is not None}


def words_page(crate, name):
    return f"{crate}.specs.{name}.html"


def kind_of(item):
    return {"fn": "method" if item.owner else "function", "const": "constant"}.get(item.kind, item.kind)


def first_of(text):
    """The first sentence of a text."""
    return re.match(r".*?(?:\.(?=\s|$)|\Z)", text.strip(), re.S)[0]


def escaped(text):
    return html.escape(text)


def link(where, text):
    return f'<a href="{escaped(where)}">{escaped(text)}</a>'


def replaced(pattern, text, one):
    """The text escaped, with what the pattern finds replaced."""
    made, at = "", 0
    for found in pattern.finditer(text):
        made += escaped(text[at : found.start()]) + one(found)
        at = found.end()
    return made + escaped(text[at:])


def page(title, body):
    return PAGE.format(title=escaped(title), body=body)


def write():
    """Writes the pages in place of those of an earlier run, and gives their libraries."""
    pages = Pages()
    shutil.rmtree(MADE, ignore_errors=True)
    os.makedirs(MADE)
    for name, text in pages.written().items():
        with open(f"{MADE}/{name}", "w", encoding="utf-8") as it:
            it.write(text)
    return pages.libraries


if __name__ == "__main__":
    made = write()
    print(f"out/api/index.html: {sum(len(it.every()) for it in made)} items of {len(made)} libraries")
