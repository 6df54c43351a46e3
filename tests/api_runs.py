#!/usr/bin/env python3
"""Whether the pages of tests/api.py are whole: makes them, and looks for each public item of each library.

    python3 tests/api_runs.py

Which items there are is read here once more, line by line, in another way than tests/api_items.py does. No link may
lead nowhere, and no tag may stand in a page that tests/api.py doesn't write: a text that was not escaped would be one.
Where chromium is installed, it draws a page and is asked for its text. Where Debian's python3-markdown is not, no page
can be made: then this says so, and counts none.
"""

import os
import re
import shutil
import subprocess
import sys
import tempfile
from html.parser import HTMLParser
from urllib.parse import unquote

sys.dont_write_bytecode = True
HERE = os.path.dirname(os.path.abspath(__file__))
sys.path.insert(0, HERE)

import kit  # noqa: E402

ROOT = os.path.realpath(os.path.join(HERE, ".."))
TAGS = {
    *("html", "meta", "title", "link", "h1", "h2", "h3", "p", "a", "table", "thead", "tbody", "tr", "th", "td"),
    *("section", "small", "pre", "code", "details", "summary", "span", "ul", "ol", "li", "em", "strong"),
}
# the page that is drawn, and what has to stand in its text
DRAWN = "qm_weight.html"
SHOWN = ("trait</small> Weight", "fn for_each_pruning_counted&lt;F: FnMut(DocId, Score) -&gt; Score&gt;(")


class Page(HTMLParser):
    """A page: which places it has, where it leads, and which tags stand in it."""

    def __init__(self, text):
        super().__init__()
        self.places, self.twice, self.links, self.tags = set(), set(), [], set()
        self.feed(text)

    def handle_starttag(self, tag, attributes):
        known = dict(attributes)
        self.tags.add(tag)
        if "id" in known:
            (self.twice if known["id"] in self.places else self.places).add(known["id"])
        if "href" in known:
            self.links.append(known["href"])


def public_items(crate):
    """The names by which the public items of a library stand in its page."""
    handed_out = re.findall(r"^pub use ([^;]*);", crate.read("src/lib.rt"), re.M)
    names = {name for it in handed_out for name in re.findall(r"\w+", it.rpartition("{")[2].rpartition("::")[2])}
    found = {*names}
    for path in crate.files(("src",)):
        kind, owner = "", ""
        for line in crate.read(path).split("\n"):
            head = re.match(r"(?:pub )?(struct|enum|trait) (\w+)|(impl)\b.*?(\w+)(?:<.*>)? \{", line)
            if head:
                kind, owner = head[1] or ("of trait" if " for " in line else "impl"), head[2] or head[4]
            elif re.match(r"\w", line):
                kind = ""
            member = member_of(kind, line)
            if member and owner in names:
                found.add(f"{owner}.{member}")
    return found


def member_of(kind, line):
    """The name of the public member that a line declares, in a block of that kind."""
    wanted = {
        "trait": r"    (?:const )?(?:fn|const|type) (\w+)",
        "impl": r"    pub (?:const )?(?:fn|const) (\w+)",
        "struct": r"    pub (\w+):",
        "enum": r"    ([A-Z]\w*)(?:\(| \{|,)",
    }
    found = re.match(wanted[kind], line) if kind in wanted else None
    return found[1] if found else None


def faults_of(pages):
    """What is wrong with links, places and tags."""
    for name, page in pages.items():
        yield from (f"{name} has the tag <{it}>" for it in page.tags - TAGS)
        yield from (f"{name} has {it} twice" for it in page.twice)
        for where in page.links:
            file, _, place = where.partition("#")
            file = file or name
            is_there = file in pages and (not place or unquote(place) in pages[file].places)
            if not is_there and where != "style.css":
                yield f"{name} leads to {where}, which is not there"


def drawn_faults(folder):
    """What chromium says of one page."""
    browser = shutil.which("chromium")
    if not browser:
        print("chromium is not installed, so no page was drawn")
        return
    with tempfile.TemporaryDirectory() as room:
        words = [browser, "--headless", "--no-sandbox", "--disable-gpu", f"--user-data-dir={room}/profile"]
        where, how = f"file://{folder}/{DRAWN}", {"capture_output": True, "text": True, "timeout": 120, "check": False}
        text = subprocess.run([*words, "--dump-dom", where], **how).stdout
        yield from (f"chromium finds no '{it}' in {DRAWN}" for it in SHOWN if it not in text)
        subprocess.run([*words, "--window-size=900,1600", f"--screenshot={room}/page.png", where], **how)
        if not os.path.isfile(f"{room}/page.png") or os.path.getsize(f"{room}/page.png") < 20_000:
            yield f"chromium doesn't draw {DRAWN}"


def main():
    try:
        import api
    except ModuleNotFoundError as missing:
        print(f"no page was made: {missing}; Debian's package is python3-markdown")
        print("api pages: 0 as wanted")
        return 0
    api.write()
    names = [it for it in os.listdir(api.MADE) if it.endswith(".html")]
    pages = {}
    for name in names:
        with open(f"{api.MADE}/{name}", encoding="utf-8") as it:
            pages[name] = Page(it.read())
    crates = [it for it in kit.crates_of(ROOT).values() if os.path.isfile(f"{it.folder}/src/lib.rt")]
    wanted = [(f"{it.name}.html", item) for it in crates for item in sorted(public_items(it))]
    faults = [f"{page} has no {item}" for page, item in wanted if page not in pages or item not in pages[page].places]
    faults += [*faults_of(pages), *drawn_faults(api.MADE)]
    print("\n".join(faults), end="\n" if faults else "")
    print(f"api pages: {'NOT AS WANTED' if faults else f'{len(wanted)} as wanted'}")
    return 1 if faults else 0


if __name__ == "__main__":
    sys.exit(main())
