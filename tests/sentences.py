#!/usr/bin/env python3
"""Whether the pages that are written by hand can be read at once: README.md, CONTRIBUTING.md, docs/
and tests/cases/.

    python3 tests/sentences.py

A sentence has at most MOST words. Code blocks, tables and headings are left out, and a piece of code counts as one
word. No sentence tells history: what was once so, or when it changed. The changelog and git have that. All pages of
docs/ together have at most MOST_WORDS words, code and tables and all, but for tables of figures that a command prints.
These are the tables of a part that stand below a line which begins with the command and says what it was run on.
"""

import os
import re
import sys

ROOT = os.path.realpath(os.path.join(os.path.dirname(os.path.abspath(__file__)), ".."))
MOST, MOST_WORDS = 30, 20_000
# the page without a figure in a sentence, and what a line begins with that has a command whose figures stand below
FIGURES, COMMAND = "docs/COSTS.md", ("`python3 ", "`bench/")
MONTH = "January|February|March|April|May|June|July|August|September|October|November|December"
# words of history, and dates
HISTORY = re.compile(
    r"\b((?i:now|no longer|any ?more|yesterday|formerly|previously|originally|recently|at noon|this time"
    r"|until then|which it did before|used to (?:be|have|take|cost|do)|(?:that|this|the) (?:morning|evening))"
    rf"|(?:{MONTH}) \d{{1,4}}|\d{{1,2}} (?:{MONTH})|\d{{4}}-\d{{2}}-\d{{2}})\b"
)
# what begins a part of the text that stands by itself
ITEM = re.compile(r"\s*(?:[-*+]|\d+\.)\s+")
END = re.compile(r"(?<=[^.][.!?])[)\"]?\s+")


def pages():
    found = [f"{at}/{it}" for at in ("docs", "tests/cases") for it in os.listdir(f"{ROOT}/{at}") if it.endswith(".md")]
    return ["README.md", "CONTRIBUTING.md", *sorted(found)]


def paragraphs(text):
    """The paragraphs and items of a page, each with the number of its first line: no code, no table, no heading."""
    found, is_code = [], False
    for number, line in enumerate(text.split("\n"), 1):
        fence = line.strip().startswith("```")
        is_code = is_code != fence
        if fence or is_code or not line.strip() or line.startswith(("|", "#", "<", "![", "    ")):
            found.append((number, ""))
        elif ITEM.match(line):
            found.append((number, ITEM.sub("", line, count=1)))
        elif found and found[-1][1]:
            found[-1] = (found[-1][0], f"{found[-1][1]} {line.strip()}")
        else:
            found.append((number, line.strip()))
    return [it for it in found if it[1]]


def plain(text):
    """The text as it is read: a piece of code is one word, and a link is its own words."""
    text = re.sub(r"``.+?``|`[^`]*`", "CODE", text)
    text = re.sub(r"!?\[([^\]]*)\]\([^)]*\)", r"\1", text)
    return text.replace("**", "")


def faults_of(text):
    """What is wrong on a page, each fault with its line."""
    for number, paragraph in paragraphs(text):
        for sentence in END.split(plain(paragraph)):
            count = len(re.findall(r"[^\s—–]*\w[^\s—–]*", sentence))
            if count > MOST:
                yield number, f"{count} words: {sentence[:70]} .."
            for word in HISTORY.finditer(sentence):
                yield number, f"tells history, by `{word[0]}`: {sentence[:70]} .."


def figures_in(text):
    """The sentences of the page of figures that have a number."""
    for number, paragraph in paragraphs(text):
        if not paragraph.startswith(COMMAND):
            for sentence in END.split(plain(paragraph)):
                if re.search(r"\d", sentence):
                    yield number, f"a figure in a sentence: {sentence[:70]} .."


def words_by_hand(text):
    """How many words of a page a command didn't print, the marks of tables among them."""
    count, is_printed, is_code = 0, False, False
    for line in text.split("\n"):
        is_code = is_code != line.startswith("```")
        if not is_code:
            is_printed = line.startswith(COMMAND) or is_printed and not line.startswith("#")
        if not (is_printed and line.startswith("|")):
            count += len(line.split())
    return count


def main():
    told, words = 0, 0
    for page in pages():
        with open(f"{ROOT}/{page}", encoding="utf-8") as it:
            text = it.read()
        if page.startswith("docs/"):
            words += words_by_hand(text)
        for number, fault in [*faults_of(text), *(figures_in(text) if page == FIGURES else [])]:
            print(f"{page}:{number}: {fault}")
            told += 1
    if words > MOST_WORDS:
        print(f"docs/ has {words:,} words, where {MOST_WORDS:,} are the most")
        told += 1
    print(f"sentences: {told} NOT AS WANTED" if told else f"sentences: {len(pages())} pages as wanted")
    return 1 if told else 0


if __name__ == "__main__":
    sys.exit(main())
