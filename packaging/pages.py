#!/usr/bin/env python3
"""The manual page and the shell completions of `birch`, made of what the program itself says of its options.

    python3 packaging/pages.py PROGRAM FOLDER

Reads `PROGRAM --help` and `--version`, and writes into the folder birch.1 (packaging/birch.1 with the options where
it says so), birch.bash, _birch for zsh, and birch.fish. Ends with status 1 where a line of the options isn't
understood, so that none is ever left out. Called by the Makefile.
"""

import os
import re
import subprocess
import sys
from typing import NamedTuple

HERE = os.path.dirname(os.path.abspath(__file__))
OPTION = re.compile(r"  (?:-(\w), |    )--([\w-]+)(?: <([A-Z]+)>)?(?:\.\.\.)?  +(\S.*)")
# values that are paths
PATHS = {"FILE"}


class Option(NamedTuple):
    """An option: its letter where it has one, its word, what its value is called, what it is for, and the values that
    it may have where these are few."""

    letter: str
    word: str
    value: str
    help: str
    values: list

    def names(self):
        return [*([f"-{self.letter}"] if self.letter else []), f"--{self.word}"]


def options_of(text):
    """The options of a text of help."""
    lines = text.split("\nOptions:\n")[1].split("\n\n")[0].split("\n")
    found = [OPTION.fullmatch(line) for line in lines]
    for line in (line for line, option in zip(lines, found) if not option):
        sys.exit(f"pages: no option: {line}")
    return [Option(it[1] or "", it[2], it[3] or "", *split_values(it[4])) for it in found]


def split_values(text):
    """What an option is for, and the values that it may have."""
    values = re.search(r" \[possible values: (.*)\]", text)
    return (text.replace(values[0], ""), values[1].split(", ")) if values else (text, [])


def roff(text):
    """A text in a manual page."""
    text = text.replace("\\", "\\e").replace("-", "\\-")
    return re.sub(r"^([.'])", r"\\&\1", text, flags=re.M)


def manual(options, version):
    """The manual page: what stands in packaging/birch.1, with the version and the options."""
    rows = []
    for it in options:
        value = f" \\fI{it.value}\\fR" if it.value else ""
        rows += [".TP", ", ".join(f"\\fB{roff(name)}\\fR" for name in it.names()) + value, roff(it.help) + "."]
    with open(f"{HERE}/birch.1", encoding="utf-8") as it:
        page = it.read()
    return page.replace("@VERSION@", version).replace("@OPTIONS@\n", "\n".join(rows) + "\n")


def bash(options):
    """Completions of bash: options, and the values of those that have few; else bash's own, of paths."""
    words = " ".join(name for it in options for name in it.names())
    cases = [f"    {'|'.join(it.names())}) words='{' '.join(it.values)}' ;;" for it in options if it.values]
    return "\n".join(
        [
            "# completions of birch for bash",
            "_birch() {",
            "    local word=${COMP_WORDS[COMP_CWORD]} before=${COMP_WORDS[COMP_CWORD - 1]} words=",
            "    if [[ $word == = ]]; then word=; fi",
            "    if [[ $before == = ]]; then before=${COMP_WORDS[COMP_CWORD - 2]}; fi",
            "    case $before in",
            *cases,
            f"    *) if [[ $word == -* ]]; then words='{words}'; fi ;;",
            "    esac",
            '    mapfile -t COMPREPLY < <(compgen -W "$words" -- "$word")',
            "}",
            "complete -o default -F _birch birch",
            "",
        ]
    )


def zsh(options):
    """Completions of zsh."""
    rows = []
    for it in options:
        told = re.sub(r"([\[\]:])", r"\\\1", it.help).replace("'", "'\\''")
        action = f"({' '.join(it.values)})" if it.values else "_files" if it.value in PATHS else " "
        value = f":{it.value}:{action}" if it.value else ""
        mark = "=" if it.value else ""
        if it.letter:
            names = f"'({' '.join(it.names())})'{{-{it.letter}{'+' if it.value else ''},--{it.word}{mark}}}"
        else:
            names = f"--{it.word}{mark}"
        rows.append(f"    {names}'[{told}]{value}' \\")
    head = ["#compdef birch", "# completions of birch for zsh", "_arguments -s -S \\"]
    return "\n".join([*head, *rows, "    '1:QUERY: ' \\", "    '*:PATH:_files'", ""])


def fish(options):
    """Completions of fish."""
    rows = ["# completions of birch for fish"]
    for it in options:
        told = it.help.replace("\\", "\\\\").replace("'", "\\'")
        letter = f" -s {it.letter}" if it.letter else ""
        values = f" -a '{' '.join(it.values)}'" if it.values else ""
        value = "" if not it.value else " -r -F" if it.value in PATHS else f" -x{values}"
        rows.append(f"complete -c birch{letter} -l {it.word}{value} -d '{told}'")
    return "\n".join([*rows, ""])


def said(program, word):
    return subprocess.run([program, word], capture_output=True, text=True, check=True).stdout


def main(program, folder):
    options = options_of(said(program, "--help"))
    version = said(program, "--version").strip()
    pages = {
        "birch.1": manual(options, version),
        "birch.bash": bash(options),
        "_birch": zsh(options),
        "birch.fish": fish(options),
    }
    os.makedirs(folder, exist_ok=True)
    for name, text in pages.items():
        with open(f"{folder}/{name}", "w", encoding="utf-8") as it:
            it.write(text)


if __name__ == "__main__":
    if len(sys.argv) != 3:
        sys.exit(__doc__)
    main(os.path.abspath(sys.argv[1]), sys.argv[2])
