#!/usr/bin/env python3
"""Draws docs/layers.svg: which crate stands on which, by crates.txt.

    python3 tests/layers.py [--check]

A crate stands above all that it uses; a line is left out where another way leads down to the same crate. What a
box says is how the crate's own documentation begins. With --check nothing is written: the exit status is 1 where
the file is not what would be drawn, or where a table of docs/LAYERS.md has no row for a crate, or for one that isn't.
"""

import os
import re
import sys
import textwrap
from xml.sax.saxutils import escape

ROOT = os.path.realpath(os.path.join(os.path.dirname(os.path.abspath(__file__)), ".."))
MADE, PAGE = "docs/layers.svg", "docs/LAYERS.md"
# the parts of the page that have a table of all crates
TABLES = ("What each crate is for", "How far each is proved")
# by how its name begins, what a crate is, and its colour
KINDS = [
    ("qm_", "the library, and the program of scripts", "#dbe9f6"),
    ("birchagain", "the library for other languages", "#e6def2"),
    ("birch", "the search command", "#d9f0d3"),
    ("example", "examples", "#fdf3c8"),
    ("cases", "what plays the cases", "#eeeeee"),
    ("bench", "what costs are measured by", "#f4e1ec"),
]
WIDTH, HEIGHT, BETWEEN, ABOVE, MARGIN = 176, 62, 18, 40, 16
SWEEPS = 24
# how many letters a line of a box has
ACROSS = 30


def read(path):
    with open(f"{ROOT}/{path}", encoding="utf-8") as it:
        return it.read()


def uses_of():
    """The crates, each with those of this repository that it uses."""
    lines = [line.partition("#")[0].partition(":") for line in read("crates.txt").split("\n")]
    named = {head.split()[0]: uses.replace(",", " ").split() for head, _, uses in lines if head.strip()}
    return {name: [it for it in uses if it in named] for name, uses in named.items()}


def saying(name):
    """How the crate's documentation begins, in three lines at most."""
    root = next(it for it in ("lib", "main") if os.path.isfile(f"{ROOT}/crates/{name}/src/{it}.rt"))
    lines = read(f"crates/{name}/src/{root}.rt").split("\n")
    text = " ".join(line[3:].strip() for line in lines[:4] if line.startswith("//!"))
    said = re.split(r"[:;.](?: |$)", text)[0]
    while len(textwrap.wrap(said, ACROSS)) > 3:
        said = said.rpartition(",")[0] or textwrap.shorten(said, 3 * ACROSS - 6, placeholder=" ..")
    return textwrap.wrap(said, ACROSS)


def below(name, uses):
    return {name}.union(*(below(it, uses) for it in uses[name]))


def direct(uses):
    """The uses that no other way leads to."""
    return {
        name: [it for it in row if not any(it in below(other, uses) for other in row if other != it)]
        for name, row in uses.items()
    }


def level(name, uses):
    return 1 + max((level(it, uses) for it in uses[name]), default=-1)


def rows_of(uses, lines):
    """The rows from the lowest up, where a line that passes a row has a place there; and each line's places."""
    levels = {name: level(name, uses) for name in uses}
    rows = [[name for name in uses if levels[name] == at] for at in range(max(levels.values()) + 1)]
    ways = []
    for name, row in lines.items():
        for under in row:
            way = [under]
            for at in range(levels[under] + 1, levels[name]):
                rows[at].append((name, under))
                way.append((name, under))
            ways.append([(levels[under] + step, it) for step, it in enumerate(way)] + [(levels[name], name)])
    return rows, ways


def in_order(rows, ways):
    """The rows, each put in the order of what its places are joined to, up and down by turns."""
    joined = {}
    for way in ways:
        for lower, upper in zip(way, way[1:]):
            joined.setdefault(lower, []).append(upper)
            joined.setdefault(upper, []).append(lower)
    best, fewest = [*map(list, rows)], crossings(rows, ways)
    for sweep in range(SWEEPS):
        upwards = sweep % 2 == 0
        for at in range(1, len(rows)) if upwards else range(len(rows) - 2, -1, -1):
            other = at - 1 if upwards else at + 1
            middle = {
                it: [rows[other].index(end) for level_of, end in joined.get((at, it), []) if level_of == other] for it in rows[at]
            }
            old = {it: place for place, it in enumerate(rows[at])}
            rows[at].sort(key=lambda it: sum(middle[it]) / len(middle[it]) if middle[it] else old[it])
        if (count := crossings(rows, ways)) < fewest:
            best, fewest = [*map(list, rows)], count
    return best


def crossings(rows, ways):
    """How many pairs of lines cross."""
    count = 0
    for at in range(len(rows) - 1):
        steps = [
            (rows[at].index(lower[1]), rows[at + 1].index(upper[1]))
            for way in ways
            for lower, upper in zip(way, way[1:])
            if lower[0] == at
        ]
        count += sum((a[0] - b[0]) * (a[1] - b[1]) < 0 for k, a in enumerate(steps) for b in steps[:k])
    return count


def breadth(it):
    return WIDTH if isinstance(it, str) else 10


def placed(rows):
    """Where each place of each row has its middle, across."""
    wide = max(sum(breadth(it) + BETWEEN for it in row) for row in rows)
    middles = {}
    for at, row in enumerate(rows):
        left = MARGIN + (wide - sum(breadth(it) + BETWEEN for it in row)) / 2
        for it in row:
            middles[at, it] = left + (breadth(it) + BETWEEN) / 2
            left += breadth(it) + BETWEEN
    return middles, wide + 2 * MARGIN


def top_of(at, rows):
    return MARGIN + (len(rows) - 1 - at) * (HEIGHT + ABOVE)


def line_of(way, middles, rows):
    """A line from the crate above down to the one below, through its places in the rows between."""
    (low, under), (high, name) = way[0], way[-1]
    drawn, up = f"M{middles[high, name]:.0f} {top_of(high, rows) + HEIGHT}", middles[high, name]
    for at, it in reversed(way[:-1]):
        across, foot = middles[at, it], top_of(at, rows)
        drawn += f" C{up:.0f} {foot - ABOVE / 2:.0f} {across:.0f} {foot - ABOVE / 2:.0f} {across:.0f} {foot}"
        if at != low:
            drawn += f" V{foot + HEIGHT}"
        up = across
    return f'<path d="{drawn}"/>'


def box_of(name, across, top):
    colour = next((colour for begins, _, colour in KINDS if name.startswith(begins)), "white")
    drawn = [
        f'<rect x="{across - WIDTH / 2:.0f}" y="{top}" width="{WIDTH}" height="{HEIGHT}" rx="5" fill="{colour}"/>',
        f'<text x="{across:.0f}" y="{top + 17}" class="name">{escape(name)}</text>',
    ]
    drawn += [f'<text x="{across:.0f}" y="{top + 31 + 12 * at}">{escape(line)}</text>' for at, line in enumerate(saying(name))]
    return "\n".join(drawn)


def legend(top):
    drawn, left = [], MARGIN
    for _, said, colour in KINDS:
        drawn.append(f'<rect x="{left}" y="{top}" width="14" height="14" fill="{colour}"/>')
        drawn.append(f'<text x="{left + 20}" y="{top + 11}" style="text-anchor: start">{escape(said)}</text>')
        left += 40 + 6 * len(said)
    return "\n".join(drawn)


def drawn():
    uses = uses_of()
    rows, ways = rows_of(uses, direct(uses))
    rows = in_order(rows, ways)
    middles, wide = placed(rows)
    foot = top_of(0, rows) + HEIGHT + 20
    boxes = [box_of(it, middles[at, it], top_of(at, rows)) for at, row in enumerate(rows) for it in row if isinstance(it, str)]
    style = "rect { stroke: #667; } path { fill: none; stroke: #889; } text { font: 10px sans-serif; text-anchor: middle; } .name { font: bold 12px sans-serif; }"
    head = f'<svg xmlns="http://www.w3.org/2000/svg" viewBox="0 0 {wide:.0f} {foot + 30}" width="{wide:.0f}" height="{foot + 30}">'
    lines = [line_of(way, middles, rows) for way in ways]
    parts = [head, f"<style>{style}</style>", '<rect width="100%" height="100%" style="fill: white; stroke: none"/>']
    return "\n".join([*parts, *lines, *boxes, legend(foot), "</svg>"]) + "\n", len(boxes)


def faults_of_page():
    """What the tables of the page lack, and what they have beside the crates."""
    for title in TABLES:
        part = read(PAGE).partition(f"\n## {title}\n")[2].partition("\n## ")[0]
        named = re.findall(r"\w+", " ".join(re.findall(r"^\| ([a-z_, 0-9]+) \|", part, re.M)))
        for name in sorted({*named} ^ {*uses_of()}):
            yield f"{PAGE}: {title}: {name} {'is no crate' if name in named else 'has no row'}"
        for name in sorted({it for it in named if named.count(it) > 1}):
            yield f"{PAGE}: {title}: {name} has two rows"


def main(words):
    text, count = drawn()
    if words != ["--check"]:
        with open(f"{ROOT}/{MADE}", "w", encoding="utf-8") as it:
            it.write(text)
    elif read(MADE) != text:
        print(f"{MADE} is not what crates.txt says: run python3 tests/layers.py")
        return 1
    if faults := [*faults_of_page()]:
        print("\n".join([*faults, "layers: NOT AS crates.txt SAYS"]))
        return 1
    print(f"layers: {count} crates as crates.txt says")
    return 0


if __name__ == "__main__":
    sys.exit(main(sys.argv[1:]))
