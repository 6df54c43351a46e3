#!/usr/bin/env python3
"""Draws docs/pruning.svg: one pruned run over two words, and which blocks it passed over.

    python3 bench/draw_pruning.py [--check]

The program of measure_pruning/main.txt is built with no proof and finds the ten best of 4,000 made-up documents by
two frequent words, once with the shortest documents first and once in mixed order; it writes the blocks of each
word with their bounds, and what each document scored that the run looked at, with the threshold behind it. Those
are the documents of which the bounds of the blocks add up to more than the threshold: the scores say so too, or the
run is not drawn. With --check nothing is written: the exit status is 1 where the file is not what would be drawn.
"""

import os
import subprocess
import sys
import tempfile

sys.dont_write_bytecode = True

from measure_pruning import ROOT, build

MADE = f"{ROOT}/docs/pruning.svg"
DOCUMENTS, WORDS = 4000, ("a", "b")
ORDERS = {"length": "the shortest documents first", "mixed": "the same documents in mixed order"}
WIDTH, LEFT, TALL, STRIP, BETWEEN = 900, 90, 130, 26, 10
PANEL = TALL + len(WORDS) * (STRIP + BETWEEN) + 90
COLOURS = {"bounds": "#dbe9f6", "scored": "#3b6ea5", "passed": "#ffffff", "threshold": "#c0392b"}


def pairs(line):
    """The words of a line behind its first, as pairs of numbers."""
    return [tuple(map(int, word.split(":"))) for word in line.split()[1:]]


class Run:
    """What a run went over: of each word the blocks and the postings, and each document that was scored with the
    threshold behind it."""

    def __init__(self, program, order):
        given = f"{DOCUMENTS} {order} {len(WORDS)} traced 1"
        printed = subprocess.run([program], input=given, check=True, stdout=subprocess.PIPE, text=True).stdout
        *rows, scored = printed.strip().split("\n")
        self.blocks = [pairs(line) for line in rows[0::2]]
        self.postings = [dict(pairs(line)) for line in rows[1::2]]
        self.thresholds = self.thresholds_of(pairs(scored))

    def thresholds_of(self, scored):
        """The threshold behind each document that was scored; a plain loop over all documents finds which."""
        found, threshold = {}, -1
        for doc in sorted({*self.postings[0], *self.postings[1]}):
            if sum(self.bound(word, doc) for word, row in enumerate(self.postings) if doc in row) > threshold:
                score, threshold = scored[len(found)]
                assert score == sum(row.get(doc, 0) for row in self.postings), f"document {doc} was not scored"
                found[doc] = threshold
        assert len(found) == len(scored)
        return found

    def bound(self, word, doc):
        return next(bound for last, bound in self.blocks[word] if doc <= last)

    def spans(self, word):
        """Of each block of a word its documents, its bound, and how many of its postings were scored."""
        first = 0
        for last, bound in self.blocks[word]:
            end = min(last + 1, DOCUMENTS)
            yield first, end, bound, sum(doc in self.postings[word] for doc in self.thresholds if first <= doc < end)
            first = end


def across(doc):
    return LEFT + doc * WIDTH / DOCUMENTS


def box(left, right, top, tall, colour, more=""):
    return f'<rect x="{left:.1f}" y="{top:.1f}" width="{right - left:.1f}" height="{tall:.1f}" fill="{colour}"{more}/>'


def text(left, top, said, style=""):
    return f'<text x="{left:.0f}" y="{top:.0f}"{style}>{said}</text>'


def bounds_drawn(run, top, scale):
    """The bounds of the words' blocks together, document by document, and the threshold over them."""
    ends = sorted({end for word in range(len(WORDS)) for _, end, _, _ in run.spans(word)})
    drawn, first = [], 0
    for end in ends:
        tall = sum(run.bound(word, first) for word in range(len(WORDS))) * scale
        drawn.append(box(across(first), across(end), top + TALL - tall, tall, COLOURS["bounds"]))
        first = end
    path, height = f"M{across(0):.1f} {top + TALL}", 0
    for doc, threshold in run.thresholds.items():
        if max(threshold, 0) != height:
            height = max(threshold, 0)
            path += f" H{across(doc):.1f} V{top + TALL - height * scale:.1f}"
    return [*drawn, f'<path d="{path} H{across(DOCUMENTS):.1f}" stroke="{COLOURS["threshold"]}" stroke-width="1.5" fill="none"/>']


def strip_drawn(run, word, top):
    """The blocks of a word: those that were passed over are empty, in the others the documents that were scored."""
    drawn = [text(LEFT - 8, top + STRIP / 2 + 4, f"blocks of {WORDS[word]}", ' text-anchor="end"')]
    for first, end, _, scored in run.spans(word):
        colour = COLOURS["bounds"] if scored else COLOURS["passed"]
        drawn.append(box(across(first), across(end), top, STRIP, colour, ' stroke="#667"'))
    lines = "".join(
        f"M{across(doc):.1f} {top}v{STRIP}" for doc in run.thresholds if doc in run.postings[word]
    )
    return [*drawn, f'<path d="{lines}" stroke="{COLOURS["scored"]}" stroke-width="0.4" fill="none"/>']


def panel(run, order, top):
    spans = [span for word in range(len(WORDS)) for span in run.spans(word)]
    passed = sum(scored == 0 for *_, scored in spans)
    scale = TALL / sum(max(bound for _, bound in row) for row in run.blocks)
    held = len({*run.postings[0], *run.postings[1]})
    said = f"{ORDERS[order]}: {passed} of {len(spans)} blocks passed over, {len(run.thresholds)} of {held} documents scored"
    drawn = [text(LEFT, top + 18, said, ' class="head"')]
    drawn += bounds_drawn(run, top + 30, scale)
    drawn += [text(LEFT - 8, top + 42, "bounds", ' text-anchor="end"'), text(LEFT - 8, top + 56, "and threshold", ' text-anchor="end"')]
    for word in range(len(WORDS)):
        drawn += strip_drawn(run, word, top + 30 + TALL + BETWEEN + word * (STRIP + BETWEEN))
    foot = top + 30 + TALL + BETWEEN + len(WORDS) * (STRIP + BETWEEN) + 8
    for doc in range(0, DOCUMENTS + 1, 1000):
        drawn.append(text(across(doc), foot, str(doc), ' text-anchor="middle"'))
    return drawn


def drawn_runs():
    with tempfile.TemporaryDirectory() as room:
        program = build(room)
        runs = {order: Run(program, order) for order in ORDERS}
    wide, tall = LEFT + WIDTH + 20, len(runs) * PANEL
    parts = [
        f'<svg xmlns="http://www.w3.org/2000/svg" viewBox="0 0 {wide} {tall}" width="{wide}" height="{tall}">',
        "<style>text { font: 11px sans-serif; } .head { font: bold 13px sans-serif; }</style>",
        '<rect width="100%" height="100%" fill="white"/>',
    ]
    for at, (order, run) in enumerate(runs.items()):
        parts += panel(run, order, at * PANEL)
    return "\n".join([*parts, "</svg>"]) + "\n"


def main(words):
    drawn = drawn_runs()
    if words != ["--check"]:
        with open(MADE, "w", encoding="utf-8") as it:
            it.write(drawn)
        return 0
    with open(MADE, encoding="utf-8") as it:
        is_same = it.read() == drawn
    if not is_same:
        print("docs/pruning.svg is not what would be drawn: run python3 bench/draw_pruning.py")
    return 0 if is_same else 1


if __name__ == "__main__":
    sys.exit(main(sys.argv[1:]))
