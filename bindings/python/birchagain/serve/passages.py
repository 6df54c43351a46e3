"""What is searched: the passages of a text."""

from __future__ import annotations

from typing import Iterable, Iterator, NamedTuple

# in letters: a shorter paragraph, as a heading, goes with the one below it; a longer passage is cut
LEAST = 60
MOST = 2000


class Passage(NamedTuple):
    """A piece of a text, and the line where it begins, counted from 1."""

    line: int
    text: str


def passages_of(text: str) -> Iterator[Passage]:
    """The passages of a text: its paragraphs, but short ones with what is below them, and long ones in pieces."""
    for it in _with_headings(_paragraphs(text)):
        yield from _pieces(it)


def _paragraphs(text: str) -> Iterator[Passage]:
    """Lines up to an empty one."""
    lines = []
    number = 0
    for number, line in enumerate(text.split("\n"), 1):
        if line and not line.isspace():
            lines.append(line)
        elif lines:
            yield Passage(number - len(lines), "\n".join(lines))
            lines = []
    if lines:
        yield Passage(number + 1 - len(lines), "\n".join(lines))


def _with_headings(paragraphs: Iterable[Passage]) -> Iterator[Passage]:
    above = None
    for it in paragraphs:
        if above:
            it = Passage(above.line, f"{above.text}\n\n{it.text}")
        above = it if len(it.text) < LEAST else None
        if not above:
            yield it
    if above:
        yield above


def _pieces(passage: Passage) -> Iterator[Passage]:
    """A passage in pieces of at most MOST letters, which end with a line, else at a space, else anywhere."""
    line, text = passage
    at = 0
    while len(text) - at > MOST:
        ends = (text.rfind(it, at + 1, at + MOST) for it in "\n ")
        end = next((it for it in ends if it > at), at + MOST)
        yield Passage(line, text[at:end])
        begin = end + (text[end] in "\n ")
        line += text.count("\n", at, begin)
        at = begin
    yield Passage(line, text[at:])
