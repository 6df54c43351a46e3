"""A text of the folder as HTML, as it was read."""

from __future__ import annotations

from typing import List

from .excerpt import marks_in
from .files import File
from .layout import address, counted, main_part, number, page_links, shown_path
from .markup import Markup, element
from .passages import Passage
from .query import Refusal, Words, read_query, scoring_leaves
from .results import PART, marked


def file_page(file: File, query: str, part: int) -> Markup:
    """A part of a text, with what a query finds in it marked."""
    parts = max(1, -(-len(file.passages) // PART))
    part = min(part, parts)
    leaves = _leaves(query)
    first = (part - 1) * PART
    shown = file.passages[first : first + PART]
    values = {"q": query} if query else {}
    links = page_links(f"/file/{file.key}", (part, parts), "Parts of the text", values, "part")
    back = element("p", element("a", "Back to the results", href=address("/", q=query))) if query else ""
    return main_part(
        element("h1", shown_path(file.path)),
        element("p", counted(len(file.passages), "passage"), class_="told"),
        back,
        links,
        *(_passage(it, place, leaves) for place, it in enumerate(shown, first + 1)),
        links,
    )


def _leaves(query: str) -> List[Words]:
    """The words to be marked: none of a query that is refused."""
    try:
        return [*scoring_leaves(read_query(query))]
    except Refusal:
        return []


def _passage(passage: Passage, place: int, leaves: List[Words]) -> Markup:
    text = marked(passage.text, marks_in(passage.text, leaves), 0, len(passage.text))
    line = element(
        "a", number(passage.line), href=f"#p{place}", class_="line", aria_label=f"Line {number(passage.line)}"
    )
    return element("section", line, element("pre", text, dir="auto", lang=""), id=f"p{place}", tabindex="-1")
