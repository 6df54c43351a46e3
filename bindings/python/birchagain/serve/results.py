"""The results of a query as HTML."""

from __future__ import annotations

from typing import List, Optional, Sequence

from .collection import Answer, Found, Place, Weights
from .excerpt import Mark, excerpt, marks_in, pieces
from .explanation import MOST_LENGTH, Explanation, Share, times_in
from .layout import address, counted, number, shown_path
from .markup import Markup, element, joined
from .query import Everything, Joined, Part, Words, scoring_leaves

# passages of a file on one page
PART = 50
# an explanation has so many rows at most
MOST_ROWS = 60
_HEADS = ("Asked for", "Stands here", "Held by passages", "Weighs", "Gives")


def marked(text: str, marks: Sequence[Mark], begin: int, end: int) -> Markup:
    """A part of a text with what was found in it marked."""
    return joined(*(element("mark", it.text) if it.is_found else it.text for it in pieces(text, marks, begin, end)))


def place_link(place: Place, query: str) -> Markup:
    """A way to a passage in its file."""
    shown = address(f"/file/{place.file.key}", f"p{place.number + 1}", q=query, part=place.number // PART + 1)
    return element("a", shown_path(place.file.path), href=shown)


def result_list(answer: Answer, first: int, text: str, query: Part, explanations: Sequence[Explanation]) -> Markup:
    """The results of a page, of which the first has this number."""
    leaves = [*scoring_leaves(query)]
    items = [_result(*it, text, leaves, answer.weights) for it in zip(answer.results, explanations)]
    return element("ol", *items, start=first, class_="results")


def _result(found: Found, explanation: Explanation, query: str, leaves: List[Words], weights: Weights) -> Markup:
    marks = marks_in(found.text, leaves)
    begin, end = excerpt(found.text, marks)
    before, behind = "\u2026 " if begin else "", " \u2026" if end < len(found.text) else ""
    shown = joined(before, marked(found.text, marks, begin, end), behind)
    return element(
        "li",
        element("h2", place_link(found.place, query), " ", _line(found.place)),
        element("p", shown, class_="passage", dir="auto", lang=""),
        _others(found, query),
        _why(found, explanation, weights),
    )


def _line(place: Place) -> Markup:
    return element("span", f"line {number(place.line)}", class_="line")


def _others(found: Found, query: str) -> Markup:
    """The other files that hold the same passage."""
    count = found.held_by - 1
    if not count:
        return Markup("")
    items = [element("li", place_link(it, query), " ", _line(it)) for it in found.others]
    if count > len(items):
        items.append(element("li", f"and {number(count - len(items))} more"))
    summary = element("summary", f"The same in {counted(count, 'other text')}")
    return element("details", summary, element("ul", *items), class_="why")


def _why(found: Found, explanation: Explanation, weights: Weights) -> Markup:
    """The fold that says how a score comes about."""
    length = counted(len(explanation.words), "word")
    held = f", and counts as one of {MOST_LENGTH}" if len(explanation.words) > MOST_LENGTH else ""
    rule = (
        f"This passage has {length}{held}. What weighs w and stands f times in a passage of l words gives "
        "w \u00d7 f \u00f7 (f + l), rounded down. The more passages hold a word, the less it weighs."
    )
    if weights.beginnings:
        mean = counted(weights.length, "word")
        rule += f" The beginning of a word gives what stands once in a passage of mean length, {mean}."
    head = element("thead", element("tr", *(element("th", it, scope="col") for it in _HEADS)))
    # what is asked for as a whole gives the score, which stands below
    shares = explanation.shares[1:] if isinstance(explanation.shares[0].part, Joined) else explanation.shares
    rows = [_row(it, explanation, weights) for it in shares[:MOST_ROWS]]
    more = len(shares) - MOST_ROWS
    if more > 0:
        rows.append(element("tr", element("td", f"and {number(more)} more", colspan="5")))
    total = element(
        "tfoot", element("tr", element("th", "Score", scope="row", colspan="4"), element("td", number(found.score)))
    )
    table = element("table", head, element("tbody", *rows), total)
    name = f"Why this passage scores {number(found.score)}"
    summary = element("summary", f"Score {number(found.score)}: why")
    region = element("div", table, class_="wide", role="region", aria_label=name, tabindex="0")
    return element("details", summary, region, element("p", rule), class_="why")


def _row(share: Share, explanation: Explanation, weights: Weights) -> Markup:
    """A row: what is asked for, how often it stands here, how many hold it, what it weighs, what it gives."""
    part, score = share.part, share.score
    if not isinstance(part, Words):
        cells = ["", "", "", _said_of_list(part, score)]
    elif part.goes_on:
        held, weight = weights.beginnings[part]
        said = _product(part.factor, f"{number(weight)} \u00f7 (1 + {number(weights.length)})", score)
        cells = ["no" if score is None else "yes", number(held), number(weight), said]
    else:
        cells = _cells_of_words(part, score, explanation, weights)
    asked = element("th", element("code", str(part)), scope="row", class_=f"deep{min(share.depth, 6)}")
    # where there is little room each cell has its head beside it
    return element("tr", asked, *(element("td", it, data_head=head) for it, head in zip(cells, _HEADS[1:])))


def _said_of_list(part: Part, score: Optional[int]) -> str:
    if score is None:
        return "not found as a whole: 0"
    times = f"(\u00d7 {number(part.factor)}) " if part.factor != 1 else ""
    return f"{'every passage' if isinstance(part, Everything) else 'together'} {times}{number(score)}"


def _cells_of_words(part: Words, score: Optional[int], explanation: Explanation, weights: Weights) -> List[str]:
    each = [weights.words[it] for it in part.words]
    held, weight = " and ".join(number(it.held) for it in each), sum(it.weight for it in each)
    weighs = " + ".join(number(it.weight) for it in each) + (f" = {number(weight)}" if len(each) > 1 else "")
    if score is None:
        return ["no", held, weighs, "0"]
    if part.slop:
        return ["yes", held, weighs, _product(part.factor, "by how often it stands here", score)]
    times = number(times_in(explanation.words, part))
    said = f"{number(weight)} \u00d7 {times} \u00f7 ({times} + {number(explanation.length)})"
    return [f"{times} \u00d7", held, weighs, _product(part.factor, said, score)]


def _product(factor: int, said: str, score: Optional[int]) -> str:
    """How a score comes about, which the library rounds first and then multiplies."""
    if score is None:
        return "0"
    return f"{said} = {number(score)}" if factor == 1 else f"({said}) \u00d7 {number(factor)} = {number(score)}"
