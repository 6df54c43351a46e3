"""What all pages have: head, box, help, and what was read."""

from __future__ import annotations

from collections import Counter
from typing import Dict, List, Optional, Tuple, Union
from urllib.parse import urlencode

from .collection import Summary
from .markup import Markup, element, joined
from .reading import told

_EXAMPLE = 'Words, +must, -not, "a phrase", begin*'
_HELP = (
    ("old apple", "any of the words; what holds more of them, and rarer ones, comes first"),
    ("old AND apple", "both words"),
    ("+old apple", "the first word; the second adds to the score"),
    ("old -apple", "the first word and not the second"),
    ('"old apple"', "the words one behind the other"),
    ('"old apple"~2', "the same, up to two places further apart"),
    ("app*", "words that begin so"),
    ("apple^3", "the word, which weighs three times as much"),
    ("(old OR young) AND tree", "parentheses go together"),
)


def address(path: str, fragment: str = "", **values: Union[str, int]) -> str:
    """A path of this site with values behind it."""
    asked = urlencode(values)
    return path + (f"?{asked}" if asked else "") + (f"#{fragment}" if fragment else "")


def number(count: int) -> str:
    """A number for people to read."""
    return f"{count:,}"


def counted(count: int, one: str) -> str:
    """So many of a thing."""
    return f"{number(count)} {one}{'' if count == 1 else 's'}"


def shown_path(path: str) -> Markup:
    """A path with the folders apart from the name. Control letters are shown by their pictures."""
    shown = path.translate({**{it: 0x2400 + it for it in range(32)}, 127: 0x2421})
    folder, slash, name = shown.rpartition("/")
    return element("bdi", element("span", folder + slash, class_="folder") if folder else "", name)


def form(query: str, refusal: Optional[str] = None, is_first: bool = False) -> Markup:
    """The box. `refusal` is the id of what says why the query is refused, and `is_first` puts the caret into it."""
    label = element("label", "Search", for_="q", class_="label")
    said = {"aria_invalid": "true", "aria_describedby": refusal} if refusal else {}
    typed_as_it_is = {"autocomplete": "off", "autocapitalize": "none", "spellcheck": "false", "enterkeyhint": "search"}
    box = element(
        "input",
        type="search",
        id="q",
        name="q",
        value=query,
        placeholder=_EXAMPLE,
        autofocus=is_first,
        **typed_as_it_is,
        **said,
    )
    return element(
        "form", label, box, element("button", "Search", type="submit"), action="/", method="get", role="search"
    )


def help_fold(is_open: bool) -> Markup:
    """What a query may say."""
    rows = [
        element("tr", element("td", element("a", typed, href=address("/", q=typed))), element("td", finds))
        for typed, finds in _HELP
    ]
    head = element("thead", element("tr", element("th", "Typed", scope="col"), element("th", "Finds", scope="col")))
    table = element("table", head, element("tbody", *rows))
    notes = (
        "Capitals and accents don't count. What is joined by other signs, as spin_lock, is a phrase of its words. "
        "A passage is a paragraph of a file; all that a query asks for has to stand in one."
    )
    return element(
        "details", element("summary", "What a query may say"), table, element("p", notes), open=is_open, class_="help"
    )


def footer(folder: str, summary: Summary) -> Markup:
    """What was read, and what was left out, in a line."""
    read = f"{counted(summary.texts, 'text')} with {counted(summary.passages, 'passage')} in "
    return element("footer", element("p", read, element("bdi", folder), f". {told_left_out(summary.left_out)}."))


def told_left_out(left_out: Counter) -> str:
    """How many files were left out and why."""
    told_each = ", ".join(told(left_out))
    return f"Left out: {told_each}" if told_each else "No file was left out"


def page(title: str, header: Markup, main: Markup, foot: Markup) -> bytes:
    """A whole page as bytes."""
    head = element(
        "head",
        element("meta", charset="utf-8"),
        element("meta", name="viewport", content="width=device-width, initial-scale=1"),
        element("meta", name="color-scheme", content="light dark"),
        element("title", title),
        element("link", rel="stylesheet", href="/style.css"),
        element("link", rel="icon", href="/icon.svg", type="image/svg+xml"),
    )
    skip = element("a", "Skip to the results", href="#main", class_="skip")
    body = element("body", skip, header, main, foot)
    return joined(Markup("<!DOCTYPE html>\n"), element("html", head, body, lang="en")).encode()


def site_header(folder: str, *inside: Markup) -> Markup:
    """The head of a page, with a way back to the beginning."""
    name = element("a", "Birchagain", element("span", " in ", element("bdi", folder)), href="/", class_="site")
    return element("header", element("p", name), *inside)


def main_part(*inside: str) -> Markup:
    """What a page is for."""
    return element("main", *inside, id="main", tabindex="-1")


def page_links(path: str, pages: Tuple[int, int], label: str, values: Dict[str, str], name: str = "page") -> Markup:
    """Ways to the pages before and behind one, of so many."""
    at, last = pages
    if last == 1:
        return Markup("")
    shown: List[str] = [element("span", f"Page {number(at)} of {number(last)}")]
    if at > 1:
        shown[:0] = [element("a", "\u2190 Previous", href=address(path, **values, **{name: at - 1}), rel="prev"), " "]
    if at < last:
        shown += [" ", element("a", "Next \u2192", href=address(path, **values, **{name: at + 1}), rel="next")]
    return element("nav", *shown, aria_label=label)
