"""Which page an address asks for."""

from __future__ import annotations

import os
import re
from typing import Dict, NamedTuple, Optional
from urllib.parse import parse_qs, urlsplit

from ..errors import QueryError
from .collection import Answer, Collection
from .explanation import explain
from .files_page import file_page
from .hints import hints_for, listed
from .layout import address, counted, footer, form, help_fold, main_part, number, page, page_links, site_header
from .markup import Markup, element, joined
from .query import Part, Refusal, read_query
from .results import result_list

# results on a page, pages of results, and letters of a query
SIZE, MOST_PAGES, MOST_LETTERS = 10, 100, 2000
_MOST_FIELDS = 20
_HTML, _CSS, _SVG = "text/html; charset=utf-8", "text/css; charset=utf-8", "image/svg+xml"


class Response(NamedTuple):
    """A status, the kind of the body, and the body."""

    status: int
    kind: str
    body: bytes


def _file_here(name: str) -> bytes:
    with open(os.path.join(os.path.dirname(os.path.abspath(__file__)), name), "rb") as it:
        return it.read()


class Site:
    """The pages over a collection, which is shown under a name."""

    def __init__(self, collection: Collection, name: str) -> None:
        self.collection, self.name = collection, name
        self._files = {
            "/style.css": Response(200, _CSS, _file_here("style.css")),
            "/icon.svg": Response(200, _SVG, _file_here("icon.svg")),
        }

    def respond(self, target: str) -> Response:
        """The answer to a request for an address. Nothing of it names a file: a key is looked up among the texts."""
        try:
            parts = urlsplit(target)
            asked = {key: values[0] for key, values in parse_qs(parts.query, max_num_fields=_MOST_FIELDS).items()}
        except ValueError:
            return self.refuse(400, "The address is not understood.")
        if parts.scheme or parts.netloc:
            return self.refuse(400, "The address is not understood.")
        if parts.path in self._files:
            return self._files[parts.path]
        if parts.path == "/":
            return self._search(asked.get("q", ""), _whole_number(asked.get("page")))
        key = re.fullmatch("/file/([0-9a-f]{16})", parts.path)
        return self._file(key[1], asked) if key else self.refuse(404, "There is no such page.")

    def refuse(self, status: int, said: str) -> Response:
        """A page that says why there is none."""
        back = element("p", element("a", "To the search", href="/"))
        return self._page(status, said, main_part(element("h1", said), back), "")

    def _page(self, status: int, title: str, main: Markup, query: str, box: Optional[Markup] = None) -> Response:
        header = site_header(self.name, form(query) if box is None else box)
        body = page(
            f"{title} \u2013 {self.name}", header, main, footer(self.collection.folder, self.collection.summary())
        )
        return Response(status, _HTML, body)

    def _search(self, text: str, at: int) -> Response:
        if not text.strip():
            main = main_part(
                element("h1", f"Search {counted(self.collection.summary().texts, 'text')}"), help_fold(True)
            )
            return self._page(200, "Search", main, "", form("", is_first=True))
        if len(text) > MOST_LETTERS:
            return self._refused(text[:MOST_LETTERS], f"a query has {number(MOST_LETTERS)} letters at most", None)
        try:
            query = read_query(text)
            answer = self.collection.search(query, at, SIZE, MOST_PAGES)
        except Refusal as refusal:
            return self._refused(text, str(refusal), refusal.place)
        except QueryError as error:
            return self._refused(text, str(error), None)
        return self._found(text, query, answer) if answer.found else self._empty(text, query, answer)

    def _found(self, text: str, query: Part, answer: Answer) -> Response:
        explanations = explain(query, [it.text for it in answer.results], answer.weights)
        first = (answer.page - 1) * SIZE + 1
        main = main_part(
            element("h1", f"{counted(answer.found, 'passage')} found"),
            element("p", _told(answer), class_="told"),
            result_list(answer, first, text, query, explanations),
            page_links("/", (answer.page, answer.pages), "Pages of results", {"q": text}),
            help_fold(False),
        )
        on_page = f" \u2013 page {answer.page}" if answer.page > 1 else ""
        return self._page(200, f"{text}{on_page}", main, text)

    def _empty(self, text: str, query: Part, answer: Answer) -> Response:
        items = []
        for hint in listed(hints_for(query, answer, self.collection)):
            link = element("a", element("code", hint.query), href=address("/", q=hint.query)) if hint.query else ""
            behind = joined(" ", link, f" finds {counted(hint.found, 'passage')}.") if link else ""
            items.append(element("li", hint.said, behind))
        main = main_part(
            element("h1", "Nothing found"),
            element("p", _told(answer), class_="told"),
            element("ul", *items, class_="hints") if items else "",
            element("p", "Words are found whole, in any case and without their accents: nest* finds nests too."),
            help_fold(True),
        )
        return self._page(200, f"{text} \u2013 nothing found", main, text, form(text, is_first=True))

    def _refused(self, text: str, why: str, place: Optional[int]) -> Response:
        shown = ""
        if place is not None:
            here = element("mark", text[place : place + 1] or " ")
            shown = element("pre", text[:place], here, text[place + 1 :], class_="refused", dir="ltr")
            why = f"Not understood at letter {number(place + 1)}: {why}."
        else:
            why = f"Refused: {why}."
        main = main_part(
            element("h1", "The query is refused"), element("p", why, id="why", role="alert"), shown, help_fold(True)
        )
        return self._page(400, f"{text[:60]} \u2013 refused", main, text, form(text, refusal="why", is_first=True))

    def _file(self, key: str, asked: Dict[str, str]) -> Response:
        file = self.collection.file(key)
        if not file:
            return self.refuse(404, "This text is no longer in the folder.")
        text = asked.get("q", "")[:MOST_LETTERS]
        return self._page(200, file.path, file_page(file, text, _whole_number(asked.get("part"))), text)


def _told(answer: Answer) -> str:
    """Of how many passages they are, how long it took, and which page of them this is."""
    took = f"in {answer.seconds * 1000:.1f} ms, of {counted(answer.passages, 'passage')}"
    listed_at_most = SIZE * MOST_PAGES
    only = f". The best {number(listed_at_most)} are listed" if answer.found > listed_at_most else ""
    return took + (f". Page {answer.page} of {answer.pages}" if answer.pages > 1 else "") + only


def _whole_number(text: Optional[str]) -> int:
    """A number of a page, or 1 for what is none."""
    return max(1, int(text)) if text and re.fullmatch("[0-9]{1,9}", text) else 1
