"""HTML. Every text and every attribute goes through `escaped`, unless it is made here."""

from __future__ import annotations

import html
import re
from typing import Union

_VOID = {"input", "link", "meta"}
# what HTML has no place for, and what would turn the direction of the text behind it
_UNSHOWN = re.compile("[\0-\x08\x0b\x0c\x0e-\x1f\x7f-\x9f\ud800-\udfff\u202a-\u202e\u2066-\u2069\ufffe\uffff]")
Attribute = Union[str, int, bool, None]


class Markup(str):
    """HTML that is made: nothing in it is escaped again."""


def escaped(text: str) -> Markup:
    """A text as HTML, in an element or an attribute. U+FFFD stands for letters that HTML can't show."""
    if isinstance(text, Markup):
        return text
    return Markup(html.escape(_UNSHOWN.sub("\ufffd", text), quote=True))


def element(name: str, /, *inside: str, **attributes: Attribute) -> Markup:
    """An element with what is inside it. In names of attributes `_` is `-`, and one at the end is dropped.

    An attribute that is True stands without a value, and one that is None or False doesn't stand.
    """
    written = "".join(
        _attribute(key, value) for key, value in attributes.items() if value is not None and value is not False
    )
    if name in _VOID:
        return Markup(f"<{name}{written}>")
    return Markup(f"<{name}{written}>{joined(*inside)}</{name}>")


def _attribute(key: str, value: Attribute) -> str:
    name = key.rstrip("_").replace("_", "-")
    return f" {name}" if value is True else f' {name}="{escaped(str(value))}"'


def joined(*parts: str) -> Markup:
    """Parts one behind the other."""
    return Markup("".join(map(escaped, parts)))
