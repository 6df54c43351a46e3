"""The tree of a query in the language that people type (docs/QUERIES.md), which the library has read before."""

from __future__ import annotations

import re
from typing import List, NamedTuple, Optional, Tuple, Union

_SPACE = "\t-\r \x85\xa0\u1680\u2000-\u200a\u2028\u2029\u202f\u205f\u3000"
_LETTER = rf'(?:\\.|[^{_SPACE}\\"()*?:^~\[\]{{}}])'
_TOKEN = re.compile(
    rf"""(?:
        (?P<sign>[()+-])
      | "(?P<quoted>(?:\\.|[^\\"])*)"(?:~(?P<slop>[0-9]+))?(?P<quoted_star>\*?)
      | (?P<word>{_LETTER}*)(?P<star>\*?)(?P<colon>:?)
    )(?:\^(?P<boost>[0-9]+))?""",
    re.X | re.S,
)
_GAP = re.compile(f"[{_SPACE}]*")
_ESCAPED = re.compile(r"\\(.)", re.S)
_OPERATORS = {"AND": "AND", "OR": "OR", "NOT": "-"}


class Leaf(NamedTuple):
    """A word, the beginning of one, or a phrase, and how many letters stand before it; `*` alone begins any word."""

    text: str
    is_phrase: bool
    goes_on: bool
    slop: int
    place: int


class Boosted(NamedTuple):
    """What scores so many times as much."""

    tree: Tree
    factor: int


class Named(NamedTuple):
    """What is asked of a field, whose name stands behind so many letters."""

    name: str
    tree: Tree
    place: int


class Clauses(NamedTuple):
    """Trees with their signs: `+`, `-`, or `?` for none. Without one it asks for nothing."""

    clauses: List[Tuple[str, Tree]]


Tree = Union[Leaf, Boosted, Named, Clauses]


class _Token(NamedTuple):
    """Its kind is a sign, an operator, "name" or "leaf", or nothing at the end."""

    kind: str
    place: int = 0
    leaf: Optional[Leaf] = None
    boost: Optional[int] = None
    name: str = ""


def _tokens(text: str) -> List[_Token]:
    found, at = [], _GAP.match(text).end()
    while at < len(text):
        token = _TOKEN.match(text, at)
        found.append(_token(token))
        at = _GAP.match(text, token.end()).end()
    return found


def _token(found: re.Match) -> _Token:
    boost = None if found["boost"] is None else int(found["boost"])
    if found["sign"]:
        return _Token(found["sign"], found.start("sign"), boost=boost)
    if found["quoted"] is not None:
        place, slop = found.start("quoted") - 1, int(found["slop"] or 0)
        return _Token("leaf", place, Leaf(_text(found["quoted"]), True, bool(found["quoted_star"]), slop, place), boost)
    place, word = found.start("word"), found["word"]
    if found["colon"]:
        return _Token("name", place, name=_text(word))
    if word in _OPERATORS and not found["star"]:
        return _Token(_OPERATORS[word], place)
    return _Token("leaf", place, Leaf(_text(word), False, bool(found["star"]), 0, place), boost)


def _text(typed: str) -> str:
    return _ESCAPED.sub(r"\1", typed)


class _Reader:
    """Reads tokens: a query is chains with an OR before them or none, and a chain clauses with an AND between them."""

    def __init__(self, tokens: List[_Token]) -> None:
        self.tokens, self.at = tokens, 0

    def _kind(self) -> str:
        return self.tokens[self.at].kind if self.at < len(self.tokens) else ""

    def _take(self) -> _Token:
        self.at += 1
        return self.tokens[self.at - 1]

    def query(self) -> Tree:
        clauses = []
        while self._kind() not in ("", ")"):
            if self._kind() == "OR":
                self._take()
            clauses.append(self._chain())
        return clauses[0][1] if len(clauses) == 1 and clauses[0][0] == "?" else Clauses(clauses)

    def _chain(self) -> Tuple[str, Tree]:
        clauses = [self._clause()]
        while self._kind() == "AND":
            self._take()
            clauses.append(self._clause())
        if len(clauses) == 1:
            return clauses[0]
        return "?", Clauses([("+" if sign == "?" else sign, tree) for sign, tree in clauses])

    def _clause(self) -> Tuple[str, Tree]:
        sign = self._take().kind if self._kind() in ("+", "-") else "?"
        name = self._take() if self._kind() == "name" else None
        tree = self._operand()
        return sign, Named(name.name, tree, name.place) if name else tree

    def _operand(self) -> Tree:
        token = self._take()
        tree, boost = token.leaf, token.boost
        if tree is None:
            tree = self.query()
            boost = self._take().boost
        return tree if boost is None else Boosted(tree, boost)


def tree_of(text: str) -> Tree:
    """The tree of a query that the library understands."""
    return _Reader(_tokens(text)).query()
