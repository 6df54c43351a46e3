"""The language that people type, beside the plain model of the repository's tests."""

import os
import random
import sys

import pytest
from birchagain import QueryError, query_words
from birchagain.serve.typed import Boosted, Leaf, Named, tree_of

sys.path.append(os.path.join(os.path.dirname(os.path.abspath(__file__)), "..", "..", "..", "tests"))

import model.typed_queries as parser_model  # noqa: E402

TEXTS = 20_000
PIECES = [
    "a",
    "b",
    "\u00e9",
    "AND",
    "OR",
    "NOT",
    "IN",
    '"',
    '"a b"',
    "(",
    ")",
    "*",
    "a*",
    "^2",
    "^",
    "~1",
    "~",
    "+",
    "-",
    "\\",
]
PIECES += [
    ":",
    "n:",
    " ",
    " ",
    "  ",
    "?",
    "[",
    "]",
    "{",
    "<",
    "/",
    "\u3000",
    "\x1c",
    "\\-",
    '\\"',
    "9" * 30,
    "^2147483647",
]
PIECES += ["^2147483648", "~4294967295", "~4294967296", "^0002"]


def plain(tree):
    """A tree as the model has it."""
    if isinstance(tree, Leaf):
        if tree.is_phrase:
            return ("phrase prefix", tree.text) if tree.goes_on else ("phrase", tree.text, tree.slop)
        if tree.goes_on:
            return ("prefix", tree.text) if tree.text else ("all",)
        return ("word", tree.text)
    if isinstance(tree, Boosted):
        return ("boost", tree.factor, plain(tree.tree))
    if isinstance(tree, Named):
        return ("field", tree.name, plain(tree.tree))
    return ("clauses", [(sign, plain(it)) for sign, it in tree.clauses]) if tree.clauses else ("empty",)


@pytest.mark.parametrize("seed", range(10))
def test_beside_the_model(seed):
    chance, read = random.Random(seed), 0
    for _ in range(TEXTS // 10):
        text = "".join(chance.choices(PIECES, k=chance.randrange(12)))
        try:
            tree = parser_model.parse(text)
        except parser_model.Refused as refused:
            # a text that is none of the language is refused before a tree is made of it
            with pytest.raises(QueryError) as caught:
                query_words(text)
            # the model counts places in bytes
            assert len(text[: caught.value.place].encode()) == refused.at
        else:
            assert plain(tree_of(text)) == tree, text
            read += 1
    assert read > 100


def test_deep_and_long():
    assert plain(tree_of("(" * 64 + "a" + ")" * 64)) == ("word", "a")
    assert len(tree_of("a " * 100_000).clauses) == 100_000
    assert tree_of("x" * 1_000_000).text == "x" * 1_000_000
    assert plain(tree_of(f'"{"x" * 1_000_000}"')) == ("phrase", "x" * 1_000_000, 0)
