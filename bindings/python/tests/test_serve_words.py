"""Words, passages and what of them is marked, beside examples whose answers were written by hand."""

import pytest
from birchagain.serve.excerpt import SHOWN, excerpt, marks_in, pieces
from birchagain.serve.passages import LEAST, MOST, Passage, passages_of
from birchagain.serve.query import Words
from birchagain.serve.words import folded_text, placed_words, words_of

LONG = "a paragraph that is long enough to stand for itself, with more than sixty letters"


@pytest.mark.parametrize(
    "text, words",
    [
        ("", []),
        ("An OLD apple-tree.", ["an", "old", "apple", "tree"]),
        ("spin_lock() 3.14 don't", ["spin", "lock", "3", "14", "don", "t"]),
        ("Caf\u00e9 cafe\u0301 CAF\u00c9", ["cafe", "cafe", "cafe"]),
        ("Stra\u00dfe STRASSE", ["strasse", "strasse"]),
        ("\ufb01n \u00bd \u2460", ["fin", "1", "2", "1"]),
        (
            "\u0130stanbul \u03a3\u0399\u03a3\u03a5\u03a6\u039f\u03a3",
            ["istanbul", "\u03c3\u03b9\u03c3\u03c5\u03c6\u03bf\u03c3"],
        ),
        # marks that write vowels count, and what only steers the writing doesn't part a word
        ("\u0915\u093f \u0915\u093e", ["\u0915\u093f", "\u0915\u093e"]),
        ("exam\u00adple a\u200db", ["example", "ab"]),
        ("\u6f22\u5b57\u3001\u6f22", ["\u6f22\u5b57", "\u6f22"]),
        ("a\0b\ufffdc\U0001f332d\te\u00a0f", ["a", "b", "c", "d", "e", "f"]),
    ],
)
def test_words(text, words):
    assert words_of(text) == words
    assert folded_text(text).split() == words
    placed = [*placed_words(text)]
    assert [it.word for it in placed] == words
    for it in placed:
        # what is marked is the word, or holds it where several lie in one letter
        assert it.word in words_of(text[it.begin : it.end])
    assert all(before.begin <= after.begin for before, after in zip(placed, placed[1:]))


def test_an_accent_is_marked_with_its_letter():
    text = "ete\u0301\u0302 e\u0301te"
    assert [text[it.begin : it.end] for it in placed_words(text)] == ["ete\u0301\u0302", "e\u0301te"]


def test_paragraphs():
    text = f"\n\n# Head\n\n{LONG}\nand on\n \t\n\n{LONG} too\n\nend"
    assert [*passages_of(text)] == [
        Passage(3, f"# Head\n\n{LONG}\nand on"),
        Passage(9, f"{LONG} too"),
        Passage(11, "end"),
    ]
    assert [*passages_of("")] == [*passages_of("\n \n\t\n")] == []
    assert [*passages_of("a\n\nb\n\nc")] == [Passage(1, "a\n\nb\n\nc")]


def test_short_paragraphs_wait_for_enough():
    short = "x" * (LEAST - 1)
    assert [it.line for it in passages_of("\n\n".join([short] * 5))] == [1, 5, 9]
    assert [it.line for it in passages_of("\n\n".join([short + "x"] * 3))] == [1, 3, 5]


def test_long_passages_are_cut():
    lines = [f"line {number:04} " + "w" * 89 for number in range(50)]
    cut = [*passages_of("\n".join(lines))]
    assert "\n".join(it.text for it in cut) == "\n".join(lines)
    assert all(len(it.text) <= MOST and it.text.startswith(lines[it.line - 1]) for it in cut)
    spaced = [*passages_of("ab " * 2000)]
    assert " ".join(it.text for it in spaced).split() == ["ab"] * 2000
    assert {it.line for it in spaced} == {1} and all(len(it.text) <= MOST for it in spaced)
    whole = [*passages_of("x" * (2 * MOST + 5))]
    assert [len(it.text) for it in whole] == [MOST, MOST, 5]


def found(text, *leaves):
    return [text[it.begin : it.end] for it in marks_in(text, leaves)]


def test_marks():
    text = "An Old apple; apples, and an old old \u00c4pple. Apple old"
    old, apple = Words(("old",)), Words(("apple",))
    assert found(text, old, apple) == ["Old", "apple", "old", "old", "\u00c4pple", "Apple", "old"]
    assert found(text, Words(("old", "apple"))) == ["Old", "apple", "old", "\u00c4pple"]
    assert found(text, Words(("app",), goes_on=True)) == ["apple", "apples", "\u00c4pple", "Apple"]
    assert found(text, Words(("old", "ap"), goes_on=True)) == ["Old", "apple", "old", "\u00c4pple"]
    assert found(text, Words(("apple", "an"), slop=3)) == ["An", "apple", "an", "\u00c4pple", "Apple"]
    assert found(text) == found("", old) == []
    assert found("\u00bdx", Words(("1",)), Words(("2x",))) == ["\u00bd", "x"]


def test_excerpts():
    text = "word " * 100 + "old " + "word " * 100 + "old apple " + "word " * 100
    marks = marks_in(text, [Words(("old",)), Words(("apple",))])
    begin, end = excerpt(text, marks)
    shown = [*pieces(text, marks, begin, end)]
    assert end - begin <= SHOWN and [it.text for it in shown if it.is_found] == ["old", "apple"]
    assert "".join(it.text for it in shown) == text[begin:end] and text[begin - 1] == " " and text[end] == " "
    assert excerpt("short", []) == (0, 5) and excerpt("", []) == (0, 0)
    without_spaces = "x" * 5000
    begin, end = excerpt(without_spaces, marks_in(without_spaces, [Words(("x",), goes_on=True)]))
    assert end - begin == SHOWN


def test_pieces_of_marks_that_are_cut():
    text = "x" * 50 + " owl"
    marks = marks_in(text, [Words(("x",), goes_on=True), Words(("owl",))])
    assert [tuple(it) for it in pieces(text, marks, 10, 52) if it.text] == [("x" * 40, True), (" ", False), ("o", True)]
