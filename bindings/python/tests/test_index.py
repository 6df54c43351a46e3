"""What each call does, and what it refuses."""

import gc

import pytest
from birchagain import BirchagainError, ClosedError, Index, NoDocumentError, WordError, norms_by_mean, rarity


def test_documents_of_several_segments():
    with Index(["a b  a", ["a", "c"]]) as index:
        index.add("")
        index.end_segment()
        index.add(iter(["b", "dé"]))
        assert len(index) == 4
        assert index.frequencies(["a", "b", "c", "d", "dé"]) == [2, 2, 1, 0, 1]
        index.delete(0)
        index.delete(0)
        index.delete(3)
        assert len(index) == 4 and index.frequencies(["a", "b"]) == [2, 2]
        index.refresh()
        assert index.frequencies([]) == [] and index.frequencies("ab") == [2, 2]


def test_what_is_refused_changes_nothing():
    index = Index(["a"])
    for document in ([""], ["a", "a b"], ["a", " "]):
        with pytest.raises(WordError) as caught:
            index.add(document)
        assert caught.value.status == 68 and str(caught.value)
    for document in (1, -1, 1 << 64, (1 << 64) + 1):
        with pytest.raises(NoDocumentError) as caught:
            index.delete(document)
        assert caught.value.status == 67 and isinstance(caught.value, IndexError)
    with pytest.raises(WordError) as caught:
        index.weigh({"a": -1})
    assert caught.value.status == 69 and isinstance(caught.value, ValueError)
    for weight in (1 << 63, -(1 << 63) - 1):
        with pytest.raises(OverflowError):
            index.weigh({"a": weight})
    index.weigh({"a": 0})
    index.weigh({"a": (1 << 63) - 1})
    with pytest.raises(WordError):
        index.frequencies(["a b"])
    with pytest.raises(UnicodeEncodeError):
        index.add("\ud800")
    with pytest.raises(AttributeError):
        index.add([1])
    with pytest.raises(TypeError):
        index.add(None)
    with pytest.raises(TypeError):
        index.delete("0")
    assert len(index) == 1 and index.frequencies(["a"]) == [1]


def test_closed():
    index = Index(["a"])
    index.close()
    index.close()
    calls = [len, lambda it: it.add("a"), lambda it: it.add(["a"]), lambda it: it.delete(0), lambda it: it.end_segment()]
    calls += [lambda it: it.add_placed({"a": [0]}), lambda it: it.add_placed({})]
    calls += [lambda it: it.refresh(), lambda it: it.weigh({"a": 1}), lambda it: it.frequencies(["a"])]
    for call in calls:
        with pytest.raises(ClosedError) as caught:
            call(index)
        assert isinstance(caught.value, BirchagainError) and str(caught.value) == "the index is not open"
    with pytest.raises(ClosedError):
        with Index() as index:
            pass
        index.refresh()
    with pytest.raises(UnicodeEncodeError):
        Index(["a", "\ud800"])
    gc.collect()


def test_long_words_and_byte_0():
    long_word = "x" * 10_000_000
    with Index(["a\0b c", long_word, ["a\0b", long_word]]) as index:
        assert index.frequencies(["a\0b", long_word, "a", "\0"]) == [2, 2, 0, 0]
        index.weigh({long_word: 5, "a\0b": 5})


def test_lengths_count_by_norms():
    with Index(["a", "a b", " ".join(["a"] + ["b"] * 299)]) as index:
        index.weigh({"a": 1000})
        assert [it.score for it in index.top("a")] == [500, 333, 3]
        index.set_norms([3] * 255 + [9])
        assert [it.score for it in index.top("a")] == [250, 250, 100]
        for norms in ([], [0] * 255, [0] * 257, [1] * 255 + [0], [0, 1, 0] + [9] * 253):
            with pytest.raises(WordError) as caught:
                index.set_norms(norms)
            assert caught.value.status == (17 if len(norms) == 256 else 70)
        for norm in (-1, 1 << 32):
            with pytest.raises(OverflowError):
                index.set_norms([norm] * 256)
        assert [it.score for it in index.top("a")] == [250, 250, 100]
        index.set_norms([(1 << 32) - 1] * 256)
        assert [it.score for it in index.top("a")] == [0, 0, 0]
        # a document of the mean length counts as 2
        index.set_norms(norms_by_mean(2.0))
        assert [it.score for it in index.top("a")] == [500, 333, 5]


def test_words_with_places():
    with Index() as index:
        index.add_placed({"a": [0, 4], "new york": [1], "b": range(1, 7, 5)})
        index.add_placed({})
        assert len(index) == 2 and index.frequencies(["a", "b", "new", "york"]) == [1, 1, 0, 0]
        assert index.count("new*") == 1 and index.count("york*") == 0
        assert index.count('"a new"*') == 1 and index.count('"b new"*') == 0
        assert [index.count(it) for it in ('"a b"', '"b a"', '"b a"~1', '"b a"~2')] == [1, 0, 0, 1]
        # as long as it has places
        assert [it.score for it in index.top("a")] == [2000 // (2 + 5)]


def test_lengths_of_words_with_places():
    with Index() as index:
        for length in (8, 0, 255, None):
            index.add_placed({"a": [3]}, length)
        index.add_placed({"a": [0], "b": range(1, 301)})
        assert {it.document: it.score for it in index.top("a")} == {0: 111, 1: 1000, 2: 3, 3: 500, 4: 3}
        index.set_norms([0] * 8 + [1] * 248)
        assert [it.score for it in index.top("a")] == [1000, 1000, 500, 500, 500]


def test_what_is_refused_of_words_with_places():
    index = Index(["a"])
    bad = [({"": [0]}, 68), ({"a": []}, 15), ({"a": [1, 0]}, 15), ({"a": [0, 0]}, 15), ({"b": [0], "a": [(1 << 32) - 1]}, 15)]
    for words, status in bad:
        with pytest.raises(WordError) as caught:
            index.add_placed(words)
        assert caught.value.status == status and len(str(caught.value)) < 200
    for place in (-1, 1 << 32, 1 << 64):
        with pytest.raises(OverflowError):
            index.add_placed({"a": [place]})
    for length in (-1, 256, 1 << 64):
        with pytest.raises(OverflowError):
            index.add_placed({"a": [0]}, length)
    for words in (["a"], None, {"a": 0}, {"a": ["0"]}, {"a": "0"}):
        with pytest.raises((AttributeError, TypeError)):
            index.add_placed(words)
    with pytest.raises(UnicodeEncodeError):
        index.add_placed({"\ud800": [0]})
    assert len(index) == 1 and index.frequencies(["a"]) == [1]
    index.add_placed({"a": [(1 << 32) - 2]}, length=255)
    assert len(index) == 2 and index.frequencies(["a"]) == [2]


def test_norms_by_mean():
    assert norms_by_mean(1.5)[:4] == [1, 2, 3, 4] and len(norms_by_mean(7)) == 256
    assert norms_by_mean(1e-300)[1:] == [(1 << 32) - 1] * 255
    for mean in (0, -1.0, float("nan")):
        with pytest.raises(ValueError):
            norms_by_mean(mean)


def test_rarity():
    assert [rarity(3, 2), rarity(0, 0), rarity(1, 9), rarity(3, 0)] == [470, 693, 287, 2079]
    assert rarity((1 << 64) - 1, 0) == 45054
    for documents, held in ((-1, 0), (0, -1), (1 << 64, 0), (0, 1 << 64)):
        with pytest.raises(OverflowError):
            rarity(documents, held)
    with Index(["a b", "a"]) as index:
        index.weigh_by_rarity(["a", "b", "c"])
