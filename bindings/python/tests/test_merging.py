"""Answers of two indexes, merged, beside what one index with the documents of both answers."""

import random

import pytest
from birchagain import Hit, Index, MergeError, merged

WORDS = [*"abcdef"]
QUERIES = ["a", "a b", "+a b -c", '"a b"', '"a b"~2 c^3', "a*", "*", "nothing"]


def texts(chance):
    return [" ".join(chance.choices(WORDS, k=chance.randrange(12))) for _ in range(chance.randrange(30))]


def weighed(documents, weights):
    index = Index(documents)
    index.weigh(weights)
    return index


def test_two_indexes_answer_as_one():
    chance = random.Random(5)
    for _ in range(300):
        first, second = texts(chance), texts(chance)
        weights = {word: chance.randrange(2000) for word in WORDS}
        query, most = chance.choice(QUERIES), chance.choice([0, 1, 3, 10, 100])
        with weighed(first, weights) as one, weighed(second, weights) as other, weighed([*first, *second], weights) as both:
            answers = (one.top(query, most), other.top(query, most))
            assert merged(*answers, len(one), most) == both.top(query, most)
            assert one.count(query) + other.count(query) == both.count(query)


def test_any_hits_that_are_ranked():
    chance = random.Random(6)
    for _ in range(300):
        answers = []
        for _ in range(2):
            scores = sorted((chance.randrange(5) for _ in range(chance.randrange(9))), reverse=True)
            answers.append([Hit(chance.randrange(100), score) for score in scores])
        offset, most = chance.randrange(1000), chance.randrange(12)
        all_hits = [*answers[0], *(Hit(offset + hit.document, hit.score) for hit in answers[1])]
        assert merged(*answers, offset, most) == sorted(all_hits, key=lambda hit: -hit.score)[:most]


def test_what_is_refused():
    rising = [Hit(0, 1), Hit(1, 2)]
    for answers in ((rising, []), ([], rising), (rising, rising)):
        with pytest.raises(MergeError, match="scores more than the one before it") as refused:
            merged(*answers, 0)
        assert refused.value.status == 73
    last = (1 << 64) - 1
    assert merged([], [Hit(0, 1)], last) == [Hit(last, 1)] and merged([Hit(last, 5)], [], last) == [Hit(last, 5)]
    with pytest.raises(MergeError, match="18446744073709551615") as refused:
        merged([], [Hit(1, 1)], last)
    assert refused.value.status == 74
    for hits, offset in (([Hit(-1, 0)], 0), ([Hit(1 << 64, 0)], 0), ([Hit(0, 1 << 63)], 0), ([], -1), ([], 1 << 64)):
        with pytest.raises(OverflowError):
            merged(hits, [], offset)
