"""Typed queries by chance, of indexes by chance, beside plain models of the language and of what it means."""

import os
import random
import sys

import pytest
from birchagain import Index, QueryError, query_words

sys.path.append(os.path.join(os.path.dirname(os.path.abspath(__file__)), "..", "..", "..", "tests"))

import model  # noqa: E402
import model.typed_queries as parser_model  # noqa: E402
import model.scripts as script_model  # noqa: E402
import typed_model  # noqa: E402
from generators import typed  # noqa: E402

SEEDS = 1000
WORDS = ["a", "b", "ab", "abc", "é", "漢", "c++", "x-y"]
OPERANDS = [*WORDS, *WORDS, "ab*", "x*", "\\+c", '"a b"', '"b  a"~2', '"ab a"*', '" a"*', '""', '"é"', '"a"~3', "q"]
# one query in so many may name a field
NAMES = [""] * 40 + ["t:"]
# the statuses of bindings/c/birchagain.h in their order
KINDS = [
    *["StrayEscape", "OpenQuote", "OpenParenthesis", "StrayParenthesis", "TooDeep", "Wildcard", "Fuzzy"],
    *["SlopWithoutNumber", "SlopTooGreat", "StrayBoost", "BoostWithoutNumber", "BoostNotWhole", "BoostTooGreat", "FieldWithoutName"],
    *["FieldWithoutValue", "AnyValue", "SignWithoutClause", "OperatorWithoutSide", "Range", "Set", "Regex", "Touching"],
]


def random_script(chance):
    """Documents of several segments, some of them deleted, and weights."""
    script = script_model.Script()
    for _ in range(chance.choice([0, 1, 5, 30])):
        script.segments[-1].append(chance.choices(WORDS, k=chance.choice([0, 1, 3, 8, 40])))
        if chance.random() < 0.15:
            script.segments.append([])
    documents = sum(map(len, script.segments))
    script.deleted = {it for it in range(documents) if chance.random() < 0.2}
    weighed = chance.sample(WORDS, chance.randrange(4))
    script.weights = {("body", it): chance.choice([0, 1, 500, 3000, (1 << 63) - 1]) for it in weighed}
    return script


def index_of(chance, script):
    """The same in an index."""
    index = Index()
    for at, documents in enumerate(script.segments):
        for words in documents:
            index.add(chance.choice([words, " ".join(words)]))
        if at + 1 < len(script.segments):
            index.end_segment()
    for document in script.deleted:
        index.delete(document)
    index.weigh({word: weight for (_, word), weight in script.weights.items()})
    return index


def wanted(text, ask):
    """What a query is to be answered: what the model says of it, or its status and its place."""
    try:
        return ask(typed_model.query_of(text))
    except typed_model.NamesField:
        return 71, None
    except parser_model.Refused as refused:
        return 101 + KINDS.index(refused.kind), len(text.encode()[: refused.at].decode())
    except script_model.Refused as refused:
        return refused.args[0], None


def answered(call, *arguments):
    try:
        return call(*arguments)
    except QueryError as refused:
        return refused.status, refused.place


def found_in(script, query):
    """The documents that match and weren't deleted, by the model."""
    searcher = script.searcher()
    tree = model.tree_of(query, searcher, False)
    numbered = zip(script.first_numbers(), searcher.segments)
    return [first + it for first, segment in numbered for it in segment.alive(model.matching(tree, segment))]


def shown(hits):
    return hits if isinstance(hits, tuple) else " ".join(f"{it.document}:{it.score}" for it in hits)


@pytest.mark.parametrize("seed", range(SEEDS))
def test_beside_the_model(seed):
    chance = random.Random(seed)
    script = random_script(chance)
    with index_of(chance, script) as index:
        for number in range(4):
            text = (typed.changed if number == 3 else typed.by_grammar)(chance, names=NAMES, operands=OPERANDS)
            most, page = chance.choice([0, 1, 3, 1000]), chance.choice([1, 2, 5, 1000])
            assert answered(index.count, text) == wanted(text, lambda query: len(found_in(script, query))), text
            found = answered(lambda it: [*index.search(it, page=page)], text)
            assert found == wanted(text, lambda query: found_in(script, query)), text
            best = wanted(text, lambda query: script.found("top", most, query)[0])
            assert shown(answered(index.top, text, most)) == best, text
            words = wanted(text, lambda query: [word for (_, word), _ in model.query_terms(query)])
            assert answered(query_words, text) == words, text
