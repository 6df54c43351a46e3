"""What a typed query says, by docs/QUERIES.md and docs/LIBRARY.md: the language is that of tests/model/typed_queries.py,
and a query of tests/model has the meaning. Words stand as they were typed."""

import model
import model.typed_queries as parser_model

# the beginning of a word goes on to all words that begin so
ALL = 1 << 32


class NamesField(Exception):
    """A query names a field, and the documents have none."""


def query_of(text):
    """What a text says; `parser_model.Refused` where it is none of the language."""
    return meant(parser_model.parse(text))


def meant(tree):
    match tree:
        case ("empty",):
            return model.Nothing()
        case ("all",):
            return model.All()
        case ("field", _, _):
            raise NamesField
        case ("boost", by, inner):
            return model.Boost(by, meant(inner))
        case ("clauses", clauses):
            return model.Boolean(tuple((sign, meant(inner)) for sign, inner in clauses), 0)
        case ("word", word):
            return behind_one_another([word], 0)
        case ("prefix", word):
            return begun([word])
        case ("phrase", words, slop):
            return behind_one_another(cut(words), slop)
        case ("phrase prefix", words):
            return begun(cut(words))
    raise AssertionError(tree)


def cut(text):
    """The words of a text, which spaces part."""
    return [word for word in text.split(" ") if word]


def terms_of(words):
    return tuple((place, ("body", word)) for place, word in enumerate(words))


def behind_one_another(words, slop):
    """Words that stand so: of one alone that word, and none find nothing."""
    if len(words) < 2:
        return model.Term(("body", words[0])) if words else model.Nothing()
    return model.Phrase(terms_of(words), slop)


def begun(words):
    """The same, where the last goes on."""
    if not words:
        return model.Nothing()
    *full, last = terms_of(words)
    return model.Prefix(tuple(full), last, ALL)
