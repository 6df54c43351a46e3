"""What helps where a query finds nothing."""

from __future__ import annotations

from typing import Iterator, List, NamedTuple

from .collection import Answer, Collection
from .query import Joined, Part, Words, scoring_leaves, whole_words

# how many words are looked at, how long they may be, and how many letters of one are left at least
_MOST_WORDS, _MOST_LETTERS, _LEAST_LETTERS = 5, 40, 3


class Hint(NamedTuple):
    """What is so, and a query that finds something instead, if there is one, with how many passages it finds."""

    said: str
    query: str = ""
    found: int = 0


def hints_for(query: Part, answer: Answer, collection: Collection) -> Iterator[Hint]:
    """Hints for a query that found nothing."""
    leaves = [*scoring_leaves(query)]
    words = whole_words(leaves)
    missing = [it for it in words if not answer.weights.words[it].held]
    for word in missing[:_MOST_WORDS]:
        yield _beginning(word, collection)
    if any(it.goes_on for it in leaves) and not missing:
        yield Hint("No passage holds a word that begins so.")
    there = [it for it in words if it not in missing]
    if there and (len(words) > 1):
        alone = Joined(tuple(("?", Words((it,))) for it in there))
        said = (
            "Any of the words that there are:"
            if missing
            else "Each word is there, but not as it is asked for. Any of them:"
        )
        yield Hint(said, " ".join(there), collection.count(alone))


def _beginning(word: str, collection: Collection) -> Hint:
    """A word that no passage holds: the longest beginning of it that some word has."""
    said = f"No passage holds the word \u201c{word}\u201d."
    for end in range(min(len(word), _MOST_LETTERS), _LEAST_LETTERS - 1, -1):
        beginning = Words((word[:end],), goes_on=True)
        found = collection.count(beginning)
        if found:
            return Hint(f"{said} Words that begin alike:", str(beginning), found)
    return Hint(said)


def listed(hints: Iterator[Hint]) -> List[Hint]:
    """Hints, of each query one."""
    return [*{it.query or it.said: it for it in hints}.values()]
