"""Why a passage scores as it does: what each part of a query gives, by the library's own scoring of the passage."""

from __future__ import annotations

from typing import Dict, Iterator, List, NamedTuple, Optional, Sequence, Tuple

from ..index import Index
from .collection import Weights
from .query import Joined, Part, Words
from .words import folded_text, words_of

# the library takes a greater length for this one
MOST_LENGTH = 255


class Share(NamedTuple):
    """What a part of a query gives a passage: how deep it stands, and the score, or None where it is not found."""

    depth: int
    part: Part
    score: Optional[int]


class Explanation(NamedTuple):
    """What the parts of a query give a passage, each behind what it is a part of, and the words of the passage."""

    shares: List[Share]
    words: List[str]

    @property
    def length(self) -> int:
        """The length of the passage, as the library takes it."""
        return min(len(self.words), MOST_LENGTH)


def _scoring_parts(part: Part, depth: int = 0) -> Iterator[Tuple[int, Part]]:
    """The parts of a query that add to its score, each behind what it is a part of."""
    yield depth, part
    if isinstance(part, Joined):
        for sign, inner in part.parts:
            if sign != "-":
                yield from _scoring_parts(inner, depth + 1)


def explain(query: Part, texts: Sequence[str], weights: Weights) -> List[Explanation]:
    """Why each of these texts scores as it does.

    They are put into an index of their own, whose words weigh what they do in the whole, and each part is asked there.
    """
    with Index(folded_text(it) for it in texts) as index:
        index.weigh({word: it.weight for word, it in weights.words.items()})
        of_beginnings = weights.of_beginnings()
        scored = [
            (depth, part, _scores(index, part.script(of_beginnings), len(texts)))
            for depth, part in _scoring_parts(query)
        ]
    return [Explanation([*_shares_of(place, scored)], words_of(text)) for place, text in enumerate(texts)]


def _scores(index: Index, script: str, most: int) -> Dict[int, int]:
    return {hit.document: hit.score for hit in index.top(script, most, language="script")}


def _shares_of(place: int, scored: Sequence[Tuple[int, Part, Dict[int, int]]]) -> Iterator[Share]:
    """The shares of one text. What stands in a part that is not found as a whole gives nothing, and is left out."""
    passed_below = None
    for depth, part, scores in scored:
        if passed_below is not None and depth > passed_below:
            continue
        score = scores.get(place)
        passed_below = depth if score is None else None
        yield Share(depth, part, score)


def times_in(words: Sequence[str], part: Words) -> int:
    """How often a word or a phrase without a slop stands among words."""
    return sum(part.found_in(words, at) > 0 for at in range(len(words)))
