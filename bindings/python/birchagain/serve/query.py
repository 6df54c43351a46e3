"""What a query asks of passages: the tree of what was typed, with words cut and folded as those of passages."""

from __future__ import annotations

from typing import Iterator, List, Mapping, NamedTuple, Sequence, Tuple, Union

from ..errors import QueryError
from ..queries import query_words
from .typed import Boosted, Clauses, Leaf, Named, Tree, tree_of
from .words import words_of

# how many words that begin so are tried: all
_ALL_BEGINNINGS = 4294967295


class Refusal(Exception):
    """Why a query is refused, and behind how many letters of it that stands."""

    def __init__(self, said: str, place: int) -> None:
        super().__init__(said)
        self.place = place


class Words(NamedTuple):
    """A word, or a phrase of several. Where it goes on, its last word is only the beginning of one."""

    words: Tuple[str, ...]
    goes_on: bool = False
    slop: int = 0
    factor: int = 1

    def __str__(self) -> str:
        quote, star = '"' * (len(self.words) > 1), "*" * self.goes_on
        slop = f"~{self.slop}" if self.slop else ""
        return f"{quote}{' '.join(self.words)}{quote}{star}{slop}{_typed_boost(self.factor)}"

    def script(self, weights: Mapping[Words, int]) -> str:
        """It as a `Q` of docs/SCRIPT.md. What goes on scores its weight, if it is given one."""
        words = " ".join(self.words)
        if self.goes_on:
            beginning = f"prefix {_ALL_BEGINNINGS} {len(self.words)} {words}"
            return _boost(self.factor, f"const {weights[self]} {beginning}" if self in weights else beginning)
        return _boost(
            self.factor, f"phrase {self.slop} {len(self.words)} {words}" if len(self.words) > 1 else f"term {words}"
        )

    def found_in(self, words: Sequence[str], at: int) -> int:
        """How many of the words from a place on are what is asked for: all of it, or 0."""
        here = words[at : at + len(self.words)]
        last = here[-1][: len(self.words[-1])] if self.goes_on and here else "".join(here[-1:])
        return len(here) if (*here[:-1], last) == self.words else 0


class Everything(NamedTuple):
    """All passages."""

    factor: int = 1

    def __str__(self) -> str:
        return f"*{_typed_boost(self.factor)}"

    def script(self, _weights: Mapping[Words, int]) -> str:
        return _boost(self.factor, "all")


class Joined(NamedTuple):
    """Parts with their signs: `+` has to match, `-` must not, and of the others one where no part has to match."""

    parts: Tuple[Tuple[str, Part], ...]
    factor: int = 1

    def __str__(self) -> str:
        return f"({' '.join(sign.strip('?') + str(part) for sign, part in self.parts)}){_typed_boost(self.factor)}"

    def script(self, weights: Mapping[Words, int]) -> str:
        parts = [*self.parts]
        # a list of nothing but parts that must not match finds all others
        if parts and all(sign == "-" for sign, _ in parts):
            parts.append(("?", Everything()))
        inner = " ".join(f"{sign} {part.script(weights)}" for sign, part in parts)
        return _boost(self.factor, f"bool 0 {len(parts)} {inner}" if parts else "none")


Part = Union[Words, Everything, Joined]


def _typed_boost(factor: int) -> str:
    return f"^{factor}" if factor != 1 else ""


def _boost(factor: int, script: str) -> str:
    return script if factor == 1 else f"boost {factor} {script}"


def read_query(text: str) -> Part:
    """What a text asks for. Raises `Refusal` where it isn't understood."""
    try:
        query_words(text)
    except QueryError as error:
        # without a place it is refused for a field, which stands in its tree
        if error.place is not None:
            raise Refusal(str(QueryError(error.status)), error.place) from error
    return _part_of(tree_of(text))


def _part_of(tree: Tree) -> Part:
    """A tree with its words folded."""
    if isinstance(tree, Named):
        raise Refusal("there are no fields here: put a \\ before the :, or quotes around the whole", tree.place)
    if isinstance(tree, Boosted):
        part = _part_of(tree.tree)
        # a boost around another is a list of one, so that each is as it was typed
        return (part if part.factor == 1 else Joined((("?", part),)))._replace(factor=tree.factor)
    if isinstance(tree, Clauses):
        return Joined(tuple((sign, _part_of(inner)) for sign, inner in tree.clauses))
    return _leaf_of(tree)


def _leaf_of(leaf: Leaf) -> Part:
    if leaf.goes_on and not leaf.text and not leaf.is_phrase:
        return Everything()
    words = tuple(words_of(leaf.text))
    if not words:
        raise Refusal("this has no letter or digit", leaf.place)
    return Words(words, leaf.goes_on, leaf.slop if len(words) > 1 else 0)


def scoring_leaves(part: Part) -> Iterator[Words]:
    """The words and phrases of a query that add to a score."""
    if isinstance(part, Words):
        yield part
    elif isinstance(part, Joined):
        for sign, inner in part.parts:
            if sign != "-":
                yield from scoring_leaves(inner)


def whole_words(leaves: List[Words]) -> List[str]:
    """The words of leaves that are whole, each once."""
    return [*dict.fromkeys(word for it in leaves for word in (it.words[:-1] if it.goes_on else it.words))]
