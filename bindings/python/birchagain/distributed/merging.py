"""The best of several lists of hits, each of which has the best of its own partition."""

from __future__ import annotations

from heapq import merge as merge_sorted
from itertools import islice
from typing import Iterable, List, Sequence, Tuple

from .. import Hit


def merge(lists: Sequence[Iterable[Tuple[int, int]]], firsts: Sequence[int], most: int) -> List[Hit]:
    """The best hits of all lists, at most so many: by score downwards, and of one score by number upwards.

    Each list has hits (number, score) in that same order, numbered within its partition; the partition's documents are
    numbered from `firsts` on. As long as each list has its partition's best `most`, these are the best of all.
    Costs a step for each hit.
    """
    numbered = [[(-score, first + number) for number, score in hits] for hits, first in zip(lists, firsts)]
    return [Hit(number, -below) for below, number in islice(merge_sorted(*numbered), max(most, 0))]
