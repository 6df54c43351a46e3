"""Finds documents by their words.

    from birchagain import Index

    with Index(["an old apple tree", "an apple a day"]) as index:
        index.weigh_for("old apple")
        for hit in index.top("old apple", 10):
            print(hit.document, hit.score)
"""

from .errors import BirchagainError, ClosedError, FormatError, MergeError, NoDocumentError, QueryError, WordError
from .index import Index, norms_by_mean, rarity
from .merging import merged
from .queries import Hit, Language, query_words

__all__ = [
    "BirchagainError",
    "ClosedError",
    "FormatError",
    "Hit",
    "Index",
    "Language",
    "MergeError",
    "NoDocumentError",
    "QueryError",
    "WordError",
    "merged",
    "norms_by_mean",
    "query_words",
    "rarity",
]
__version__ = "0.1.0"
