"""Segments that are merged, by a plain model: a segment is a list of documents, and its rows are counted out of them.

A document is what it holds of each term, by field and word: how often, or at which positions; and its length id of each
field. No row is joined with another: the documents of two segments stand one behind another, and the rows of that list
are counted anew.
"""


class Segment:
    """Documents, and the numbers of those that are deleted."""

    def __init__(self, documents, deleted):
        self.documents, self.deleted = documents, sorted(set(deleted))

    def merged(self, other):
        """The segment of the documents of both."""
        count = len(self.documents)
        return Segment(self.documents + other.documents, self.deleted + [count + it for it in other.deleted])

    def left(self):
        """The segment of the documents that are not deleted."""
        return Segment([self.documents[it] for it in self.alive()], [])

    def alive(self):
        return [it for it in range(len(self.documents)) if it not in self.deleted]

    def rows(self):
        """Of each term, in order: the documents that hold it, how often each does, and the positions of all."""
        found = {}
        for number, (terms, _) in enumerate(self.documents):
            for term, held in terms.items():
                often, positions = (held, []) if isinstance(held, int) else (len(held), held)
                row = found.setdefault(term, ([], [], []))
                row[0].append(number)
                row[1].append(often)
                row[2].extend(positions)
        return sorted(found.items())

    def column(self, field):
        """The length ids of a field."""
        return [ids[field] for _, ids in self.documents]
