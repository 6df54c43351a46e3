#!/usr/bin/env python3
"""Xapian by its binding for Python (Debian's python3-xapian): answers scripts as the program `qm_search` does. The
database stands in a folder of its own, which goes at the end."""

import tempfile

import xapian
from spoken import NotAsked, speak

Query = xapian.Query


class Xapian:
    def __init__(self, folder):
        self.folder = folder
        self.writer = xapian.WritableDatabase(folder, xapian.DB_CREATE_OR_OVERWRITE)
        self.build()

    def add(self, words):
        document = xapian.Document()
        for place, word in enumerate(words, 1):
            document.add_posting(word, place)
        self.writer.add_document(document)

    def build(self):
        self.writer.commit()
        self.base = xapian.Database(self.folder)
        self.scored, self.matched = xapian.Enquire(self.base), xapian.Enquire(self.base)
        self.matched.set_weighting_scheme(xapian.BoolWeight())
        self.matched.set_docid_order(xapian.Enquire.ASCENDING)

    def query(self, parts):
        kind = parts.take()
        if kind == "none":
            return Query()
        if kind == "term":
            return Query(parts.take())
        if kind == "phrase":
            slop, count = parts.number(), parts.number()
            if slop:
                raise NotAsked
            return Query(Query.OP_PHRASE, [parts.take() for _ in range(count)], count)
        if kind == "prefix":
            most, _ = parts.number(), parts.number()
            return Query(Query.OP_WILDCARD, parts.take(), most, Query.WILDCARD_LIMIT_FIRST, Query.OP_SYNONYM)
        if kind == "max":
            tie, count = parts.number(), parts.number()
            if tie:
                raise NotAsked
            return Query(Query.OP_MAX, parts.terms(count))
        if kind == "bool":
            return self.boolean(parts.number(), parts.clauses(parts.number()))
        raise NotAsked

    def boolean(self, least, found):
        if least > 1:
            raise NotAsked
        query = Query(Query.OP_OR, found["?"])
        if found["+"]:
            must = Query(Query.OP_AND, found["+"])
            query = Query(Query.OP_AND_MAYBE, must, query) if found["?"] else must
        return Query(Query.OP_AND_NOT, query, Query(Query.OP_OR, found["-"])) if found["-"] else query

    def all_of(self, query):
        self.matched.set_query(query)
        return self.matched.get_mset(0, self.base.get_doccount())

    def count(self, query):
        self.matched.set_query(query)
        return self.matched.get_mset(0, 0, self.base.get_doccount()).get_matches_lower_bound()

    def docs(self, query):
        return [it.docid - 1 for it in self.all_of(query)]

    def top(self, query, most):
        self.scored.set_query(query)
        return [(it.docid - 1, it.weight) for it in self.scored.get_mset(0, most)]


if __name__ == "__main__":
    with tempfile.TemporaryDirectory() as room:
        speak(Xapian(room))
