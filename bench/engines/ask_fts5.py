#!/usr/bin/env python3
"""SQLite's FTS5 by Python's own sqlite3: answers scripts as the program `qm_search` does. The table stands in memory,
and keeps no texts."""

import sqlite3

from spoken import NotAsked, speak


def quoted(words, between):
    return between.join(f'"{word}"' for word in words)


class Fts5:
    def __init__(self):
        self.base = sqlite3.connect(":memory:", isolation_level=None)
        self.base.execute("create virtual table texts using fts5(body, content='', tokenize='ascii')")
        self.documents = 0
        self.base.execute("begin")

    def add(self, words):
        self.base.execute("insert into texts(rowid, body) values (?, ?)", (self.documents, " ".join(words)))
        self.documents += 1

    def build(self):
        self.base.execute("commit")
        self.base.execute("insert into texts(texts) values ('optimize')")
        self.base.execute("begin")

    def query(self, parts):
        kind = parts.take()
        if kind == "none":
            # a word that no document has
            return quoted(["0none"], "")
        if kind == "term":
            return quoted([parts.take()], "")
        if kind == "phrase":
            slop, count = parts.number(), parts.number()
            if slop:
                raise NotAsked
            return '"' + " ".join(parts.take() for _ in range(count)) + '"'
        if kind == "prefix":
            parts.number(), parts.number()
            return quoted([parts.take()], "") + " *"
        if kind == "bool":
            return self.boolean(parts.number(), parts.clauses(parts.number()))
        raise NotAsked

    def boolean(self, least, found):
        if least > 1 or (found["+"] and found["?"]) or found["-"]:
            raise NotAsked
        return quoted(found["+"], " AND ") or quoted(found["?"], " OR ")

    def rows(self, text, query, *more):
        try:
            return self.base.execute(text, (query, *more)).fetchall()
        except sqlite3.OperationalError as error:
            raise NotAsked from error

    def count(self, query):
        return self.rows("select count(*) from texts where texts match ?", query)[0][0]

    def docs(self, query):
        return [row for (row,) in self.rows("select rowid from texts where texts match ? order by rowid", query)]

    def top(self, query, most):
        return self.rows("select rowid, -rank from texts where texts match ? order by rank limit ?", query, most)


if __name__ == "__main__":
    speak(Fts5())
