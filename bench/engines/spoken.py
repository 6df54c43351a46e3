"""What the engines that are called from Python have in common: they read a script as the program `qm_search` does, and
answer line by line.

An engine has `add(words)`, `build()`, `query(parts)`, which makes its own query, and `count`, `docs` and `top` of one;
`query` raises NotAsked for what the engine has not.
"""

import sys


class NotAsked(Exception):
    """The engine has no such query, or another meaning for it."""


class Parts:
    """The words of a line, one behind the other."""

    def __init__(self, text):
        self.words = text.split()
        self.at = 0

    def take(self):
        self.at += 1
        return self.words[self.at - 1]

    def number(self):
        return int(self.take())

    def term(self):
        if self.take() != "term":
            raise NotAsked
        return self.take()

    def terms(self, count):
        return [self.term() for _ in range(count)]

    def clauses(self, count):
        """The words of a `bool` by their signs."""
        found = {"+": [], "?": [], "-": []}
        for _ in range(count):
            found[self.take()].append(self.term())
        return found


def answer(engine, line):
    verb, _, rest = line.partition(" ")
    most = 0
    if verb == "top":
        most, _, rest = rest.partition(" ")
    if verb not in ("count", "docs", "top"):
        raise NotAsked
    query = engine.query(Parts(rest))
    if verb == "count":
        return str(engine.count(query))
    if verb == "docs":
        return " ".join(map(str, engine.docs(query)))
    return " ".join(f"{document}:{score}" for document, score in engine.top(query, int(most)))


def speak(engine):
    """Reads the script, and writes the answers before it waits for more."""
    is_built = True
    for line in sys.stdin:
        if line.startswith("doc "):
            engine.add(line.split()[1:])
            is_built = False
            continue
        if not is_built:
            engine.build()
            is_built = True
        try:
            sys.stdout.write(answer(engine, line) + "\n")
        except NotAsked:
            sys.stdout.write("not asked\n")
        sys.stdout.flush()
