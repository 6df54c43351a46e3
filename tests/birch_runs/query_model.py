"""What a query asks for, by docs/SEARCH.md: the language is that of tests/model/typed_queries.py, the words are those
of word_model, and a tree of tests/model has the meaning."""

import model
from model.typed_queries import Cutter, Refused, parse

from .formulas import weight
from .word_model import words

MOST_BOOST = 2147483647
# a word that begins so goes on to any number of words, of which so many are scored behind others
ALL_EXPANSIONS = 1 << 32
SCORED_EXPANSIONS = 200


class Collection:
    """What documents there are, each a set of terms, which are pairs of a field's name and a word. They have fields that
    queries may name, or else `name` is that of their file."""

    def __init__(self, documents, keeps_accents=False, has_fields=False):
        self.documents, self.keeps_accents, self.has_fields = documents, keeps_accents, has_fields
        self.held = {}
        for term in (term for terms in documents for term in terms):
            self.held[term] = self.held.get(term, 0) + 1

    def weight(self, term):
        return weight(len(self.documents), self.held.get(term, 0))

    def weight_of_beginning(self, term):
        """Half of what a word weighs that as many documents hold as hold one that begins so."""
        begun = {*self.begun(term)}
        return weight(len(self.documents), sum(not begun.isdisjoint(terms) for terms in self.documents)) // 2

    def begun(self, term):
        """The terms that begin so, those first that most documents hold."""
        found = (it for it in self.held if it[0] == term[0] and it[1].startswith(term[1]))
        return sorted(found, key=lambda it: (-self.held[it], it[1].encode()))


class Meaning:
    """Makes a tree of a query's text, and notes the words that a found document is marked by."""

    def __init__(self, text, collection):
        self.text, self.collection = text, collection
        self.full, self.beginnings = set(), set()
        parsed = parse(text)
        self.places = [place for kind, _, place in Cutter(text).tokens() if kind in ("leaf", "name")]
        self.next = 0
        self.tree = self.meant(parsed, "text", 1, True)
        if self.tree == model.Nothing():
            raise Refused("Nothing", len(text.encode()))

    def place(self):
        return self.places[self.next] if self.next < len(self.places) else len(self.text.encode())

    def meant(self, parsed, field, boost, is_marked):
        match parsed:
            case ("empty",):
                return model.Nothing()
            case ("clauses", clauses):
                return self.several(clauses, field, boost, is_marked)
            case ("field", name, inner):
                if name != "name" and not self.collection.has_fields:
                    raise Refused("NoField", self.place())
                self.next += 1
                return self.meant(inner, name, boost, is_marked)
            case ("boost", by, inner):
                if boost * by > MOST_BOOST:
                    raise Refused("BoostTooGreat", self.place())
                meant = self.meant(inner, field, boost * by, is_marked)
                return meant if meant == model.Nothing() else model.Boost(by, meant)
        return self.leaf(parsed, field, is_marked)

    def several(self, clauses, field, boost, is_marked):
        meant = [(sign, self.meant(it, field, boost, is_marked and sign != "-")) for sign, it in clauses]
        if all(sign == "-" for sign, _ in meant):
            meant.append(("+", model.All()))
        needs_one = all(sign != "+" for sign, _ in meant)
        return model.Boolean(tuple(meant), 1 if needs_one else 0)

    def leaf(self, leaf, field, is_marked):
        place = self.place()
        self.next += 1
        if leaf == ("all",):
            return model.All()
        kind, text = leaf[:2]
        if kind in ("phrase", "phrase prefix") and text.endswith("*"):
            star = self.text.encode()[place:].find(b'*"')
            raise Refused("StarInPhrase", place + star)
        asked = words(text, self.collection.keeps_accents)
        if not asked:
            raise Refused("NoWord", place)
        is_begun = kind in ("prefix", "phrase prefix")
        if is_marked and (field == "text" or self.collection.has_fields):
            full = asked[:-1] if is_begun else asked
            self.full |= {*full}
            self.beginnings |= {*asked[len(full) :]}
        terms = [(field, word) for word in asked]
        return self.begun(terms) if is_begun else self.whole(terms, leaf[2] if kind == "phrase" else 0)

    def begun(self, terms):
        """Words of which the last is the beginning of one."""
        *full, last = terms
        if not full:
            alone = model.Prefix((), (0, last), ALL_EXPANSIONS)
            return model.Boost(self.collection.weight_of_beginning(last), alone)
        words = self.collection.begun(last)
        tried = [self.whole([*full, word], 0) for word in words[:SCORED_EXPANSIONS]]
        if len(words) >= SCORED_EXPANSIONS:
            others = model.Prefix(tuple(enumerate(full)), (len(full), last), ALL_EXPANSIONS, 0)
            tried.append(model.Boost(0, others))
        return model.Boolean(tuple(("?", it) for it in tried), 1, "max 0")

    def whole(self, terms, slop):
        weighs = sum(self.collection.weight(term) for term in terms)
        if len(terms) == 1:
            return model.Term(terms[0], weighs)
        return model.Phrase(tuple(enumerate(terms)), slop, weighs)

    def marks(self, word):
        """Whether a word of a found text, folded, is marked."""
        return word in self.full or any(word.startswith(it) for it in self.beginnings)
