"""The language of scripts on the plain model: what each line of a script prints, by docs/SCRIPT.md word for word.

A script's documents stand in lists; each query is asked of each document by itself. Nothing is known here of how
`qm_search` reads its input, or of what it keeps.
"""

import sys
from dataclasses import dataclass, field

from model import (
    GREATEST,
    LEAST,
    All,
    Boolean,
    Boost,
    Constant,
    DisjunctionMax,
    Field,
    Nothing,
    Phrase,
    Prefix,
    Searcher,
    Segment,
    Term,
    best,
    fits,
    matching,
    pruned,
    scored,
    tree_of,
    weighs_too_much,
)

BODY = Field("body")
MOST_DEEP = 500
GREATEST_COUNT = 4294967295
GREATEST_NUMBER = 18446744073709551615
NOT_UNDERSTOOD = "not understood"
# the words of lines that ask for something
QUERIES = (b"docs", b"scores", b"count", b"prune", b"top")
# a word of at most so many bytes stands in the query itself
SHORT = 14
# a query is looked at level by level
sys.setrecursionlimit(100 * MOST_DEEP)


class NotUnderstood(Exception):
    """A line that is none of the language."""


class Refused(Exception):
    """A query that is not built, or not weighed: with the number of the refusal."""


# ---- lines and words


def lines_of(script):
    """The lines of a script, without their ends."""
    *whole, last = script.split(b"\n")
    lines = [it.removesuffix(b"\r") for it in whole]
    return lines + [last] if last else lines


def wanting_memory(script, answered):
    """The numbers of the lines that ask for something and take memory for it, of those that are answered: all do, but
    where it is asked how often a short word is there. Its documents are counted where they stand, and there is room for
    the answer behind the first."""
    lines = [[word for word in line.replace(b"\t", b" ").split(b" ") if word] for line in lines_of(script)]
    asking = [it for it in answered if lines[it - 1][:1] and lines[it - 1][0] in QUERIES]
    return [it for it in asking if it == min(answered) or not counts_a_short_word(lines[it - 1])]


def counts_a_short_word(words):
    return len(words) == 3 and words[:2] == [b"count", b"term"] and len(words[2]) <= SHORT


def words_of(line):
    """The words of a line."""
    try:
        text = line.decode("utf-8")
    except UnicodeDecodeError:
        raise NotUnderstood from None
    return [word for word in text.replace("\t", " ").split(" ") if word]


class Words:
    """The words of a line, taken one after another."""

    def __init__(self, words):
        self.words, self.at = words, 0

    def word(self):
        self.at += 1
        if self.at > len(self.words):
            raise NotUnderstood
        return self.words[self.at - 1]

    def number(self, greatest, least=0):
        word = self.word()
        digits = word.removeprefix("-") if least < 0 else word
        if not digits or set(digits) - set("0123456789"):
            raise NotUnderstood
        # no number of the language has more digits than these, but for leading zeros
        digits = digits.lstrip("0") or "0"
        number = int(digits) if len(digits) <= 20 else GREATEST_NUMBER + 1
        number = -number if word.startswith("-") else number
        if not least <= number <= greatest:
            raise NotUnderstood
        return number

    def count(self):
        return self.number(GREATEST_COUNT)

    def texts(self, count):
        if count > len(self.words) - self.at:
            raise NotUnderstood
        return [self.word() for _ in range(count)]

    def end(self):
        if self.at < len(self.words):
            raise NotUnderstood


# ---- queries


@dataclass(frozen=True)
class Spelled:
    """A form with what stands behind it, and its inner queries, before anything is built."""

    form: str
    numbers: tuple = ()
    words: tuple = ()
    inside: tuple = ()


def read_query(words, depth=MOST_DEEP):
    """A query that is at most so deep."""
    if depth == 0:
        raise NotUnderstood
    form = words.word()
    match form:
        case "all" | "none":
            return Spelled(form)
        case "term":
            return Spelled(form, (), (words.word(),))
        case "phrase" | "prefix":
            number, count = words.count(), words.count()
            return Spelled(form, (number,), tuple(words.texts(count)))
        case "bool":
            return read_boolean(words, depth)
        case "boost" | "const":
            number = words.number(GREATEST)
            return Spelled(form, (number,), (), (read_query(words, depth - 1),))
        case "max":
            number, count = words.count(), words.count()
            return Spelled(form, (number,), (), tuple(read_each(words, count, lambda: read_query(words, depth - 1))))
    raise NotUnderstood


def read_boolean(words, depth):
    def clause():
        sign = words.word()
        if sign not in ("+", "?", "-"):
            raise NotUnderstood
        signs.append(sign)
        return read_query(words, depth - 1)

    signs, minimum, count = [], words.count(), words.count()
    inside = tuple(read_each(words, count, clause))
    return Spelled("bool", (minimum,), tuple(signs), inside)


def read_each(words, count, read):
    """So many of what is read; where fewer words are left than that, some is missing."""
    if count > len(words.words):
        raise NotUnderstood
    return [read() for _ in range(count)]


def built(spelled):
    """The query of the model: inner queries first, in order, and the first refusal is answered."""
    inside = tuple(built(it) for it in spelled.inside)
    number = spelled.numbers[0] if spelled.numbers else None
    terms = [(offset, (BODY.name, word)) for offset, word in enumerate(spelled.words)]
    match spelled.form:
        case "all":
            return All()
        case "none":
            return Nothing()
        case "term":
            return Term(terms[0][1])
        case "phrase":
            if len(terms) < 2:
                raise Refused(1)
            return Phrase(tuple(terms), number)
        case "prefix":
            if not terms:
                raise Refused(2)
            return Prefix(tuple(terms[:-1]), terms[-1], number)
        case "bool":
            return Boolean(tuple(zip(spelled.words, inside)), number)
        case "boost":
            return Boost(number, inside[0])
        case "const":
            return Constant(number, inside[0])
    if number > 1000:
        raise Refused(8)
    return DisjunctionMax(number, inside)


# ---- scripts


@dataclass
class Script:
    """The documents of a script, by segments, of which the last is open; which are deleted; what words weigh."""

    segments: list = field(default_factory=lambda: [[]])
    deleted: set = field(default_factory=set)
    weights: dict = field(default_factory=dict)

    def first_numbers(self):
        """The number of the first document of each segment, and how many there are."""
        firsts = [0]
        for it in self.segments:
            firsts.append(firsts[-1] + len(it))
        return firsts

    def searcher(self):
        firsts, made = self.first_numbers(), []
        for first, words in zip(firsts, self.segments):
            deleted = [doc - first for doc in self.deleted if first <= doc < first + len(words)]
            made.append(Segment((BODY,), [{BODY.name: it} for it in words], deleted))
        return Searcher(tuple(made), self.weights)

    def answer(self, line):
        """What the line prints: the texts that it may print, or none where it prints nothing."""
        try:
            return self.answer_words(Words(words_of(line)))
        except NotUnderstood:
            return [NOT_UNDERSTOOD]
        except Refused as refused:
            return [f"refused {refused.args[0]}"]

    def answer_words(self, words):
        if not words.words:
            return []
        match words.word():
            case "doc":
                self.segments[-1].append(words.words[1:])
            case "weight":
                word, weight = words.word(), words.number(GREATEST)
                words.end()
                self.weights[(BODY.name, word)] = weight
            case "segment":
                words.end()
                self.segments.append([])
            case "delete":
                number = words.number(GREATEST_NUMBER)
                words.end()
                if number >= self.first_numbers()[-1]:
                    raise NotUnderstood
                self.deleted.add(number)
            case "docs" | "scores" | "count" | "prune" | "top" as form:
                return self.answer_query(words, form)
            case _:
                raise NotUnderstood
        return []

    def answer_query(self, words, form):
        number = {"prune": lambda: words.number(GREATEST, LEAST), "top": words.count}.get(form, lambda: None)()
        spelled = read_query(words)
        words.end()
        return self.found(form, number, built(spelled))

    def found(self, form, number, query):
        """The text of what is found. Refused where what the query may score passes the greatest score, but where
        none is wanted."""
        searcher = self.searcher()
        tree = tree_of(query, searcher, form not in ("docs", "count"))
        if weighs_too_much(tree):
            raise Refused(9)
        if form in ("scores", "prune", "top") and (form, number) != ("top", 0) and not fits(tree, 1):
            raise Refused(9)
        return [self.listed(form, number, tree, searcher.segments)]

    def listed(self, form, number, tree, segments):
        firsts = self.first_numbers()
        if form == "count":
            return str(sum(len(it.alive(matching(tree, it))) for it in segments))
        if form == "docs":
            return " ".join(str(first + doc) for first, it in zip(firsts, segments) for doc in matching(tree, it))
        if form == "top":
            return " ".join(f"{firsts[at] + doc}:{points}" for at, doc, points in best(number, tree, segments))
        pairs = [(first, scored(tree, 1, it)) for first, it in zip(firsts, segments)]
        if form == "prune":
            pairs = [(first, pruned(it, number, ["score"])) for first, it in pairs]
        return " ".join(f"{first + doc}:{points}" for first, it in pairs for doc, points in it)


def answers(script):
    """For each line of the script that prints something, its number and the texts that it may print."""
    state, found = Script(), []
    for number, line in enumerate(lines_of(script), 1):
        texts = state.answer(line)
        if texts:
            found.append((number, [told(number, it) for it in texts]))
    return found


def told(number, text):
    """What is printed of a line's answer."""
    is_told = text == NOT_UNDERSTOOD or text.startswith("refused")
    return (f"line {number}: {text}" if is_told else text).encode() + b"\n"


def status(lines):
    """The exit status of a run that printed these lines."""
    if any(it.endswith(b": not understood\n") for it in lines):
        return 2
    return 1 if any(b": refused " in it for it in lines) else 0


def text_of(script):
    """What the script prints where each line that may be refused is, and the exit status."""
    lines = [texts[-1] for _, texts in answers(script)]
    return b"".join(lines), status(lines)
