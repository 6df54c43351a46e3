"""Scripts and hostile lines by chance, each run beside the model of the language.

A script is of lines that are mostly right; a hostile line is a right one with bytes or words left out, doubled, swapped
or put in their place that no one would write, or it is of such bytes alone.
"""

import random as chances

from generators import chance
from model import GREATEST, LEAST, All, Boolean, Boost, Constant, DisjunctionMax, Nothing, Phrase, Prefix, Term
from model.scripts import GREATEST_COUNT, GREATEST_NUMBER, answers, lines_of, status

from .report import in_parallel

# words of the language as words of documents, words that other programs would cut, and one that begins another
ODD_WORDS = ("+", "?", "-", "all", "0", "term", "bool", "ü", "üb", "a\x0bb", "a\rb", "\x00", "a\u00a0b", "\u2028", "a\x7f")
NUMBERS = (0, 1, 2, 3, 127, 128, 499, 1000, 1001, 2**31 - 1, 2**31, GREATEST_COUNT, GREATEST_COUNT + 1, 2**53 + 1)
GREAT_NUMBERS = (GREATEST, GREATEST + 1, GREATEST_NUMBER, GREATEST_NUMBER + 1, 10**30, LEAST, LEAST - 1, -1)
ODD_BYTES = (b"\xff", b"\xc3", b"\xc0\x80", b"\xed\xa0\x80", b"\xf4\x90\x80\x80", b"\xf0\x9f\x98", b"\x00", b"\r", b"\t")
ODD_BYTES += (b" ", b"\xef\xbb\xbf", b"\xe2\x80\xa8", b"\xc2\x85", b"\x1b[2J", b"%s%n", b"-", b"+", b"0x1", b"1e9", b"\x0c")
FORMS = ("all", "none", "term", "phrase", "prefix", "bool", "boost", "const", "max")
LINES = ("doc", "weight", "segment", "delete", "docs", "scores", "count", "prune", "top")


# ---- queries


class Queries(chance.Trees):
    """Queries of a script: the words of a phrase stand one behind another."""

    def __init__(self, random, favourites):
        super().__init__(random, are_queries=True)
        self.favourites = favourites

    def term(self):
        kind, (name, word) = self.random.random(), super().term()
        if kind < 0.75:
            return (name, self.random.choice(self.favourites))
        return (name, self.random.choice(ODD_WORDS) if kind < 0.8 else word)

    def offsets(self, count):
        return list(range(count))

    def points(self):
        return self.random.choice([GREATEST, GREATEST // 2]) if self.random.random() < 0.04 else super().points()

    def phrase_terms(self, count):
        """Now and then so few that the phrase is refused."""
        return super().phrase_terms(self.random.choice([0, 1, count]) if self.random.random() < 0.04 else count)

    def prefix(self):
        terms = self.phrase_terms(self.random.choice([1, 1, 2, 2, 3, 4]))
        # the prefix is the last of the words, where there is one
        return Prefix(terms[:-1], terms[-1] if terms else None, self.random.choice([0, 1, 2, 3, 50, GREATEST_COUNT]))

    def tree(self, depth):
        made = super().tree(depth)
        match made:
            case DisjunctionMax(_, inside) if self.random.random() < 0.04:
                return DisjunctionMax(self.random.choice([1001, GREATEST_COUNT]), inside)
            case Boost(_, inside) if self.random.random() < 0.06:
                return Boost(self.random.choice([GREATEST, 2**40]), inside)
        return made


def spelled(tree, number=str):
    """The words of a query, its numbers written as they are asked for."""
    match tree:
        case Term((_, word)):
            return ["term", word]
        case Phrase(terms, slop):
            return ["phrase", number(slop), number(len(terms)), *(word for _, (_, word) in terms)]
        case Prefix(full, prefix, most):
            words = [word for _, (_, word) in (*full, *([prefix] if prefix else []))]
            return ["prefix", number(most), number(len(words)), *words]
        case Boolean(clauses, minimum):
            inside = [word for sign, it in clauses for word in (sign, *spelled(it, number))]
            return ["bool", number(minimum), number(len(clauses)), *inside]
        case Boost(by, inside):
            return ["boost", number(by), *spelled(inside, number)]
        case Constant(points, inside):
            return ["const", number(points), *spelled(inside, number)]
        case DisjunctionMax(tie_breaker, inside):
            words = [word for it in inside for word in spelled(it, number)]
            return ["max", number(tie_breaker), number(len(inside)), *words]
    return ["all"] if tree == All() else ["none"] if tree == Nothing() else []


# ---- lines


class Lines:
    """Makes the lines of one script."""

    def __init__(self, random):
        self.favourites = random.sample(chance.WORDS, random.randint(2, 4))
        self.random, self.queries, self.documents = random, Queries(random, self.favourites), 0

    def number(self, value):
        """A number, now and then with leading zeros."""
        return "0" * self.random.choice([1, 2, 25]) + str(value) if self.random.random() < 0.03 else str(value)

    def word(self):
        if self.random.random() < 0.04:
            return self.random.choice(ODD_WORDS)
        return self.random.choice(self.favourites if self.random.random() < 0.7 else chance.WORDS)

    def document(self):
        self.documents += 1
        count = self.random.choice([0, 1, 1, 2, 3, 4, 6, 9]) if self.random.random() < 0.99 else 256
        return ["doc", *(self.word() for _ in range(count))]

    def weight(self):
        points = self.random.choice([0, 1, 20, 500, 10**6, 10**12, GREATEST // 3, GREATEST])
        return ["weight", self.word(), self.number(points)]

    def delete(self):
        # the last one is not there
        return ["delete", self.number(self.random.randint(0, self.documents))]

    def query(self):
        form = self.random.choice(["docs", "scores", "scores", "count", "prune", "prune", "top", "top"])
        words = spelled(self.queries.tree(self.random.choice([0, 0, 1, 1, 2, 3])), self.number)
        if form == "prune":
            threshold = self.random.choice([0, 0, 1, 5, 100, 166, 333, 500, 10**6, -1, LEAST, GREATEST])
            return [form, str(threshold), *words]
        if form == "top":
            return [form, self.number(self.random.choice([0, 1, 1, 2, 3, 5, 100, GREATEST_COUNT])), *words]
        return [form, *words]

    def words(self):
        kind = self.random.random()
        if kind < 0.4 or self.documents == 0 and kind < 0.9:
            return self.document()
        if kind < 0.46:
            return self.weight()
        if kind < 0.52:
            return ["segment"]
        if kind < 0.6:
            return self.delete()
        return self.query() if kind < 0.98 else []

    def right(self):
        """A line, mostly with one space between two words."""
        words = self.words()
        if self.random.random() < 0.95:
            return " ".join(words).encode()
        gaps = [self.random.choice([" ", "  ", "\t", " \t "]) for _ in words]
        return "".join(gap + word for gap, word in zip(gaps, words)).encode() + self.random.choice([b"", b" ", b"\t"])

    def hostile(self):
        """A line that no one would write; what it is of is told by the kind."""
        kind = self.random.random()
        if kind < 0.08:
            return b"".join(self.random.choice(ODD_BYTES) for _ in range(self.random.randint(1, 9)))
        if kind < 0.13:
            return bytes(self.random.randrange(256) for _ in range(self.random.randint(1, 40))).replace(b"\n", b" ")
        if kind < 0.25:
            return " ".join(self.chaff() for _ in range(self.random.randint(1, 14))).encode()
        if kind < 0.26:
            return self.deep()
        line = self.right()
        for _ in range(self.random.choice([1, 1, 1, 2, 3])):
            line = self.spoilt(line)
        return line

    def chaff(self):
        """A word that may stand anywhere in the language."""
        kind = self.random.random()
        if kind < 0.25:
            return str(self.random.choice(NUMBERS[:4]))
        if kind < 0.35:
            return str(self.random.choice(NUMBERS + GREAT_NUMBERS))
        if kind < 0.5:
            return self.random.choice(["+", "?", "-"])
        return self.random.choice([*FORMS, *FORMS, *LINES, *chance.WORDS, *ODD_WORDS])

    def deep(self):
        """A query that is nearly as deep as may be, or a little deeper."""
        # the model looks at the inside of a Boolean and of a maximum anew for each level of it
        forms = [b"boost 1 ", b"const 2 "] if self.random.random() < 0.9 else [b"bool 0 1 + ", b"bool 1 2 ? none ? ", b"max 3 1 "]
        line = self.random.choice([b"docs ", b"scores ", b"top 2 ", b"count ", b"prune 0 "])
        line += self.random.choice(forms) * self.random.choice([3, 498, 499, 499, 500, 900])
        return line + self.random.choice([b"all", b"term a", b"phrase 0 2 a b", b"phrase 0 1 a", b"max 1001 0", b""])

    def spoilt(self, line):
        """The line with one thing wrong, or one that happens to be right."""
        kind, at = self.random.random(), self.random.randint(0, len(line))
        if kind < 0.12:
            return line[:at]
        if kind < 0.22:
            return line[:at] + self.random.choice(ODD_BYTES) + line[at:]
        if kind < 0.3:
            end = at + self.random.choice([1, 1, 2, 5])
            return line[:at] + line[end:]
        if kind < 0.34:
            return line[:at] + bytes([self.random.choice([*range(10), *range(11, 256)])]) + line[at + 1 :]
        words = line.split(b" ")
        at = self.random.randrange(len(words))
        if kind < 0.5:
            words[at:at] = [self.chaff().encode()]
        elif kind < 0.66:
            words[at] = self.chaff().encode()
        elif kind < 0.78:
            del words[at]
        elif kind < 0.86:
            words[at:at] = words[at : at + self.random.choice([1, 2, 3])]
        else:
            other = self.random.randrange(len(words))
            words[at], words[other] = words[other], words[at]
        return b" ".join(words)


# ---- scripts

# so many lines of a script of hostile ones are hostile, among some that are right
HOSTILE = 80
# so many scripts are run by one process after another
SCRIPTS = 25


def script(random, lines, hostile):
    """A script of so many lines, of which such a share is hostile, behind some documents."""
    made = Lines(random)
    text = b"".join(" ".join(made.document()).encode() + b"\n" for _ in range(random.randint(0, 4)))
    for _ in range(lines):
        line = made.hostile() if random.random() < hostile else made.right()
        text += line + random.choice([b"\n"] * 9 + [b"\r\n"])
    return text.removesuffix(b"\n") if random.random() < 0.3 else text


def script_of(name):
    """The script of this name: its kind, a seed and a number."""
    random = chances.Random(name)
    if name.startswith("right"):
        return script(random, random.choice([2, 5, 10, 20, 40]), 0)
    return script(random, HOSTILE * 10 // 9, 0.9)


def check(program, report, seed, rows, jobs):
    """Runs so many scripts, and scripts of ten times as many hostile lines."""
    names = [f"right {seed} {number}" for number in range(rows)]
    names += [f"hostile {seed} {number}" for number in range(-(-10 * rows // HOSTILE))]
    parts = [names[at : at + SCRIPTS] for at in range(0, len(names), SCRIPTS)]
    in_parallel(program, report, check_scripts, parts, jobs)


def check_scripts(program, report, names):
    for name in names:
        check_script(program, report, name)


def check_script(program, report, name):
    """Each line of the script is answered as the model says, or as one of the ways that it says."""
    made = script_of(name)
    wanted, outcome = answers(made), program.run(made)
    got = outcome.text.splitlines(keepends=True)
    for (number, texts), text in zip(wanted, got):
        if text not in texts:
            line = lines_of(made)[number - 1]
            report.expect_same(f"script {name!r}, line {number}, {line!r}", texts[0], text)
            return
    how_many = f"script {name!r}: how many lines are answered, and the status"
    report.expect_same(how_many, (len(wanted), status(got)), (len(got), outcome.status))
