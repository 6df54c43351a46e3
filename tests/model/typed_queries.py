"""The language of docs/QUERIES.md by a plain model, which knows nothing of the library.

It reads a text letter by letter into tokens, and the tokens by a grammar of rules that call one another. The library
reads tokens one after another instead, and keeps the parentheses that are open. The program that plays the cases is
compared with this model on texts by chance (generators/typed.py).
"""

SPACE = {*range(9, 14), 32, 133, 160, 5760, *range(8192, 8203), 8232, 8233, 8239, 8287, 12288}
INNER = set('\\"()*?:^~[]{}')
SIGNS = INNER | set("+-/<>")
MOST_DEPTH = 64


class Refused(Exception):
    """A text that isn't understood: what in it, and the place of that."""

    def __init__(self, kind, at):
        super().__init__(kind, at)
        self.kind = kind
        self.at = at


def is_space(letter):
    return ord(letter) in SPACE


class Cutter:
    """Cuts a text into tokens: tuples of a kind, its value and its place."""

    def __init__(self, text):
        self.text = text
        self.places = []
        at = 0
        for letter in text:
            self.places.append(at)
            at += len(letter.encode())
        self.next = 0

    def peek(self):
        return self.text[self.next] if self.next < len(self.text) else None

    def is_gap(self):
        return self.peek() is None or is_space(self.peek())

    def is_end(self):
        return self.is_gap() or self.peek() == ")"

    def tokens(self):
        found = []
        while self.next < len(self.text):
            if is_space(self.peek()):
                self.next += 1
                continue
            place = self.places[self.next]
            kind, value = self.token(place)
            found.append((kind, value, place))
        return found

    def token(self, place):
        letter = self.peek()
        if letter == "(":
            self.next += 1
            return "(", None
        if letter == ")":
            self.next += 1
            return ")", self.boost()
        if letter in "+-":
            self.next += 1
            if self.is_gap():
                raise Refused("SignWithoutClause", place)
            return "sign", letter
        if letter == '"':
            self.next += 1
            return self.phrase(place)
        if letter == "*":
            self.next += 1
            return self.starred(("all",), place)
        if letter in "^~?:/[]{}<>":
            raise Refused(self.misplaced(letter), place)
        return self.word(place)

    def letters(self, is_quoted):
        found = ""
        while (letter := self.peek()) is not None:
            if letter == "\\":
                place = self.places[self.next]
                self.next += 1
                if self.peek() is None or self.peek() not in SIGNS:
                    raise Refused("StrayEscape", place)
                found += self.peek()
            elif letter == '"' if is_quoted else is_space(letter) or letter in INNER:
                break
            else:
                found += letter
            self.next += 1
        return found

    def phrase(self, place):
        text = self.letters(True)
        if self.peek() != '"':
            raise Refused("OpenQuote", place)
        self.next += 1
        here = self.places[self.next] if self.peek() is not None else None
        if self.peek() == "~":
            self.next += 1
            number = self.digits()
            if number is None:
                raise Refused("SlopWithoutNumber", here)
            if number > 4294967295:
                raise Refused("SlopTooGreat", here)
            return self.boosted(("phrase", text, number))
        if self.peek() == "*":
            self.next += 1
            return self.starred(("phrase prefix", text), here)
        return self.boosted(("phrase", text, 0))

    def word(self, place):
        word = self.letters(False)
        if self.peek() == ":":
            self.next += 1
            if self.peek() == "*":
                raise Refused("AnyValue", place)
            if self.is_gap():
                raise Refused("FieldWithoutValue", place)
            return "name", word
        if self.peek() == "*":
            star = self.places[self.next]
            self.next += 1
            return self.starred(("prefix", word), star)
        if word in ("AND", "OR", "NOT"):
            self.end()
            return ("sign", "-") if word == "NOT" else (word, None)
        if word == "IN":
            raise Refused("Set", place)
        return self.boosted(("word", word))

    def starred(self, leaf, star):
        if not (self.is_end() or self.peek() == "^"):
            raise Refused("Wildcard", star)
        return self.boosted(leaf)

    def boosted(self, leaf):
        return "leaf", (leaf, self.boost())

    def boost(self):
        if self.peek() != "^":
            self.end()
            return None
        place = self.places[self.next]
        self.next += 1
        number = self.digits()
        if number is None:
            raise Refused("BoostWithoutNumber", place)
        if not self.is_end():
            raise Refused("BoostNotWhole", place)
        if number > 2147483647:
            raise Refused("BoostTooGreat", place)
        return number

    def digits(self):
        begin = self.next
        while self.peek() is not None and self.peek() in "0123456789":
            self.next += 1
        return int(self.text[begin : self.next]) if self.next > begin else None

    def end(self):
        if not self.is_end():
            raise Refused(self.misplaced(self.peek()), self.places[self.next])

    @staticmethod
    def misplaced(letter):
        kinds = {"^": "StrayBoost", "~": "Fuzzy", "*": "Wildcard", "?": "Wildcard", ":": "FieldWithoutName", "/": "Regex"}
        return "Range" if letter in "[]{}<>" else kinds.get(letter, "Touching")


class Reader:
    """Reads tokens by the grammar:

    query   = nothing, or chains, each with an OR before it or none, but the first
    chain   = clauses, with an AND between each two
    clause  = a sign or none, a name or none, and a leaf or a query in parentheses
    """

    def __init__(self, tokens):
        self.tokens = tokens
        self.next = 0

    def kind(self):
        return self.tokens[self.next][0] if self.next < len(self.tokens) else None

    def take(self):
        token = self.tokens[self.next]
        self.next += 1
        return token

    def is_end(self):
        return self.kind() in (None, ")")

    def whole(self):
        tree = self.query(0)
        if self.kind() == ")":
            raise Refused("StrayParenthesis", self.take()[2])
        return tree

    def query(self, depth):
        clauses = []
        while not self.is_end():
            if self.kind() in ("AND", "OR"):
                operator, _, place = self.take()
                if not clauses or operator == "AND":
                    raise Refused("OperatorWithoutSide", place)
                clauses.append(self.chain(depth, place))
            else:
                clauses.append(self.chain(depth, None))
        if not clauses:
            return ("empty",)
        if len(clauses) == 1 and clauses[0][0] == "?":
            return clauses[0][1]
        return ("clauses", clauses)

    def chain(self, depth, operator):
        clauses = [self.clause(depth, operator)]
        while self.kind() == "AND":
            clauses.append(self.clause(depth, self.take()[2]))
        if len(clauses) == 1:
            return (clauses[0][0] or "?", clauses[0][1])
        return ("?", ("clauses", [(sign or "+", tree) for sign, tree in clauses]))

    def clause(self, depth, operator):
        sign = name = None
        owed = None if operator is None else ("OperatorWithoutSide", operator)
        if self.kind() == "sign":
            _, sign, place = self.take()
            owed = ("SignWithoutClause", place)
        if self.kind() == "name":
            _, name, place = self.take()
            owed = ("FieldWithoutValue", place)
        if self.kind() not in ("leaf", "("):
            raise Refused(*owed)
        tree = self.operand(depth)
        return (sign, tree if name is None else ("field", name, tree))

    def operand(self, depth):
        kind, value, place = self.take()
        if kind == "leaf":
            return boosted(*value)
        if depth == MOST_DEPTH:
            raise Refused("TooDeep", place)
        tree = self.query(depth + 1)
        if self.kind() is None:
            raise Refused("OpenParenthesis", place)
        return boosted(tree, self.take()[1])


def boosted(tree, boost):
    return tree if boost is None else ("boost", boost, tree)


def parse(text):
    return Reader(Cutter(text).tokens()).whole()


def shown_text(text):
    out = ""
    for byte in text.encode():
        out += chr(byte) if 32 <= byte < 127 and chr(byte) not in "%'=" else f"%{byte:02x}"
    return f"'{out}'"


def shown(tree):
    match tree:
        case ("clauses", clauses):
            return "(" + "".join(f" {sign} {shown(clause)}" for sign, clause in clauses) + " )"
        case ("field", name, inner):
            return f"field {shown_text(name)} {shown(inner)}"
        case ("boost", boost, inner):
            return f"boost {boost} {shown(inner)}"
        case ("phrase", text, slop):
            return f"phrase {slop} {shown_text(text)}"
        case (kind, text):
            return f"{kind} {shown_text(text)}"
        case (kind,):
            return kind
    raise ValueError(tree)


def answer(text):
    """What a row of this text must answer."""
    try:
        return shown(parse(text))
    except Refused as refused:
        return f"refused {refused.kind} at {refused.at}"
