"""Texts of queries by chance: of anything, of the language, and of the language with one letter changed."""

from generators.spelled import row
from model.typed_queries import answer

ROWS = 10


def spelled(text):
    """A text as a row spells it."""
    out = ""
    for byte in text.encode():
        out += chr(byte) if 33 <= byte < 127 and chr(byte) not in "%=#" else f"%{byte:02x}"
    return out


PARTS = [
    *["a", "b", "ab", "é", "一", "AND", "OR", "NOT", "IN", "TO", "x1", "c++", "a-b", "don't", "2", "10"],
    *[" ", " ", " ", " ", " ", " ", "\t", "\u3000", "(", ")", "(", ")", "+", "-", '"', '"', "*", "^", "^2", "~", "~1"],
    *[":", "t:", "t.u:", "\\", "?", "[", "]", "{", "}", "<", ">", "/", '"a b"', '"a b"~2', '"a b"*', "ab*", "^2147483647"],
    *["^2147483648", "~4294967295", "~4294967296", "^99999999999999999999", "^1.5", "\\*", '\\"', "\\\\", "=", "%", "'"],
]


NAMES = ["", "", "", "t:", "t.u:"]
OPERANDS = ["a", "b", "\\+c", "é", "d*", '"a b"', '"a b"~3', '"a b"*', '""', "x-y"]


def by_parts(chance):
    """Anything at all, of the signs and words of the language."""
    return "".join(chance.choice(PARTS) for _ in range(chance.randrange(1, 14)))


def by_grammar(chance, depth=3, names=NAMES, operands=OPERANDS):
    """A text of the language, of these names and operands."""
    clauses = []
    for number in range(chance.randrange(1, 5)):
        operator = chance.choice(["", "", "AND ", "OR "]) if number else ""
        sign = chance.choice(["", "", "", "+", "-", "NOT "])
        name = chance.choice(names)
        boost = chance.choice(["", "", "", "^2", "^0"])
        if depth and chance.random() < 0.3:
            operand = f"({by_grammar(chance, depth - 1, names, operands)})"
        else:
            operand = chance.choice(operands)
            if not name:
                operand = chance.choice([operand, operand, operand, "*", "()"])
        clauses.append(operator + sign + name + operand + boost)
    return " ".join(clauses)


def changed(chance, names=NAMES, operands=OPERANDS):
    """A text of the language in which one letter is gone, another, or new."""
    text = by_grammar(chance, names=names, operands=operands)
    at = chance.randrange(len(text) + 1)
    return text[:at] + chance.choice(["", *PARTS]) + text[at + chance.randrange(2) :]


def by_chance(chance):
    yield "parse"
    for number in range(ROWS):
        text = (by_parts, by_grammar, changed)[number % 3](chance)
        yield row(f": {spelled(text)}", answer(text))
