"""Whether one text of a body says by its form alone what another says.

Two texts say the same where they differ only in names of their own, in values that a `let` holds, in the order of
what `+`, `*`, `&`, `|`, `^`, `==`, `!=`, `min` and `max` take, in a comparison that is turned or denied twice, and
in brackets. Where they differ in more nothing is said.
"""

import re

TOKEN = re.compile(
    r'"(?:\\.|[^"\\])*"|\'(?:\\.|[^\'\\])\'|[A-Za-z_]\w*|\d\w*(?:\.\d\w*)?|::|->|=>|\.\.=?|<<=|>>=|[-+*/%&|^]='
    r"|<<|>>|<=|>=|==|!=|&&|\|\||\S"
)
CLOSING = {"(": ")", "[": "]", "{": "}"}
# words and signs between expressions
BETWEEN = {*"; , = => -> .. ..= { } ( ) [ ] : if else while for in return let match move break".split()}
BETWEEN |= {f"{it}=" for it in ("+", "-", "*", "/", "%", "&", "|", "^", "<<", ">>")}
# operators that stand between two expressions, those that bind least first
LEVELS = [it.split() for it in ("||", "&&", "== != < > <= >=", "|", "^", "&", "<< >>", "+ -", "* / %")]
SWAPPED = {"|", "^", "&", "+", "*", "==", "!="}
TURNED = {">": "<", ">=": "<="}
DENIED = {"==": "!=", "!=": "==", "<": ">=", ">": "<=", "<=": ">", ">=": "<"}
BOUND = r"\blet (?:mut )?(\w+) *=|\bfor (\w+) in\b|\|(\w+)\||\b[A-Z]\w*\((\w+)\) =>?"


def says_the_same(old, new):
    """Whether two texts that stand in the same place say the same by their form."""
    bound = [names_in(text) for text in (old, new)]
    # (a name that both bind, or that one binds and does not use, is used around them)
    one, other = (form(text, names - both) for text, names, both in ((old, *bound), (new, *bound[::-1])))
    return one == other


def names_in(text):
    """The names that a text binds and then uses. One whose value has the same name hides another."""
    found = {it for names in re.findall(BOUND, text) for it in names if it}
    tokens = TOKEN.findall(text)
    # (a field or a method may bear the same name)
    variables = ["" if before == "." else token for token, before in zip(tokens, ["", *tokens])]
    return {it for it in found if is_used(variables, it)}


def is_used(tokens, name):
    """Whether a name that these words bind is used behind that."""
    at = tokens.index(name) if name in tokens else 0
    if tokens[at - 1] not in ("let", "mut"):
        return tokens.count(name) > 1
    end = tokens.index(";", at) if ";" in tokens[at:] else len(tokens)
    return name in tokens[end:] and name not in tokens[at + 1 : end]


def form(text, own):
    """The form of a text, in which these names are its own."""
    tokens = TOKEN.findall(text)
    for name in dict.fromkeys(it for it in tokens if it in own):
        tokens = inlined(tokens, name)
    numbers, named = {}, []
    for token, before in zip(tokens, ["", *tokens]):
        is_own = token in own and before != "."
        named.append(f"own {numbers.setdefault(token, len(numbers))}" if is_own else token)
    return parts(grouped(named))


def inlined(tokens, name):
    """The tokens with the value of `let NAME = VALUE;` in place of the name."""
    head = ["let", name, "="]
    for at in range(len(tokens)):
        if tokens[at : at + 3] == head and ";" in tokens[at:]:
            end = tokens.index(";", at)
            value = ["(", *tokens[at + 3 : end], ")"]
            pairs = zip(tokens[end + 1 :], tokens[end:])
            rest = [value if token == name and before != "." else [token] for token, before in pairs]
            return tokens[:at] + sum(rest, [])
    return tokens


def grouped(tokens):
    """The tokens with a list in place of what stands between brackets, where these close."""
    stack = [[]]
    for token in tokens:
        if token in CLOSING:
            stack.append([token])
        elif len(stack) > 1 and token == CLOSING[stack[-1][0]]:
            group = stack.pop()
            stack[-1].append(group)
        else:
            stack[-1].append(token)
    while len(stack) > 1:
        rest = stack.pop()
        stack[-1] += rest
    return stack[0]


def parts(items):
    """The forms of the expressions in a row, with what stands between them."""
    found, run = [], []
    for item in [*items, ";"]:
        if isinstance(item, str) and item in BETWEEN:
            found += [expression(run)] if run else []
            found += [item] if item != ";" else []
            run = []
        else:
            run.append(item)
    return tuple(found)


def expression(items):
    """The form of one expression."""
    if items[0] == "|" and "|" in items[1:]:
        end = items.index("|", 1)
        return ("closure", *map(str, items[1:end]), *parts(items[end + 1 :]))
    for level in LEVELS:
        places = [at for at in range(1, len(items) - 1) if items[at] in level and is_operand(items[at - 1])]
        if places:
            return of_level(items, places)
    return operand(items)


def of_level(items, places):
    """The form of expressions with operators of one level between them."""
    sides = [items[one + 1 : other] for one, other in zip([-1, *places], [*places, len(items)])]
    signs, forms = [items[at] for at in places], [expression(it) for it in sides]
    if len(signs) == 1 and signs[0] in TURNED:
        signs, forms = [TURNED[signs[0]]], forms[::-1]
    if {*signs} <= {"+", "-"}:
        return ("+", *sorted(zip(["+", *signs], forms), key=repr))
    if len({*signs}) == 1 and signs[0] in SWAPPED:
        return (signs[0], *sorted(forms, key=repr))
    return (*signs, *forms)


def is_operand(item):
    return isinstance(item, list) or item == "?" or item[0].isalnum() or item[0] in "_\"'"


def operand(items):
    """The form of an expression that no operator divides."""
    if items[0] == "!" and len(items) == 2 and isinstance(items[1], list):
        inside = items[1][1:]
        signs = [it if isinstance(it, str) else "" for it in inside]
        places = [at for at in range(1, len(inside) - 1) if signs[at] in DENIED and is_operand(inside[at - 1])]
        if len(places) == 1 and not {"&&", "||"} & {*signs}:
            return expression([*inside[: places[0]], DENIED[inside[places[0]]], *inside[places[0] + 1 :]])
    if items[:2] == ["!", "!"]:
        return expression(items[2:])
    if len(items) == 1 and isinstance(items[0], list) and items[0][0] == "(":
        inside = parts(items[0][1:])
        return inside[0] if len(inside) == 1 else ("(", *inside)
    has_argument = isinstance(items[-1], list) and len(items[-1]) > 1
    if has_argument and items[-3:-2] == ["."] and items[-2] in ("min", "max") and len(items) > 3:
        return (items[-2], *sorted([expression(items[:-3]), parts(items[-1][1:])[0]], key=repr))
    # (a value in brackets before a dot may have been put there)
    first = [operand(items[:1])] if len(items) > 1 and isinstance(items[0], list) else [items[0]]
    forms = [it if isinstance(it, (str, tuple)) else (it[0], *parts(it[1:])) for it in [*first, *items[1:]]]
    return tuple(it for form in forms for it in (form if form is forms[0] and isinstance(form, tuple) else [form]))
