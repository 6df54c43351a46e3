"""Documents and queries for bench/measure_scale.py: the same ones wherever and however often they are made."""

import itertools
import random

# 20 to 120 words, 70 on average, as unevenly frequent as those of a language
VOCABULARY, EXPONENT, SHORTEST, LONGEST = 200_000, 1.07, 20, 120
BLOCK = 1000
EACH = 20


def _words():
    """Made-up words, frequent ones first."""
    chance = random.Random("words")
    found = {}
    while len(found) < VOCABULARY:
        length = chance.choice([3, 4, 4])
        found["".join(chance.choice("bcdfghjklmnpqrstvwxz") + chance.choice("aeiou") for _ in range(length))] = None
    return [*found]


RANKED = _words()
_WEIGHTS = [*itertools.accumulate((rank + 1) ** -EXPONENT for rank in range(VOCABULARY))]


def _block(number):
    """The documents of a block, each a row of words."""
    chance = random.Random(number)
    lengths = [chance.randint(SHORTEST, LONGEST) for _ in range(BLOCK)]
    words = iter(chance.choices(RANKED, cum_weights=_WEIGHTS, k=sum(lengths)))
    return [[*itertools.islice(words, length)] for length in lengths]


def texts(start, end):
    """The documents of some numbers."""
    for number in range(start // BLOCK, -(-end // BLOCK)):
        first = number * BLOCK
        yield from map(" ".join, _block(number)[max(start - first, 0) : end - first])


def queries():
    """Queries of scripts by class, as many of each."""
    chance, documents = random.Random("queries"), _block(0)
    frequent, middle, rare = RANKED[2:220], RANKED[220:2000], RANKED[2000:20000]

    def of(sign, *pools):
        return f"bool 0 {len(pools)} " + " ".join(f"{sign} term {chance.choice(it)}" for it in pools)

    def phrase():
        while True:
            words = chance.choice(documents)
            at = chance.randrange(len(words) - 1)
            if words[at] != words[at + 1] and {*words[at : at + 2]} <= {*RANKED[:2000]}:
                return f"phrase 0 2 {words[at]} {words[at + 1]}"

    forms = {
        "a frequent word": lambda: f"term {chance.choice(frequent)}",
        "a rare word": lambda: f"term {chance.choice(rare)}",
        "and of two frequent": lambda: of("+", frequent, frequent),
        "and of a frequent and a rare": lambda: of("+", frequent, rare),
        "or of two": lambda: of("?", frequent, middle),
        "or of five": lambda: of("?", frequent, frequent, middle, middle, rare),
        "phrase of two": phrase,
        "prefix, up to 50 words": lambda: f"prefix 50 1 {chance.choice(middle)[:4]}",
    }
    return {name: [form() for _ in range(EACH)] for name, form in forms.items()}
