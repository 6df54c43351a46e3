"""Queries as deep as may be, in every form: with a clause of every sign inside, alone and behind one and two clauses of
every sign. Each is answered with a stack of two and a half megabytes."""

import itertools
from typing import NamedTuple

from .report import in_parallel

STACK = 5 << 19
# A query is at most 500 deep: so many levels stand around the innermost query, which is 1 deep.
LEVELS = 499
# lines with a query that answer scores
SCORED = [b"scores ", b"prune 0 ", b"top 1 "]


class Form(NamedTuple):
    """What stands before the query inside, what the document scores more at each level by what stands beside, and
    whether the query inside must not match."""

    before: bytes
    each: int = 0
    forbids: bool = False

    def answer(self, levels):
        """What the document scores with so many levels around `all`; none where it does not match."""
        if not self.forbids:
            return 1 + levels * self.each
        # so every other level matches, by what stands beside
        return (self.each or None) if levels % 2 == 0 else None


# a clause beside the query inside, by its sign: the document matches it, and where that is allowed it scores 1
BESIDE = {"+": b"+ all ", "?": b"? all ", "-": b"- none "}


def of_signs(signs):
    """A Boolean of clauses of these signs, of which the last has the query inside."""
    *others, last = signs
    before = b"bool 0 %d %b%b " % (len(signs), b"".join(BESIDE[it] for it in others), last.encode())
    each = sum(it != "-" for it in others)
    return Form(before, each, last == "-")


# a word scores 500
FORMS = [
    *(Form(it) for it in (b"boost 1 ", b"const 1 ", b"bool 1 1 ? ", b"max 0 1 ", b"max 0 2 term b ", b"bool 0 2 - term b + ")),
    *(Form(it, 500) for it in (b"bool 0 2 + term a + ", b"bool 1 2 ? term a ? ", b"max 1000 2 term a ")),
    *(of_signs(it) for count in (1, 2, 3) for it in itertools.product("+?-", repeat=count)),
]


def check(program, report, jobs):
    """Runs each form in each line."""
    in_parallel(program, report, check_form, FORMS, jobs)


def check_form(program, report, form):
    # of two such depths a query inside that must not match does so at one
    for levels in (LEVELS - 1, LEVELS):
        for line, answer in answers(form.answer(levels)).items():
            outcome, _ = program.run_with_stack(script(line, form.before, levels), STACK)
            report.expect(f"{line!r} with {levels} times {form.before!r}", answer + b"\n", 0, outcome)
    outcome = program.run(script(b"docs ", form.before, LEVELS + 1))
    report.expect(f"{LEVELS + 1} times {form.before!r}", b"line 2: not understood\n", 2, outcome)


def answers(score):
    """What each line is answered where the document scores so, or does not match."""
    if score is None:
        return {b"docs ": b"", b"count ": b"0", **dict.fromkeys(SCORED, b"")}
    return {b"docs ": b"0", b"count ": b"1", **dict.fromkeys(SCORED, b"0:%d" % score)}


def script(line, before, levels):
    return b"doc a\n" + line + before * levels + b"all\n"
