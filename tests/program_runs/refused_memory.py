"""Runs in which a request for memory is refused, each in turn: a query is refused for it, or the run ends, and no line
shows another answer in place of these two."""

from model.scripts import answers, text_of, wanting_memory

from .cut_scripts import SCRIPTS
from .program import calls_of
from .report import in_parallel

# No run of a short script asks for memory so often, and none of a long one.
MANY, MOST = 4000, 1 << 20

# Scripts whose last line lists a text of each of many lengths, among them those that fill the room that
# the text has taken: there the end of the line needs the last request.
NUMBERS = [b"9" * digits for digits in range(1, 19)]
LISTINGS = [
    *[b"doc a\nscores const %b all\n" % number for number in NUMBERS],
    *[b"doc a\nprune 0 const %b all\n" % number for number in NUMBERS],
    *[b"doc a\ntop 1 const %b all\n" % number for number in NUMBERS],
    *[b"doc a\n" * documents + b"docs all\n" for documents in range(1, 33)],
]

# A script of which a run asks for memory more often than any other here.
SEGMENTS = b"doc a\nsegment\n" * 1000 + b"delete 7\nweight a 6\nscores term a\n"


def check(program, report, jobs):
    """Refuses each request in turn, alone, and then with all requests after it; and the last ones."""
    parts = [(check_each, script) for script in SCRIPTS] + [(check_all_after, script) for script in SCRIPTS]
    parts += [(check_last, script) for script in (*LISTINGS, SEGMENTS)]
    in_parallel(program, report, check_part, parts, jobs)


def check_part(program, report, part):
    check_script, script = part
    check_script(program, report, script)


def check_each(program, report, script):
    """Refuses each request in turn, until a run has no request left to be refused."""
    wanted = answers(script)
    queries = queries_of(script, wanted)
    refused, ended, least = set(), 0, 0
    for number in range(1, MANY):
        outcome = program.run_faulty(script, request=number)
        lines = outcome.text.splitlines(keepends=True)
        if not calls_of(outcome, "request refused"):
            break
        right = [text in texts for (_, texts), text in zip(wanted, lines)]
        line = refused_line(wanted, lines, right)
        is_refusal = line in queries and len(lines) == len(wanted) and outcome.status in (1, 2)
        is_ended = outcome.status == 3 and all(right) and len(lines) <= len(wanted)
        # a later request is that of the same line, or of a later one
        is_later = (line if is_refusal else len(lines)) >= (least if is_refusal else 0)
        is_right = is_refusal and is_later or is_ended
        told = "whole first lines and status 3, or one query refused and the others answered"
        report.expect_same(f"request {number} of {script!r} is refused", outcome if is_right else told, outcome)
        refused |= {line} if is_refusal else set()
        least, ended = (line if is_refusal else least), ended + is_ended
    report.expect(f"no request of {script!r} is refused", *text_of(script), outcome)
    report.expect_same(f"the queries of {script!r} that are refused", understood(wanted, queries), sorted(refused))
    report.expect_same(f"a run of {script!r} that ends for want of memory", True, ended > 0)


def check_all_after(program, report, script):
    """Where memory runs out for good, each line that is written is the line's answer or its refusal."""
    wanted = answers(script)
    queries = queries_of(script, wanted)
    for number in range(1, MANY):
        outcome = program.run_faulty(script, request=number, requests=1)
        if not calls_of(outcome, "request refused"):
            return
        lines = outcome.text.splitlines(keepends=True)
        refusals = [text == refusal(line) and line in queries for (line, _), text in zip(wanted, lines)]
        right = [text in texts for (_, texts), text in zip(wanted, lines)]
        is_whole = len(lines) == len(wanted) and any(refusals) and outcome.status in (1, 2)
        # behind a refusal all others want memory too
        are_right = all(a or b for a, b in zip(right, refusals)) and (outcome.status == 3 or is_whole)
        told = "answers and refusals with status 3, or all lines"
        name = f"requests from {number} on of {script!r} are refused"
        report.expect_same(name, outcome if are_right else told, outcome)


def queries_of(script, wanted):
    """The numbers of the lines whose queries want memory: want of it refuses them, and ends the run in all others."""
    return {*wanting_memory(script, [line for line, _ in wanted])}


def understood(wanted, queries):
    """Those of them that are understood: each wants memory, also where it is refused for its form."""
    return [line for line, texts in wanted if line in queries and b": not understood" not in texts[-1]]


def refusal(line):
    return b"line %d: refused 13\n" % line


def refused_line(wanted, lines, right):
    """The number of the one line that is refused for want of memory, where all others are answered."""
    wrong = [at for at, it in enumerate(right) if not it]
    if len(wrong) != 1 or lines[wrong[0]] != refusal(wanted[wrong[0]][0]):
        return None
    return wanted[wrong[0]][0]


def check_last(program, report, script):
    """Refuses the last request that a run makes, which is made for the answer of its last line."""
    outcome = last_refused(program, script, MOST if script == SEGMENTS else MANY)
    text = refusal(script.count(b"\n"))
    report.expect(f"the last request of {script[-40:]!r} is refused", text, 1, outcome)


def last_refused(program, script, most):
    """The run whose last request alone is refused, of at most so many: it is the greatest number that is refused at
    all."""
    refused, least = None, 1
    while least < most:
        number = (least + most) // 2
        outcome = program.run_faulty(script, request=number)
        if calls_of(outcome, "request refused"):
            refused, least = outcome, number + 1
        else:
            most = number
    return refused
