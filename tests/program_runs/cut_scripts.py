"""Scripts that are cut at every byte, whose reads fail one after another, or whose writes do."""

import errno
import os

from model.scripts import answers, text_of

from .program import Call, calls_of
from .report import in_parallel

HERE = os.path.dirname(os.path.abspath(__file__))
EXAMPLES = os.path.join(HERE, "..", "..", "examples")

# A script with an answer of each kind, and with each exit status on the way.
EVERY_ANSWER = (
    b"doc a b\ndoc a\ndelete 1\nsegment\ndoc a a b\nweight b 500\nscores bool 0 2 + term a ? term b\n"
    b"count term a\nprune 400 term a\ndocs phrase 0 1 a\noops\ndocs none\n"
)
# A script with every form of a line and of a query, with words that aren't ASCII and other ends of lines, and without
# an end of its last line.
EVERY_FORM = (
    b"doc a b\r\n\n \t\ndoc \xc3\xbc a\tb \nsegment\ndoc a a b c\ndelete 0\nweight a 6000\ndocs all\nscores term a\n"
    b"prune 0 boost 2 term \xc3\xbc\ncount const 3 phrase 1 2 a b\ntop 2 max 500 2 term a term b\r\n"
    b"top 1 bool 1 3 + prefix 5 2 a b ? none - term c\ndocs prefix 9 1 \xc3\xbc"
)


def example(name):
    with open(os.path.join(EXAMPLES, name), "rb") as it:
        return it.read()


SCRIPTS = [EVERY_ANSWER, EVERY_FORM, *(example(name) for name in ("first.txt", "weights.txt", "refusals.txt"))]
# so many runs are made by one process after another
RUNS = 100


def check(program, report, jobs):
    """Cuts each script, and lets each read and write fail."""
    parts = []
    for script in SCRIPTS:
        text, _ = text_of(script)
        for check_each, many in [
            (check_beginning, len(script)),
            (check_failed_read, len(script)),
            (check_failed_read_of_seven, -(-len(script) // 7)),
            (check_failed_write, len(text)),
            (check_failed_line, len(answers(script))),
        ]:
            parts += [(check_each, script, range(at, min(at + RUNS, many + 1))) for at in range(0, many + 1, RUNS)]
        parts.append((check_interrupted, script, range(1, 9)))
    in_parallel(program, report, check_numbers, parts, jobs)


def check_numbers(program, report, part):
    check_each, script, numbers = part
    for number in numbers:
        check_each(program, report, script, number)


def whole_lines(script, length):
    """What is written where so many bytes of the script can be read: the answers of the whole lines."""
    return text_of(script[: script.rfind(b"\n", 0, length) + 1])[0]


def check_beginning(program, report, script, length):
    """A beginning of a script is a script."""
    beginning = script[:length]
    report.expect(f"the beginning {beginning!r}", *text_of(beginning), program.run(beginning))


def check_failed_read(program, report, script, reads, size=1):
    """So many reads go well, and then one fails: all whole lines are answered."""
    outcome = program.run_faulty(script, read_sizes=size, reads=reads)
    name = f"a read that fails after {reads} of {size} bytes of {script!r}"
    report.expect(name, whole_lines(script, reads * size), 3, outcome)
    failed = [Call("read failed", errno.EIO)]
    report.expect_same(f"{name}: the last call", failed, outcome.calls[-1:])
    report.expect_same(f"{name}: the failed calls", failed, calls_of(outcome, "read failed", "write failed"))


def check_failed_read_of_seven(program, report, script, reads):
    check_failed_read(program, report, script, reads, 7)


def check_failed_write(program, report, script, writes):
    """So many writes of one byte go well, and then one fails, behind which there is no call. Each read gives one byte, so
    that each line is answered by itself."""
    outcome = program.run_faulty(script, read_sizes=1, write_size=1, writes=writes)
    expect_written(report, script, f"a write that fails after {writes} bytes of {script!r}", writes, outcome)


def check_failed_line(program, report, script, writes):
    """The same with writes that take a line each."""
    lines = [texts[-1] for _, texts in answers(script)]
    outcome = program.run_faulty(script, read_sizes=1, writes=writes)
    # an empty write is none
    length = len(b"".join(lines[:writes]))
    expect_written(report, script, f"a write that fails after {writes} lines of {script!r}", length, outcome)


def expect_written(report, script, name, length, outcome):
    """So many bytes were written, and then a write failed, if there was one."""
    text, status = text_of(script)
    if length >= len(text):
        report.expect(name, text, status, outcome)
        return
    report.expect(name, text[:length], 3, outcome)
    failed = [Call("write failed", errno.EIO)]
    report.expect_same(f"{name}: the last call", failed, outcome.calls[-1:])
    report.expect_same(f"{name}: the failed calls", failed, calls_of(outcome, "read failed", "write failed"))


def check_interrupted(program, report, script, size):
    """Reads and writes of so many bytes, each interrupted before."""
    sizes = {"read_sizes": size, "write_size": size}
    outcome = program.run_faulty(script, **sizes, read_signals=1, write_signals=1)
    name = f"interrupted reads and writes of {size} bytes of {script!r}"
    report.expect(name, *text_of(script), outcome)
    for call in ("read", "write"):
        calls = len(calls_of(outcome, call)), len(calls_of(outcome, f"{call} interrupted"))
        report.expect_same(f"{name}: each {call} is interrupted once", (calls[0],) * 2, calls)
