"""Inputs that give little, are interrupted or fail, and outputs that take little or fail."""

import errno
import os
import select
import subprocess

from .program import LIMIT, Call, calls_of, ended, written_at_reads
from .whole_scripts import FIRST

FOUR_LINES = b"doc a\ndocs all\nfoo\ndocs term a\n"

# Two lines; the end of one, and the beginning of the next; its end; a last one.
PIECES = [b"doc a\ndocs all\n", b"docs te", b"rm a\nfoo\ndoc", b" b\ndocs all"]
# What had been written before each of them, and before the end: the answers of all lines that had ended.
WRITTEN = [b"", b"0\n", b"0\n", *[b"0\n0\nline 4: not understood\n"] * 2]
TEXT_OF_PIECES = WRITTEN[-1] + b"0 1\n"


def check(program, report):
    """Runs scripts over such inputs and outputs."""
    check_pieces(program, report)
    check_pipe(program, report)
    check_short_reads(program, report)
    check_failed_reads(program, report)
    check_long_text(program, report)
    check_failed_writes(program, report)
    check_first_error(program, report)
    check_without_library(program, report)


def check_pieces(program, report):
    """Answers are written before more input is asked for."""
    sizes = ",".join(str(len(piece)) for piece in PIECES)
    outcome = program.run_faulty(b"".join(PIECES), read_sizes=sizes)
    report.expect("a script in pieces", TEXT_OF_PIECES, 2, outcome)
    wanted = [len(text) for text in WRITTEN], len(TEXT_OF_PIECES)
    got = written_at_reads(outcome.calls)
    report.expect_same("what is written before each piece is read", wanted, got)


def check_pipe(program, report):
    """The same by a pipe, of which each piece is written once the answers before it are there."""
    with program.start(stdin=subprocess.PIPE, stdout=subprocess.PIPE) as running:
        got = b""
        for piece, wanted in zip(PIECES + [b""], WRITTEN):
            got += read_up_to(running.stdout, len(wanted) - len(got))
            report.expect_same(f"by a pipe, before {piece!r} is written", wanted, got)
            # what doesn't come is not waited for again
            if got != wanted:
                break
            running.stdin.write(piece)
            running.stdin.flush()
        rest, status = ended(running)
    report.expect_same("by a pipe", (TEXT_OF_PIECES, 2), (got + rest, status))


def read_up_to(pipe, length):
    """So many bytes of a pipe, or fewer where it ends, or none come for long."""
    got = b""
    while len(got) < length and select.select([pipe], [], [], LIMIT)[0]:
        more = os.read(pipe.fileno(), length - len(got))
        if not more:
            break
        got += more
    return got


def check_short_reads(program, report):
    """One byte a read; interrupted before each read; both."""
    one_byte = [Call("read", 1)] * len(FIRST) + [Call("read", 0)]
    whole = [Call("read", len(FIRST)), Call("read", 0)]
    for name, faults, reads in [
        ("one byte a read", {"read_sizes": 1}, one_byte),
        ("interrupted reads", {"read_signals": 1}, whole),
        ("interrupted reads of one byte", {"read_sizes": 1, "read_signals": 1}, one_byte),
    ]:
        outcome = program.run_faulty(FIRST, **faults)
        report.expect(name, b"0 2\n", 0, outcome)
        signals = len(reads) if "read_signals" in faults else 0
        got = calls_of(outcome, "read"), len(calls_of(outcome, "read interrupted"))
        report.expect_same(f"{name}: the calls", (reads, signals), got)


def text_of_four_lines(reads):
    """What is written where so many bytes of `FOUR_LINES` can be read: the whole lines' answers."""
    if reads < 15:
        return b""
    if reads < 19:
        return b"0\n"
    if reads < 31:
        return b"0\nline 3: not understood\n"
    return b"0\nline 3: not understood\n0\n"


def check_failed_reads(program, report):
    """Where a read fails, the whole lines before it are answered, and nothing more is read."""
    for error in [errno.EIO, errno.ECONNRESET]:
        # all bytes can be read, and then the read fails that looks for more
        for reads in range(len(FOUR_LINES) + 1):
            faults = {"read_sizes": 1, "reads": reads, "error": error}
            outcome = program.run_faulty(FOUR_LINES, **faults)
            name = f"a read that fails after {reads}, with error {error}"
            report.expect(name, text_of_four_lines(reads), 3, outcome)
            wanted = [Call("read", 1)] * reads + [Call("read failed", error)]
            got = calls_of(outcome, "read", "read failed")
            report.expect_same(f"{name}: the reads", wanted, got)


def long_script():
    """A thousand documents that are listed four times, and the text, more than a buffer holds."""
    line = b" ".join(b"%d" % document for document in range(1000)) + b"\n"
    return b"doc a\n" * 1000 + b"docs all\n" * 4, line * 4


def check_long_text(program, report):
    """A long text is written in parts, also where the output takes but little."""
    script, text = long_script()
    # four times the numbers from 0 to 999, each with a space or the end of the line after it
    report.expect_same("the length of a long text", 4 * (10 * 2 + 90 * 3 + 900 * 4), len(text))
    for name, faults in [("a long text", {}), ("a long text in small parts", {"write_size": 7})]:
        outcome = program.run_faulty(script, **faults)
        report.expect(name, text, 0, outcome)
        is_in_parts = len(calls_of(outcome, "write")) > 1
        report.expect_same(f"{name} is written in parts", True, is_in_parts)


def check_failed_writes(program, report):
    """What the writes before a failed one took is the first part of the text, and after it there is no
    call. Where the whole text is taken before, all goes well."""
    script, text = long_script()
    failed = Call("write failed", errno.EIO)
    for writes in range(8):
        name = f"a write that fails after {writes}"
        outcome = program.run_faulty(script, write_size=3000, writes=writes)
        if failed not in outcome.calls:
            report.expect(name, text, 0, outcome)
            continue
        taken = [call.number for call in calls_of(outcome, "write")]
        report.expect(name, text[: sum(taken)], 3, outcome)
        report.expect_same(f"{name}: the writes before", writes, len(taken))
        last = outcome.calls[outcome.calls.index(failed) :]
        report.expect_same(f"{name}: the calls from it on", [failed], last)
    # here at least one fails
    outcome = program.run_faulty(script, write_size=3000, writes=0)
    report.expect("no write is taken", b"", 3, outcome)


def check_first_error(program, report):
    """An answer is written before the next read: where both fail, there is no such read."""
    outcome = program.run_faulty(FIRST, write_size=1, writes=3)
    report.expect("a write that fails after three bytes", b"0 2", 3, outcome)
    failed = Call("write failed", errno.EIO)
    wanted = [Call("read", len(FIRST))] + [Call("write", 1)] * 3 + [failed]
    report.expect_same("a write that fails after three bytes: the calls", wanted, outcome.calls)
    script = b"docs all\n"
    outcome = program.run_faulty(script, read_sizes=1, reads=len(script), writes=0)
    report.expect("a write and a read that fail", b"", 3, outcome)
    wanted = [Call("read", 1)] * len(script) + [failed]
    report.expect_same("a write and a read that fail: the calls", wanted, outcome.calls)


def check_without_library(program, report):
    """A folder cannot be read, and a device that is full cannot be written to."""
    folder = os.open("/", os.O_RDONLY)
    # nothing is written where errors go
    outputs = {"stdout": subprocess.PIPE, "stderr": subprocess.STDOUT}
    with program.start(stdin=folder, **outputs) as running:
        report.expect_same("a folder as the input", (b"", 3), ended(running))
    os.close(folder)
    with open("/dev/full", "wb") as full:
        with program.start(stdin=subprocess.PIPE, stdout=full) as running:
            ended(running, b"doc a\ndocs all\n")
    report.expect_same("an output that is full", 3, running.returncode)
