"""Single lines behind documents: each form at its least and greatest numbers, and cut at each word."""

DOCUMENT = b"doc a b\n"
DOCUMENTS = b"doc a\ndoc a\ndoc a\n"
NOT_UNDERSTOOD = b"line 2: not understood\n"

# (line, text, status), behind one document, `a b`
QUERIES = [
    (b"docs all", b"0\n", 0),
    (b"docs none", b"\n", 0),
    (b"docs term a", b"0\n", 0),
    (b"docs phrase 0 0", b"line 2: refused 1\n", 1),
    (b"docs phrase 0 2 a b", b"0\n", 0),
    (b"docs phrase 4294967295 2 a b", b"0\n", 0),
    (b"docs prefix 0 0", b"line 2: refused 2\n", 1),
    # no word takes the prefix's place
    (b"docs prefix 0 1 a", b"\n", 0),
    (b"docs prefix 4294967295 2 a b", b"0\n", 0),
    (b"docs bool 0 0", b"\n", 0),
    (b"docs bool 4294967295 1 ? all", b"\n", 0),
    (b"docs bool 0 3 + all ? none - term c", b"0\n", 0),
    (b"scores boost 0 all", b"0:0\n", 0),
    (b"scores boost 9223372036854775807 all", b"0:9223372036854775807\n", 0),
    (b"scores const 0 all", b"0:0\n", 0),
    (b"scores const 9223372036854775807 all", b"0:9223372036854775807\n", 0),
    (b"docs max 0 0", b"\n", 0),
    (b"docs max 4294967295 0", b"line 2: refused 8\n", 1),
    # twice 1000 / 3 and 5, and of 2000 / 3 and 1 both
    (
        b"scores boost 2 bool 1 4 + term a ? const 5 all - term c"
        b" ? max 1000 2 phrase 0 2 a b prefix 3 2 a b",
        b"0:2010\n",
        0,
    ),
]

LINES = [
    (b"segment", b"", 0),
    (b"weight a 0", b"", 0),
    (b"weight a 9223372036854775807", b"", 0),
    (b"delete 0", b"", 0),
    # there is no such document
    (b"delete 18446744073709551615", NOT_UNDERSTOOD, 2),
    (b"count none", b"0\n", 0),
    (b"count max 0 2 all term a", b"1\n", 0),
    # what scores 1 is above the least threshold, and above 0, and not above 1 or the greatest
    (b"prune -9223372036854775808 all", b"0:1\n", 0),
    (b"prune 0 boost 1 all", b"0:1\n", 0),
    (b"prune 1 all", b"\n", 0),
    (b"prune 9223372036854775807 const 9223372036854775807 all", b"\n", 0),
    (b"top 0 all", b"\n", 0),
    (b"top 0001 all", b"0:1\n", 0),
    (b"top 4294967295 const 9223372036854775807 all", b"0:9223372036854775807\n", 0),
]

PAST_THE_GREATEST = [
    b"docs phrase 4294967296 0",
    b"docs phrase 0 4294967295 a b",
    b"docs phrase 0 4294967296 a b",
    b"docs prefix 4294967296 0",
    b"docs prefix 0 4294967296 a b",
    b"docs bool 4294967296 0",
    b"docs bool 0 4294967296 + all",
    b"docs boost 9223372036854775808 all",
    b"docs const 9223372036854775808 all",
    b"docs max 4294967296 0",
    b"docs max 0 4294967296 all",
    b"weight a 9223372036854775808",
    b"delete 18446744073709551616",
    b"prune 9223372036854775808 all",
    b"prune -9223372036854775809 all",
    b"prune 18446744073709551615 all",
    b"top 4294967296 all",
]

# What is read whole, and what is not, in one and the other form; behind one document, `a b`.
FORMS = [
    (b"scores phrase 4294967295 0", b"line 2: refused 1\n", 1),
    (b"scores phrase 4294967296 0", NOT_UNDERSTOOD, 2),
    # no word takes the prefix's place
    (b"scores prefix 0 2 a b", b"\n", 0),
    (b"scores prefix 0 2 a", NOT_UNDERSTOOD, 2),
    (b"scores bool 4294967295 3 + all ? none - term a", b"\n", 0),
    (b"scores bool 0 1 all", NOT_UNDERSTOOD, 2),
    (b"scores const 9223372036854775807 all", b"0:9223372036854775807\n", 0),
    (b"scores const 9223372036854775808 all", NOT_UNDERSTOOD, 2),
    (b"scores max 0 2 boost 0 all max 1 0", b"0:0\n", 0),
    (b"scores max 0 1", NOT_UNDERSTOOD, 2),
]

# Numbers of documents and thresholds; each line stands behind three documents `a`, and before
# `count all`, so that a line that isn't understood is seen to delete nothing.
NUMBERS = [
    (b"delete 0", b"2\n", 0),
    (b"delete 0002", b"2\n", 0),
    (b"delete 18446744073709551616", b"line 4: not understood\n3\n", 2),
    (b"delete -1", b"line 4: not understood\n3\n", 2),
    (b"delete", b"line 4: not understood\n3\n", 2),
    (b"delete 1 2", b"line 4: not understood\n3\n", 2),
    (b"count all", b"3\n3\n", 0),
    (b"count", b"line 4: not understood\n3\n", 2),
    # the first document scores 1, and the others no more than it
    (b"prune 9223372036854775807 all", b"\n3\n", 0),
    (b"prune 9223372036854775808 all", b"line 4: not understood\n3\n", 2),
    (b"prune -9223372036854775808 all", b"0:1\n3\n", 0),
    (b"prune -9223372036854775809 all", b"line 4: not understood\n3\n", 2),
    (b"prune -00 all", b"0:1\n3\n", 0),
    (b"prune - all", b"line 4: not understood\n3\n", 2),
    (b"prune +1 all", b"line 4: not understood\n3\n", 2),
    (b"prune --1 all", b"line 4: not understood\n3\n", 2),
    (b"prune -+1 all", b"line 4: not understood\n3\n", 2),
    (b"prune 1", b"line 4: not understood\n3\n", 2),
    (b"prune all", b"line 4: not understood\n3\n", 2),
]

# What is no line, alone in its script.
NOT_SERVED = [
    b"count",
    b"prune all",
    b"top all",
    b"top -1 all",
    b"top +1 all",
    b"delete 0",
    b"scores",
    b"segment a",
    b"weight a",
    b"weight a 1 2",
    b"weight a -1",
    b"weight a +1",
    b"weight a 9223372036854775808",
    b"docs bool 0 2 + term a",
    b"docs",
    b"docs all all",
    b"docs term",
    b"docs term a b",
    b"docs bool 0 1 + term a b",
    b"docs bool 0",
    b"docs bool 0 0 + term a",
    b"docs bool -1 0",
    b"docs bool +1 0",
    b"docs bool 4294967296 0",
    b"docs bool 0 4294967296",
    b"docs bool 1x 0",
    b"Doc a",
    b"doc a\xff",
]


def check(program, report):
    """Runs each line behind its documents."""
    for line, text, status in QUERIES + LINES:
        expect_line(program, report, line, text, status)
        expect_no_other(program, report, line)
    for line, text, status in FORMS:
        expect_line(program, report, line, text, status)
    for line in PAST_THE_GREATEST:
        expect_line(program, report, line, NOT_UNDERSTOOD, 2)
    # a document has as many words as are given, and a line without words asks for nothing
    for line in [b"", b"doc", b"doc a", b"doc a b", b"doc a b c"]:
        expect_line(program, report, line, b"", 0)
    for line, text, status in NUMBERS:
        script = DOCUMENTS + line + b"\ncount all\n"
        report.expect(f"numbers: {line!r}", text, status, program.run(script))
    for line in NOT_SERVED:
        name = f"not served: {line!r}"
        report.expect(name, b"line 1: not understood\n", 2, program.run(line))


def expect_line(program, report, line, text, status):
    """The line behind one document writes this text."""
    name = f"behind a document: {line!r}"
    report.expect(name, text, status, program.run(DOCUMENT + line))


def expect_no_other(program, report, line):
    """The line is whole: neither with fewer words, nor with one more, is it a line."""
    for at in range(len(line)):
        if line[at : at + 1] == b" ":
            expect_line(program, report, line[:at], NOT_UNDERSTOOD, 2)
    expect_line(program, report, line + b" all", NOT_UNDERSTOOD, 2)
