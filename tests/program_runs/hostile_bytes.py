"""Inputs of bytes that no one would write: what is no UTF-8, lines of ten megabytes, bytes 0, ends of lines alone, and
numbers past all limits."""

from .report import in_parallel

# ten megabytes, and one where there are many lines, or many ways to have it
MANY, SOME = 10 << 20, 1 << 20
DOCUMENT = b"doc a\n"
# so many bytes are read at once
CHUNK = 4096
# What is no UTF-8: a byte that begins nothing, one alone that continues, what is cut short, what has a shorter form, half
# of a pair, and what is past the last character.
NO_UTF_8 = [b"\xff", b"\xfe", b"\x80", b"\xbf", b"\xc3", b"\xe2\x82", b"\xf0\x9f\x98", b"\xc3(", b"\xe2\x28\xa1"]
NO_UTF_8 += [b"\xc0\x80", b"\xc1\xbf", b"\xe0\x80\xaf", b"\xf0\x80\x80\xaf", b"\xed\xa0\x80", b"\xed\xbf\xbf"]
NO_UTF_8 += [b"\xf4\x90\x80\x80", b"\xf5\x80\x80\x80", b"\xf8\x88\x80\x80\x80"]
# What is, though it is often taken for a space, an end of a line, or nothing: byte 0, other control characters, a byte
# order mark, spaces and ends of lines of Unicode, what goes with the character before, and the last of one, two, three
# and four bytes.
WORDS = [b"\x00", b"a\x00b", b"\x01", b"\x0b", b"\x0c", b"\x1b[2J", b"\x7f", b"\xef\xbb\xbfa", b"\xc2\xa0", b"\xc2\x85"]
WORDS += [b"\xe2\x80\xa8", b"\xe3\x80\x80", b"e\xcc\x81", b"\xdf\xbf", b"\xef\xbf\xbf", b"\xf4\x8f\xbf\xbf", b"%s%n", b"\\n"]
# Each place of a number, as a line whose number is left out, and the least number past its limit.
PLACES = [
    (b"weight a %b", 2**63),
    (b"delete %b", 2**64),
    (b"prune %b all", 2**63),
    (b"prune -%b all", 2**63 + 1),
    (b"top %b all", 2**32),
    (b"docs phrase %b 2 a a", 2**32),
    (b"docs phrase 0 %b a a", 2**32),
    (b"docs prefix %b 1 a", 2**32),
    (b"docs prefix 0 %b a", 2**32),
    (b"docs bool %b 0", 2**32),
    (b"docs bool 0 %b + all", 2**32),
    (b"docs boost %b all", 2**63),
    (b"docs const %b all", 2**63),
    (b"docs max %b 0", 2**32),
    (b"docs max 0 %b all", 2**32),
]


def check(program, report, jobs):
    """Runs each, behind a document."""
    scripts = [*words_and_no_words(), *numbers(), *ends_of_lines(), *long_lines()]
    in_parallel(program, report, check_script, scripts, jobs)


def check_script(program, report, script):
    name, text, wanted, status = script
    report.expect(name, wanted, status, program.run(text))


def not_understood(line):
    return b"line %d: not understood\n" % line


def words_and_no_words():
    """A document and a query of each word; and lines that are no UTF-8, of which the others know nothing."""
    for word in WORDS:
        yield f"the word {word!r}", b"doc a " + word + b"\ndoc a\ndocs term " + word, b"0\n", 0
    for word in NO_UTF_8:
        text = DOCUMENT + b"doc a " + word + b"\ndocs term a\ndocs term " + word + b"\n" + word
        wanted = not_understood(2) + b"0\n" + not_understood(4) + not_understood(5)
        yield f"what is no UTF-8, {word!r}", text, wanted, 2
    # a character of four bytes around the end of what is read at once
    for before in range(5):
        word = b"x" * (CHUNK - len(b"doc ") - before) + "\U0001f600y".encode()
        text = b"doc " + word + b"\ndocs term " + word
        yield f"a character at {before} bytes before the end of a chunk", text, b"0\n", 0


def numbers():
    """Numbers past each limit, and what is no number."""
    for place, past in PLACES:
        greater = [b"%d" % (past * 10**digits) for digits in (0, 1, 40)] + [b"9" * 400, b"0" * 50 + b"%d" % past]
        for number in [*greater, b"", b"-", b"--1", b"+1", b"1.0", b"1e3", b"0x1", b"1_0", b"1,0", "\u0661".encode()]:
            line = place % number
            yield f"the number in {line!r}", DOCUMENT + line, not_understood(2), 2


def ends_of_lines():
    """Ends of lines alone; the number of the line behind many of them."""
    for name, end in [("bytes 10", b"\n"), ("bytes 13 and 10", b"\r\n"), ("spaces and ends", b" \t\n")]:
        lines = SOME // len(end)
        yield f"{name} alone", end * lines, b"", 0
        yield f"a word behind {name}", end * lines + b"foo", not_understood(lines + 1), 2
    yield "a byte 13 alone", b"\r", not_understood(1), 2
    yield "bytes 13 alone", b"\r" * MANY, not_understood(1), 2
    yield "bytes 13 before an end", b"\r" * MANY + b"\n", not_understood(1), 2
    yield "bytes 13 between ends", b"\r\r\n\r\n", not_understood(1), 2
    many = 100_000
    yield "many lines that are no lines", b"foo\n" * many, b"".join(map(not_understood, range(1, many + 1))), 2


def long_lines():
    """Lines of ten megabytes."""
    for byte in (b"a", b"\x00", b"\xff", b"9", b"-"):
        yield f"a line of bytes {byte!r}", DOCUMENT + byte * MANY + b"\ndocs all", not_understood(2) + b"0\n", 2
    for space in (b" ", b"\t", b" \t"):
        yield f"a line of {space!r}", space * (MANY // len(space)), b"", 0
        spaces = space * (SOME // len(space))
        yield f"words between {space!r}", spaces.join([b"", b"doc", b"a", b"\ndocs term", b"a"]), b"0\n", 0
    word = b"a" * MANY
    yield "a long word", b"doc " + word + b"\ndocs term " + word + b"\ndocs term " + word[1:], b"0\n\n", 0
    count = MANY // 2
    # 1000 * count / (count + 255): a length is held at 255
    yield "a long document", b"doc" + b" a" * count + b"\nscores term a", b"0:%d\n" % (1000 * count // (count + 255)), 0
    for line in (b"weight a %b1", b"delete %b0", b"count boost %b1 all", b"top %b0 all", b"prune -%b0 none"):
        outcome = {b"count": b"0\n", b"top": b"\n", b"prune": b"\n"}.get(line.split(b" ")[0], b"")
        text = DOCUMENT + b"delete 0\n" + line % (b"0" * SOME)
        yield f"leading zeros in {line!r}", text, outcome, 0
        yield f"nines in {line!r}", DOCUMENT + line % (b"9" * SOME), not_understood(2), 2
    for form in (b"boost 1 ", b"bool 0 1 + ", b"max 0 1 "):
        text = DOCUMENT + b"docs " + form * (MANY // len(form)) + b"all"
        yield f"a line of {form!r}", text, not_understood(2), 2
    for form in (b"docs bool 0 4294967295", b"docs max 0 4294967295", b"docs phrase 0 4294967295"):
        text = DOCUMENT + form + b" + all" * (SOME // 6)
        yield f"too few behind {form!r}", text, not_understood(2), 2
