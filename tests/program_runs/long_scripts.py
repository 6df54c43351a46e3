"""Scripts made by code: long documents, words, queries and lines, and many of them."""

# So many bytes are read at once.
CHUNK = 4096

# Refused where `a` has the greatest weight.
TOO_GREAT = b"scores bool 0 2 + term a + term a\n"


def check(program, report):
    """Runs each script."""
    scripts = [
        ("long documents", *long_documents()),
        ("long words", *long_words()),
        ("a query of 70 words", *query_of_many_words()),
        ("a query after each of 1001 documents", *query_after_each_document()),
        ("7000 excluded words", *query_of_many_exclusions()),
        ("an answer of more than a megabyte", *answer_of_a_megabyte()),
        ("a thousand segments, weights and deletions", *thousand_segments()),
        ("a thousand deletions from the open segment", *thousand_deletions()),
        ("a thousand weights of one word", *thousand_weights()),
        ("a phrase and a prefix of 300 words", *phrase_of_many_words()),
    ]
    for ends in [(b"\r\n", b"\n"), (b"\n", b"\r\n")]:
        scripts.append((f"lines of 0 to 299 letters, ended by {ends}", *lines_of_each_length(*ends)))
    for name, script, text in scripts:
        report.expect(name, text, 0, program.run(script))
    for length in range(CHUNK - 4, CHUNK + 5):
        script, text = line_around_a_chunk(length)
        report.expect(f"a line whose end is at {length} bytes", text, 0, program.run(script))
    far = program.run(b"\n" * 299 + b"foo\ndoc a\nweight a 9223372036854775807\n" + TOO_GREAT)
    report.expect("far lines", b"line 300: not understood\nline 303: refused 9\n", 2, far)
    check_answers_of_line_12(program, report)


def long_documents():
    """Documents of 101, 256 and 257 words."""
    script = b""
    for word, others in [(b"a", 100), (b"b", 255), (b"b", 256)]:
        script += b"doc " + word + b" x" * others + b"\n"
    # 101 * 102 / (1 + 101), and 256 * 256 / (1 + 255): a length is held at 255
    script += b"weight a 10302\nweight b 65536\nscores term a\nscores term b\n"
    return script, b"0:101\n1:256 2:256\n"


def long_words():
    """A word of 300 letters, and one that lacks the last of them."""
    script = b"doc " + b"y" * 300 + b"\ndocs term " + b"y" * 300 + b"\ndocs term " + b"y" * 299
    return script, b"0\n\n"


def query_of_many_words():
    """A document of 70 words, and queries for all of them."""
    words = b"".join(b" w%d" % i for i in range(70))
    clauses = b"".join(b" + term w%d" % i for i in range(70))
    script = b"doc%b\ndoc w0 w1\ndocs bool 0 70%b\nscores bool 0 70%b\n" % (words, clauses, clauses)
    # 70 * (1000 / 71)
    return script, b"0\n0:980\n"


def query_of_many_exclusions():
    """What is left of three documents without those that hold one of 7000 words."""
    clauses = b"".join(b" - term w%d" % i for i in range(7000))
    query = b"bool 0 7001 + all%b\n" % clauses
    return b"doc w0\ndoc other\ndoc x w6999\ndocs %bcount %b" % (query, query), b"1\n1\n"


def answer_of_a_megabyte():
    """200,000 documents, all of which a query finds."""
    count = 200_000
    text = b" ".join(b"%d" % document for document in range(count)) + b"\n"
    assert len(text) > 1_000_000
    return b"doc a\n" * count + b"docs term a\n", text


def thousand_segments():
    """A thousand segments of two documents, each with a word that is weighed and stands in no other, and with a word
    that stands in the first documents alone; these are deleted. The words of each query are all of the weighed ones."""
    count = 1000
    script = b"".join(b"weight w%d %d\ndoc w%d a\ndoc w%d\nsegment\n" % (i, 6 * i, i, i) for i in range(count))
    script += b"".join(b"delete %d\n" % (2 * i) for i in range(count))
    clauses = b"".join(b" ? term w%d" % i for i in range(count))
    first, last = [b"%d" % (2 * i) for i in range(count)], [b"%d" % (2 * i + 1) for i in range(count)]
    # 6i / 3 and 6i / 2
    scores = [b"%d:%d %d:%d" % (2 * i, 2 * i, 2 * i + 1, 3 * i) for i in range(count)]
    rows = [
        (b"docs all", [b"%d" % document for document in range(2 * count)]),
        (b"docs term a", first),
        (b"scores term a", [document + b":333" for document in first]),
        (b"docs bool 0 2 + all - term a", last),
        (b"scores term w999", scores[999:]),
        (b"prune 1998 term w999", [b"1999:2997"]),
        # the threshold is the same where each segment begins
        (b"prune 332 term a", [document + b":333" for document in first]),
        (b"scores bool 1 1000" + clauses, scores),
        (b"scores max 0 1000" + clauses.replace(b" ?", b""), scores),
        # 3i is above 1500 from 501 on, and 2i from 751 on
        (
            b"prune 1500 bool 1 1000" + clauses,
            [b"%d:%d" % (2 * i + 1, 3 * i) for i in range(501, 751)] + scores[751:],
        ),
        (b"docs prefix 1000 1 w", [b"%d" % document for document in range(2 * count)]),
        (b"count all", [b"1000"]),
        (b"count term a", [b"0"]),
        (b"count term w999", [b"1"]),
        (b"count bool 1 1000" + clauses, [b"1000"]),
    ]
    queries = b"".join(query + b"\n" for query, _ in rows)
    return script + queries, b"".join(b" ".join(found) + b"\n" for _, found in rows)


def thousand_deletions():
    """A thousand documents, with a count behind each deletion."""
    count = 1000
    script = b"".join(b"doc w%d a\n" % i for i in range(count))
    script += b"".join(b"delete %d\ncount term a\n" % i for i in range(count))
    text = b"".join(b"%d\n" % (count - 1 - i) for i in range(count))
    return script + b"docs term w999\ncount term w999\n", text + b"999\n0\n"


def thousand_weights():
    """A word that is weighed a thousand times, and another one of which nothing is said."""
    script = b"doc a\ndoc b\n" + b"".join(b"weight a %d\nscores term a\n" % (2 * i) for i in range(1000))
    # 2i / 2
    return script + b"scores term b\n", b"".join(b"0:%d\n" % i for i in range(1000)) + b"1:500\n"


def phrase_of_many_words():
    """A document of 300 words, and one that lacks the last of them."""
    words = b"".join(b" w%d" % i for i in range(300))
    script = b"doc%b\ndoc%b\n" % (words, words.removesuffix(b" w299"))
    script += b"scores phrase 0 300%b\ndocs phrase 0 299%b\n" % (words, words.removesuffix(b" w299"))
    # w299 is the last of 111 words that begin with w2
    for most in [110, 111]:
        script += b"scores prefix %d 300%b\n" % (most, words.removesuffix(b"99"))
    # 300 words weigh 300000, and 299 of them 299000, over 1 + 255
    return script, b"0:1171\n0 1\n\n0:1167\n"


def query_after_each_document():
    """1001 documents, each with a query for what it alone has; then one for what all have."""
    script = b"".join(b"doc a n%d\nscores term n%d\n" % (i, i) for i in range(1001))
    # 1000 / 3
    text = b"".join(b"%d:333\n" % i for i in range(1001))
    text += b" ".join(b"%d" % i for i in range(1001)) + b"\n"
    return script + b"docs term a\n", text


def lines_of_each_length(end, end_of_query):
    """An empty line, an empty document, and documents of one word of 1 to 299 letters: many chunks. A
    query for each, the last without an end."""
    script = end + b"doc" + end
    script += b"".join(b"doc " + b"x" * length + end for length in range(1, 300))
    queries = [b"docs term " + b"x" * length for length in range(1, 300)]
    text = b"".join(b"%d\n" % length for length in range(1, 300))
    return script + end_of_query.join(queries), text


def line_around_a_chunk(length):
    """A document whose line ends at so many bytes, with bytes 13 and 10, and queries for its word."""
    word = b"x" * (length - len(b"doc \r\n"))
    return b"doc " + word + b"\r\ndocs term " + word + b"\ndocs term " + word[1:] + b"\n", b"0\n\n"


def check_answers_of_line_12(program, report):
    """What stands in the text of each kind of an answer."""
    before = b"weight a 9223372036854775807\n" + b"doc a\n" * 8 + b"\n" * 2
    rows = [
        (b"doc b", b"", 0),
        (b"docs term a", b"0 1 2 3 4 5 6 7\n", 0),
        (TOO_GREAT, b"line 12: refused 9\n", 1),
        (b"docs", b"line 12: not understood\n", 2),
    ]
    for line, text, status in rows:
        report.expect(f"line 12: {line!r}", text, status, program.run(before + line))
