"""Queries and scripts of very many parts, none of them deep, with a stack of one megabyte: each is answered, and ten
times as many parts take no more than a small factor beside ten times the processor time."""

from .report import in_parallel

STACK = 1 << 20
FEW, MANY = 10_000, 100_000
# Ten times as many parts may take at most so many times as long, and what takes less processor time than this many
# seconds is not compared: a pass over all parts for each of them would take a hundred times as long.
SHORT, FACTOR = 0.1, 40


def check(program, report, jobs):
    """Runs each with so many parts, and with ten times as many."""
    in_parallel(program, report, check_name, [*queries(FEW), *scripts(FEW)], jobs)


def check_name(program, report, name):
    script, text = made(name, MANY)
    outcome, seconds = program.run_with_stack(script, STACK)
    report.expect(f"{name}, {MANY} parts", text, 0, outcome)
    few, text = made(name, FEW)
    outcome, less = program.run_with_stack(few, STACK)
    report.expect(f"{name}, {FEW} parts", text, 0, outcome)
    wanted = f"{name}: at most {FACTOR} times the time for {MANY} parts"
    is_linear = seconds < SHORT or seconds <= FACTOR * max(less, SHORT / 10)
    report.expect_same(name, wanted, wanted if is_linear else f"{seconds} after {less} seconds")


def made(name, parts):
    """The script of this name with so many parts, and what it is answered."""
    if name in scripts(parts):
        return scripts(parts)[name]()
    query, text = queries(parts)[name]()
    return documents(parts) + query + b"\n", text + b"\n"


def words(parts):
    return [b"w%d" % number for number in range(parts)]


def terms(parts):
    return [b"term w%d" % number for number in range(parts)]


def signed(sign, clauses):
    return b"".join(b" " + sign + b" " + it for it in clauses)


def documents(parts):
    """The first document has all words, the second the first half of them, the third the second half, and the last has
    none."""
    all_words, half = words(parts), parts // 2
    found = [all_words, all_words[:half], all_words[half:], [b"x"]]
    return b"".join(b"doc " + b" ".join(it) + b"\n" for it in found)


def queries(parts):
    """By name: what makes a query of so many parts, and what it is answered behind these documents."""
    half, tenth = parts // 2, parts // 10
    # a word that stands once in a document of 255 words and more scores 1000 / (1 + 255), a phrase of many as much as
    # they together, before it is rounded
    phrase = 1000 * tenth // 256
    best, others = 3 + 3 * (parts - 1) // 2, 3 + 3 * (half - 1) // 2
    sums = b"0:%d 1:%d 2:%d" % (3 * parts, 3 * half, 3 * half)
    bests = b"0:%d 1:%d 2:%d" % (best, others, others)
    return {
        "words that must match": lambda: (
            b"scores bool 0 %d" % parts + signed(b"+", terms(parts)),
            b"0:%d" % (3 * parts),
        ),
        "words one of which must match": lambda: (b"scores bool 1 %d" % parts + signed(b"?", terms(parts)), sums),
        "words two of which must match": lambda: (b"scores bool 2 %d" % parts + signed(b"?", terms(parts)), sums),
        "words all but one of which must match": lambda: (
            b"scores bool %d %d" % (parts - 1, parts) + signed(b"?", terms(parts)),
            b"0:%d" % (3 * parts),
        ),
        "words that may match": lambda: (
            b"scores bool 0 %d + all" % (parts + 1) + signed(b"?", terms(parts)),
            b"0:%d 1:%d 2:%d 3:1" % (3 * parts + 1, 3 * half + 1, 3 * half + 1),
        ),
        "words that must not match": lambda: (
            b"scores bool 0 %d + all" % (parts + 1) + signed(b"-", terms(parts)),
            b"3:1",
        ),
        # the first half twice, all words, and the second half twice
        "words of each sign": lambda: (
            b"scores bool 0 %d" % (3 * parts)
            + signed(b"+", terms(parts)[:half] * 2)
            + signed(b"?", terms(parts))
            + signed(b"-", terms(parts)[half:] * 2),
            b"1:%d" % (3 * 2 * half + 3 * half),
        ),
        "the same word many times": lambda: (b"count bool 2 %d" % parts + b" ? term w0" * parts, b"2"),
        "phrases": lambda: (
            b"count bool 1 %d" % half + b"".join(b" ? phrase 0 2 w%d w%d" % (2 * it, 2 * it + 1) for it in range(half)),
            b"3",
        ),
        "boosts": lambda: (
            b"scores bool 1 %d" % parts + signed(b"?", [b"boost 2 " + it for it in terms(parts)]),
            b"0:%d 1:%d 2:%d" % (6 * parts, 6 * half, 6 * half),
        ),
        "the greatest score": lambda: (b"scores max 0 %d " % parts + b" ".join(terms(parts)), b"0:3 1:3 2:3"),
        "the greatest score and half of the others": lambda: (
            b"scores max 500 %d " % parts + b" ".join(terms(parts)),
            bests,
        ),
        "a phrase": lambda: (
            b"scores phrase 0 %d " % tenth + b" ".join(words(tenth)),
            b"0:%d 1:%d" % (phrase, phrase),
        ),
        "a phrase of one word": lambda: (b"scores phrase 7 %d" % tenth + b" w0" * tenth, b""),
        "a prefix": lambda: (b"scores prefix %d 1 w" % parts, b"0:1 1:1 2:1"),
        "a word and a prefix": lambda: (b"scores prefix %d 2 w0 w" % parts, b"0:1 1:1"),
        "many words and a prefix": lambda: (
            b"count prefix %d %d " % (parts, tenth) + b" ".join(words(tenth - 1)) + b" w",
            b"2",
        ),
        "a pruned run that words must match": lambda: (
            b"prune 0 bool 0 %d" % parts + signed(b"+", terms(parts)),
            b"0:%d" % (3 * parts),
        ),
        "a pruned run of words that may match": lambda: (
            b"prune 0 bool 0 %d" % parts + signed(b"?", terms(parts)),
            b"0:%d" % (3 * parts),
        ),
        "a pruned run of words two of which must match": lambda: (
            b"prune 0 bool 2 %d" % parts + signed(b"?", terms(parts)),
            b"0:%d" % (3 * parts),
        ),
        "a pruned run of the greatest score": lambda: (b"prune 2 max 0 %d " % parts + b" ".join(terms(parts)), b"0:3"),
        "a pruned run of the greatest score and half of the others": lambda: (
            b"prune %d max 500 %d " % (others, parts) + b" ".join(terms(parts)),
            b"0:%d" % best,
        ),
        "the best of words that may match": lambda: (
            b"top 3 bool 0 %d" % parts + signed(b"?", terms(parts)),
            sums,
        ),
        "the best of words two of which must match": lambda: (
            b"top 1 bool 2 %d" % parts + signed(b"?", terms(parts)),
            b"0:%d" % (3 * parts),
        ),
        "the best by the greatest score": lambda: (
            b"top 2 max 0 %d " % parts + b" ".join(terms(parts)),
            b"0:3 1:3",
        ),
        "the best by the greatest score and half of the others": lambda: (
            b"top 4 max 500 %d " % parts + b" ".join(terms(parts)),
            bests,
        ),
    }


def scripts(parts):
    """By name: what makes a script of so many parts that are no query's, or over more documents, and what it is
    answered. Document i of the thousand has the words i and i + 1."""
    count, all_words = 1000, words(parts)
    some = b"".join(b"doc w%d w%d\n" % (it, it + 1) for it in range(count))
    # of three documents that score alike the first ones
    found = {
        b"count bool 1 %d" % parts + signed(b"?", terms(parts)): b"%d" % count,
        b"count bool 2 %d" % parts + signed(b"?", terms(parts)): b"%d" % count,
        b"count bool 3 %d" % parts + signed(b"?", terms(parts)): b"0",
        b"count bool 0 %d + all" % (parts + 1) + signed(b"-", terms(parts)): b"0",
        b"top 2 bool 0 %d" % parts + signed(b"?", terms(parts)): b"0:666 1:666",
        b"prune 300 bool 0 %d" % parts + signed(b"?", terms(parts)): b"0:666",
    }
    return {
        "words of a thousand documents": lambda: (
            some + b"".join(it + b"\n" for it in found),
            b"".join(it + b"\n" for it in found.values()),
        ),
        "segments": lambda: (
            b"doc a\nsegment\n" * parts + b"count all\ntop 2 term a\n",
            b"%d\n0:500 1:500\n" % parts,
        ),
        "weights": lambda: (
            b"".join(b"weight %b 8\n" % it for it in all_words) + b"doc w7\nscores term w7\n",
            b"0:4\n",
        ),
        "deletions": lambda: (
            b"doc a\n" * parts + b"".join(b"delete %d\n" % it for it in range(parts)) + b"count all\ntop 1 all\n",
            b"0\n\n",
        ),
        "searches behind each document": lambda: (
            b"".join(b"doc %b\ncount term %b\n" % (it, it) for it in words(parts // 10)),
            b"1\n" * (parts // 10),
        ),
    }
