"""Whole scripts, each with the text that it writes and its exit status.

1000 is what a word weighs by default, and a word's score is its weight times how often it stands in a
document, over that and the document's words, rounded down. The sums stand above the rows.
"""

import os

HERE = os.path.dirname(os.path.abspath(__file__))
EXAMPLES = os.path.join(HERE, "..", "..", "examples")

FIRST = b"doc a b\ndoc a c\ndoc a b c\ndoc b\ndocs bool 0 2 + term a + term b\n"

# (name, script, text, status)
LISTED = [
    (
        "two words of one document",
        FIRST,
        b"0 2\n",
        0,
    ),
    (
        "an empty script",
        b"",
        b"",
        0,
    ),
    (
        "queries for all, for none and for a word that is not there",
        b"doc a\ndocs all\ndocs none\ndocs bool 0 0\ndocs bool 1 1 + term a\ndocs term z\n",
        b"0\n\n\n\n\n",
        0,
    ),
    (
        "documents without words, and a word that is asked for twice",
        b"doc a b\ndoc\ndoc b b a\ndocs all\ndocs term b\ndocs bool 0 1 + term b\n"
        b"docs bool 0 3 + term b + term a + term b\ndocs bool 0 2 + term a + term z\n",
        b"0 1 2\n0 2\n0 2\n0 2\n\n",
        0,
    ),
    (
        "weights that pass the greatest score",
        b"doc a\nweight a 9223372036854775807\nscores term a\nscores bool 0 2 + term a + term a\n"
        b"scores bool 1 2 + term a + term a\n",
        b"0:4611686018427387903\nline 4: refused 9\nline 5: refused 9\n",
        1,
    ),
    # half of the greatest score, twice that, and twice the greatest
    (
        "the greatest weight, boosted and twice, and the least threshold",
        b"doc a\nweight a 9223372036854775807\nscores term a\nscores boost 2 term a\n"
        b"scores bool 0 2 ? term a ? term a\nprune -9223372036854775808 all\n",
        b"0:4611686018427387903\nline 4: refused 9\nline 5: refused 9\n0:1\n",
        1,
    ),
    # of each two the same query is asked of a segment in one part, and of one in two
    (
        "weights that pass the greatest score, in a word that a part does not hold",
        b"weight a 9223372036854775807\ndoc a\ndoc a\ndocs all\ndoc b\nscores bool 0 2 ? term a ? term b\n"
        b"docs prefix 9 1 a\nscores bool 0 2 ? term a ? term b\n",
        b"0 1\nline 6: refused 9\n0 1\nline 8: refused 9\n",
        1,
    ),
    (
        "weights that pass the greatest score, in words that no document holds",
        b"weight a 9223372036854775807\nscores bool 0 2 ? term a ? term a\ndoc b\nscores bool 0 2 ? term a ? term a\n"
        b"prune 0 bool 0 2 ? term a ? term a\ntop 0 bool 0 2 ? term a ? term a\ncount bool 0 2 ? term a ? term a\n"
        b"docs bool 0 2 ? term a ? term a\nscores boost 2 term a\nscores bool 0 2 + term b - boost 2 term a\n"
        b"scores const 1 boost 2 term a\nscores boost 0 phrase 0 2 a a\nscores boost 0 boost 2 term a\n",
        b"line 2: refused 9\nline 4: refused 9\nline 5: refused 9\n\n0\n\nline 9: refused 9\n"
        b"line 10: refused 9\nline 11: refused 9\nline 12: refused 9\n\n",
        1,
    ),
    (
        "numbers with leading zeros up to their limit",
        b"doc a\ndocs bool 000 0000000000001 + term a\ndocs bool 4294967295 1 + term a\n"
        b"docs bool 00000000004294967295 0\n",
        b"0\n\n\n",
        0,
    ),
    # document 0 is deleted twice, document 1 of the second segment, and three that are not there
    (
        "deletions, and of documents that are not there",
        b"delete 0\ndoc a\ndelete 0\ndelete 0\ndelete 1\nsegment\ndoc a\ndelete 1\ndelete 2\n"
        b"docs term a\n",
        b"line 1: not understood\nline 5: not understood\nline 9: not understood\n0 1\n",
        2,
    ),
    (
        "a deletion by a number with a leading zero",
        b"doc a\ndelete 00\ndocs all\n",
        b"0\n",
        0,
    ),
    # a Boolean of every sign, a phrase, a boost over the best of two constants: 3 * 2 and half of
    # the other; a tie breaker above 1000
    (
        "a Boolean of every sign, a phrase, a boost and the best of two",
        b"doc a b\ndoc b c\ndocs bool 1 3 ? term a - term c ? phrase 0 2 b c\n"
        b"scores boost 3 max 500 2 const 1 all const 2 all\ndocs max 1001 1 all\n",
        b"0\n0:7 1:7\nline 5: refused 8\n",
        1,
    ),
    # an optional clause: 333 + 166, 500, 400 + 125; a phrase of one word
    (
        "an optional clause, and a phrase of one word",
        b"doc a b\ndoc a\nsegment\ndoc a a b\nweight b 500\nscores bool 0 2 + term a ? term b\n"
        b"docs phrase 0 1 a\noops\ndocs none\n",
        b"0:499 1:500 2:525\nline 7: refused 1\nline 8: not understood\n\n",
        2,
    ),
    # a prefix is expanded to the first terms of the whole open segment, in whatever parts it is
    (
        "a prefix over a segment in parts",
        b"doc cy\ndoc cy\ndoc cy\ndocs all\ndoc cx\ndocs all\ndocs prefix 1 1 c\n"
        b"docs prefix 2 1 c\ndocs prefix 0 1 c\ndocs prefix 1 0\n",
        b"0 1 2\n0 1 2 3\n3\n0 1 2 3\n\nline 10: refused 2\n",
        1,
    ),
    (
        "inner queries are refused first, in their order",
        b"doc a\ndocs max 1001 1 phrase 0 1 a\ndocs bool 0 2 ? max 1001 0 ? phrase 0 0\n"
        b"docs max 1000 1 all\ndocs phrase 4294967295 2 a a\ndocs bool 4294967295 1 ? all\n",
        b"line 2: refused 1\nline 3: refused 8\n0\n0\n\n",
        1,
    ),
    # the greatest numbers: a boost that passes the greatest score, one that does not, a boost of
    # 0
    (
        "the greatest numbers",
        b"doc a\nscores boost 9223372036854775807 term a\nscores const 9223372036854775807 all\n"
        b"scores boost 0 term a\n",
        b"line 2: refused 9\n0:9223372036854775807\n0:0\n",
        1,
    ),
    # 1000 / 3 and 500 / 3, then 1000 * 2 / 5 and 500 / 4
    (
        "scores in two segments",
        b"doc a b\ndoc a\nsegment\ndoc a a b\nweight b 500\nscores bool 0 2 + term a + term b\n"
        b"docs term a\n",
        b"0:499 2:525\n0 1 2\n",
        0,
    ),
    (
        "the second of three segments is empty",
        b"doc a\nsegment\nsegment\ndoc b\ndoc a\nscores term a\nscores all\nscores none\ndocs all\n",
        b"0:500 2:500\n0:1 1:1 2:1\n\n0 1 2\n",
        0,
    ),
    (
        "four segments, of which the last has no document",
        b"doc a\nsegment\ndoc b\nsegment\ndoc a\ndoc b\nsegment\ndocs all\ndocs term a\n"
        b"docs term b\n",
        b"0 1 2 3\n0 2\n1 3\n",
        0,
    ),
    (
        "documents and weights between queries",
        b"doc a\nscores term a\ndoc a a\nweight a 100\nscores term a\nsegment\nscores term a\n"
        b"weight a 1\ndoc a\nscores term a\n",
        b"0:500\n0:50 1:50\n0:50 1:50\n0:0 1:0 2:0\n",
        0,
    ),
    (
        "a segment that was searched before it ended, and one after it",
        b"doc a\ndocs all\ndoc a\ndocs all\nsegment\ndoc a\ndocs all\ndoc b\ndoc a\nscores term a\n",
        b"0\n0 1\n0 1 2\n0:500 1:500 2:500 4:500\n",
        0,
    ),
    # 600 / 4, 0 / 4 and 1000 / 4, then all three
    (
        "the weights of three words",
        b"doc a b c\nweight a 600\nweight b 0\nscores term a\nscores term b\nscores term c\n"
        b"scores bool 0 3 + term a + term b + term c\n",
        b"0:150\n0:0\n0:250\n0:400\n",
        0,
    ),
    (
        "the last weight of a word counts, from then on",
        b"doc a\nweight a 7\nweight a 8\nscores term a\nweight a 6\nscores term a\n",
        b"0:4\n0:3\n",
        0,
    ),
    # five words: 5 * (1000 / 6)
    (
        "five words",
        b"doc a b c d\ndoc e d c b a\ndocs bool 0 5 + term a + term b + term c + term d + term e\n"
        b"scores bool 0 5 + term e + term d + term c + term b + term a\n",
        b"1\n1:830\n",
        0,
    ),
    (
        "a word that is asked for twice scores twice",
        b"doc a\nscores bool 0 2 + term a + term a\ndocs bool 0 2 + term a + term a\n",
        b"0:1000\n0\n",
        0,
    ),
    (
        "an empty line between documents, and documents without a word",
        b"doc a\n\ndoc\ndoc a\n  \ndocs term a\ndocs all\n",
        b"0 2\n0 1 2\n",
        0,
    ),
    (
        "refused, and then not understood",
        b"weight a 9223372036854775807\ndoc a\nscores bool 0 2 + term a + term a\nfoo\ndocs all\n",
        b"line 3: refused 9\nline 4: not understood\n0\n",
        2,
    ),
    (
        "not understood, and then refused",
        b"foo\nweight a 9223372036854775807\ndoc a\nscores bool 0 2 + term a + term a\ndocs all\n",
        b"line 1: not understood\nline 4: refused 9\n0\n",
        2,
    ),
    (
        "nothing else of a refused line is written",
        b"doc b\nsegment\ndoc a\nweight a 9223372036854775807\nscores bool 0 2 + term a + term a\n"
        b"docs bool 0 2 + term a + term a\n",
        b"line 5: refused 9\n1\n",
        1,
    ),
]

COUNTED = [
    # 333 + 166, 500, 400 + 125; of 0, 1 and 2 without 1; 500 is above 400, and 400 is not
    (
        "every form of a line",
        b"doc a b\ndoc a\ndelete 1\nsegment\ndoc a a b\nweight b 500\n"
        b"scores bool 0 2 + term a ? term b\ncount term a\nprune 400 term a\ndocs phrase 0 1 a\n"
        b"oops\ndocs none\n",
        b"0:499 1:500 2:525\n2\n1:500\nline 10: refused 1\nline 11: not understood\n\n",
        2,
    ),
    # none, one, the same again, and all; they are still listed
    (
        "counts after deletions",
        b"doc a\ndoc b\nsegment\ndoc a\ndoc a b\ncount term a\ndelete 2\ncount term a\ndelete 2\n"
        b"count term a\ndelete 0\ndelete 1\ndelete 3\ncount term a\ncount all\ndocs all\n",
        b"3\n2\n2\n0\n0\n0 1 2 3\n",
        0,
    ),
    # every form of a query, where document 0 of 0 to 3 is deleted
    (
        "counts of every form of a query",
        b"doc a b\ndoc b a\nsegment\ndoc a b\ndoc c\ndelete 0\ncount phrase 0 2 a b\n"
        b"count prefix 10 1 a\ncount bool 1 2 ? term a ? term c\ncount bool 0 2 + all - term a\n"
        b"count none\ncount boost 2 const 5 all\ncount max 0 2 term b term c\n",
        b"1\n2\n3\n1\n0\n3\n3\n",
        0,
    ),
    # the first and the last of a segment between two others, and documents added after them
    (
        "counts over three segments",
        b"doc a\nsegment\ndoc a\ndoc a\ndoc a\nsegment\ndoc a\ncount term a\ndelete 1\ndelete 3\n"
        b"count term a\ndoc a\ncount term a\ndelete 5\ncount term a\ncount all\n",
        b"5\n3\n4\n3\n3\n",
        0,
    ),
    (
        "counts where there is no document, and no segment with one",
        b"count all\nsegment\ncount term a\ndoc b\ncount term a\n",
        b"0\n0\n0\n",
        0,
    ),
    (
        "a count asks for no scores, so none can be too great",
        b"doc a\nweight a 9223372036854775807\ncount bool 0 2 + term a + term a\n"
        b"prune 0 bool 0 2 + term a + term a\n",
        b"1\nline 4: refused 9\n",
        1,
    ),
    (
        "counts and pruned runs that are refused",
        b"doc a\ncount phrase 0 1 a\ncount prefix 1 0\ncount max 1001 0\nprune 0 phrase 0 1 a\n"
        b"prune 0 prefix 1 0\nprune 0 max 1001 0\n",
        b"line 2: refused 1\nline 3: refused 2\nline 4: refused 8\nline 5: refused 1\n"
        b"line 6: refused 2\nline 7: refused 8\n",
        1,
    ),
]

# 250, 500, 333 and 500 in the first segment, 400, 500 and 250 in the second; of the best three that weren't deleted
BEST = [
    (
        "the best over two segments, of one score those with the least numbers",
        b"doc a b c\ndoc a\ndoc a b\ndoc a\nsegment\ndoc a a b\ndoc a\ndoc b b a\ntop 3 term a\ntop 4 term a\n"
        b"top 0 term a\ntop 4294967295 term a\ndelete 1\ndelete 4\ntop 3 term a\ntop 2 boost 2 term a\ntop 1 none\n",
        b"1:500 3:500 5:500\n1:500 3:500 5:500 4:400\n\n1:500 3:500 5:500 4:400 2:333 0:250 6:250\n"
        b"3:500 5:500 2:333\n3:1000 5:1000\n\n",
        0,
    ),
    # 333 + 166 and 400 + 125
    (
        "the best where the first of two words must match, and of all, none and no phrase",
        b"doc a b\ndoc a\ndelete 1\nsegment\ndoc a a b\nweight b 500\ntop 2 bool 0 2 + term a ? term b\ntop 1 all\n"
        b"top 4294967295 all\ntop 0 all\ntop 3 none\ntop 1 phrase 0 1 a\n",
        b"2:525 0:499\n0:1\n0:1 2:1\n\n\nline 12: refused 1\n",
        1,
    ),
    # 500 and 333, then 400 behind them, then of 400 and 500 what is left; searched after each, so that the open
    # segment is in parts, or built as one for a prefix
    (
        "the best of an open segment, while documents come and go",
        b"doc a\ntop 9 term a\ndoc a b\ntop 9 term a\ndelete 0\ntop 9 term a\ndoc a a b\ntop 1 term a\n"
        b"delete 2\ntop 9 term a\ntop 9 prefix 5 1 a\ndoc a\ntop 9 prefix 5 1 a\nsegment\ntop 9 term a\ndelete 1\n"
        b"top 9 term a\ncount term a\ndocs term a\n",
        b"0:500\n0:500 1:333\n1:333\n2:400\n1:333\n1:1\n1:1 3:1\n3:500 1:333\n3:500\n1\n0 1 2 3\n",
        0,
    ),
    (
        "searches for the best that are refused",
        b"doc a\ntop 3 phrase 0 1 a\ntop 3 prefix 1 0\ntop 3 max 1001 0\nweight a 9223372036854775807\n"
        b"top 0 bool 0 2 + term a + term a\ntop 1 bool 0 2 + term a + term a\ntop 1 term a\n"
        b"top 0 boost 0 phrase 0 2 a a\ntop 0 phrase 0 1 a\n",
        b"line 2: refused 1\nline 3: refused 2\nline 4: refused 8\n\nline 7: refused 9\n"
        b"0:4611686018427387903\nline 9: refused 9\nline 10: refused 1\n",
        1,
    ),
]

PRUNED = [
    # a block of 128 documents of two words reaches 333
    (
        "a block that reaches the threshold and is not above it",
        b"doc a x\n" * 128 + b"doc a\nprune 400 term a\nprune 333 term a\n",
        b"128:500\n128:500\n",
        0,
    ),
    # 900 * 1 / 3 = 300 and 1500 * 1 / 3 = 500; 500 + 700 thousandths of 300 = 710; 300 + 500 = 800
    (
        "two words, by the maximum and by the sum",
        b"doc a b\nweight a 900\nweight b 1500\nscores max 700 2 term a term b\n"
        b"prune 750 max 700 2 term a term b\nprune 750 bool 0 2 ? term a ? term b\n"
        b"prune 709 max 700 2 term a term b\nprune 710 max 700 2 term a term b\n",
        b"0:710\n\n0:800\n0:710\n\n",
        0,
    ),
    # 333, 400, 500 and 500 in the first segment, 400 and 500 in the second; a deleted one too
    (
        "pruned runs over two segments",
        b"doc a b\ndoc a a b\ndoc a\ndoc a a\nsegment\ndoc a a b\ndoc a\ndelete 0\n"
        b"prune -9223372036854775808 term a\nprune 333 term a\nprune 400 term a\nprune 500 term a\n",
        b"0:333 1:400 2:500 4:400 5:500\n1:400 2:500 4:400 5:500\n2:500 5:500\n\n",
        0,
    ),
    (
        "pruned runs at the greatest and the least score",
        b"doc a\nsegment\ndoc a\nprune 9223372036854775807 const 9223372036854775807 all\n"
        b"prune 9223372036854775806 const 9223372036854775807 all\nprune 0 boost 0 term a\n"
        b"prune -1 boost 0 term a\nprune -00 none\n",
        b"\n0:9223372036854775807 1:9223372036854775807\n\n0:0 1:0\n\n",
        0,
    ),
    # 333, 500 and 400 in one segment, of which the first two were searched before the third came
    (
        "pruned runs over an open segment",
        b"doc a b\nscores all\ndoc a\nscores all\ndoc a a b\nprune 0 term a\n"
        b"prune 333 prefix 5 2 a b\n",
        b"0:1\n0:1 1:1\n0:333 1:500\n\n",
        0,
    ),
    # 250 and 333, nothing, 333, nothing and 400, searched after each, so that the segment is kept
    # in parts
    (
        "pruned runs over a segment in parts",
        b"doc a b b\ncount term c\ndoc a b\ncount term c\ndoc b\ncount term c\ndoc b\n"
        b"count term c\ndoc a b\ncount term c\ndoc b\ncount term c\ndoc a a b\nprune 0 term a\n",
        b"0\n0\n0\n0\n0\n0\n0:250 1:333 6:400\n",
        0,
    ),
]

# What is cut into lines, lines into words, and how lines are numbered.
CUT = [
    (
        "a last line without byte 10",
        b"doc a\ndocs all",
        b"0\n",
        0,
    ),
    (
        "one byte 13 before byte 10 is dropped, and no other",
        b"doc a\r\ndocs term a\r\n",
        b"0\n",
        0,
    ),
    (
        "a second byte 13 is kept",
        b"doc a\r\r\ndocs term a\ndocs term a\r\r\n",
        b"\n0\n",
        0,
    ),
    (
        "a byte 13 within a word is kept",
        b"doc a\rb\ndocs term a\rb\n",
        b"0\n",
        0,
    ),
    (
        "a byte 13 at the end of the script is kept",
        b"docs all\r",
        b"line 1: not understood\n",
        2,
    ),
    (
        "words are cut at spaces and tabs alone",
        b"\tdoc\ta  b\t\ndocs\tterm b \n",
        b"0\n",
        0,
    ),
    (
        "a vertical tab cuts no word",
        b"doc a\x0bb\ndocs term b\ndocs term a\x0bb\n",
        b"\n0\n",
        0,
    ),
    # a word that is not ASCII, and one that differs from it in its last byte
    (
        "words that are not ASCII",
        b"doc \xc3\xbcber\ndocs term \xc3\xbcber\ndocs term \xc3\xbcb\xc3\xa9r\n",
        b"0\n\n",
        0,
    ),
    (
        "all lines are numbered",
        b"\n \t \nfoo\n\r\ndoc a\nbar\n",
        b"line 3: not understood\nline 6: not understood\n",
        2,
    ),
    (
        "the lines after one that is not UTF-8 are answered",
        b"doc a\ndoc \xc3\ndocs all\n",
        b"line 2: not understood\n0\n",
        2,
    ),
    (
        "a script with an empty line, a byte 13, and a last line without byte 10",
        b"doc a\ndoc b a\r\n\ndocs term a\nfoo\ndocs term b",
        b"0 1\nline 5: not understood\n1\n",
        2,
    ),
]

# One script for each exit status that a line can give.
STATUSES = [
    ("all lines are answered", b"doc a\ndocs all\n", b"0\n", 0),
    (
        "a line is refused",
        b"doc a\nweight a 9223372036854775807\nscores bool 0 2 + term a + term a\ndocs all\n",
        b"line 3: refused 9\n0\n",
        1,
    ),
    (
        "a line is not understood",
        b"foo\ndoc a\ndocs all\n",
        b"line 1: not understood\n0\n",
        2,
    ),
]

# The scripts of examples/, with what README says that they print.
SHOWN = [
    ("first.txt", b"0 2\n", 0),
    ("weights.txt", b"2:525 1:500\n0 1 2\n0:499 2:525\n0:166 2:125\n2\n1:500\n\n", 0),
    (
        "refusals.txt",
        b"line 2: refused 1\nline 3: refused 8\nline 5: refused 9\nline 6: not understood\n"
        b"line 7: not understood\n0\n",
        2,
    ),
]


def check(program, report):
    """Runs each script."""
    for name, script, text, status in LISTED + COUNTED + PRUNED + BEST + CUT + STATUSES:
        report.expect(name, text, status, program.run(script))
    for name, text, status in SHOWN:
        with open(os.path.join(EXAMPLES, name), "rb") as it:
            report.expect(f"examples/{name}", text, status, program.run(it.read()))
