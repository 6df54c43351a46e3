"""What of a text is a word, and what of it is marked, by hand."""

import json
import os

HERE = os.path.dirname(os.path.abspath(__file__))

# each query with the lines of words/lines.txt that it finds, and what is marked in the first of them
FOUND = [
    ("spin_lock", [1], ["spin", "lock", "lock"]),
    ("spin", [1], ["spin"]),
    ("lock", [1], ["lock", "lock"]),
    ("spin_l*", [1], ["spin", "lock", "lock"]),
    ('"lock lock"', [1], ["lock", "lock"]),
    ("spinlock", [], []),
    ("list.sort", [2], ["list", "sort"]),
    ("sort", [2], ["sort"]),
    ("list-sort", [2], ["list", "sort"]),
    ("printk.c", [3], ["printk", "c"]),
    ("printk", [3], ["printk"]),
    ("kernel/printk.c", [3], ["kernel", "printk", "c"]),
    ("example.com", [4], ["example", "com", "example", "com"]),
    ("ann@example.com", [4], ["ann", "example", "com", "example", "com"]),
    ("example", [4], ["example", "example"]),
    ("foo-bar", [5], ["foo", "bar", "foo"]),
    ("bar-foo", [], []),
    ("foo", [5], ["foo", "foo"]),
    # a number with a point is the phrase of its parts
    ("3.14", [6], ["3", "14"]),
    ('"3 14"', [6], ["3", "14"]),
    ("3,14", [6], ["3", "14"]),
    ("14", [6, 7], ["14"]),
    ("3.1", [], []),
    # an apostrophe stays in a word
    ("don't", [8], ["don't"]),
    ("don", [], []),
    # accents and case
    ("café", [9, 10], ["Café"]),
    ("CAFE", [9, 10], ["Café"]),
    ("cafe\u0301", [9, 10], ["Café"]),
    ("cre*", [9, 10], ["crème"]),
    ('"cafe crème"', [9, 10], ["Café", "crème"]),
    ("σισυφος", [11], ["ΣΊΣΥΦΟΣ"]),
    ("ежик", [12], ["Ёжик"]),
    ("istanbul", [13], ["İstanbul", "ISTANBUL"]),
    # the marks of other scripts are no accents
    ("पान", [15], ["पान"]),
    ("पानी", [14], ["पानी"]),
    ("²", [16], ["²", "²"]),
]

# the same where accents count
KEPT = [
    ("café", [9], ["Café"]),
    ("cafe\u0301", [9], ["Café"]),
    ("cafe", [10], ["cafe"]),
    ("cr\u00e8*", [9], ["crème"]),
    ("istanbul", [13], ["ISTANBUL"]),
    ("spin_lock", [1], ["spin", "lock", "lock"]),
]


def check(command, report, _room):
    for rows, words in ((FOUND, []), (KEPT, ["--accents"])):
        for query, lines, marked in rows:
            found = command.run("--lines", "--json", *words, query, "lines.txt", folder=f"{HERE}/words")
            wanted = (lines, marked, 0 if lines else 1, "")
            report.expect_same(f"{query} {words}", wanted, (*read(found.text), found.status, found.told))
    shown = command.run("spin_lock", "--lines", folder=f"{HERE}/words")
    report.expect_same("marks in a word", "    [spin]_[lock](&[lock]);\n", shown.text.partition("\n")[2])
    named = command.run("name:lines.txt", "--lines", "--count", folder=f"{HERE}/words")
    report.expect_same("a name of two words", "16\n", named.text)


def read(text):
    """The lines that were found, in their order, and the marked words of the first."""
    found = {it["line"]: it for it in map(json.loads, text.splitlines())}
    if not found:
        return [], []
    first = found[min(found)]
    return sorted(found), [first["text"][begin:end] for begin, end in first["found"]]
