"""What is listed of a few files, each answer worked out by hand."""

import os
import shutil

from .command import results
from .formulas import norm, score, weight

HERE = os.path.dirname(os.path.abspath(__file__))

# the documents of texts/ by path and line, with how many words they have, the shortest first
LENGTHS = {
    ("foxes.md", 1): 1,
    ("zebra.log", 1): 3,
    ("deep/birds.txt", 1): 8,
    ("deep/birds.txt", 3): 8,
    ("foxes.md", 6): 8,
    ("foxes.md", 3): 9,
}
WORDS = sum(LENGTHS.values())

HELP = "birch: %s\n  %s\n  %s^\n"
NO_WORD = 'no word stands here: a word, or a phrase in "..", may'
NOTHING = "there is nothing to search for: a word may stand here"
BEHIND_SIGN = "a word, a phrase, a field or a parenthesis must follow the sign"
BEHIND_QUOTES = 'a * stands behind the quotes: "old app"* finds "old apple"'
NO_FIELD = "no field has this name: name: may stand here, or \\: for what is no field"
WILDCARD = "* stands only alone, or at the end of a word or a phrase, and ? nowhere"
FAULTS = [
    ('fox "owl', 4, "the quote isn't ended"),
    ("fox + dog", 4, BEHIND_SIGN),
    ('"a fox"~', 7, "a number must follow the ~"),
    ('"a fox"~9999999999', 7, "the number behind the ~ is above 4294967295"),
    ('"a fox"dog', 7, "white space is missing before this"),
    ('fox "a fo*"', 9, BEHIND_QUOTES),
    ('"a fo"*~2', 6, WILDCARD),
    ("fo*x", 2, WILDCARD),
    ("fox?", 3, WILDCARD),
    ("für &", 4, NO_WORD),
    ('für -("§" OR fox)', 6, NO_WORD),
    (" ", 1, NOTHING),
    ("(())", 4, NOTHING),
    ("fox says:ding", 4, NO_FIELD),
    ('"a:b" -(owl AND (says:ding))', 17, NO_FIELD),
    ("name:(fox says:ding)", 10, NO_FIELD),
    ("name: fox", 0, "a word, a phrase or a parenthesis must follow the : at once"),
    ("fox AND", 4, "a clause must stand on each side of AND and OR"),
    ("NOT", 0, BEHIND_SIGN),
    ("owl (fox", 4, "the parenthesis isn't ended"),
    ("fox)", 3, "the parenthesis ends nothing"),
    ("fox^1.5", 3, "the number behind the ^ must be a whole one, and end there"),
    ("fox^2147483648", 3, "the number behind the ^ is above 2147483647"),
    ("owl (fox^2147483647)^2", 5, "the numbers behind ^ multiply to more than 2147483647 here"),
    ("[a TO b]", 0, "ranges can't be asked for"),
    ("/fox/", 0, "regular expressions can't be asked for"),
    ("IN [fox owl]", 0, "IN and a set of words can't be asked for"),
    ("C:\\owls", 2, "a \\ stands only before a sign"),
    ("(" * 65 + "fox" + ")" * 65, 64, "parentheses stand in one another more than 64 deep"),
]


def points(held, *found):
    """Documents that hold a word that so many hold, each with how often, as results with their scores."""
    weighs, scored = weight(len(LENGTHS), held), []
    for place, count in found:
        added = norm(LENGTHS[place], len(LENGTHS), WORDS)
        scored.append((*place, score(weighs, count, added)))
    return scored


def summed(*lists):
    """The documents of several lists with the sums of their scores, the best first."""
    sums = {}
    for path, line, points_of in (it for them in lists for it in them):
        sums[path, line] = sums.get((path, line), 0) + points_of
    order = list(LENGTHS)
    best = sorted(sums, key=lambda place: (-sums[place], order.index(place)))
    return [(*place, sums[place]) for place in best]


def named(held, path, words=1):
    """The documents of a file of whose name so many words are asked for, each of which so many documents have."""
    points_of = score(words * weight(len(LENGTHS), held), 1, norm(1, len(LENGTHS), WORDS))
    return [(*place, points_of) for place in LENGTHS if place[0] == path]


BIRDS, FOX, FOXES = ("deep/birds.txt", 3), ("foxes.md", 6), ("foxes.md", 3)
OF_FOX = points(3, (BIRDS, 1), (FOX, 2), (FOXES, 1))
OF_QUICK = points(2, (BIRDS, 1), (FOXES, 1))
OF_DOG = points(2, (FOX, 1), (FOXES, 1))


def check(command, report, room):
    """Lists, counts and explains, in a copy of the folder of texts."""
    folder = shutil.copytree(f"{HERE}/texts", f"{room}/texts")
    check_words(command, report, folder)
    check_shown(command, report, folder)
    check_faults(command, report, folder)
    check_left_out(command, report, folder)
    check_tables(command, report)
    check_queries(command, report, folder)


def check_words(command, report, folder):
    def expect(query, wanted, *words):
        found = command.run("--json", *words, "--", query, folder=folder)
        status = 0 if wanted else 1
        report.expect_same(query, (wanted, status, ""), (results(found.text), found.status, found.told))
        counted = command.run("--count", *words, "--", query, folder=folder)
        report.expect_same(f"the count of {query}", (f"{len(wanted)}\n", status), counted[:2])

    expect("fox", summed(OF_FOX))
    expect("FOX", summed(OF_FOX))
    expect("fox quick", summed(OF_FOX, OF_QUICK))
    expect("+fox +dog", summed([OF_FOX[1], OF_FOX[2]], OF_DOG))
    expect("fox -quick", [OF_FOX[1]])
    # where nothing but what may not be there is asked for, all else is found
    expect("-the -dogs -foxes", [("deep/birds.txt", 1, 1)])
    expect("NOT the AND NOT dogs AND NOT foxes", [("deep/birds.txt", 1, 1)])
    expect("(-the -dogs -foxes)^5", [("deep/birds.txt", 1, 5)])
    expect("fox AND (-quick)", [(*OF_FOX[1][:2], OF_FOX[1][2] + 1)])
    # what joins words
    both = summed([OF_FOX[1], OF_FOX[2]], OF_DOG)
    expect("fox AND dog", both)
    expect("(fox AND dog)", both)
    expect("fox AND dog OR unicorn", both)
    expect("unicorn fox AND dog", both)
    expect("fox OR quick", summed(OF_FOX, OF_QUICK))
    expect("fox AND NOT quick", [OF_FOX[1]])
    expect("fox NOT quick", [OF_FOX[1]])
    expect("+(quick OR dog) +fox", summed(OF_FOX, OF_QUICK, OF_DOG))
    expect("fox -(quick OR dog)", [])
    expect('"AND"', points(1, (BIRDS, 1)))
    expect("or and not", points(1, (BIRDS, 1)))
    expect("(" * 64 + "fox" + ")" * 64, summed(OF_FOX))
    # boosts
    expect("fox^3", [(path, line, 3 * score_of) for path, line, score_of in summed(OF_FOX)])
    expect("(fox^3)^5", [(path, line, 15 * score_of) for path, line, score_of in summed(OF_FOX)])
    expect("fox^0", sorted(((*it[:2], 0) for it in OF_FOX), key=lambda it: [*LENGTHS].index(it[:2])))
    expect("fox quick^2", summed(OF_FOX, OF_QUICK, OF_QUICK))
    expect("*", [(*place, 1) for place in LENGTHS])
    expect("+fox *^7", [(path, line, 7 + score_of) for path, line, score_of in summed(OF_FOX)])
    # a \ makes a letter of a sign
    expect("\\+fox", summed(OF_FOX))
    expect("fox\\:dog", [])
    # ss for ß, both ways
    expect("grüsse", points(1, (("deep/birds.txt", 1), 1)))
    expect("straße", points(1, (("deep/birds.txt", 1), 1)))
    expect("unicorn", [])
    # a phrase weighs what its words do
    both = sum(weight(6, held) for held in (1, 3))
    at = norm(9, 6, WORDS)
    expect('"brown fox"', [("foxes.md", 3, score(both, 1, at))])
    expect('"fox brown"', [])
    expect('"quick fox"', [])
    both = sum(weight(6, held) for held in (2, 3))
    near = [("deep/birds.txt", 3), ("foxes.md", 3)]
    expect('"quick fox"~1', [(*near[1], score(both, 1, at))])
    expect('"quick brown fo"*', [("foxes.md", 3, score(sum(weight(6, held) for held in (1, 2, 3)), 1, at))])
    expect("brown-fox", [("foxes.md", 3, score(sum(weight(6, held) for held in (1, 3)), 1, at))])
    # the beginning of a word scores half a word's weight that as many hold
    expect("qui*", [(*it, weight(6, 2) // 2) for it in near])
    expect("dog*", [(*it, weight(6, 3) // 2) for it in (("zebra.log", 1), FOX, ("foxes.md", 4))])
    # a name counts as one word long
    of_birds = named(2, "deep/birds.txt")
    expect("+name:birds fox", summed(of_birds, OF_FOX[:1]))
    expect("name:BIRDS.txt", named(2, "deep/birds.txt", words=2))
    expect("fox name:foxes -name:birds", summed(OF_FOX[1:], named(3, "foxes.md")))
    expect("+name:(birds OR zebra) fox", summed(of_birds, named(1, "zebra.log"), OF_FOX[:1]))
    expect('name:"birds txt"', named(2, "deep/birds.txt", words=2))


def check_shown(command, report, folder):
    best = summed(OF_FOX)
    shown = {
        BIRDS: "    An owl watches the [fox], quick and quiet.\n",
        FOX: "    A [FOX] is no dog; the [fox] sleeps.\n",
        FOXES: "    The quick brown [fox] jumps over the lazy dog.\n",
    }
    text = "".join(
        f"{number}. {path}:{line}  {points_of}\n" + shown[path, line]
        for number, (path, line, points_of) in enumerate(best, 1)
    )
    report.expect_same("shown", (text, 0, ""), command.run("fox", folder=folder))
    first = "\n".join(text.splitlines()[:2]) + "\n"
    report.expect_same("one result", (first, 0, ""), command.run("fox", "-k", "1", folder=folder))
    coloured = command.run("sleeps", "--color", "always", folder=folder).text
    report.expect_same("colours", True, "\x1b[1;31msleeps\x1b[m." in coloured)
    # of a paragraph the line is that of the first word that was found
    report.expect_same("its line", True, command.run("lazy", folder=folder).text.startswith("1. foxes.md:4 "))
    explained = command.run("fox", "--explain", "1", folder=folder)
    report.expect_same("why", [first.splitlines(), 0], [explained.text.splitlines()[:2], explained.status])
    report.expect_same("the weight in why", True, f"{weight(6, 3)}: weight\n" in explained.text)
    outside = command.run("fox", "--explain", "4", folder=folder)
    report.expect_same("why of none", ("", 2), outside[:2])
    check_scored(command, report, folder)
    lines = command.run("dog", "--lines", "--json", "foxes.md", folder=folder)
    report.expect_same("lines", {("foxes.md", 4), ("foxes.md", 6)}, {it[:2] for it in results(lines.text)})


def check_scored(command, report, folder):
    """The documents that hold the fox are one block, whose bound is what the second of them scores; of two words that
    must stand there each document is scored, and of a phrase. What the beginning of a word finds scores alike: behind as
    many as are wanted none is scored."""
    for words, wanted in (
        (["fox"], "scored 3 of these, passed over 0"),
        (["--repeats", "-k", "1", "fox"], "scored 2 of these, passed over 1"),
        # whether the next one is the same has to be seen
        (["-k", "1", "qui*"], "scored 2 of these, passed over 0"),
        (["-k", "1", "+fox +dog"], "scored 2 of these, passed over 0"),
        (['"quick fox"~1'], "scored 1 of these, passed over 0"),
        (["qui*"], "scored 2 of these, passed over 0"),
        (["--repeats", "-k", "1", "qui*"], "scored 1 of these, passed over 1"),
        (["unicorn"], "scored 0 of these, passed over 0"),
    ):
        told = command.run("--stats", *words, folder=folder).told
        report.expect_same(f"the statistics of {words}", f"birch: {wanted}", told.splitlines()[-1])
    silent = command.run("-k", "1", "fox", folder=folder)
    report.expect_same("no statistics", "", silent.told)


def check_faults(command, report, folder):
    for query, place, why in FAULTS:
        wanted = ("", 2, HELP % (why, query, " " * place))
        report.expect_same(f"the fault of {query!r}", wanted, command.run(query, folder=folder))
    # a query is read before any file is
    wanted = ("", 2, HELP % (NO_WORD, "&", ""))
    report.expect_same("a fault before a file", wanted, command.run("&", "missing", folder=folder))
    for words in ([], ["fox", "--max-size", "1x"], ["fox", "--explain", "0"], ["fox", "--lines", "--csv", "a"]):
        report.expect_same(f"the words {words}", 2, command.run(*words, folder=folder).status)


def check_left_out(command, report, folder):
    put = {"latin1.txt": b"caf\xe9 fox\n", "binary.bin": b"fox\0\n", "large.txt": b"fox " * 300, ".hidden": b"fox\n"}
    for name, content in put.items():
        with open(f"{folder}/{name}", "wb") as it:
            it.write(content)
    os.symlink(".", f"{folder}/circle")
    os.symlink("foxes.md", f"{folder}/link.md")
    os.mkdir(f"{folder}/empty")
    told = "birch: left out: 1 binary, 1 larger than --max-size; --notes lists them\n"
    found = command.run("fox", "--count", "--max-size", "1K", folder=folder)
    report.expect_same("what is left out", ("4\n", 0, told), found)
    told = (
        "birch: large.txt: left out, it is larger than --max-size\n"
        "birch: binary.bin: left out, it is binary\n"
        "birch: left out: 1 binary, 1 larger than --max-size\n"
    )
    found = command.run("fox", "--count", "--max-size", "1K", "--notes", folder=folder)
    report.expect_same("which files are", ("4\n", 0, told), found)
    found = command.run("fox", "--count", "--max-size", "1K", "--hidden", "--glob", ".*", folder=folder)
    report.expect_same("hidden names", ("1\n", 0, ""), found)
    found = command.run("fox", "--count", "--glob", "*.md", "--glob", "l*.txt", "--max-size", "1K", folder=folder)
    report.expect_same("patterns", "3\n", found.text)
    report.expect_same("a link that is named", ("2\n", 0, ""), command.run("fox", "--count", "link.md", folder=folder))
    report.expect_same("an empty folder", ("0\n", 1, ""), command.run("fox", "--count", "empty", folder=folder))
    missing = command.run("fox", "--count", "missing", "foxes.md", folder=folder)
    report.expect_same("no such file", ("2\n", 2), missing[:2])
    report.expect_same("its note", True, missing.told.startswith("birch: missing: "))
    # nobody may read a file of which /proc shows nothing but to its own process, root neither
    unread = command.run("fox", "--count", "/proc/1/mem", folder=folder)
    report.expect_same("a file that can't be read", ("0\n", 2, True), (*unread[:2], "/proc/1/mem" in unread.told))
    with open(f"{folder}/word.txt", "w", encoding="utf-8") as it:
        it.write("x" * 1_000_000 + " fox\n")
    long = command.run("x" * 100_000 + "*", "--count", "word.txt", folder=folder)
    report.expect_same("a word of a megabyte", ("1\n", 0, ""), long)
    given = command.run("fox", "--json", "-", folder=folder, given=b"dog\n\nfox\n")
    report.expect_same("standard input", [("-", 3)], [it[:2] for it in results(given.text)])


def check_tables(command, report):
    folder = f"{HERE}/tables"
    found = command.run("ding", "--csv", "says", "--json", "animals.csv", folder=folder)
    report.expect_same("a table", [("animals.csv", 2)], [it[:2] for it in results(found.text)])
    note = "birch: left out: 1 rows without a text; --notes lists them\n"
    report.expect_same("its short row", (0, note), (found.status, found.told))
    found = command.run('"woof woof"', "--csv", "says", "animals.csv", folder=folder)
    report.expect_same("a row of two lines", "    [Woof] [woof]", found.text.splitlines()[1])
    found = command.run("ding", "--csv", "sings", "animals.csv", folder=folder)
    told = "birch: left out: 1 without the column; --notes lists them\n"
    report.expect_same("no such column", ("", 1, told), found)
    found = command.run("hoot ding", "--json-key", "says", "--json", "animals.jsonl", folder=folder)
    wanted = [("animals.jsonl", 4), ("animals.jsonl", 1)]
    report.expect_same("lines of JSON", wanted, [it[:2] for it in results(found.text)])
    note = "birch: left out: 2 rows without a text; --notes lists them\n"
    report.expect_same("its other lines", (0, note), (found.status, found.told))


def check_queries(command, report, folder):
    given = b'fox\n\nunicorn\n"open\n'
    found = command.run("--queries", "-", "--count", "--glob", "foxes.md", folder=folder, given=given)
    report.expect_same("queries", ("2\n0\n0\n\n", 2), found[:2])
    found = command.run("--queries", "-", "-k", "1", "--json", "foxes.md", folder=folder, given=b"fox\nunicorn\n")
    ends = ['{"query":"fox","results":1}', '{"query":"unicorn","results":0}']
    report.expect_same("ends of answers", [ends, 0], [found.text.splitlines()[1:], found.status])
    check_turns(command, report, folder)
    missing = command.run("--queries", "missing", folder=folder)
    report.expect_same("no such queries", ("", 2), missing[:2])


def check_turns(command, report, folder):
    """Each answer comes before the next query is asked."""
    how = {"stdin": -1, "stdout": -1, "text": True, "bufsize": 1}
    with command.start("--queries", "-", "--count", "foxes.md", folder=folder, **how) as running:
        for query, answer in (("fox\n", "2\n"), ("dog\n", "2\n"), ("unicorn\n", "0\n")):
            running.stdin.write(query)
            report.expect_same("an answer in turn", answer, running.stdout.readline())
        running.stdin.close()
    report.expect_same("its status", 0, running.returncode)
    # nobody reads what is written
    with open(f"{folder}/many.txt", "w", encoding="utf-8") as it:
        it.write("fox\n\n" * 20000)
    with command.start("fox", "--repeats", "-k", "20000", "many.txt", folder=folder, stdout=-1, stderr=-1) as running:
        running.stdout.readline()
        running.stdout.close()
        told = running.stderr.read()
    report.expect_same("a closed pipe", (0, b""), (running.returncode, told))
