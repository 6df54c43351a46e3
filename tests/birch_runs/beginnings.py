"""What the beginnings of words score, alone and behind others, each worked out by hand."""

import os

from .command import results
from .formulas import norm, score, weight

# each a document, by the number of its line
LINES = [
    "cab cad cal cam can cap car cat caw cay",
    "dog cat",
    "dog",
    "old apple tree",
    "old apples and old apples, old apple",
    "an old tree, apple",
    "old appendix",
]
WORDS = [len(line.replace(",", "").split()) for line in LINES]
# two hundred words are tried behind others; of these many each is held once
MANY = 210
TRIED = 200


def check(command, report, room):
    folder = f"{room}/beginnings"
    os.makedirs(folder)
    with open(f"{folder}/lines.txt", "w", encoding="utf-8") as it:
        it.write("".join(f"{line}\n" for line in LINES))
    with open(f"{folder}/many.txt", "w", encoding="utf-8") as it:
        it.write("".join(f"old app{number:03}\n" for number in range(MANY)))
    check_scores(command, report, folder)
    check_many(command, report, folder)
    check_why(command, report, folder)


def scored(line, *held, times=1):
    """What words score that so many documents hold, where they stand so often."""
    return score(sum(weight(len(LINES), it) for it in held), times, norm(WORDS[line - 1], len(LINES), sum(WORDS)))


def check_scores(command, report, folder):
    half = weight(len(LINES), 2) // 2
    old = 4
    wanted = {
        # ten such words of one document are held by one
        "ca*": [(1, half), (2, half)],
        # apple is held by three, apples and appendix by one, and the best of these counts
        '"old app"*': [(7, scored(7, old, 1)), (5, scored(5, old, 1, times=2)), (4, scored(4, old, 3))],
        '"old apple"*': [(5, scored(5, old, 1, times=2)), (4, scored(4, old, 3))],
        '"old app"*^3': [(7, 3 * scored(7, old, 1)), (5, 3 * scored(5, old, 1, times=2)), (4, 3 * scored(4, old, 3))],
        '"old x"*': [],
    }
    for query, best in wanted.items():
        best = sorted((("lines.txt", line, points) for line, points in best), key=lambda it: (-it[2], WORDS[it[1] - 1]))
        found = command.run("--lines", "--json", query, "lines.txt", folder=folder)
        report.expect_same(f"the scores of {query}", best, results(found.text))


def check_many(command, report, folder):
    """What goes on to a word that isn't tried is found, and scores 0."""
    asked = ["--lines", '"old app"*', "many.txt"]
    counted = command.run("--count", *asked, folder=folder)
    report.expect_same("the count of many", f"{MANY}\n", counted.text)
    found = results(command.run("--json", "-k", str(MANY), *asked, folder=folder).text)
    weighs = weight(MANY, MANY) + weight(MANY, 1)
    points = [score(weighs, 1, norm(2, MANY, 2 * MANY))] * TRIED + [0] * (MANY - TRIED)
    report.expect_same("the scores of many", points, [it[2] for it in found])
    report.expect_same("the lines of many", [*range(1, MANY + 1)], [it[1] for it in found])


def check_why(command, report, folder):
    """Of words it is told what those weigh by which the document scores."""
    documents = len(LINES)

    def line(word, held, part=""):
        return f"    {word}: weight {weight(documents, held)},{part} held by {held} of {documents} documents"

    half = " of which half counts,"
    for query, wanted in (
        ("dog ca* unicorn", [line("dog", 2), line("ca*", 2, half)]),
        ("ca* -dog", [line("ca*", 2, half)]),
        ('"old app"*', [line("old", 4), line("appendix", 1)]),
        ('"old apple"*', [line("old", 4), line("apple", 3), line("apples", 1)]),
        ('"old tree" appendix dog^0 (tree AND appendix)', [line("appendix", 1)]),
        ("(dog AND (cat OR unicorn)) (dog AND tree)", [line("dog", 2), line("cat", 2)]),
        ("dog* -(cat) unicorn", [line("dog*", 2, half)]),
        ("tree OR NOT unicorn", [line("tree", 2)]),
    ):
        found = command.run("--lines", "--explain", "1", query, "lines.txt", folder=folder)
        told = [it for it in found.text.splitlines() if ": weight " in it]
        report.expect_same(f"the weights of {query}", wanted, told)
