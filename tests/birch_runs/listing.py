"""Documents of one text, files, and pages of results."""

import json
import os

# each file with its lines, all of them documents; those of one text stand in one file and in others
FILES = {
    "a.txt": ["same words", "other words", "same words", "words words"],
    "b.txt": ["same words", "rare words"],
    "c.txt": ["other  words", "same words", "same words"],
}
TABLES = {"t.csv": "id,says\n1,ding dong\n20,ding dong\n3,ding\n"}
# so many of one text
MANY = 3000


def check(command, report, room):
    folder = f"{room}/listing"
    os.makedirs(folder)
    contents = {path: "".join(f"{line}\n" for line in lines) for path, lines in FILES.items()} | TABLES
    contents["many.log"] = "again\n" * MANY + "again once\n"
    for path, content in contents.items():
        with open(f"{folder}/{path}", "w", encoding="utf-8") as it:
            it.write(content)
    check_texts(command, report, folder)
    check_files(command, report, folder)
    check_pages(command, report, folder)


def listed(command, folder, *words):
    """Each result by its path, line, text and how many more have it."""
    found = command.run("--lines", "--json", *words, folder=folder)
    read = [json.loads(line) for line in found.text.splitlines()]
    return [(it["path"], it["line"], it["text"], it["more"]) for it in read]


def check_texts(command, report, folder):
    texts = ["--glob", "*.txt"]
    # a space more makes another text
    wanted = [
        ("a.txt", 4, "words words", 0),
        ("a.txt", 1, "same words", 4),
        ("a.txt", 2, "other words", 0),
        ("b.txt", 2, "rare words", 0),
        ("c.txt", 1, "other  words", 0),
    ]
    report.expect_same("texts", wanted, listed(command, folder, "words", *texts))
    report.expect_same("the first texts", [(*wanted[1][:3], 4)], listed(command, folder, "same", "-k", "1", *texts))
    report.expect_same("no texts", [], listed(command, folder, "same", "-k", "0", *texts))
    each = [("a.txt", 1), ("a.txt", 3), ("b.txt", 1), ("c.txt", 2), ("c.txt", 3)]
    found = listed(command, folder, "same", "--repeats", *texts)
    report.expect_same("each document", [(*it, "same words", 0) for it in each], found)
    shown = command.run("--lines", "same", *texts, folder=folder)
    report.expect_same("more of a text", "    [same] words\n    and 4 more of the same text\n", shown.text.partition("\n")[2])
    counted = command.run("--lines", "same", "--count", *texts, folder=folder)
    report.expect_same("all documents are counted", "5\n", counted.text)
    # behind the last result those of its score count, up to another text
    report.expect_same("most of many", [("many.log", 1, "again", MANY - 1)], listed(command, folder, "again", "-k", "1", "many.log"))
    many = [("many.log", 1, "again", MANY - 1), ("many.log", MANY + 1, "again once", 0)]
    report.expect_same("many of a text", many, listed(command, folder, "again", "many.log"))
    found = command.run("ding", "--csv", "says", "--json", "t.csv", folder=folder)
    rows = [(it["line"], it["more"]) for it in map(json.loads, found.text.splitlines())]
    report.expect_same("rows of one text", [(4, 0), (2, 1)], rows)
    explained = command.run("--lines", "words", "--explain", "2", *texts, folder=folder)
    report.expect_same("the second text", "2. a.txt:1", explained.text.partition("  ")[0])


def check_files(command, report, folder):
    texts = ["--files", "--glob", "*.txt"]
    wanted = [("a.txt", 4, "words words", 0), ("b.txt", 1, "same words", 0), ("c.txt", 1, "other  words", 0)]
    report.expect_same("files", wanted, listed(command, folder, "words", *texts))
    report.expect_same("the first file", wanted[:1], listed(command, folder, "words", "-k", "1", *texts))
    wanted = [("b.txt", 2, "rare words", 0), ("a.txt", 1, "same words", 0), ("c.txt", 2, "same words", 0)]
    report.expect_same("files of two words", wanted, listed(command, folder, "rare same", *texts))
    explained = command.run("--lines", "words", "--explain", "3", *texts, folder=folder)
    report.expect_same("the third file", "3. c.txt:1", explained.text.partition("  ")[0])
    report.expect_same("one file of many", [("many.log", MANY + 1, "again once", 0)], listed(command, folder, "once again", "--files", "many.log"))
    both = command.run("fox", "--files", "--repeats", folder=folder)
    report.expect_same("files and repeats", 2, both.status)


def check_pages(command, report, folder):
    """Pages one behind another are the whole."""
    for way in ([], ["--files"], ["--repeats"]):
        words = ["words", "--glob", "*.txt", *way]
        whole = listed(command, folder, *words)
        pages = [listed(command, folder, *words, "-k", "2", "--skip", str(skip)) for skip in range(0, len(whole) + 1, 2)]
        report.expect_same(f"pages {way}", without_counts(whole), without_counts(it for page in pages for it in page))
    behind = command.run("--lines", "same", "--skip", "1", "--glob", "*.txt", folder=folder)
    report.expect_same("a page behind the last", ("", 1, ""), behind)
    shown = command.run("--lines", "words", "--skip", "4", "--glob", "*.txt", folder=folder)
    report.expect_same("the number of a later result", "5. c.txt:1", shown.text.partition("  ")[0])
    given = command.run("--queries", "-", "--json", "--skip", "4", "--lines", "--glob", "*.txt", folder=folder, given=b"words\n")
    report.expect_same("the results of a page", '{"query":"words","results":1}', given.text.splitlines()[-1])


def without_counts(results):
    """How many more have the last text of a page is told up to its end."""
    return [it[:3] for it in results]
