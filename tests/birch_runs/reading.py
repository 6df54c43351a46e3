"""Which files `birch` reads, what it takes for their text, and how names and texts are printed."""

import json
import os
import pty
import random
import re
import shutil
import subprocess

from .command import LIMIT, results
from .formulas import norm, score, weight

SEED = 17
# so many random folders, for ignore files and for patterns
FOLDERS = 1000
NAMES = ["a", "b", "c", "a.x", "b.x", "c.y", "ab", "[a]"]
IGNORED = [
    *("a", "b", "*.x", "a/", "/b", "a/b", "**/c", "a/**", "!a", "!b.x", "[ab]", "?", "a*", "# a", "", "a/**/c", "!a/b"),
    *("*", "!*.y", "b ", "\\[a]", "[!a]", "/*", "!/a", "a/*", "/a/**/b", "c.[x-z]", "**/a/b", "!**/b", "b/", "a/*/b"),
]
GLOBS = ["*.x", "a", "a/*", "**/b", "a/**", "!*.x", "!a", "?.x", "[ab]*", "*.{x,y}", "{a,b/c}", "{a,c}{.x,.y}", "a/**/c"]
STEERING = "\x1b[31m \x7f \x9b \u202e \u2066 \u200f \u2028 \x07"


def check(command, report, room):
    chance = random.Random(SEED)
    for number in range(FOLDERS):
        folder = f"{room}/walk{number}"
        make_folder(folder, chance)
        check_ignored(command, report, folder, chance)
        check_globs(command, report, folder, chance)
    folder = f"{room}/reading"
    os.mkdir(folder)
    check_types(command, report, folder)
    check_above(command, report, folder)
    check_encodings(command, report, folder)
    check_printed(command, report, folder)
    check_paths(command, report, folder)
    check_lines(command, report, folder)
    check_changed(command, report, folder)
    check_rows(command, report, folder)


def write(path, content):
    os.makedirs(os.path.dirname(path), exist_ok=True)
    with open(path, "wb") as it:
        it.write(content if isinstance(content, bytes) else content.encode())


def write_fox(folder, path):
    """A file of whose text there is no other."""
    write(f"{folder}/{path}", f"fox {path.encode().hex()}\n")


# ---- which files are read


def make_folder(folder, chance):
    """Random files in folders, at most three deep."""
    os.mkdir(folder)
    for _ in range(chance.randrange(4, 20)):
        path = "/".join(chance.choices(NAMES, k=chance.randrange(1, 4)))
        try:
            write_fox(folder, path)
        except OSError:
            # a file stands where a folder is to be, or the other way
            pass


def files_of(folder):
    """All files of a folder without those whose names begin with a dot, by their paths."""
    found = []
    for above, folders, names in os.walk(folder):
        folders[:] = [it for it in folders if not it.startswith(".")]
        found += [os.path.relpath(f"{above}/{it}", folder) for it in names if not it.startswith(".")]
    return sorted(found)


def found_by(command, folder, *words):
    outcome = command.run("--json", "-k", "1000", *words, "fox", folder=folder)
    return sorted(path for path, _, _ in results(outcome.text))


def check_ignored(command, report, folder, chance):
    """Random ignore files, whose meaning git tells."""
    subprocess.run(["git", "init", "-q"], cwd=folder, check=True)
    places = {"", *(os.path.dirname(it) for it in files_of(folder))}
    for place in chance.sample(sorted(places), min(len(places), 2)):
        lines = chance.choices(IGNORED, k=chance.randrange(1, 5))
        write(os.path.join(folder, place, ".gitignore"), chance.choice(["\n", "\r\n"]).join(lines))
    files = files_of(folder)
    asked = ["git", "check-ignore", "--no-index", "--stdin", "-z"]
    told = subprocess.run(asked, cwd=folder, input="\0".join(files), capture_output=True, text=True, check=False)
    ignored = set(told.stdout.split("\0"))
    report.expect_same(f"ignore files of {folder}", [it for it in files if it not in ignored], found_by(command, folder))
    for words in (["--no-ignore"], ["--hidden", "--glob", "!.git", "--glob", "!.gitignore"]):
        report.expect_same(f"{words} in {folder}", files, found_by(command, folder, *words))


def expression(pattern):
    """A regular expression for a pattern of whole paths."""
    parts = re.findall(r"\*\*/|\*\*$|\*|\?|\[!?[^]]+\]|.", pattern)
    known = {"**/": "(.*/)?", "**": ".+", "*": "[^/]*", "?": "[^/]"}
    return "".join(known.get(it) or (it.replace("[!", "[^") if it[0] == "[" else re.escape(it)) for it in parts)


def alternatives(pattern):
    braces = re.search(r"\{([^{}]*)\}", pattern)
    if not braces:
        return [pattern]
    begin, end = pattern[: braces.start()], pattern[braces.end() :]
    return [it for one in braces[1].split(",") for it in alternatives(begin + one + end)]


def fits(pattern, path):
    compared = path if "/" in pattern.rstrip("/") else path.split("/")[-1]
    return re.fullmatch(expression(pattern), compared) is not None


def is_read(globs, path):
    """Whether the last pattern that fits says so, of the path and of each folder above it."""
    rules = [(it.startswith("!"), one.lstrip("!")) for it in globs for one in alternatives(it)]
    parts = path.split("/")
    above = ["/".join(parts[:number]) for number in range(1, len(parts))]
    if any(turned[-1] for turned in ([no for no, rule in rules if fits(rule, it)] for it in above) if turned):
        return False
    fitting = [no for no, rule in rules if fits(rule, path)]
    return not fitting[-1] if fitting else all(no for no, _ in rules)


def check_globs(command, report, folder, chance):
    """Random patterns, by a model of regular expressions."""
    for _ in range(3):
        globs = chance.choices(GLOBS, k=chance.randrange(1, 4))
        words = [word for it in globs for word in ("--glob", it)]
        wanted = [it for it in files_of(folder) if is_read(globs, it)]
        report.expect_same(f"{globs} in {folder}", wanted, found_by(command, folder, "--no-ignore", *words))


def check_types(command, report, folder):
    """Each kind of files that the help names has one at least; a kind that is none is refused."""
    told = command.run("--help", folder=folder).text
    kinds = re.search(r"--type <TYPE>.*?possible values: ([^]]*)", told)[1].split(", ")
    ends = "c h cc css csv go htm java js json log lua md org php py rb rst rs sh sql tex toml ts txt xml yml".split()
    for end in ends:
        write_fox(f"{folder}/types", f"file.{end}")
    found = {kind: found_by(command, f"{folder}/types", "-t", kind) for kind in kinds}
    report.expect_same("a kind without a file", [], [kind for kind, files in found.items() if not files])
    report.expect_same("a file without a kind", [], [it for it in ends if f"file.{it}" not in sum(found.values(), [])])
    report.expect_same("files of md", ["file.md"], found["md"])
    report.expect_same("two kinds", ["file.md", "file.rs"], found_by(command, f"{folder}/types", "-t", "md", "--type", "rust"))
    report.expect_same("no kind", 2, command.run("-t", "none", "fox", folder=folder).status)
    many = "{a,b}" * 12
    report.expect_same("too many braces", 2, command.run("--glob", many, "fox", folder=folder).status)


def check_above(command, report, folder):
    """An .ignore counts more than a .gitignore, and the nearer folder more than the one above; a path of the command line
    is read whatever they say."""
    for path in ("x/one.log", "x/two.log", "x/in/one.log", "x/in/two.txt"):
        write_fox(folder, path)
    write(f"{folder}/x/.gitignore", "*.log\n")
    write(f"{folder}/x/.ignore", "!two.log\n")
    write(f"{folder}/x/in/.ignore", "!*.log\n*.txt\n")
    report.expect_same("ignore files in one another", ["x/in/one.log", "x/two.log"], found_by(command, folder, "--glob", "x/**"))
    outcome = command.run("--count", "fox", "x/one.log", "x/in/two.txt", folder=folder)
    report.expect_same("ignored, but named", ("2\n", 0, ""), outcome)
    shutil.rmtree(f"{folder}/x")


# ---- what is taken for text


def check_encodings(command, report, folder):
    """Marks, UTF-16 both ways, and what is no UTF-8; with an index too, for which texts are read again."""
    written = {
        "plain.txt": lambda it: it.encode(),
        "mark.txt": lambda it: it.encode("utf-8-sig"),
        "low.txt": lambda it: it.encode("utf-16"),
        "high.txt": lambda it: b"\xfe\xff" + it.encode("utf-16-be"),
        "odd.txt": lambda it: it.encode("utf-16") + b"x",
        "latin.txt": lambda it: it.encode().replace("é".encode(), b"\xe9"),
        "wide.bin": lambda _: b"\xff\xfe\0\0f\0\0\0",
        "zero.bin": lambda it: it.encode() + b"\0",
    }
    for name, encode in written.items():
        write(f"{folder}/texts/{name}", encode(f"the first\n\na café fox 𝄞 {name}\n"))
    wanted = {name: f"a café fox 𝄞 {name}" for name in written if name.endswith(".txt")}
    wanted["latin.txt"] = "a caf\ufffd fox 𝄞 latin.txt"
    # behind the last end of a line stands what is half a letter
    wanted["odd.txt"] = "a café fox 𝄞 odd.txt\n\ufffd"
    environment = os.environ | {"XDG_CACHE_HOME": f"{folder}/cache"}
    for words in (["fox"], ["--index"], ["fox"], ["fox", "--stale"]):
        outcome = command.run("--json", *words, folder=f"{folder}/texts", environment=environment)
        told = "birch: left out: 2 binary; --notes lists them\n"
        report.expect_same(f"what is told of texts, {words}", told, outcome.told)
        if "--index" not in words:
            found = [json.loads(line) for line in outcome.text.splitlines()]
            report.expect_same(f"texts, {words}", wanted, {it["path"]: it["text"] for it in found})
            report.expect_same(f"their lines, {words}", {3}, {it["line"] for it in found})
    shutil.rmtree(f"{folder}/texts")


# ---- how it is printed


def check_printed(command, report, folder):
    """What steers a terminal is a question mark, in names, texts and queries, and a number in JSON."""
    name = f"n{STEERING}\n\r.txt"
    write(f"{folder}/printed/{name}", f"fox {STEERING} end\n")
    write(f"{folder}/printed/{name}.bin", "fox\0")
    inner = f"{folder}/printed"
    clean = "".join("?" if it in "\x1b\x7f\x9b\u202e\u2066\u200f\u2028\x07\n\r" else it for it in name)
    told = f"birch: {clean}.bin: left out, it is binary\nbirch: left out: 1 binary\n"
    shown = command.run("fox", "--notes", folder=inner)
    report.expect_same("a name that steers", (0, told), shown[1:])
    report.expect_same("its line", f"1. {clean}:1  ", shown.text[: len(clean) + 7])
    report.expect_same("its text", "    [fox] ?[31m ? ? ? ? ? ? end\n", shown.text.split("\n", 1)[1])
    listed = command.run("fox", "--json", folder=inner).text
    report.expect_same("in JSON", (name, f"fox {STEERING} end"), tuple(json.loads(listed)[it] for it in ("path", "text")))
    given = f"fox {STEERING}\n".encode()
    for words in (["fox"], ["fox", "--json"], ["--queries", "-"], ["--queries", "-", "--json"], [f'"fox{STEERING}'], ["fox", STEERING]):
        outcome = command.run(*words, folder=inner, given=given)
        steering = [it for it in outcome.text + outcome.told if it != "\n" and it in STEERING + "\r" and it not in "[31m "]
        report.expect_same(f"what steers behind {words}", [], steering)
    check_colours(command, report, inner)
    shutil.rmtree(inner)


def check_colours(command, report, folder):
    """A terminal has colours but where NO_COLOR says otherwise, unless they are asked for."""
    for settings, words, wanted in (
        ({}, [], True),
        ({"NO_COLOR": "1"}, [], False),
        ({"NO_COLOR": ""}, [], True),
        ({"NO_COLOR": "1"}, ["--color", "always"], True),
        ({}, ["--color", "never"], False),
    ):
        shown = on_terminal(command, folder, os.environ | settings, *words, "fox")
        report.expect_same(f"colours, {settings} {words}", wanted, b"\x1b[1;31mfox\x1b[m" in shown)


def on_terminal(command, folder, environment, *words):
    """What a run writes to a terminal."""
    outer, inner = pty.openpty()
    with command.start(*words, folder=folder, env=environment, stdout=inner, stderr=subprocess.DEVNULL) as running:
        running.wait(timeout=LIMIT)
    os.close(inner)
    shown = os.read(outer, 1 << 16)
    os.close(outer)
    return shown


def check_paths(command, report, folder):
    """A path that isn't there is an error, a file in a folder that can't be read is counted, and a file whose name is a
    dash is a file."""
    inner = f"{folder}/paths"
    write(f"{inner}/-", "a fox\n")
    write(f"{inner}/+", "the fox\n")
    write(f"{inner}/in/-", "in a fox\n")
    report.expect_same("dashes", ["+", "./-", "in/-"], found_by(command, inner))
    environment = os.environ | {"XDG_CACHE_HOME": f"{folder}/cache"}
    for words in (["--index"], ["fox", "--count"]):
        outcome = command.run(*words, folder=inner, environment=environment)
        report.expect_same(f"dashes in an index, {words}", ("3\n" if "fox" in words else "", 0, ""), outcome)
    outcome = command.run("fox", "--count", "-", "./-", folder=inner, given=b"a fox\n\na fox\n")
    report.expect_same("standard input beside a dash", ("3\n", 0, ""), outcome)
    outcome = command.run("fox", "--count", "missing", ".", folder=inner)
    report.expect_same("a missing path", ("3\n", 2, "birch: missing: No such file or directory (os error 2)\n"), outcome)
    outcome = command.run("--index", "missing", folder=inner, environment=environment)
    report.expect_same("an index of a missing path", 2, outcome.status)
    os.symlink("nowhere", f"{inner}/link")
    write(f"{inner}/deep/.ignore/x", "fox\n")
    outcome = command.run("fox", "--count", folder=inner)
    told = "birch: left out: 1 unreadable; --notes lists them\n"
    report.expect_same("an ignore file that is a folder", ("3\n", 0, told), outcome)
    write(f"{inner}/bad".encode() + b"\xff.txt", b"fox\n")
    outcome = command.run("fox", "--count", folder=inner)
    told = "birch: left out: 1 unreadable, 1 with a name that is no UTF-8; --notes lists them\n"
    report.expect_same("a name that is no UTF-8", ("3\n", 0, told), outcome)
    outcome = command.run("fox", b"bad\xff.txt", folder=inner)
    report.expect_same("one that is asked for", ("", 2, "birch: a word of the command line is no UTF-8\n"), outcome)
    shutil.rmtree(inner)


def check_lines(command, report, folder):
    """Each line of queries has its answer, be it empty, no query or no UTF-8."""
    write(f"{folder}/lines/one.txt", "fox\n")
    given = b"fox\n\n &\nf\xe9\nowl"
    inner = f"{folder}/lines"
    shown = command.run("--queries", "-", folder=inner, given=given)
    alone = score(weight(1, 1), 1, norm(1, 1, 1))
    answers = [f"== fox\n1. one.txt:1  {alone}\n    [fox]\n\n", "== \n\n", "== &\n\n", "== f\ufffd\n\n", "== owl\n\n"]
    report.expect_same("answers", ["".join(answers), 2], [shown.text, shown.status])
    listed = command.run("--queries", "-", "--json", folder=inner, given=given).text.splitlines()
    ends = [(it["query"], it["results"]) for it in map(json.loads, listed) if "query" in it]
    wanted = [("fox", 1), ("", 0), ("&", None), ("f\ufffd", None), ("owl", 0)]
    report.expect_same("answers in JSON", wanted, ends)
    counted = command.run("--queries", "-", "--count", folder=inner, given=given).text
    report.expect_same("counted answers", "1\n0\n\n\n0\n", counted)
    empty = command.run("--queries", "-", folder=inner, given=b"\n")
    report.expect_same("an empty query alone", ("== \n\n", 1, ""), empty)
    shutil.rmtree(inner)


def check_changed(command, report, folder):
    """A file that changes behind the reading is told of, and gives no text."""
    write(f"{folder}/changed/one.txt", "fox\n")
    inner = f"{folder}/changed"
    pipes = {"stdin": subprocess.PIPE, "stdout": subprocess.PIPE, "stderr": subprocess.PIPE}
    with command.start("--queries", "-", "--json", folder=inner, **pipes) as running:
        running.stdin.write(b"fox\n")
        running.stdin.flush()
        first = [json.loads(running.stdout.readline()) for _ in range(2)]
        write(f"{inner}/one.txt", "owl of another length\n")
        text, told = running.communicate(b"fox\n", timeout=LIMIT)
    report.expect_same("before the change", "fox", first[0]["text"])
    report.expect_same("behind it", "", json.loads(text.splitlines()[0])["text"])
    report.expect_same("which is told", b"birch: one.txt: has changed since it was read\n", told)
    shutil.rmtree(inner)


def check_rows(command, report, folder):
    """The line of a row is where it begins, whatever stands before it and however lines end."""
    inner = f"{folder}/rows"
    rows = ["id,text", "1,fox a", "", '2,"fox b', 'and more"', "3,fox c", "4"]
    for end, name in (("\n", "low.csv"), ("\r\n", "high.csv")):
        write(f"{inner}/{name}", end.join(["", *rows]) + end)
        found = command.run("fox", "--csv", "text", "--json", "--notes", name, folder=inner)
        lines = {json.loads(line)["text"].split()[1]: json.loads(line)["line"] for line in found.text.splitlines()}
        report.expect_same(f"rows of {name}", {"a": 3, "b": 5, "c": 7}, lines)
        told = f"birch: {name}:8: rows left out from here on: 1\nbirch: left out: 1 rows without a text\n"
        report.expect_same(f"what is left out of {name}", told, found.told)
    shutil.rmtree(inner)
