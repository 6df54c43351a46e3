"""Runs of `birch` by an index that is kept, each answer compared with that of a run without one."""

import json
import os
import random
import shutil
import time

SEED = 11
TURNS = 40
WORDS = "fox dog owl bird tree apple quick brown lazy nest foxes dogs".split()
PATHS = [*(f"some/f{number}.txt" for number in range(8)), "some/in/g1.txt", "some/in/g2.txt", "some/in-x.txt"]
QUERIES = ["fox", "+fox -dog", "fo*", '"quick brown"~2', '"lazy fo"*', "fox AND (dog OR -bird)", "-(fox -dog)", "name:g1", "zebra", "fox dog owl", "-fox"]
# by these words documents are read otherwise
FORMS = [[], ["--lines"], ["--csv", "text"], ["--json-key", "text"]]
# a file that has stood for so long is believed when it is as it was
SETTLING = 2.2


class Kept:
    """Runs in a folder, whose indexes are kept in a place of their own."""

    def __init__(self, command, folder):
        self.command, self.folder = command, folder
        self.indexes = f"{folder}/indexes"
        self.environment = os.environ | {"XDG_CACHE_HOME": self.indexes}

    def run(self, *words, environment=None, **how):
        given = self.environment | (environment or {})
        return self.command.run(*words, folder=self.folder, environment=given, **how)

    def index_folder(self):
        """The only index that is kept."""
        (name,) = os.listdir(f"{self.indexes}/birch")
        return f"{self.indexes}/birch/{name}"

    def answers(self, query, *words, path="some"):
        """What is answered by an index and without one, to be compared: ties stand in any order, so that of documents
        of one text another may be the first."""
        asked = ["--json", "--repeats", "-k", "10000", *words]
        kept = self.run(*asked, "--", query, path)
        fresh = self.run(*asked, "--no-index", "--", query, path)
        return compared(fresh), compared(kept)


def compared(outcome):
    """What has to be the same of two runs."""
    found = [json.loads(line) for line in outcome.text.splitlines()]
    ordered = sorted(json.dumps(it, sort_keys=True) for it in found)
    scores = [it["score"] for it in found]
    return outcome.status, scores, ordered, sorted(outcome.told.splitlines())


def check(command, report, room):
    """By chance, in all forms; then what is told, and what stands in the way."""
    chance = random.Random(SEED)
    for number, form in enumerate(FORMS):
        check_changes(Kept(command, f"{room}/kept{number}"), report, chance, form)
    kept = Kept(command, f"{room}/kept-options")
    check_options(kept, report, chance)
    check_in_the_way(kept, report)


def check_changes(kept, report, chance, form):
    """Files come, change and go; each answer is that of a run without an index."""
    for path in PATHS:
        write_file(kept.folder, path, chance, form)
    report.expect("an index is made", "", 0, kept.run("--index", *form, "some"))
    for turn in range(TURNS):
        for _ in range(chance.randrange(3)):
            change(kept.folder, chance, form)
        if turn == TURNS // 2:
            time.sleep(SETTLING)
        query = chance.choice(QUERIES)
        path = chance.choice(["some", "some", "some/in", "some/in/", "some/in/../in", chance.choice(PATHS)])
        wanted, got = kept.answers(query, *form, path=path)
        report.expect_same(f"turn {turn}, {query} {form} in {path}", wanted, got)
    segments = [it for it in os.listdir(kept.index_folder()) if it.endswith(".seg")]
    report.expect_same(f"that small segments were joined: {segments}", True, len(segments) < 8)


def change(folder, chance, form):
    """A file goes, is no text any more, or is written anew."""
    path, what = chance.choice(PATHS), chance.random()
    if what < 0.3:
        if os.path.exists(f"{folder}/{path}"):
            os.remove(f"{folder}/{path}")
    elif what < 0.4:
        with open(f"{folder}/{path}", "wb") as it:
            it.write(b"fox\0")
    else:
        write_file(folder, path, chance, form)


def write_file(folder, path, chance, form):
    os.makedirs(os.path.dirname(f"{folder}/{path}"), exist_ok=True)
    texts = [" ".join(chance.choices(WORDS, k=chance.randrange(1, 12))) for _ in range(chance.randrange(20))]
    if form[:1] == ["--csv"]:
        lines = ["id,text", *(f"{number},{text}" for number, text in enumerate(texts))]
    elif form[:1] == ["--json-key"]:
        lines = [json.dumps({"text": text}) for text in texts] + ["no json"]
    else:
        lines = [text + "\n" * chance.randrange(2) for text in texts]
    encoding = chance.choice(["utf-8", "utf-8", "utf-8", "utf-8-sig", "utf-16"])
    with open(f"{folder}/{path}", "wb") as it:
        it.write("".join(line + "\n" for line in lines).encode(encoding))
        if encoding == "utf-8" and chance.random() < 0.2:
            it.write(b"fox \xff dog\n")


def check_options(kept, report, chance):
    """What the options do, and what nothing is written for."""
    for path in PATHS:
        write_file(kept.folder, path, chance, [])
    kept.run("fox", "some")
    report.expect_same("nothing is written unasked", False, os.path.exists(kept.indexes))
    time.sleep(SETTLING)
    kept.run("--index", "some")
    modes = {oct(os.stat(it).st_mode & 0o777) for it in (f"{kept.indexes}/birch", kept.index_folder())}
    report.expect_same("who may read it", {"0o700"}, modes)
    report.expect_same("no file is read again", True, "for which 0 files were read" in told(kept, "fox", "some"))
    write_file(kept.folder, PATHS[0], chance, [])
    report.expect_same("one file is", True, "for which 1 files were read" in told(kept, "fox", "some"))
    report.expect_same("other options have none", True, "read into" in told(kept, "--lines", "fox", "some"))
    check_above(kept, report)
    check_stale(kept, report)
    check_session(kept, report)
    check_within(kept, report)
    elsewhere = ["--index-dir", f"{kept.folder}/elsewhere"]
    kept.run("--index", *elsewhere, "some")
    report.expect_same("an index elsewhere", True, "by an index" in told(kept, *elsewhere, "fox", "some"))
    report.expect_same("it is forgotten", 0, kept.run("--forget", *elsewhere, "some").status)
    report.expect_same("nothing is left of it", [], os.listdir(f"{kept.folder}/elsewhere"))
    report.expect_same("it can't be forgotten twice", 1, kept.run("--forget", *elsewhere, "some").status)


def told(kept, *words):
    return kept.run("--stats", *words).told


def check_above(kept, report):
    """A path below uses the index of the folder above, where that is not read otherwise."""
    below = ["fox", "some/in"]
    report.expect_same("a folder below", True, "by an index" in told(kept, *below))
    report.expect_same("a file below", True, "by an index" in told(kept, "fox", "some/in/g1.txt"))
    report.expect_same("as it stands", True, "by an index" in told(kept, "--stale", *below))
    for words in (["--lines", *below], ["--glob", "*.txt", *below], ["-t", "txt", *below], [*below, "some/in-x.txt"], ["fox", "."]):
        report.expect_same(f"others have none: {words}", True, "read into" in told(kept, *words))
    os.makedirs(f"{kept.folder}/some/.hidden")
    write_file(kept.folder, "some/.hidden/x.txt", random.Random(SEED), [])
    report.expect_same("nor has what is left out", True, "read into" in told(kept, "fox", "some/.hidden"))
    shutil.rmtree(f"{kept.folder}/some/.hidden")
    for place in ("some", "some/in"):
        with open(f"{kept.folder}/{place}/.ignore", "w", encoding="utf-8") as it:
            it.write("g1.txt\n")
        wanted, got = kept.answers("fox", path="some/in")
        report.expect_same(f"ignored in {place}", wanted, got)
        os.remove(f"{kept.folder}/{place}/.ignore")
    kept.run("--index", "some")
    report.expect_same("no other index was made", 1, len(os.listdir(f"{kept.indexes}/birch")))


def check_session(kept, report):
    """Many queries of one run, some before all rows are read and most behind that."""
    given = "".join(f"{query}\n" for query in QUERIES * 20).encode()
    asked = ["--queries", "-", "--json", "--repeats", "-k", "10000", "some"]
    wanted, got = (kept.run(*asked, *words, given=given) for words in (["--no-index"], []))
    compared_lines = [sorted(it.text.splitlines()) for it in (wanted, got)]
    report.expect_same("many queries", *compared_lines)


def check_within(kept, report):
    """An index that lies in the folder that is searched is no part of it."""
    within = ["--index-dir", f"{kept.folder}/some/deep/own"]
    wanted, _ = kept.answers("fox")
    time.sleep(SETTLING)
    kept.run("--index", *within, "some")
    report.expect_same("the index is not read", True, "for which 0 files were read" in told(kept, *within, "fox", "some"))
    report.expect_same("nor told", wanted, compared(kept.run("--json", "--repeats", "-k", "10000", *within, "fox", "some")))
    shutil.rmtree(f"{kept.folder}/some/deep")


def check_stale(kept, report):
    """What was there is answered, and a file that has changed since gives no text."""
    before = kept.run("--json", "--repeats", "--stale", "name:g1", "some")
    with open(f"{kept.folder}/some/in/g1.txt", "a", encoding="utf-8") as it:
        it.write("\nunheard\n")
    stale = kept.run("--json", "--repeats", "--stale", "name:g1", "some")
    count = len(before.text.splitlines())
    report.expect_same("as many stale results", count, len(stale.text.splitlines()))
    report.expect_same("which are told", count, stale.told.count("has changed since it was read"))
    report.expect_same("nothing new", 1, kept.run("--stale", "unheard", "some").status)
    report.expect_same("the new word else", 0, kept.run("unheard", "some").status)
    report.expect_same("without an index", True, "no index is kept" in told(kept, "--stale", "fox", "indexes"))


def check_in_the_way(kept, report):
    """An index that is none, of another version, locked, or that can't be written."""
    wanted, _ = kept.answers("fox")
    manifest = f"{kept.index_folder()}/manifest"
    with open(manifest, "rb") as it:
        good = it.read()
    for name, bytes_, said in [
        ("another file", b"something else that is no manifest", "what stands there is none"),
        ("another version", good[:8] + b"\x09" + good[9:], "one of another version"),
        ("a damaged one", good[:-1] + bytes([good[-1] ^ 1]), "it is damaged"),
        ("an empty one", b"", "what stands there is none"),
    ]:
        with open(manifest, "wb") as it:
            it.write(bytes_)
        got = kept.run("--json", "--repeats", "-k", "10000", "--", "fox", "some")
        report.expect_same(name, wanted[:3], compared(got)[:3])
        report.expect_same(f"{name} is told", (True, True), (said in got.told, "made anew" in got.told))
        report.expect_same(f"{name} is mended", wanted, kept.answers("fox")[1])
