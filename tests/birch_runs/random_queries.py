"""Random queries over random files, each answer compared with what the plain models say: of words (word_model), of
queries (query_model) and of what these find (tests/model)."""

import json
import os
import random

import model
from generators.typed import by_grammar, changed
from model.typed_queries import Refused

from .formulas import norm
from .query_model import Collection, Meaning
from .word_model import folded, pieces, words

SEED = 7
QUERIES = 1000
# of these many are not understood
CHANGED = 400
LISTED = 7
# each way of listing with how many results it lists, and how many it skips
WAYS = {"": (LISTED, 0), "--repeats": (LISTED, 3), "--files": (2, 1)}
# few words, so that documents share them, some of which begin as others do, and some of which are the same but for
# case, accents and signs
PLAIN = ["a", "b", "c", "ab", "abc", "ba", "bac", "cab", "caba", "dd"]
OTHER = ["a_b", "ab.c", "b-a", "á", "A\u0301b", "BA", "3.14", "3,14", "14", "c'a", "c\u2019a", "ß", "SS", "İ", "ЙИ", "й", "σ", "ς"]
FILES = {"a-ab.txt": 40, "ba.txt": 25, "deep/caba á.md": 60, "zz.txt": 1}
NAMES = ["ab.txt", "ba", "a", "caba", "a.md", "txt", "zz", "a-ab", "á"]
# what stands between the words of a line, mostly a space
BETWEEN = [" "] * 12 + [", ", ". ", "_", "/", " (", "\u2014", "'", ":"]
# a whole document of a file is a line
FIELDS = [model.Field("text"), model.Field("name", lengths=False)]


def check(command, report, room):
    chance = random.Random(SEED)
    folder = f"{room}/random"
    lines = written(chance, folder)
    queries = [text for _ in range(QUERIES) if (text := query(chance))]
    queries += [text for _ in range(CHANGED) if (text := changed_query(chance))]
    compare(command, report, folder, lines, queries)
    compare(command, report, folder, lines, queries[::4], "--accents")


def compare(command, report, folder, lines, queries, *words_of_command):
    """Asks all queries, of which each is answered, or told to be not understood."""
    collection, segment, places = modelled(lines, bool(words_of_command))
    given = "".join(text + "\n" for text in queries).encode()
    asked = ["--lines", "--queries", "-", *words_of_command]
    listings = {}
    for way, (listed, skipped) in WAYS.items():
        found = command.run(*asked, "--json", "-k", str(listed), "--skip", str(skipped), *way.split(), folder=folder, given=given)
        listings[way] = answers(found)
    told = iter(faults(found))
    counted = command.run(*asked, "--count", folder=folder, given=given).text.splitlines()
    same = [len(queries)] * (len(WAYS) + 1)
    report.expect_same("the number of random answers", same, [*map(len, listings.values()), len(counted)])
    for text, count, *given_answers in zip(queries, counted, *listings.values()):
        try:
            meaning = Meaning(text, collection)
        except Refused as refused:
            wanted = ([(text, None)] * len(WAYS), "", text.replace("\t", " "), letters_before(text, refused.at))
            report.expect_same(f"the fault of {text!r}", wanted, (given_answers, count, *next(told, (None, None))))
            continue
        matching = len(model.matching(meaning.tree, segment))
        found = [(*places[doc], points) for _, doc, points in model.best(max(matching, 1), meaning.tree, [segment])]
        for way, given_answer in zip(WAYS, given_answers):
            best = listed_of(found, lines, way)
            wanted = [(path, line, points, marks_of_text(lines[path][line - 1], meaning), more) for path, line, points, more in best]
            report.expect_same(f"the random query {text!r} {way}", (text, wanted), given_answer)
        report.expect_same(f"the count of the random query {text!r}", str(matching), count)
    report.expect_same("what is told behind all faults", None, next(told, None))


def listed_of(found, lines, way):
    """What is listed of the documents that are found, the best first, each with how many more have its text: those
    before the last result, and behind it those of its score before the first one of another text."""
    listed, skipped = WAYS[way]
    results = {}
    for path, line, points in found:
        one = {"": lines[path][line - 1], "--files": path}.get(way, (path, line))
        if len(results) == listed + skipped:
            *_, last = results.values()
            if way or one not in results or points < last[2]:
                break
        results.setdefault(one, [path, line, points, -1])[3] += 1
    return [(*it[:3], 0 if way else it[3]) for it in results.values()][skipped:]


def letters_before(text, place):
    return len(text.encode()[:place].decode())


def marks_of_text(text, meaning):
    """The words of a text that are marked, each by the letters from which and up to which it stands."""
    keeps = meaning.collection.keeps_accents
    return [[at, at + len(piece)] for at, piece in pieces(text) if meaning.marks(folded(piece, keeps))]


def written(chance, folder):
    """Writes the files, and gives the lines of each path."""
    lines = {}
    for path, count in sorted(FILES.items(), key=order_of_names):
        os.makedirs(os.path.dirname(f"{folder}/{path}"), exist_ok=True)
        lines[path] = [line(chance) for _ in range(count)]
        with open(f"{folder}/{path}", "w", encoding="utf-8") as it:
            it.write("".join(f"{text}\n" for text in lines[path]))
    return lines


def order_of_names(file):
    """Folders and files of a folder go in the order of names."""
    return file[0].split("/")


def line(chance):
    """Mostly short, sometimes empty, and sometimes so long that its length is rounded."""
    length = chance.choice([0, 1, 2, 3, 5, 8, 13, chance.randrange(1, 30), chance.randrange(30, 120)])
    return "".join(chance.choice(PLAIN + OTHER) + chance.choice(BETWEEN) for _ in range(length)).rstrip()


def modelled(lines, keeps_accents):
    """What there is to be searched; the one segment that it makes, the shortest documents first; and where each
    of these stands."""
    documents = []
    for path, texts in lines.items():
        name = words(path.rpartition("/")[2], keeps_accents)
        for number, text in enumerate(texts, 1):
            if own := words(text, keeps_accents):
                documents.append((path, number, {"text": own, "name": name}))
    documents.sort(key=lambda it: len(it[2]["text"]))
    all_words = sum(len(it["text"]) for *_, it in documents)
    norms = [norm(length, len(documents), all_words) for length in range(256)]
    segment = model.Segment(FIELDS, [it for *_, it in documents], norms=norms)
    terms = [{*document.places} for document in segment.documents]
    return Collection(terms, keeps_accents), segment, [it[:2] for it in documents]


def query(chance):
    """A query of the language, without white space around it."""
    return by_grammar(chance, 2, ["", "", "", "", "name:"], operands(chance)).strip()


def changed_query(chance):
    """One that may be none of it."""
    return changed(chance, ["", "", "name:", "nam:"], [*operands(chance), "&", '"ab*"', '"&"']).strip()


def operands(chance):
    """Some words, beginnings and phrases, of texts and of names."""
    return [operand(chance) for _ in range(12)]


def operand(chance):
    if chance.random() < 0.1:
        return chance.choice(NAMES) + chance.choice(["", "", "*"])
    count = chance.choice([1, 1, 1, 1, 2, 2, 3])
    asked = chance.choices([*PLAIN * 2, *OTHER, "unheld"], k=count)
    if count == 1 and chance.random() < 0.9:
        return asked[0] + chance.choice(["", "", "", "*"])
    return '"' + " ".join(asked) + '"' + chance.choice(["", "", "*", "~0", "~1", "~2", "~5"])


def answers(outcome):
    """Each query with its results, out of the lines of JSON; with none where it isn't understood."""
    found, results = [], []
    for line_of_json in outcome.text.splitlines():
        told = json.loads(line_of_json)
        if "query" in told:
            found.append((told["query"], None if told["results"] is None else results))
            results = []
        else:
            results.append((told["path"], told["line"], told["score"], told["found"], told["more"]))
    return found


def faults(outcome):
    """Each query that wasn't understood, and how many letters stand before the place where."""
    told = outcome.told.split("\n")
    for at in range(0, len(told) - 2, 3):
        yield told[at + 1][2:], len(told[at + 2]) - 3
