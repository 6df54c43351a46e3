"""Queries that name fields, of tables and of lines of JSON: by hand, and at random beside the plain models."""

import csv
import io
import json
import os
import random

import model
from generators.typed import by_grammar
from model.typed_queries import Refused

from .formulas import norm
from .query_model import Collection, Meaning
from .random_queries import PLAIN, answers, marks_of_text, operands
from .word_model import words

SEED = 13
ROWS = 80
QUERIES = 300
LISTED = 7
# what keeps the words of two fields apart is no word
APART = "\0"
NAMED = ["", "", "title:", "meta.body:", "two_words:", "tags:", "name:", "nix:"]

TABLE = """id,title,body,First Name
1,The quick fox,"jumps over
the lazy dog",Ann
2,A dog,quick fox,Bob
3,end of title,quick words,Cy,extra
4
"""
OBJECTS = [
    '{"title":"Fox","meta":{"body":"quick dog","year":1999,"ok":true,"no":null},"tags":["red fox",["blue owl"]]}',
    '{"title":"x","tags":["red","fox"],"meta":{"body":"slow"}}',
    "[1]",
    "no json",
    "{}",
]
# each query with the lines that it finds, and the fields that are told to be unknown
OF_TABLE = [
    ("title:fox", [2], []),
    ("fox", [2, 4], []),
    ("title:(quick AND fox)", [2], []),
    ("title:qui*", [2], []),
    ('title:"quick fox"', [2], []),
    ('title:"the qu"*', [2], []),
    ('"title quick"', [], []),
    ('"lazy dog"', [2], []),
    ("First_Name:ann", [2], []),
    ("name:ann", [], ["name"]),
    ("titel:fox body:fox", [4], ["titel"]),
    ("-title:fox", [4, 5, 6], []),
    ("extra", [5], []),
    ("id:4", [6], []),
    ("+dog -title:dog", [2], []),
    ("body:title:fox", None, []),
    ("body:(title:fox)", [2], []),
]
OF_OBJECTS = [
    ("title:fox", [1], []),
    ("fox", [1, 2], []),
    ("meta.body:quick", [1], []),
    ("meta.year:1999 AND meta.ok:true", [1], []),
    ("meta:quick", [], ["meta"]),
    ("meta.no:null", [], ["meta.no"]),
    ('tags:"red fox"', [1], []),
    ("tags:red AND tags:fox", [1, 2], []),
    ("tags:owl", [1], []),
]


def check(command, report, room):
    folder = f"{room}/fields"
    os.makedirs(folder)
    check_by_hand(command, report, folder)
    chance = random.Random(SEED)
    rows = [row(chance) for _ in range(ROWS)]
    queries = [text for _ in range(QUERIES) if (text := by_grammar(chance, 2, NAMED, operands(chance)).strip())]
    compare(command, report, folder, "table.csv", "--csv-fields", table_of(rows), queries)
    compare(command, report, folder, "lines.jsonl", "--json-fields", objects_of(rows), queries)


def check_by_hand(command, report, folder):
    for path, content in (("hand.csv", TABLE), ("hand.jsonl", "".join(f"{it}\n" for it in OBJECTS))):
        with open(f"{folder}/{path}", "w", encoding="utf-8") as it:
            it.write(content)
    left_out = "birch: left out: 2 rows without a text; --notes lists them\n"
    for path, way, asked, note in (("hand.csv", "--csv-fields", OF_TABLE, ""), ("hand.jsonl", "--json-fields", OF_OBJECTS, left_out)):
        for query, lines, unknown in asked:
            found = command.run(way, "--json", "--", query, path, folder=folder)
            if lines is None:
                report.expect_same(f"the status of {query} {way}", ("", 2), found[:2])
                continue
            told = note + "".join(f"birch: no document has a field {name}\n" for name in unknown)
            listed = sorted(json.loads(it)["line"] for it in found.text.splitlines())
            report.expect_same(f"{query} {way}", (lines, told), (listed, found.told))
    shown = command.run("--csv-fields", "title:quick", "hand.csv", folder=folder)
    report.expect_same("a row", "    1 The [quick] fox jumps over the lazy dog Ann\n", shown.text.partition("\n")[2])
    why = command.run("--csv-fields", "--explain", "1", "title:fox body:la*", "hand.csv", folder=folder).text
    report.expect_same("why of fields", True, "    title:fox: weight " in why and "    body:la*: weight " in why)
    for words_of_command in (["--csv-fields", "--lines"], ["--csv-fields", "--json-fields"], ["--json-fields", "--csv", "a"]):
        both = command.run(*words_of_command, "fox", folder=folder)
        report.expect_same(f"the words {words_of_command}", 2, both.status)


def row(chance):
    """The texts of a document by the names of their fields, some of which stand there more than once."""
    count = chance.choice([0, 1, 1, 2])
    tags = [("tags", " ".join(chance.choices(PLAIN, k=chance.randrange(1, 3)))) for _ in range(count)]
    given = [(name, " ".join(chance.choices(PLAIN, k=chance.randrange(6)))) for name in ("meta.body", "two_words")]
    return [*given, *tags, ("title", chance.choice(PLAIN))]


def table_of(rows):
    """A table of rows, each with its line; a column has one name, so that tags stand side by side."""
    names = ["meta.body", "two words", "tags", "tags", "title"]
    out = io.StringIO()
    writer = csv.writer(out, lineterminator="\n")
    writer.writerow(names)
    cells = []
    for given in rows:
        tags = [text for name, text in given if name == "tags"]
        tags += [""] * (2 - len(tags))
        cells.append([given[0][1], given[1][1], *tags, given[-1][1]])
        writer.writerow(cells[-1])
    named = [[*zip((it.replace(" ", "_") for it in names), row_of, strict=True)] for row_of in cells]
    return out.getvalue(), [(line, fields) for line, fields in enumerate(named, 2)]


def objects_of(rows):
    """Lines of JSON, the members of an object in the order of their keys."""
    lines = []
    for given in rows:
        tags = [text for name, text in given if name == "tags"]
        lines.append({"meta": {"body": given[0][1]}, "tags": tags, "title": given[-1][1], "two words": given[1][1]})
    placed = []
    for number, it in enumerate(lines, 1):
        tags = [("tags", text) for text in it["tags"]]
        placed.append((number, [("meta.body", it["meta"]["body"]), *tags, ("title", it["title"]), ("two_words", it["two words"])]))
    return "".join(json.dumps(it) + "\n" for it in lines), placed


def compare(command, report, folder, path, way, written, queries):
    content, rows = written
    with open(f"{folder}/{path}", "w", encoding="utf-8") as it:
        it.write(content)
    collection, segment, places = modelled(rows)
    given = "".join(text + "\n" for text in queries).encode()
    asked = [way, "--queries", "-", "--json", "--repeats", "-k", str(LISTED), path]
    answered = answers(command.run(*asked, folder=folder, given=given))
    kept = ["--index-dir", f"{folder}/indexes"]
    command.run(way, "--index", *kept, path, folder=folder)
    answered_kept = answers(command.run(*asked, *kept, folder=folder, given=given))
    report.expect_same(f"the number of answers {way}", [len(queries)] * 2, [len(answered), len(answered_kept)])
    for text, *got in zip(queries, answered, answered_kept):
        try:
            meaning = Meaning(text, collection)
        except Refused:
            report.expect_same(f"the fault of {text!r} {way}", [(text, None)] * 2, got)
            continue
        best = [(*places[doc], points) for _, doc, points in model.best(LISTED, meaning.tree, [segment])]
        wanted = [(path, line, points, marks_of_text(shown, meaning), 0) for line, shown, points in best]
        report.expect_same(f"the query {text!r} {way}", [(text, wanted)] * 2, got)


def modelled(rows):
    """What there is to be searched; the segment that it makes; and of each document its line and its text."""
    documents = []
    for line, fields in rows:
        if count := sum(len(words(text)) for _, text in fields):
            texts = {}
            for name, text in fields:
                if own := words(text):
                    texts.setdefault("text", []).extend([*own, APART])
                    texts.setdefault(name, []).extend([*own, APART])
            documents.append((count, line, "\n".join(text for _, text in fields), texts))
    documents.sort(key=lambda it: it[0])
    all_words = sum(it[0] for it in documents)
    norms = [norm(length, len(documents), all_words) for length in range(256)]
    # the model knows the fields too that are asked for and that no document has
    names = sorted({"name", "nix"}.union(*(texts for *_, texts in documents)))
    segment = model.Segment([model.Field(name) for name in names], [it[-1] for it in documents], norms=norms)
    for document, (count, *_) in zip(segment.documents, documents, strict=True):
        document.lengths = dict.fromkeys(names, min(count, 255))
    terms = [{*document.places} for document in segment.documents]
    return Collection(terms, has_fields=True), segment, [it[1:3] for it in documents]
