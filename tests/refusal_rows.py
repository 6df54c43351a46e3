#!/usr/bin/env python3
"""Rows of what counts as refused, and of which wrong bodies are tried again: no check of a crate is run.

    python3 tests/refusal_rows.py

tests/refusal_rows/NAME.said has a body's old and new text, what is wanted (the clause or call that refuses it, or
that it is undecided), and what a check said of it. The last line counts; the exit status is 1 where a row is wrong.
"""

import os
import sys
import tempfile
from types import SimpleNamespace

sys.dont_write_bytecode = True
HERE = os.path.dirname(os.path.abspath(__file__))
sys.path.insert(0, HERE)

from checked_name import what_lacks  # noqa: E402
from contracts import contracts_of  # noqa: E402
from crate_minutes import CrateMinutes  # noqa: E402
from refusals import Verdict, messages  # noqa: E402
from refused_before import CHANCES, Plan, Sums, by_chance, is_of_the_tenth, read, void, why_tried, write  # noqa: E402
from renamed_proof import renamed, renames_of  # noqa: E402
from same_body import says_the_same  # noqa: E402

# texts of which the second says what the first says
SAME = [
    ("self.end = self.cursor + count;", "self.end = count + self.cursor;"),
    ("bits: self.bits & !(1 << el),", "bits: !(1 << el) & self.bits,"),
    ("while doc < target {", "while target > doc {"),
    ("while doc != TERMINATED {", "while !(doc == TERMINATED) {"),
    ("if set.contains(doc) {", "let has = set.contains(doc); if has {"),
    ("self.go_to(self.doc.max(target));", "let to = target.max(self.doc); self.go_to(to);"),
    ("for at in 0..n {\n sum += xs[at];", "for index in 0..n {\n sum += xs[index];"),
    ("let low = bits.trailing_zeros();\nSome(low)", "let least = bits.trailing_zeros();\nSome(least)"),
    ("let mut doc = set.doc();\ndoc = set.advance();", "let mut now = set.doc();\nnow = set.advance();"),
]
# texts of which it does not
OTHER = [
    ("self.cursor += 1;", "self.cursor += 0;"),
    ("self.cursor += 1;", "self.cursor -= 1;"),
    ("last - first", "first - last"),
    ("while doc < target {", "while doc > target {"),
    ("if doc >= end {", "if doc > end {"),
    ("if a < b { a } else { b }", "if a < b { b } else { a }"),
    ("DocAddress::new(segment, doc)", "DocAddress::new(doc, segment)"),
    ("let low = bits.trailing_zeros();", "let low = bits.leading_zeros();"),
    ("if doc == end {", "if doc == end { let taken = taken / 2;"),
    ("for it in members {", "for it in members { let doc = it.doc() - 1;"),
    ('self.write(":")?;', 'self.write(" ")?;'),
    ("record {segment = c.a; doc = c.b}", "record {segment = c.b; doc = c.a}"),
    ("all.iter().max()", "all.iter().min()"),
]
# a crate's files, and what there is none of for a function of some names
FILES = {
    "src/index.rt": "pub struct Index {\n}\nimpl Pieces for Vec<u8> {\n    fn count(&self) -> u64 {\n    }\n}\n",
    "src/index/opening.rt": "impl Index {\n    pub fn open() -> Index {\n    }\n}\nfn part() {\n}\n",
}
NAMED = {
    "index::Index::open": None,
    "index::VecU8Pieces::count": None,
    "index::opening::part": None,
    "index::opening::Index::open": "no type Index in src/index/opening.rt",
    "index::part": "no function part in src/index.rt",
    "opening::part": "no file src/opening.rt",
}
# some of the names that checks lack, and what they have in their place
RENAMED = {
    "condition_turned": {
        ".if-doc-end": ".if-end-doc",
        "returns-then-doc-end-clause-count": "returns-then-end-doc-clause-count",
    },
    "variable_of_a_loop_renamed": {
        ".loop-index": ".loop-at",
        "invariant-loop-index": "invariant-loop-at",
        "loop-index-preserved": "loop-at-preserved",
    },
    "condition_in_a_let": {
        "After-contains": "After-contains-has",
        "contains-requires-clause-usable": "contains-has-requires-clause-usable",
        "returns-then-contains-clause-kept": "returns-then-has-clause-kept",
    },
    "wrong_under_a_new_name": {"Then-doc-eq-TERMINATED": "Then-doc", ".if-doc-eq-TERMINATED": ".if-doc"},
}
BEFORE = Sums("text", "crate", "below", "judge")
# one of the commits whose tenth has the edit, and one whose tenth has not
COMMITS = [
    next(it for it in map(str, range(1000)) if is_of_the_tenth("a/b.edit", it) == is_in) for is_in in (True, False)
]
# how an edit now stands to what the file says of it, the commit, and whether it is tried
TRIED = [
    ("nothing is known of it", None, BEFORE, COMMITS[1], True),
    ("nothing changed", BEFORE, BEFORE, COMMITS[0], False),
    ("its text changed", BEFORE._replace(edit="x"), BEFORE, COMMITS[1], True),
    ("its crate changed", BEFORE._replace(crate="x"), BEFORE, COMMITS[1], True),
    ("the logic changed", BEFORE._replace(judge="x"), BEFORE, COMMITS[1], True),
    ("a contract below changed, in the tenth", BEFORE._replace(below="x"), BEFORE, COMMITS[0], True),
    ("a contract below changed, not in the tenth", BEFORE._replace(below="x"), BEFORE, COMMITS[1], False),
]
CRATE = """pub struct Set { len: usize }

impl Set {
    /// The number of members.
    pub fn len(&self) -> usize
        ensures { result ≡ members self.now }
    {
        let found = self.len;
        found
    }
    pub fn twice(&self) -> usize {
        2 * self.len
    }
    pub const fn room() -> usize {
        64
    }
    fn bare(&self) -> usize;
    fn line(&self) -> usize { self.len }
}
"""
# what of that file a proof above sees: a change of a text, and whether it shows
SEEN = [
    ("let found = self.len;", "let found = 0;", False),
    ("        2 * self.len", "        3 * self.len", False),
    ("members self.now", "members self.now + 1", True),
    ("pub fn twice(&self) -> usize", "pub fn twice(&self) -> u32", True),
    ("        64\n", "        65\n", True),
    ("{ self.len }\n", "{ self.len + 1 }\n", True),
    ("len: usize }\n", "len: u32 }\n", True),
]


def refusals():
    """The rows of what checks said."""
    for name in sorted(os.listdir(f"{HERE}/refusal_rows")):
        with open(f"{HERE}/refusal_rows/{name}", encoding="utf-8") as it:
            head, _, said = it.read().partition("\n\n")
        row = dict(line.split(": ", 1) for line in head.split("\n"))
        edit = SimpleNamespace(path=row["checked"], cycles=set)
        found = Verdict(SimpleNamespace(name="qm_docset"), edit, said.rstrip("\n").split("\n")).refusal()
        yield f"what counts: {name}", found[0][0] if found else "undecided", row["wanted"]


def renames():
    """The rows of the names that an edit changed, as a check tells of them."""
    for name, wanted in RENAMED.items():
        with open(f"{HERE}/refusal_rows/{name}.said", encoding="utf-8") as it:
            found = renames_of(messages(it.read().split("\n")))
        yield f"names that are changed along: {name}", {it: found.get(it) for it in wanted}, wanted
    names = {".max": ".max-to", "then-doc-end": "then-end-doc"}
    text = "use crate.max.Goals\nthen-doc-end c = max c.max.result goal.then-doc-end-clause-x [then-doc-end w]"
    changed = "use crate.max.Goals\nthen-end-doc c = max c.max-to.result goal.then-doc-end-clause-x [then-end-doc w]"
    yield "a proof with its names changed along", renamed(text, names), changed
    lacked = ["A.antt:8:73: error: `invariant-loop-at`: record `Live-loop-at`\n  has no field `index`"]
    yield "a loop's variable", renames_of(lacked, {".loop-index": ".loop-at"}), {".index": ".at"}


def texts():
    """The rows of what a text says by its form, and of what a proof above sees of a file."""
    for old, new in SAME:
        yield f"says the same: {new}", says_the_same(old, new), True
    for old, new in OTHER:
        yield f"says another thing: {new}", says_the_same(old, new), False
    for old, new, is_seen in SEEN:
        now = contracts_of("src/lib.rt", CRATE.replace(old, new))
        yield f"seen from above: {new.strip()}", now != contracts_of("src/lib.rt", CRATE), is_seen
    yield "seen from above: an answer", contracts_of("proofs/f/Answers.antt", "x"), None
    yield "seen from above: a lemma", contracts_of("proofs/Lemmas.antt", "x"), "x"


def names():
    """The rows of what an edit calls a function."""
    crate = SimpleNamespace(files=lambda: FILES, read=FILES.get)
    for name, wanted in NAMED.items():
        yield f"the name {name}", what_lacks(crate, name), wanted


def tried():
    """The rows of which edits are tried."""
    for what, *given, is_tried in TRIED:
        now, before, commit = given if given[0] else (BEFORE, None, given[2])
        yield f"tried: {what}", bool(why_tried("a/b.edit", now, before, commit)), is_tried
    names = [f"a/{it}.edit" for it in range(1000)]
    of_tenth = [it for it in names if why_tried(it, BEFORE._replace(below="x"), BEFORE, "commit")]
    yield "a tenth of a thousand", 70 < len(of_tenth) < 130, True
    yield "by chance", len({*by_chance(names, "seed")}), CHANCES
    yield "by chance, by the seed", by_chance(names, "seed") == by_chance(names[::-1], "seed"), True
    yield "by chance, by another", by_chance(names, "seed") == by_chance(names, "other"), False
    crates = [f"{'abcdefghij'[it % 10]}/{it}.edit" for it in range(1000)]
    yield "by chance, of few crates", len({it[0] for it in by_chance(crates, "seed")}) <= 2, True
    yield "by chance, of all crates in turn", len({it[0] for n in range(100) for it in by_chance(crates, str(n))}), 10
    yield "by chance, of few names", by_chance(names[:3], "seed"), names[:3]


def plans():
    """The rows of what a run tries, where the file vouches for an edit, and where this machine refused it itself."""
    for what, chance, is_all, at_home, is_tried in [
        ("the file vouches for it", set(), False, False, False),
        ("the file vouches for it, and it is drawn", {"a/b.edit"}, False, False, True),
        ("refused here, and drawn", {"a/b.edit"}, False, True, False),
        ("refused here, and all are tried", set(), True, True, True),
    ]:
        plan = Plan("commit", is_all, {"a/b.edit": BEFORE}, SimpleNamespace(has=lambda *given, it=at_home: it))
        plan.chance = chance
        yield f"planned: {what}", bool(plan.why_tried("a/b.edit", BEFORE)), is_tried
    yield "vouched for, whatever changed below", plan.is_vouched_for("a/b.edit", BEFORE._replace(below="x")), True
    yield "not vouched for in another crate", plan.is_vouched_for("a/b.edit", BEFORE._replace(crate="x")), False


def files():
    """The rows of the file of what was refused."""
    os.environ["CI"] = "false"
    with tempfile.TemporaryDirectory() as room:
        os.makedirs(f"{room}/a")
        for name in ("b", "c"):
            with open(f"{room}/a/{name}.edit", "w", encoding="utf-8"):
                pass
        path, all_three = f"{room}/refused.txt", {f"a/{it}.edit": BEFORE for it in "bcd"}
        yield "a file that is not there", read(path), {}
        write(all_three, path)
        yield "a line for each edit that is there", sorted(read(path)), ["a/b.edit", "a/c.edit"]
        write({"a/b.edit": BEFORE._replace(crate="x")}, path)
        yield "a line written anew", read(path)["a/b.edit"].crate, "x"
        os.environ["CI"] = "true"
        void(path)
        yield "a machine that only reads it", len(read(path)), 2
        os.environ["CI"] = "false"
        void(path)
        yield "a file that is void", read(path), {}


def minutes():
    """The rows of how long crates take."""
    seen = [(7, "low", 30.0, False), (8, "low", 6.0, True), (9, "low", 90.0, False)]
    told = CrateMinutes(lambda roots: seen)
    told.look(100.0)
    yield "a crate that is proved", told.hear("rt: low proved", 160.0), "low"
    yield "another line", told.hear("rt: low: trying its must-fail edits (3)", 170.0), None
    told.hear("rt: high is kept: an earlier run", 180.0)
    # a later run keeps what one before it proved
    told.hear("rt: low is kept: an earlier run", 190.0)
    yield "the table", told.table({"low": 12.0})[2:], [
        "| low | 1.0 | 2.0 | 0.2 |",
        "| kept: 1 |  |  | 0.0 |",
        "| all proofs |  | 2.0 | 0.2 |",
        "| all of must-fail/ |  | 0.1 |  |",
    ]


def main():
    rows = [row for part in (refusals, renames, texts, names, tried, plans, files, minutes) for row in part()]
    wrong = [it for it in rows if it[1] != it[2]]
    for name, found, wanted in wrong:
        print(f"{name}: {found!r}, and not {wanted!r}")
    print(f"refusal rows: {len(rows) - len(wrong)} as wanted" + (f", {len(wrong)} not" if wrong else ""))
    return 1 if wrong else 0


if __name__ == "__main__":
    sys.exit(main())
