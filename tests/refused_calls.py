#!/usr/bin/env python3
"""Whether rows show of every public call that it is refused each of its requests for memory, or takes none.

    python3 tests/refused_calls.py

Public calls are read from the sources: functions of a crate, of its types, and of its traits for each type
that has them, whose answer is a `Result` of `QueryError`, `AllocError`, `RowsError`, `MergeError`, `RunError`,
`StoreError`, `FolderError`, `ParseError` or `Unparsed`. tests/refused_calls.txt says by which words rows name each. So with the types
that have the traits of ROWS, whose calls can't be refused. A call or a type that is not there, a name there that no call or type
has, and a call without such a row are printed; the exit status is 1 where there is one.
"""

import os
import re
import sys

ROOT = os.path.realpath(os.path.join(os.path.dirname(os.path.abspath(__file__)), ".."))
TABLE = "tests/refused_calls.txt"
# the program in C each of whose requests is refused in turn
REFUSED = "bindings/c/tests/refused.c"
CRATES = (
    "qm_docset qm_schema qm_postings qm_index qm_store qm_merge qm_folder qm_combine qm_term qm_phrase qm_scorer "
    "qm_weight qm_query qm_script qm_parser"
).split()
# by trait the rows that name its calls, none of which takes memory
ROWS = {
    "DocSet": "doc advance seek seek_danger fill fill_below count total hint cost",
    "Scorer": "score max_score",
    "Postings": "freq max_term_freq append positions positions_with_offset",
    "ScoreCombiner": "clear update score",
    "ExclusionSet": "contains",
    "HasLen": "len is_empty",
}
FAILS = re.compile(r"-> Result<.*\b(QueryError|AllocError|RowsError|MergeError|RunError|StoreError|FolderError|ParseError|Unparsed)>")
ALLOCATOR = re.compile(r"\w: Global\b")
GENERICS = r"(?:<(?:[^<>]|<[^<>]*>)*>)?"
BLOCK = re.compile(rf"(?:pub )?(impl|trait)\b{GENERICS} (?:(\w+){GENERICS} for )?(\w+)({GENERICS})")
FUNCTION = re.compile(r" *(pub )?fn (\w+)")
# what a block or a row of a case begins with where requests are refused
EACH, NONE = "refused each ", "takes no memory"
# a row that is all about such refusals
EACH_OF_A_RUN = "each request fails"


def exported(crate):
    """The names that a crate exports."""
    with open(f"{ROOT}/crates/{crate}/src/lib.rt", encoding="utf-8") as it:
        uses = re.findall(r"^pub use ([^;]+);", it.read(), re.MULTILINE)
    return {name for use in uses for name in re.findall(r"\w+", use.rpartition("::")[2])}


def signature(lines, at):
    """The signature of the function that begins in this line."""
    told = lines[at]
    while not re.search(r"[{};]$", told) and not re.match(r" *(ensures|requires|\{)", lines[at + 1]):
        at += 1
        told += f" {lines[at].strip()}"
    return re.sub(r" ensures .*", "", told)


def functions(crate):
    """The functions of a crate that may be refused: whether each is marked as public, its block (`impl` or `trait`,
    the trait that is implemented, the type), its name, and whether it is handed an allocator. Each block is told
    besides, without a name."""
    for folder, _, names in os.walk(f"{ROOT}/crates/{crate}/src"):
        for name in sorted(names):
            with open(f"{folder}/{name}", encoding="utf-8") as it:
                lines = it.read().split("\n")
            block = None
            for at, line in enumerate(lines):
                head, function = BLOCK.match(line), FUNCTION.match(line)
                if line == "}":
                    block = None
                if head:
                    boxed = head[4] if head[3] == "Box" else ""
                    block = (head[1], head[2], head[3] + boxed)
                    yield True, block, None, False
                if function:
                    told = signature(lines, at)
                    if FAILS.search(told):
                        yield bool(function[1]), block, function[2], bool(ALLOCATOR.search(told))


def public_calls():
    """The public calls that may be refused, each as its crate and its name, with whether it is handed an allocator.
    A trait's call is one of each type that has the trait, also where the type has no body of its own for it."""
    known = {crate: exported(crate) for crate in CRATES}
    found = [(crate, *it) for crate in CRATES for it in functions(crate)]
    of_traits, calls = {}, {}
    for crate, _, block, name, takes in found:
        if name and block and block[0] == "trait" and block[2] in known[crate]:
            of_traits.setdefault(block[2], []).append((name, takes))
    for crate, is_public, block, name, takes in found:
        if block is None and is_public and name in known[crate]:
            calls[f"{crate} {name}"] = takes
        if block is None or block[0] == "trait" or block[2] not in known[crate] | {"Box<AnyQuery>"}:
            continue
        if name and (is_public or block[1]):
            calls[f"{crate} {block[2]}::{name}"] = takes
        for other, takes in of_traits.get(block[1], []):
            calls[f"{crate} {block[2]}::{other}"] = takes
    return calls


def types():
    """The types that have a trait of ROWS, each as its crate and its name, with the rows that name the calls of its
    traits. Those of a generic parameter are any type's."""
    found = {}
    for crate in CRATES:
        known = exported(crate) | {"Box", "Vec"}
        for _, block, _, _ in functions(crate):
            name = block[2].partition("<")[0] if block else ""
            if name in known and block[1] in ROWS:
                found.setdefault(f"{crate} {name}", set()).update(ROWS[block[1]].split())
    return found


def rows_of(path):
    """What the rows of a case file say: a block's words and a call's, how requests are refused, and the answer. A
    block's own making is a row without a call."""
    with open(path, encoding="utf-8") as it:
        lines = it.read().split("\n")
    block, is_none = [], False
    for line in lines:
        said, _, answer = line.strip().partition(" = ")
        if not said or said.startswith("#"):
            continue
        if not line.startswith(" "):
            is_none = False
        said = re.sub(r"^repeat \d+\.\.\d+ ", "", said) if line.startswith(" ") else said
        if line.startswith(" ") and said == NONE:
            is_none = True
            continue
        is_each, takes_none = said.startswith((EACH, EACH_OF_A_RUN)), is_none or said.startswith(f"{NONE} ")
        words = re.sub(f"^({EACH}|{NONE} )", "", said).split()
        how = "each" if is_each else ("all" if answer == "refused Memory" else "none") if takes_none else ""
        if line.startswith(" "):
            yield block, words, how
        else:
            block = words
            yield block, [], how


def begins(words, pattern):
    """Whether these words begin as a pattern says; `*` is any word."""
    return len(words) >= len(pattern) and all(it in ("*", word) for it, word in zip(pattern, words))


class Pattern:
    """By which words rows name a call: `BLOCK`, or `BLOCK > ROW`; a name of a crate before them says whose cases."""

    def __init__(self, text):
        block, _, row = text.partition(">")
        self.block, self.row = block.split(), row.split()
        self.crate = self.block.pop(0) if self.block[0] in CRATES else ""

    def names(self, crate, block, row):
        is_row = begins(row, self.row) if self.row else not row
        return is_row and begins(block, self.block) and self.crate in ("", crate)


def read_table():
    """The lines of the table: what is shown (`each`, `all`, `none`, `calls`), of which call, and its patterns."""
    with open(f"{ROOT}/{TABLE}", encoding="utf-8") as it:
        lines = [line.strip() for line in it]
    for line in lines:
        if line and not line.startswith("#"):
            call, _, patterns = line.partition(": ")
            how, _, call = call.partition(" ")
            yield how, call.strip(), [it.strip() for it in patterns.split(",")] if patterns else []


def all_rows():
    """The rows of all cases, by how requests are refused."""
    rows = {"each": [], "all": [], "none": []}
    for crate in next(os.walk(f"{ROOT}/tests/cases"))[1]:
        for name in sorted(os.listdir(f"{ROOT}/tests/cases/{crate}")):
            for block, row, how in rows_of(f"{ROOT}/tests/cases/{crate}/{name}"):
                if how:
                    rows[how].append((crate, block, row))
    return rows


def type_faults(table):
    """What of the types' traits no `calls` line of the table has rows for."""
    wanted, listed = types(), set()
    called = {call: set(rows[0].split()) for how, call, rows in table if how == "calls"}
    for how, said, blocks in table:
        if how != "type":
            continue
        name, _, without = said.partition(" without ")
        listed.add(name)
        yield from (f"{name}: no line `calls {it}`" for it in blocks if it not in called)
        told = set(without.split()).union(*(called.get(it, ()) for it in blocks))
        missing = sorted(wanted.get(name, set()) - told)
        if name not in wanted:
            yield f"{name}: no public type has this name and a trait whose calls take no memory"
        if missing:
            yield f"{name}: no `calls` line has its rows {' '.join(missing)}"
    yield from (f"{it}: the table doesn't have the type" for it in sorted({*wanted} - listed))


def main():
    rows, table = all_rows(), list(read_table())
    calls, faults, listed, shown = public_calls(), [*type_faults(table)], set(), 0
    with open(f"{ROOT}/{REFUSED}", encoding="utf-8") as it:
        refused = set(re.findall(r"\bbirchagain_\w+(?=\()", it.read()))
    for how, call, patterns in table:
        if how == "type":
            continue
        if how == "calls":
            # several rows of one block, all of them behind `takes no memory`
            patterns, how, named = [f"{call} > {it}" for it in patterns[0].split()], "none", call
        else:
            named = call
            listed.add(call)
            if call not in calls:
                faults.append(f"{call}: no public call has this name, or it can't be refused")
            if how == "bare" and calls.get(call):
                faults.append(f"{call}: it is handed an allocator")
        if how == "bare":
            continue
        if how == "export":
            shown += len(patterns)
            faults += [f"{call}: {REFUSED} doesn't call {it}" for it in patterns if it not in refused]
            continue
        if not patterns:
            faults.append(f"{call}: the table doesn't say by which words rows name it")
        for pattern in patterns:
            told = Pattern(pattern)
            shown += 1
            if not any(told.names(*it) for it in rows[how]):
                what = {"each": "`refused each`", "all": "`takes no memory` and `refused Memory`"}
                faults.append(f"{named}: no row `{pattern}` with {what.get(how, '`takes no memory`')}")
    faults += [f"{it}: the table doesn't have it" for it in sorted({*calls} - listed)]
    for fault in faults:
        print(f"{TABLE}: {fault}")
    print(f"refused calls: {shown} as wanted" if not faults else f"refused calls: {len(faults)} not as wanted")
    return 1 if faults else 0


if __name__ == "__main__":
    sys.exit(main())
