"""Runs in which a request for memory is refused, each in turn."""

import os
import shutil

HERE = os.path.dirname(os.path.abspath(__file__))

# A run over these few files asks for memory less often.
MANY = 20000
RUNS = [
    ("texts", ['(fox OR "brown fox"~2^3) AND (qui* grüße -unicorn name:birds)', "--json"]),
    ("texts", ['"quick bro"* OR (dog* -unicorn)', "--files", "--explain", "1"]),
    ("texts", ["fox", "--glob", "!{a,b}/*.{x,y}", "--glob", "*.{md,txt}", "-t", "md", "-t", "txt", "--notes"]),
    ("tables", ["--csv", "says", "ding OR woof", "--json", "animals.csv"]),
    ("tables", ["--json-key", "says", "hoot OR ding", "--json", "animals.jsonl"]),
    ("tables", ["--csv-fields", "says:ding OR animal:bell", "animals.csv"]),
    ("tables", ["--json-fields", "says:hoot -name:unicorn", "animals.jsonl"]),
]


def check(command, report, room):
    """Either what is wanted is written, or whole lines of its beginning, and then it is told why."""
    for part, words in RUNS:
        folder = f"{room}/refused/{part}"
        shutil.copytree(f"{HERE}/{part}", folder, dirs_exist_ok=True)
        write_others(folder)
        check_run(command, report, folder, words)


def write_others(folder):
    """An ignore file, and texts that are written in other ways."""
    others = {".gitignore": b"*.log\n!x\n", "wide.txt": "a wide fox".encode("utf-16"), "latin.txt": b"caf\xe9 fox\n", "zero.txt": b"\0"}
    for name, content in others.items():
        with open(f"{folder}/{name}", "wb") as it:
            it.write(content)


def check_run(command, report, folder, words):
    wanted = command.run(*words, folder=folder)
    refusals = 0
    for number in range(1, MANY):
        outcome, is_refused = command.run_refused(number, *words, folder=folder)
        if not is_refused:
            break
        refusals += 1
        if outcome != wanted:
            is_told = outcome.status == 2 and "memory" in outcome.told
            is_begun = wanted.text.startswith(outcome.text) and outcome.text[-1:] in ("", "\n")
            report.expect_same(f"request {number} of {words} refused", (True, True, outcome), (is_told, is_begun, outcome))
    report.expect_same(f"{words} without a refusal", wanted, outcome)
    report.expect_same(f"that requests of {words} were refused", True, refusals > 100)
