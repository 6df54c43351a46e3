#!/usr/bin/env python3
"""How much stack a deep query takes: for each form of a query, how many bytes each of its levels takes at each stage of
its answer, how deep it could so be on the 8 megabytes that a Linux system gives, and the least stack with which 499 of
it are answered. The forms are those of tests/program_runs/deep_queries.py, among them a Boolean of each sign, and of
each pair and triple of signs. The last line has the least stack with which all of them are answered.

    python3 bench/measure_stack.py [PROGRAM]

Wants `objdump` and `gdb`. The functions of the program that call themselves, one by way of others too, are found in
what `objdump` says of it; then a query is answered at two depths, and each of them notes where the stack is whenever it
is called. What a stage takes for a level is what it takes more for more levels.
"""

import os
import re
import resource
import subprocess
import sys
import tempfile

HERE = os.path.dirname(os.path.abspath(__file__))
sys.dont_write_bytecode = True
sys.path.insert(0, os.path.join(HERE, "..", "tests"))

from program_runs.deep_queries import FORMS, LEVELS, script

BUILT = os.path.join(HERE, "..", "crates", "qm_search", "out", "qm_search")
STACK = 8 << 20
FEW, MANY = 3, 11
# lines with a query; the first three go through all stages
LINES = [b"scores ", b"count ", b"prune 0 ", b"docs ", b"top 3 "]
STAGED = LINES[:3]
# What stands in the names of the functions of a stage, the first that fits
STAGES = {
    "read": r"qm_script::read_query",
    "query": r"qm_script::build_query",
    "weight": r"qm_query::",
    "scorer": r"qm_weight::.*(::build|clauses)",
    "run": r"qm_weight::",
    "moves": r"qm_scorer::",
    "drop": r"::drop",
}
# What notes the stack at each call of the functions that are asked for.
GDB = """
import gdb
class Note(gdb.Breakpoint):
    def stop(self):
        rsp = int(gdb.selected_frame().read_register("rsp"))
        least, most = NOTED.get(self.of, (rsp, rsp))
        NOTED[self.of] = (min(least, rsp), max(most, rsp))
        return False
NOTED = {}
gdb.execute("starti < SCRIPT > /dev/null")
base = int(gdb.execute("info proc mappings", to_string=True).split("0x", 1)[1].split()[0], 16)
for address in FUNCTIONS:
    Note(f"*{base + address}").of = address
gdb.execute("continue")
for of, (least, most) in NOTED.items():
    print("noted", of, most - least)
"""


def functions(program):
    """The functions of the program by name, each with its address and the names of those that it calls."""
    said = subprocess.run(["objdump", "-d", "--no-show-raw-insn", program], capture_output=True, text=True, check=True)
    found, calls = {}, set()
    for line in said.stdout.splitlines():
        head = re.match(r"([0-9a-f]+) <(.*)>:$", line)
        if head:
            calls = set()
            found[head[2]] = (int(head[1], 16), calls)
        called = re.search(r"\t(?:call|j\w+) +[0-9a-f]+ <(.*?)(?:\+0x[0-9a-f]+)?>$", line)
        if called:
            calls.add(called[1])
    return found


def reached(found, name):
    """The functions that this one calls, and those that they call."""
    seen, left = set(), [name]
    while left:
        for it in found.get(left.pop(), (0, ()))[1]:
            if it not in seen:
                seen.add(it)
                left.append(it)
    return seen


def recursive(program):
    """By stage: the addresses of the functions that call themselves."""
    found = functions(program)
    named = [(stage, name) for name in found for stage, it in STAGES.items() if re.search(it, name)]
    first = {name: stage for stage, name in reversed(named)}
    called = [(stage, found[name][0]) for name, stage in first.items() if name in reached(found, name)]
    return {stage: [address for of, address in called if of == stage] for stage in STAGES}


def spans(program, called, text):
    """By address of a function: how far apart the stack is at its calls."""
    with tempfile.TemporaryDirectory() as room:
        for name, it in [("script", text), ("gdb.py", f"SCRIPT, FUNCTIONS = None, {called!r}\n{GDB}".encode())]:
            with open(f"{room}/{name}", "wb") as file:
                file.write(it.replace(b"starti < SCRIPT", b"starti < %b/script" % room.encode()))
        words = ["gdb", "-q", "-batch", "-nx", "-x", f"{room}/gdb.py", program]
        said = subprocess.run(words, capture_output=True, text=True, check=False).stdout
    return {int(address): int(span) for address, span in re.findall(r"noted (\d+) (\d+)", said)}


def bytes_of_levels(program, called, form):
    """By stage: the bytes of a level, of the line and the function that take the most."""
    most = dict.fromkeys(STAGES, 0)
    addresses = [it for of_stage in called.values() for it in of_stage]
    for line in STAGED:
        few, many = (spans(program, addresses, script(line, form, levels)) for levels in (FEW, MANY))
        for stage, of_stage in called.items():
            grown = [many[it] - few.get(it, many[it]) for it in of_stage if it in many]
            most[stage] = max([most[stage], *(round(it / (MANY - FEW)) for it in grown)])
    return most


def is_answered(program, text, size):
    def bound():
        resource.setrlimit(resource.RLIMIT_STACK, (size, size))

    return subprocess.run([program], input=text, capture_output=True, preexec_fn=bound, check=False).returncode == 0


def least_stack(program, form):
    """The least stack, in kilobytes, with which each line with so deep a query is answered."""
    least, most = 16, STACK >> 10
    while least < most:
        size = (least + most) // 2
        if all(is_answered(program, script(line, form, LEVELS), size << 10) for line in LINES):
            most = size
        else:
            least = size + 1
    return least


def main():
    program = os.path.abspath(sys.argv[1] if len(sys.argv) > 1 else BUILT)
    called, most = recursive(program), 0
    print("bytes of stack a level, and in brackets how many levels 8 megabytes have")
    print("| Form |", " | ".join(STAGES), f"| {LEVELS} of it take |")
    for form in (it.before for it in FORMS):
        levels, least = bytes_of_levels(program, called, form), least_stack(program, form)
        told = [f"{it} ({STACK // it})" if it else "none" for it in levels.values()]
        most = max(most, least)
        print(f"| `{form.decode().strip()}` |", " | ".join(told), f"| {least} kB |", flush=True)
    print(f"{most} kB are enough for all of them")


if __name__ == "__main__":
    main()
