#!/usr/bin/env python3
"""How what a script costs grows with its parts: each form of `tests/growth_forms.py` at n, 2n and 4n parts, run by the
program `qm_search`, as `rt ci` built it.

    python3 tests/growth.py [PROGRAM] [--table] [--by WAY] [--times K] [--only WORDS]

Where twice as many parts cost more than three times as much, less what an empty script costs, it says so, and last how
many forms grow as wanted, or how many do not. The exit status is 1 where one does not, where a run does not end with
status 0, and where the program is missing. `--table` prints the cost of each form. `--times 4` has four times as many
parts, `--only prefix` the forms alone in whose names these words stand.

The forms of STILL_SQUARE cost more, and are printed with the reason. Where one of them no longer does, the exit status
is 1 too, until its name is taken out there; by time, which is no steady measure, nothing is made of that.

What is counted are the instructions of the program, which are nearly the same however busy the machine is: by the
processor, where it tells them (`perf`), else by `valgrind`; where there is neither, the least processor time of
several runs, of more parts (`time`). `--by` asks for one of these.
"""

import argparse
import os
import re
import resource
import shutil
import subprocess
import sys
import tempfile
from concurrent.futures import ThreadPoolExecutor

sys.dont_write_bytecode = True

from growth_forms import FORMS, STILL_SQUARE

ROOT = os.path.realpath(os.path.join(os.path.dirname(os.path.abspath(__file__)), ".."))
BUILT = f"{ROOT}/crates/qm_search/out/qm_search"
# Twice as many parts may cost at most so many times as much.
MOST = 3
# How often a run is timed, how many times as many parts it then has, and how many microseconds are too few to say
# anything; a form that then costs too much is timed again, up to so many times.
TIMED, MORE, SHORT, AGAIN = 3, 16, 50_000, 3
LIMIT = 600


def run(words, script, limit=LIMIT):
    """Runs the program by these words; answers what was said, behind the answers, and how it ended."""
    with tempfile.TemporaryFile() as given:
        given.write(script)
        given.seek(0)
        how = {"stdin": given, "stdout": subprocess.DEVNULL, "stderr": subprocess.PIPE}
        ran = subprocess.run(words, **how, timeout=limit, check=False)
    return ran.stderr.decode(errors="replace"), ran.returncode


def counted(pattern, words, program, script):
    said, status = run([*words, program], script)
    found = re.search(pattern, said)
    if status != 0 or not found:
        raise ValueError(f"status {status}: {said.strip()[-200:]}")
    return int(found[1].replace(",", ""))


def by_perf(program, script):
    return counted(r"(?m)^(\d+),", ["perf", "stat", "-x,", "-e", "instructions:u"], program, script)


def by_valgrind(program, script):
    tool = ["valgrind", "--tool=cachegrind", "--cache-sim=no", "--cachegrind-out-file=/dev/null"]
    return counted(r"I +refs: +([\d,]+)", tool, program, script)


def by_time(program, script):
    """The least microseconds of a processor, of several runs."""
    taken = []
    for _ in range(TIMED):
        before = spent()
        said, status = run([program], script)
        if status != 0:
            raise ValueError(f"status {status}: {said.strip()[-200:]}")
        taken.append(spent() - before)
    return round(min(taken) * 1_000_000)


def spent():
    """The seconds of a processor that all runs so far took."""
    used = resource.getrusage(resource.RUSAGE_CHILDREN)
    return used.ru_utime + used.ru_stime


WAYS = {"perf": by_perf, "valgrind": by_valgrind, "time": by_time}


def way_here():
    """The steadiest way that this machine has."""
    if shutil.which("perf"):
        try:
            by_perf("true", b"")
            return "perf"
        except ValueError:
            pass
    return "valgrind" if shutil.which("valgrind") else "time"


def parts_of(way, form, times):
    """So many parts a form has, once, twice and four times."""
    more = 1 if form.is_bounded else times * (MORE if way == "time" else 1)
    return [form.parts * more * it for it in (1, 2, 4)]


def costs(way, program, form, times):
    """What a form costs at n, 2n and 4n parts; or what went wrong."""
    try:
        none, parts = WAYS[way](program, b""), parts_of(way, form, times)
        for _ in range(AGAIN if way == "time" else 1):
            found = [max(1, WAYS[way](program, form.script(it)) - none) for it in parts]
            if is_wanted(way, found):
                break
        return found, None
    except (ValueError, subprocess.TimeoutExpired) as error:
        return [], str(error)


def is_wanted(way, found):
    """Whether twice as many parts cost at most three times as much."""
    pairs = [(less, more) for less, more in zip(found, found[1:]) if way != "time" or more >= SHORT]
    return all(more <= MOST * less for less, more in pairs)


def judged(way, form, found, error):
    """Whether a form costs what it may, and what is to be said of it: nothing of one that grows as wanted."""
    why = STILL_SQUARE.get(form.name)
    is_well = not error and is_wanted(way, found)
    if error or (not is_well and not why):
        return False, form.name
    if not why or (is_well and way == "time"):
        return True, ""
    if is_well:
        return False, f"{form.name}, to be taken out of STILL_SQUARE since it grows as wanted"
    return True, f"{form.name}, not mended yet: {why}"


def told(form, parts, found):
    figures = " | ".join(f"{it:,}" for it in found)
    factors = ", ".join(f"{more / less:.2f}" for less, more in zip(found, found[1:]))
    return f"| {form.name} | {parts:,} | {figures} | {factors} |"


def arguments():
    parser = argparse.ArgumentParser()
    parser.add_argument("program", nargs="?", default=BUILT)
    parser.add_argument("--table", action="store_true")
    parser.add_argument("--by", choices=WAYS)
    parser.add_argument("--times", type=int, default=1)
    parser.add_argument("--only", default="")
    parser.add_argument("--jobs", type=int, default=os.cpu_count())
    return parser.parse_args()


def main():
    given = arguments()
    program, way = os.path.abspath(given.program), given.by or way_here()
    if not os.access(program, os.X_OK):
        print(f"growth: {program} is missing")
        return 1
    forms, wrong, square = [it for it in FORMS if given.only in it.name], 0, 0
    if given.table:
        print(f"by {way}\n| Form | n | at n | at 2n | at 4n | each beside the one before |\n|---|---|---|---|---|---|")
    # times are taken one behind the other
    with ThreadPoolExecutor(1 if way == "time" else given.jobs) as pool:
        all_found = pool.map(lambda form: costs(way, program, form, given.times), forms)
        for form, (found, error) in zip(forms, all_found):
            said = error or told(form, parts_of(way, form, given.times)[0], found)
            is_well, of_it = judged(way, form, found, error)
            wrong, square = wrong + (not is_well), square + (is_well and of_it != "")
            if given.table and not error:
                print(said, flush=True)
            if of_it:
                print(f"growth: {of_it}: {said}", flush=True)
    wanted = len(forms) - wrong - square
    print(f"growth: {wanted} forms as wanted, {wrong} not" if wrong else f"growth: {wanted} as wanted")
    return 1 if wrong or not forms else 0


if __name__ == "__main__":
    sys.exit(main())
