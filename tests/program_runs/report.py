"""What was wanted of the runs and what came: each difference is printed, and counted."""

import functools
import multiprocessing

# So much of a long value is shown, from a little before the first difference on.
SHOWN = 200


class Report:
    """Counts the differences."""

    def __init__(self, name="program runs"):
        self.name, self.failed = name, 0

    def expect(self, name, text, status, outcome):
        """The run of this name wrote just this text, and ended with this status."""
        self.expect_same(name, (text, status), (outcome.text, outcome.status))

    def expect_same(self, name, wanted, got):
        """What a run of this name is known by is just as wanted."""
        if wanted != got:
            self.failed += 1
            print(f"{self.name}: {name}")
            print(f"  wanted {_shown(wanted, got)}")
            print(f"  got    {_shown(got, wanted)}")

    def close(self, runs):
        """Prints how many runs went as wanted, or what failed of them, and gives the exit status."""
        if self.failed:
            print(f"{self.name}: {self.failed} failed")
            return 1
        print(f"{self.name}: {runs} as wanted")
        return 0


def in_parallel(program, report, check, parts, jobs):
    """Calls `check(program, report, part)` for each part, by so many processes; their runs and differences are
    counted as if there were one."""
    with multiprocessing.Pool(jobs) as pool:
        for runs, failed in pool.imap_unordered(functools.partial(_check_part, program, check), parts):
            program.runs += runs
            report.failed += failed


def _check_part(program, check, part):
    runs, report = program.runs, Report()
    check(program, report, part)
    return program.runs - runs, report.failed


def _shown(value, other):
    shown, beside = repr(value), repr(other)
    same = 0
    while same < min(len(shown), len(beside)) and shown[same] == beside[same]:
        same += 1
    start = max(0, same - SHOWN // 2) if len(shown) > SHOWN else 0
    cut = shown[start : start + SHOWN]
    return ("..." if start else "") + cut + ("..." if start + SHOWN < len(shown) else "")
