"""Pieces of a cluster by themselves: merging, plans, the log of deletions."""

import os
import random
import resource
import signal
import tempfile
import zlib

from birchagain.distributed import LogError, merge
from birchagain.distributed.balance import plan
from birchagain.distributed.deletions import Deletions

from distributed_runs.checks import Checks

SEEDS = 300


def best(documents, most):
    """By score downwards, and of one score by number upwards."""
    return sorted(documents, key=lambda it: (-it[1], it[0]))[:most]


def merging(checks):
    for seed in range(SEEDS):
        chance = random.Random(seed)
        sizes = [chance.choice([0, 1, 5, 40]) for _ in range(chance.choice([1, 3, 8]))]
        firsts = [sum(sizes[:at]) for at in range(len(sizes))]
        parts = [[(number, chance.choice([-3, 0, 1, 7, 1 << 62])) for number in range(size)] for size in sizes]
        most = chance.choice([0, 1, 3, 10, 1000])
        whole = [(first + number, score) for first, part in zip(firsts, parts) for number, score in part]
        got = merge([best(part, most) for part in parts], firsts, most)
        checks.same(f"the best of lists of seed {seed}", best(whole, most), [tuple(it) for it in got])


def after(held, moves):
    """The workers of each partition behind the moves of a plan."""
    held = [[*it] for it in held]
    for partition, leaves, to in moves:
        if leaves is not None:
            held[partition].remove(leaves)
        if to is not None:
            held[partition].append(to)
    return held


def plans(checks):
    for seed in range(SEEDS):
        chance = random.Random(seed)
        workers = [f"w{it}" for it in range(chance.choice([1, 2, 3, 8]))]
        copies, partitions = chance.choice([1, 2, 3]), chance.choice([1, 5, 30])
        sizes = [chance.choice([0, 10, 10, 11, 500]) for _ in range(partitions)]
        held = [chance.choices([*workers, "gone"], k=chance.randrange(4)) for _ in range(partitions)]
        got = after(held, plan(held, sizes, workers, copies))
        wanted = min(copies, len(workers))
        for partition, there in enumerate(got):
            live, made = [it for it in there if it != "gone"], there.count("gone")
            checks.same(f"plan {seed}: copies of {partition} on one worker", len({*live}), len(live))
            # what is being made stays, and so does the last copy that answers
            too_many = len(there) > wanted and len(live) <= 1 and made == held[partition].count("gone")
            enough = len(there) == wanted or too_many
            checks.same(f"plan {seed}: copies of {partition}: {there} of {wanted}", True, enough)
        checks.same(f"plan {seed}: behind it nothing is to be done", [], plan(got, sizes, workers, copies))
        even_loads(checks, seed, got, sizes, workers)


def even_loads(checks, seed, held, sizes, workers):
    """No copy on the fullest worker is less than three quarters of what it has more than the emptiest."""
    loads = {it: sum((sizes[at] + 1) * there.count(it) for at, there in enumerate(held)) for it in workers}
    fullest, emptiest = max(workers, key=loads.get), min(workers, key=loads.get)
    movable = [sizes[at] + 1 for at, there in enumerate(held) if fullest in there and emptiest not in there]
    gap = loads[fullest] - loads[emptiest]
    checks.same(f"plan {seed}: loads {loads}", [], [it for it in movable if it <= 0.75 * gap])


def replayed(path):
    log = Deletions(path)
    found = log.sizes, [sorted(it) for it in log.of]
    log.close()
    return found


def written(path, chance):
    """Writes a log, and gives what it has to say behind each of its bytes."""
    sizes, of, states = [], [], {0: ([], [])}
    log = Deletions(path)
    for _ in range(30):
        if not sizes or chance.random() < 0.3:
            sizes.append(chance.randrange(1, 50))
            of.append([])
            log.add_partition(sizes[-1])
        else:
            at = chance.randrange(len(sizes))
            some = [(at, chance.randrange(sizes[at])) for _ in range(chance.choice([1, 1, 4]))]
            log.add(some)
            of[at] = sorted({*of[at], *(number for _, number in some)})
        states[os.path.getsize(path)] = [*sizes], [[*it] for it in of]
    log.close()
    return states


def logs(checks, room):
    path = f"{room}/log"
    states = written(path, random.Random(1))
    with open(path, "rb") as it:
        data = it.read()
    for length in range(len(data) + 1):
        with open(path, "wb") as it:
            it.write(data[:length])
        whole = max(end for end in states if end <= length)
        checks.same(f"a log torn at {length}", states[whole], replayed(path))
        checks.same(f"what is left of a log torn at {length}", whole, os.path.getsize(path))
    last = data[:-1].rindex(b"\n") + 1
    # (an end of a line that is none joins what is torn, if the last line follows)
    for at in range(0, last - 1, 7):
        with open(path, "wb") as it:
            it.write(data[:at] + bytes([data[at] ^ 1]) + data[at + 1 :])
        said = "line [0-9]+ is not as it was written"
        checks.raises(f"a log with another byte at {at}", LogError, said, lambda: replayed(path))


def held_log(checks, room):
    path = f"{room}/held"
    first = Deletions(path)
    checks.raises("a log that is held", LogError, "held by another", lambda: Deletions(path))
    first.begin([5, 3])
    first.add([(1, 2)])
    first.close()
    again = Deletions(path)
    for sizes in ([5], [3, 5], [5, 4, 1]):
        said = "of partitions with"
        checks.raises(f"a log of other partitions than {sizes}", LogError, said, lambda: again.begin(sizes))
    again.begin([5, 3, 9])
    checks.same("a log with a partition more", ([5, 3, 9], [[], [2], []]), (again.sizes, again.of))
    again.close()


def other_file(checks, room):
    """Whole lines that are of no log."""
    path = f"{room}/other"
    for number, said in enumerate((b"deleted 0 1", b"partition", b"partition 1 2")):
        with open(path, "wb") as it:
            it.write(b"%08x %s\n" % (zlib.crc32(said), said))
        checks.raises(f"a line of no log, {number}", LogError, "no log of deletions", lambda: Deletions(path))


def full_disk(checks, room):
    """A record that does not fit is not written, nor is half of it."""
    path = f"{room}/full"
    log = Deletions(path)
    log.begin([1000])
    signal.signal(signal.SIGXFSZ, signal.SIG_IGN)
    hard = resource.getrlimit(resource.RLIMIT_FSIZE)[1]
    resource.setrlimit(resource.RLIMIT_FSIZE, (os.path.getsize(path) + 20, hard))
    checks.raises("a record that does not fit", OSError, "", lambda: log.add([(0, it) for it in range(100)]))
    checks.same("what is deleted behind that", [[]], log.of)
    resource.setrlimit(resource.RLIMIT_FSIZE, (hard, hard))
    log.add([(0, 7)])
    log.close()
    checks.same("the log behind that", ([1000], [[7]]), replayed(path))


def main():
    checks = Checks("pieces")
    with tempfile.TemporaryDirectory() as room:
        merging(checks)
        plans(checks)
        logs(checks, room)
        held_log(checks, room)
        other_file(checks, room)
        full_disk(checks, room)
    checks.end()


if __name__ == "__main__":
    main()
