"""Cases of updates of an index in a folder, by chance: each call of the folder refused in turn. Cases of files that an
index has kept beside files that are found."""

from model.folders import MANIFEST, SETTLING, STAGED, Change, changed, is_clean, is_settled
from generators.spelled import row

NAMES = ("a", "b", "c", "d", "e")
TEXTS = ("", "x", "one", "two", "three")


def some(random, names, most):
    return random.sample(names, random.randrange(min(most, len(names)) + 1))


def change_by_chance(random):
    before = {name: random.choice(TEXTS) for name in some(random, NAMES, 4)}
    manifest_before = ",".join(some(random, [*before], 4)) if random.randrange(4) else None
    fresh = [it for it in NAMES if it not in before] if random.randrange(4) else [*NAMES]
    files = {name: random.choice(TEXTS) for name in some(random, fresh, 3)}
    gone = some(random, [it for it in NAMES if it not in files], 3)
    known = [it for it in {**before, **files} if it not in gone or not random.randrange(5)]
    manifest = ",".join(some(random, sorted(known), 4))
    if manifest == manifest_before:
        manifest += ",z"
    if manifest_before is None:
        before = {}
    return Change(before, manifest_before, files, manifest, gone)


def spelled(files, manifest):
    texts = [] if manifest is None else [f"manifest:{manifest}"]
    return " ".join([*texts, *(f"{name}:{text}" for name, text in files.items())])


def by_chance(random):
    change = change_by_chance(random)
    parts = [spelled(change.before, change.manifest_before), spelled(change.files, change.manifest), " ".join(change.gone)]
    yield " ".join(" ; ".join(["memory " + parts[0], *parts[1:]]).split())
    calls = len(change.calls())
    yield row("calls", calls)
    for fails in range(calls + 1):
        folder, is_done = change.run(fails)
        yield row(f"fails {fails}", " ".join(["done" if is_done else "failed", *change.left(folder)]))
        if not is_done:
            yield row(f"sees {fails}", change.seen(folder))
    folder, _ = change.run(None)
    yield row("names", " ".join(sorted(folder.seen)))


def names_of_updates(random):
    known = [f"{letter}{number}" for letter in "abcdmz" for number in ("", "1", "22")]
    for _ in range(10):
        new = random.sample(known, random.choice([0, 1, 2, 5, 12]))
        gone = random.sample([it for it in known if it not in new], random.randrange(4))
        match random.randrange(6):
            case 0 if new:
                new.insert(random.randrange(len(new) + 1), random.choice(new))
            case 1 if new:
                gone.insert(random.randrange(len(gone) + 1), random.choice(new))
            case 2:
                names = random.choice([new, gone])
                names.insert(random.randrange(len(names) + 1), random.choice([MANIFEST, STAGED]))
        yield " ".join(["names", *new, ";", *gone])
        yield row("clean", "yes" if is_clean(new, gone) else "no")


# parts of paths, of which some are no text and some begin others
PARTS = (b"", b"a", b"a", b"b", b"\x00", b"\x7f", b"\x80", b"\xff", b"ab", b"/")
NUMBERS = (0, 1, 2, 255, 256, 2**32, 2**64 - 1)
TIMES = (0, 1, SETTLING - 1, SETTLING, SETTLING + 1, 10 * SETTLING, 2**63, 2**64 - 1)


def spelled_path(path):
    return "".join(chr(it) if chr(it).isalnum() and it < 128 else f"%{it:02x}%" for it in path)


def spelled_file(path, stamp, settled=True):
    return ":".join([spelled_path(path), *map(str, stamp), *([] if settled else ["unsettled"])])


def stamp_by_chance(random):
    return tuple(random.choice(NUMBERS[: random.choice([1, 2, 7])]) for _ in range(4))


def nearly(random, stamp):
    """The stamp, or one that differs in a part."""
    if random.random() < 0.6:
        return stamp
    place = random.randrange(4)
    return (*stamp[:place], random.choice(NUMBERS), *stamp[place + 1 :])


def changed_files(random):
    paths = {b"".join(random.choices(PARTS, k=random.randrange(4))) for _ in range(random.choice([0, 1, 2, 4, 8, 20]))}
    share = random.choice([0.2, 0.5, 0.9, 1])
    kept = [(it, stamp_by_chance(random), random.random() < 0.8) for it in sorted(paths) if random.random() < share]
    stamps = {path: stamp for path, stamp, _ in kept}
    there = [it for it in sorted(paths) if random.random() < random.choice([0.5, 0.9, 1])]
    found = [(it, nearly(random, stamps.get(it) or stamp_by_chance(random))) for it in there]
    words = [*(spelled_file(*it) for it in kept), ";", *(spelled_file(*it) for it in found)]
    yield " ".join(["changes", *words])
    gone, to_read = changed(kept, found)
    yield row("changes", " ".join(map(str, ["gone", *gone, "read", *to_read])))
    random.shuffle(kept)
    random.shuffle(found)
    are_sorted = [[it[0] for it in files] == sorted(it[0] for it in files) for files in (kept, found)]
    words = [*(spelled_file(*it) for it in kept), ";", *(spelled_file(*it) for it in found)]
    yield " ".join(["changes", *words])
    yield row("ascend", ("none", "found", "kept", "both")[2 * are_sorted[0] + are_sorted[1]])
    times = [random.choice(TIMES) for _ in range(2)]
    yield " ".join(["stamp", *map(str, times)])
    for read_at in (random.choice(TIMES), min(max(times) + random.choice(TIMES[1:5]), 2**64 - 1)):
        yield row(f"read {read_at}", "settled" if is_settled(*times, read_at) else "unsettled")
