"""What a crash may leave of an update of an index in a folder, by a plain simulation that knows nothing of the program; and
what has changed between the files that an index has kept and those that are found, by sets.

Of each name a folder has what is seen of it, all that a crash may leave of it, and whether what is seen is on the disk.
A write leaves anything or nothing, a sync of a file brings its bytes to the disk, a sync of the names leaves of each file
that is there what is seen. A rename leaves either file under the new name, and under the old one the file or nothing.
"""

MANIFEST, STAGED = "manifest", "manifest.new"
WORDS = ("before", "after", "neither")


class Folder:
    def __init__(self, files):
        self.seen = dict(files)
        self.left = {name: {text} for name, text in files.items()}
        self.anything, self.unwritten = set(), set()

    def write(self, name, text):
        self.seen[name] = text
        self.anything.add(name)
        self.unwritten.add(name)

    def sync(self, name):
        self.unwritten.discard(name)

    def sync_names(self):
        for name in {*self.left, *self.anything} - self.unwritten:
            self.left[name] = {self.seen.get(name)}
            self.anything.discard(name)

    def rename(self, source, target):
        self.left[target] = self.contents(target) | self.contents(source)
        if source in self.anything:
            self.anything.add(target)
        self.left[source] = self.contents(source) | {None}
        self.unwritten.discard(target)
        if source in self.unwritten:
            self.unwritten.add(target)
        self.unwritten.discard(source)
        self.seen[target] = self.seen.pop(source)

    def remove(self, name):
        self.left[name] = self.contents(name) | {None}
        self.unwritten.discard(name)
        self.seen.pop(name, None)

    def contents(self, name):
        return self.left.get(name, {None})

    def may_leave(self, name, text):
        return name in self.anything or text in self.contents(name)


class Change:
    """What an index has at first (each file by its name, and the manifest, or none), and how it changes."""

    def __init__(self, before, manifest_before, files, manifest, gone):
        self.before, self.manifest_before = before, manifest_before
        self.files, self.manifest, self.gone = files, manifest, gone

    def calls(self):
        """The calls of a folder, in turn."""
        found = []
        for name, text in [*self.files.items(), (STAGED, self.manifest)]:
            found += [("write", name, text), ("sync", name)]
        found += [("sync_names",), ("rename", STAGED, MANIFEST), ("sync_names",)]
        return [*found, *(("remove", name) for name in self.gone), ("sync_names",)]

    def begun(self):
        files = dict(self.before) if self.manifest_before is not None else {}
        if self.manifest_before is not None:
            files[MANIFEST] = self.manifest_before
        return Folder(files)

    def run(self, fails):
        """The folder behind the change, of which the call behind so many fails, and whether none did."""
        folder, calls = self.begun(), self.calls()
        for at, (call, *words) in enumerate(calls):
            if at == fails:
                if call == "write":
                    folder.write(words[0], words[1][: len(words[1]) // 2])
                return folder, False
            getattr(folder, call)(*words)
        return folder, True

    def which(self, manifest):
        if manifest == self.manifest_before:
            return "before"
        return "after" if manifest == self.manifest else "neither"

    def content(self, which, name):
        if which == "neither":
            return None
        files = {**self.before, **self.files} if which == "after" else self.before
        return files.get(name)

    def pool(self):
        """Contents that a crash could leave."""
        texts = [self.manifest, *self.files.values()]
        halves = [text[: len(text) // 2] for text in texts]
        return {None, "?", self.manifest_before, *texts, *halves, *self.before.values()}

    def left(self, folder):
        """Which indexes a crash may leave of a folder."""
        found = set()
        for manifest in self.pool():
            if not folder.may_leave(MANIFEST, manifest):
                continue
            which, names = self.which(manifest), [it for it in (manifest or "").split(",") if it]
            wanted = [(name, self.content(which, name)) for name in names]
            others = [(name, text) for name, it in wanted for text in self.pool() - {it}]
            found.add(which if all(folder.may_leave(*it) for it in wanted) else "neither")
            if any(folder.may_leave(*it) for it in others):
                found.add("neither")
        return [it for it in WORDS if it in found]

    def seen(self, folder):
        """Which index is seen in a folder."""
        manifest = folder.seen.get(MANIFEST)
        which = self.which(manifest)
        for name in (manifest or "").split(","):
            if name and folder.seen.get(name) != self.content(which, name):
                return "neither"
        return which


def is_clean(new, gone):
    """Whether the names of an update get in no one's way."""
    return len({*new}) == len(new) and not {*new} & {*gone} and not {*new, *gone} & {MANIFEST, STAGED}


SETTLING = 2_000_000_000


def changed(kept, found):
    """The places of the kept files that are gone, and of the found ones that are to be read. A kept file is its path, its
    stamp and whether it is settled, a found one its path and its stamp."""
    now = dict(found)
    staying = {path for path, stamp, settled in kept if settled and path in now and now[path] == stamp}
    gone = [place for place, (path, _, _) in enumerate(kept) if path not in staying]
    return gone, [place for place, (path, _) in enumerate(found) if path not in staying]


def is_settled(bytes_changed, changed_at, read_at):
    return all(read_at - it >= SETTLING for it in (bytes_changed, changed_at))
