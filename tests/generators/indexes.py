"""Cases of an index by chance: documents of texts of many fields, deletions, ends of segments, refreshes, merges,
norms, addresses and searches, in any order, and an index that is saved and opened in between."""

from generators import spelled
from generators.spelled import row
from model import GREATEST, Document, Field, parts_built

WORDS = ("a", "b", "ab", "c", "\xe4")
NAMES = [f"f{number}" for number in range(12)]
OPTIONS = ("basic", "freqs", "positions")
PAST_ALL = 18446744073709551615
# norms of the length ids, by how they are spelled; of the last row one is less than the one before it
NORMS = {"same": [*range(256)], "2,0:0,255:3": [0, *[2] * 254, 3], "7": [7] * 256, "5,255:4": [*[5] * 255, 4]}


def document_of(fields, texts):
    """The document of these texts, each behind the name of its field: none where a field isn't known, or where two
    texts of one have a word in common."""
    found = Document(fields, {})
    for name, words in texts:
        places = Document(fields, {name: words}).places
        if name not in fields or found.places.keys() & places.keys():
            return None
        found.places.update(places)
    return found


class Index:
    """An index as it should be, with the calls that are chosen by chance, each a row."""

    def __init__(self, random):
        self.random = random
        names = NAMES[: random.choice([1, 1, 2, 3, 4, 5, 12])]
        keeps = ["positions", "positions", "freqs", "basic", "nothing"]
        self.fields = {it: Field(it, random.choice(keeps), random.random() < 0.7) for it in names}
        self.default, self.weights = random.choice([0, 1, 1000, GREATEST]), {}
        # all documents, those of them that were deleted, how many each ended segment has, each part of the open one,
        # and how many of its documents wait
        self.documents, self.deleted = [], set()
        self.ended, self.parts, self.waiting = [], [], 0
        self.is_refreshed = False
        # what was saved, and the folder
        self.folder = Folder()

    def rows(self, count):
        yield "given"
        yield from map(spelled.field, self.fields.values())
        norms, length = self.random.choice(["same", "2,0:0,255:3"]), self.random.choice([1, 2, 3, 128])
        self.norms = NORMS[norms]
        yield f"index {self.default} {norms} {length}"
        changes = [self.add] * 16 + [self.delete] * 6 + [self.refresh] * 6
        changes += [self.merge, self.end, self.set_weight, self.save] * 2 + [self.set_norms, self.open]
        changes += [self.join, self.join_small, self.leave_out]
        asks = [self.segments, self.alive, self.postings, self.postings, self.weight]
        asks += [self.address, self.number, self.norm, self.sizes, self.files]
        for _ in range(count):
            yield self.random.choice(changes)()
            if self.is_refreshed:
                yield self.random.choice(asks)()
        yield self.refresh()
        yield from (it() for it in (self.segments, self.alive, self.counted, self.ends, *[self.postings] * 4))
        yield from (it() for it in (self.norm, *[self.address, self.number] * 3))
        yield from (it() for it in (self.save, self.files, self.open, self.ends, self.sizes, self.refresh, self.alive))

    # ---- what changes it

    def texts(self):
        """Texts of some fields, now and then two of one, or one of a field that there is not."""
        names = list(self.fields)
        chosen = self.random.sample(names, self.random.choice([1, len(names), self.random.randint(1, len(names))]))
        if self.random.random() < 0.08:
            chosen.append(self.random.choice([*chosen, f"#{len(names)}"]))
        return [(it, self.random.choices(WORDS, k=self.random.choice([0, 1, 1, 2, 5]))) for it in chosen]

    def add(self):
        texts = self.texts()
        made = document_of(self.fields, texts)
        self.is_refreshed = False
        said = " ; ".join(f"{name}: {' '.join(words)}".rstrip() for name, words in texts)
        if made is None:
            return row(f"add {said}", "refused BadDocument")
        self.documents.append(made)
        self.waiting += 1
        return row(f"add {said}")

    def delete(self):
        count = len(self.documents)
        number = self.random.choice([count, PAST_ALL, *[self.random.randint(0, count)] * 8])
        if number >= count:
            return row(f"delete {number}", "false")
        self.deleted.add(number)
        return row(f"delete {number}", "true")

    def set_weight(self):
        word, points = self.random.choice(WORDS), self.random.choice([0, 7, 1000, GREATEST])
        self.weights[word] = points
        return row(f"set_weight {word} {points}")

    def set_norms(self):
        said = self.random.choice(list(NORMS))
        if NORMS[said] != sorted(NORMS[said]):
            return row(f"set_norms {said}", "refused BadNorms")
        self.norms = NORMS[said]
        return row(f"set_norms {said}")

    def end(self):
        self.ended.append(sum(self.parts) + self.waiting)
        self.parts, self.waiting, self.is_refreshed = [], 0, False
        return row("end")

    def join(self):
        if len(self.ended) < 2:
            return row("join", "false")
        self.ended[-2:] = [sum(self.ended[-2:])]
        self.folder.forget(len(self.ended) - 1)
        return row("join", "true")

    def join_small(self):
        while len(self.ended) > 1 and self.ended[-2] < 2 * self.ended[-1]:
            self.join()
        return row("join_small")

    def leave_out(self):
        end = sum(self.ended)
        gone = {it for it in self.deleted if end - sum(self.ended[-1:]) <= it < end}
        if not gone:
            return row("leave_out", "false")
        left = [it for it in range(len(self.documents)) if it not in gone]
        self.documents = [self.documents[it] for it in left]
        self.deleted = {number for number, it in enumerate(left) if it in self.deleted}
        self.ended[-1] -= len(gone)
        self.folder.forget(len(self.ended) - 1)
        return row("leave_out", "true")

    def refresh(self):
        self.parts, self.waiting, self.is_refreshed = parts_built(self.parts, self.waiting), 0, True
        return row("refresh")

    def merge(self):
        count = sum(self.parts) + self.waiting
        self.parts, self.waiting, self.is_refreshed = [count] if count else [], 0, True
        return row("merge")

    def save(self):
        """Now and then by a moment before those of the last saves, where files had these."""
        next_number = self.folder.next
        moment = self.random.choice([next_number, next_number + 7, self.random.randint(0, 5)])
        self.folder.save(self, moment)
        return row(f"save {moment}")

    def open(self):
        saved = self.folder.saved
        if saved is None:
            return row("open", "none")
        self.default, self.weights, self.norms = saved.default, {**saved.weights}, saved.norms
        self.documents, self.deleted, self.ended = [*saved.documents], {*saved.deleted}, [*saved.ended]
        self.parts, self.waiting, self.is_refreshed = [], 0, False
        self.folder.opened()
        return row("open")

    # ---- what is asked of it

    def segments(self):
        return row("segments", " ".join(map(str, [*self.ended, *self.parts])))

    def alive(self):
        return row("alive", " ".join(str(it) for it in range(len(self.documents)) if it not in self.deleted))

    def address(self):
        """Where the document of a number stands, now and then of one that there is not."""
        count = len(self.documents)
        places = [(at, doc) for at, size in enumerate([*self.ended, *self.parts]) for doc in range(size)]
        number = self.random.choice([count, PAST_ALL, *[self.random.randint(0, count)] * 8])
        return row(f"address {number}", "%d/%d" % places[number] if number < count else "none")

    def number(self):
        """The number of the document at an address, now and then at one past a segment's end, or past all segments."""
        sizes = [*self.ended, *self.parts, 0]
        at = self.random.randrange(len(sizes))
        doc = self.random.randint(0, sizes[at])
        return row(f"number {at} {doc}", sum(sizes[:at]) + doc if doc < sizes[at] else "none")

    def norm(self):
        length = self.random.choice([0, 1, 254, 255])
        return row(f"norm {length}", self.norms[length])

    def counted(self):
        return row("document_count", len(self.documents))

    def ends(self):
        return row("ended", len(self.ended))

    def sizes(self):
        return row("ended_segments", " ".join(map(str, self.ended)))

    def files(self):
        return row("files", " ".join(sorted(self.folder.names)) or "-")

    def postings(self):
        """Those of a term over all segments: deleted documents keep theirs."""
        name, word = self.random.choice(list(self.fields)), self.random.choice(WORDS)
        option, term = self.random.choice(OPTIONS), (name, word)
        listed = [(doc, it) for doc, it in enumerate(self.documents) if it.holds(term)]
        return row(f"postings {name} {word} {option}", " ".join(one(*it, term, option) for it in listed))

    def weight(self):
        words = self.random.choices([*WORDS, "other"], k=self.random.choice([1, 2, 4]))
        points = sum(self.weights.get(it, self.default) for it in words)
        return row(f"weight {' '.join(words)}", points if points <= GREATEST else "refused ScoreBound")


class Saved:
    """What a save keeps of an index: what was ended, and what terms weigh."""

    def __init__(self, index):
        count = sum(index.ended)
        self.default, self.weights, self.norms = index.default, {**index.weights}, index.norms
        self.documents, self.ended = index.documents[:count], [*index.ended]
        self.deleted = {it for it in index.deleted if it < count}


class Folder:
    """A folder as it should be, in which an index is saved: the names of its files, and what its manifest tells."""

    def __init__(self):
        self.names, self.saved = set(), None
        # the numbers of the two files of each segment that was saved, and how many of it were deleted: of the index, and
        # as the manifest has them; and the next number that a file is given
        self.kept, self.written, self.next = [], [], 1

    def save(self, index, moment):
        first = 0
        for place, size in enumerate(index.ended):
            deleted = sum(1 for it in index.deleted if first <= it < first + size)
            first += size
            if place == len(self.kept):
                self.kept.append([self.give("seg", moment), 0, 0])
            if self.kept[place][2] != deleted:
                self.kept[place][1:] = [self.give("del", moment), deleted]
        self.saved, self.written = Saved(index), [[*it] for it in self.kept]
        self.names.add("manifest")

    def give(self, kind, moment):
        """A file of the next number, or of the moment's where that is later."""
        number = max(self.next, moment)
        self.names.add(f"{number}.{kind}")
        self.next = number + 1
        return number

    def forget(self, count):
        """What was saved of the segments behind so many."""
        del self.kept[count:]

    def opened(self):
        self.kept = [[*it] for it in self.written]
        self.next = 1 + max([0, *(number for it in self.kept for number in it[:2])])


def one(doc, document, term, option):
    """A document of postings, with how often it holds the term, and where."""
    places = document.positions(term) if option == "positions" else []
    listed = f":{','.join(map(str, places))}" if places else ""
    return f"{doc}:{document.frequency(term, option != 'basic')}{listed}"


def by_chance(random):
    yield from Index(random).rows(random.choice([5, 20, 60]))
