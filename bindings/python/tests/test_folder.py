"""Indexes that are saved in folders: what is written, what a crash leaves, who reads and writes meanwhile."""

import errno
import os
import random
import sys
import threading

import pytest
from birchagain import FormatError, Index, _files
from test_beside_the_model import Beside
from test_bytes import TOLD, small_index, told

sys.path.append(os.path.join(os.path.dirname(os.path.abspath(__file__)), "..", "..", "..", "tests"))

import model.folders as folder_model  # noqa: E402


def files_of(path):
    """By name what each file has, but for the lock."""
    found = {}
    for name in os.listdir(path):
        if name != "lock":
            with open(os.path.join(path, name), "rb") as it:
                found[name] = it.read()
    return found


def stamps(path):
    return {name: os.stat(os.path.join(path, name)).st_mtime_ns for name in os.listdir(path) if name != "lock"}


def endings(path):
    return sorted(name.rsplit(".", 1)[-1] for name in files_of(path))


def test_there_and_back(tmp_path):
    path = tmp_path / "a" / "b"
    with small_index() as index:
        index.save(path)
        assert told(index) == TOLD
    assert endings(path) == ["del", "manifest", "seg", "seg", "seg"]
    for given in (path, str(path), os.fsencode(path)):
        with Index.open(given) as opened:
            assert told(opened) == TOLD


def test_what_is_new_is_written(tmp_path):
    """A later save writes new segments, new deletions and the manifest, and leaves all others as they are."""
    index = small_index()
    index.save(tmp_path)
    first = stamps(tmp_path)
    index.save(tmp_path)
    assert stamps(tmp_path) == first
    index.add("new")
    index.save(tmp_path)
    second = stamps(tmp_path)
    assert {name for name in second if second[name] != first.get(name)} - {"manifest"} == second.keys() - first.keys()
    assert sorted(name[-4:] for name in second.keys() - first.keys()) == [".seg"] and first.keys() <= second.keys()
    opened = Index.open(tmp_path)
    opened.delete(0)
    opened.save(tmp_path)
    third = stamps(tmp_path)
    assert sorted(name[-4:] for name in third.keys() - second.keys()) == [".del"] and second.keys() <= third.keys()
    # a file of deletions that no manifest names goes
    opened.delete(1)
    opened.save(tmp_path)
    fourth = stamps(tmp_path)
    assert sorted(name[-4:] for name in third.keys() - fourth.keys()) == [".del"]
    again = Index.open(tmp_path)
    assert len(again) == 6 and again.count("*") == 3


def test_weights_alone(tmp_path):
    index = small_index()
    index.save(tmp_path)
    before = stamps(tmp_path)
    index.weigh({"zebra": 5})
    index.save(tmp_path)
    after = stamps(tmp_path)
    assert {name for name in after if after[name] != before[name]} == {"manifest"} and before.keys() == after.keys()


def test_several_folders(tmp_path):
    """An index may be saved in any number of folders, and a folder may get another index."""
    index, other = small_index(), Index(["other"])
    index.save(tmp_path / "a")
    index.save(tmp_path / "b")
    assert files_of(tmp_path / "a") == files_of(tmp_path / "b")
    other.save(tmp_path / "a")
    assert endings(tmp_path / "a") == ["manifest", "seg"] and Index.open(tmp_path / "a").count("other") == 1
    index.save(tmp_path / "a")
    assert told(Index.open(tmp_path / "a")) == TOLD
    copied = Index.from_bytes(index.to_bytes())
    copied.save(tmp_path / "b")
    assert files_of(tmp_path / "a") == files_of(tmp_path / "b")
    # two that come of one index and go on apart
    copied.add("one")
    index.add("another")
    copied.save(tmp_path / "b")
    index.save(tmp_path / "b")
    assert Index.open(tmp_path / "b").frequencies(["one", "another"]) == [0, 1]


def test_no_index(tmp_path):
    with pytest.raises(FileNotFoundError):
        Index.open(tmp_path)
    with pytest.raises(FileNotFoundError):
        Index.open(tmp_path / "none")
    (tmp_path / "file").write_bytes(b"")
    with pytest.raises(OSError):
        Index.open(tmp_path / "file")
    with pytest.raises(OSError):
        Index().save(tmp_path / "file")


def test_damaged(tmp_path):
    """A file that is missing, or has another byte, or belongs to another index, is found."""
    index, folder = small_index(), tmp_path / "a"
    index.save(folder)
    for name, data in files_of(folder).items():
        path = folder / name
        for wrong in (b"", data[:-1], data + b"x", bytes([data[0] ^ 1]) + data[1:], data[:-1] + bytes([data[-1] ^ 128])):
            path.write_bytes(wrong)
            with pytest.raises(FormatError):
                Index.open(folder)
        os.unlink(path)
        with pytest.raises(FormatError if name != "manifest" else FileNotFoundError):
            Index.open(folder)
        path.write_bytes(data)
    assert told(Index.open(folder)) == TOLD


def test_a_file_of_another_index(tmp_path):
    """Where a file stands that is not the one that would be written, nothing is written over it."""
    index = small_index()
    index.save(tmp_path / "a")
    Index(["x"]).save(tmp_path / "b")
    name = next(name for name in files_of(tmp_path / "a") if name.endswith(".seg"))
    (tmp_path / "b" / name).write_bytes(b"x")
    with pytest.raises(FileExistsError):
        index.save(tmp_path / "b")
    assert Index.open(tmp_path / "b").count("x") == 1


def test_files_of_others(tmp_path):
    """What is no file of an index is left alone."""
    others = {name: name.encode() for name in ("notes.txt", "x.seg", f"{(1 << 64) - 1}.seg", "9" * 30 + ".del", "12.plc", "new", "manifest.old")}
    for name, data in others.items():
        (tmp_path / name).write_bytes(data)
    small_index().save(tmp_path)
    with Index.open(tmp_path) as index:
        index.add("new")
        index.save(tmp_path)
    assert others.items() <= files_of(tmp_path).items() and len(Index.open(tmp_path)) == 6


class Died(BaseException):
    """The process ends here."""


class Calls:
    """`os`, of which one call that changes files fails: as if the process ended, or with an error of the system."""

    def __init__(self, dies_at=None, error=None, half=False):
        self.dies_at, self.error, self.half, self.done, self.count, self.names = dies_at, error, half, [], 0, {}

    def __getattr__(self, name):
        return getattr(os, name)

    def _step(self, *call):
        self.count += 1
        if self.count == self.dies_at:
            raise self.error or Died
        self.done.append(call)

    def open(self, path, flags, mode=0o777):
        name = os.path.basename(path)
        if flags & os.O_TRUNC:
            self._step("write", name, b"")
        file = os.open(path, flags, mode)
        self.names[file] = None if flags & os.O_DIRECTORY else name
        return file

    def write(self, file, data):
        try:
            self._step("write", self.names[file], bytes(data))
        except BaseException:
            if self.half:
                os.write(file, data[: len(data) // 2])
            raise
        return os.write(file, data)

    def fsync(self, file):
        self._step(*("sync", self.names[file]) if self.names[file] else ("sync_names",))
        os.fsync(file)

    def replace(self, source, target):
        self._step("rename", os.path.basename(source), os.path.basename(target))
        os.replace(source, target)

    def unlink(self, path):
        self._step("remove", os.path.basename(path))
        os.unlink(path)


def changed(path):
    """The index of a folder, which has more documents, and more of them deleted, than there."""
    index = Index.open(path)
    index.delete(0)
    index.add("x y")
    index.end_segment()
    index.add("z")
    return index


def save_with(monkeypatch, calls, index, path):
    with monkeypatch.context() as patch:
        patch.setattr(_files, "os", calls)
        index.save(path)


def steps_of(monkeypatch, tmp_path):
    """The calls that a save of a changed index makes."""
    path, calls = tmp_path / "steps", Calls()
    small_index().save(path)
    save_with(monkeypatch, calls, changed(path), path)
    return calls.done


@pytest.mark.parametrize("half", [False, True])
def test_crash_between_any_two_calls(monkeypatch, tmp_path, half):
    """Where the process ends before any call, or within a write, the folder has the index of before, or the new one."""
    steps, seen = steps_of(monkeypatch, tmp_path), []
    assert len(steps) > 15
    for at in range(1, len(steps) + 1):
        path = tmp_path / str(at)
        small_index().save(path)
        with pytest.raises(Died):
            save_with(monkeypatch, Calls(at, half=half), changed(path), path)
        with Index.open(path) as opened:
            before = told(opened) == TOLD
            seen.append(before)
            assert before or (len(opened), opened.count("*")) == (7, 5)
            # a later save goes on from there, and leaves nothing behind
            opened.add("later")
            opened.save(path)
        assert Index.open(path).frequencies(["later"]) == [1]
        assert all(name == "manifest" or _files.number_of(name) is not None for name in files_of(path))
    # the manifest counts from one moment on
    assert seen == sorted(seen, reverse=True) and True in seen and False in seen


@pytest.mark.parametrize("error", [OSError(errno.ENOSPC, "no space"), OSError(errno.EIO, "no disk")])
def test_a_call_fails(monkeypatch, tmp_path, error):
    """Where the system refuses a call the save raises, the folder has the index of before or the new one, and the next
    save of the same index succeeds."""
    for at in range(1, len(steps_of(monkeypatch, tmp_path)) + 1):
        path = tmp_path / str(at)
        small_index().save(path)
        index = changed(path)
        with pytest.raises(OSError) as caught:
            save_with(monkeypatch, Calls(at, error, half=True), index, path)
        assert caught.value is error
        with Index.open(path) as opened:
            assert told(opened) == TOLD or (len(opened), opened.count("*")) == (7, 5)
        index.save(path)
        with Index.open(path) as opened:
            assert (len(opened), opened.count("*"), opened.frequencies("xz")) == (7, 5, [1, 1])


def test_power_cut(monkeypatch, tmp_path):
    """After each call of a save, whatever the disk may have kept of what was not synced: the manifest is that of before or
    the new one, and each file that it names stands whole. By the plain model of a folder of the repository's tests."""
    path = tmp_path / "folder"
    small_index().save(path)
    before = files_of(path)
    index, calls = changed(path), Calls()
    save_with(monkeypatch, calls, index, path)
    after, folder, written, seen = files_of(path), folder_model.Folder(before), {}, set()
    for call, *names in calls.done:
        if call == "write":
            name, data = names
            written[name] = written.get(name, b"") + data if data else b""
            folder.write(name, written[name])
        else:
            getattr(folder, call)(*names)
        manifests = folder.contents("manifest")
        assert "manifest" not in folder.anything and manifests <= {before["manifest"], after["manifest"]}
        seen |= manifests
        for manifest, wanted in ((before["manifest"], before), (after["manifest"], after)):
            if manifest in manifests:
                named = {name: data for name, data in wanted.items() if name != "manifest"}
                assert all(folder.contents(name) == {data} and name not in folder.anything for name, data in named.items())
    assert seen == {before["manifest"], after["manifest"]} and folder.contents("manifest") == {after["manifest"]}


@pytest.mark.parametrize("seed", range(100))
def test_beside_the_model(seed, tmp_path):
    """An index by chance that is saved and opened in between answers as the plain model does."""
    chance = random.Random(seed)
    beside = Beside(chance, Index())
    for _ in range(chance.choice([3, 20, 40])):
        beside.step()
        if chance.random() < 0.3:
            if beside.script.segments[-1]:
                beside.script.segments.append([])
            path = tmp_path / chance.choice("ab")
            beside.index.save(path)
            if chance.random() < 0.5:
                beside.index.close()
                beside.index = Index.open(path)
    beside.count_words()
    beside.search()


def test_readers_and_writers(tmp_path):
    """While some threads save in a folder others open it: they get what one of them saved, all of it."""
    failed, over = [], threading.Event()

    def index_of(number):
        return Index(f"all of{number} w{n}" for n in range(20 * number))

    def write(number):
        try:
            index = index_of(number)
            for _ in range(15):
                index.save(tmp_path)
                index.delete(0)
                index.add(f"all of{number}")
        except BaseException as error:
            failed.append(error)

    def read():
        try:
            while not over.is_set():
                with Index.open(tmp_path) as index:
                    counts = [index.count(f"of{number}") for number in (1, 2, 3)]
                    number = 1 + next(k for k, count in enumerate(counts) if count)
                    assert sum(counts) == counts[number - 1] == index.count("*") and len(index) >= 20 * number
        except BaseException as error:
            failed.append(error)

    index_of(1).save(tmp_path)
    readers = [threading.Thread(target=read) for _ in range(3)]
    writers = [threading.Thread(target=write, args=(number,)) for number in (1, 2, 3)]
    for it in readers + writers:
        it.start()
    for it in writers:
        it.join()
    over.set()
    for it in readers:
        it.join()
    assert not failed
