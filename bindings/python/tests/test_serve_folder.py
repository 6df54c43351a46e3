"""What is taken in of a folder, what is left out, and that changes are followed."""

import os
import threading
import time

import pytest
from birchagain.serve import collection as collections
from birchagain.serve import files, passage_index
from birchagain.serve.collection import Collection
from birchagain.serve.query import read_query

MOST = 1000


def write(path, data):
    os.makedirs(os.path.dirname(path), exist_ok=True)
    with open(path, "wb") as it:
        it.write(data if isinstance(data, bytes) else data.encode())


@pytest.fixture(autouse=True)
def always_look(monkeypatch):
    """The folder is looked at before each search, however long a look takes."""
    monkeypatch.setattr(collections, "_BETWEEN_LOOKS", 0)


def found(collection, query):
    """The paths of the files that a query finds, of each passage all."""
    answer = collection.search(read_query(query), 1, 1000, 1)
    assert answer.found == len(answer.results)
    return sorted(it.file.path for result in answer.results for it in (result.place, *result.others))


def test_what_is_left_out(tmp_path):
    folder, outside = tmp_path / "in", tmp_path / "out"
    write(outside / "secret.txt", "owl secret")
    write(folder / "a.txt", "owl")
    write(folder / "deep/er/b.md", "an owl")
    write(folder / "utf16.txt", "owl \u00e9".encode("utf-16"))
    write(folder / "utf16be.txt", "\ufeffowl".encode("utf-16-be"))
    write(folder / "bom.txt", "\ufeffowl bom")
    write(folder / "latin.txt", b"owl caf\xe9 \xff")
    write(folder / "empty.txt", "")
    write(os.fsencode(folder) + b"/no-utf8-\xff.txt", "owl of bytes")
    write(folder / "binary.dat", b"owl\0owl")
    write(folder / "large.txt", "owl " * MOST)
    write(folder / "just.txt", "owl!" * (MOST // 4))
    write(folder / ".hidden", "owl")
    write(folder / ".git/config", "owl")
    os.symlink(outside / "secret.txt", folder / "link.txt")
    os.symlink(outside, folder / "linked")
    os.symlink(folder, folder / "round")
    os.symlink("a.txt", folder / "within.txt")
    os.mkfifo(folder / "pipe")
    collection = Collection(str(folder), MOST)
    seen = [
        "a.txt",
        "bom.txt",
        "deep/er/b.md",
        "just.txt",
        "latin.txt",
        "no-utf8-\udcff.txt",
        "utf16.txt",
        "utf16be.txt",
    ]
    # those of one text are one passage, with each file that holds it
    assert found(collection, "owl") == seen
    assert found(collection, "caf") == ["latin.txt"] and found(collection, "secret") == []
    summary = collection.summary()
    assert summary.texts == len(seen) + 1
    assert summary.left_out == {"binary file": 1, "file too large": 1, "link": 4, "no plain file": 1}


def test_a_link_to_the_folder_is_followed(tmp_path):
    write(tmp_path / "there/a.txt", "owl")
    os.symlink(tmp_path / "there", tmp_path / "here")
    assert found(Collection(str(tmp_path / "here"), MOST), "owl") == ["a.txt"]


def test_changes_are_followed(tmp_path):
    write(tmp_path / "a.txt", "one owl")
    write(tmp_path / "b.txt", "two owls")
    collection = Collection(str(tmp_path), MOST)
    assert found(collection, "owl") == ["a.txt"] and found(collection, "ow*") == ["a.txt", "b.txt"]
    write(tmp_path / "a.txt", "one fox")
    assert found(collection, "owl") == [] and found(collection, "fox") == ["a.txt"]
    write(tmp_path / "sub/c.txt", "a fox")
    assert found(collection, "fox") == ["a.txt", "sub/c.txt"]
    os.remove(tmp_path / "a.txt")
    os.rename(tmp_path / "b.txt", tmp_path / "d.txt")
    assert found(collection, "fox OR owls") == ["d.txt", "sub/c.txt"]
    write(tmp_path / "d.txt", b"two owls\0")
    assert found(collection, "owls") == [] and collection.summary().left_out == {"binary file": 1}
    os.remove(tmp_path / "d.txt")
    os.symlink("/etc/passwd", tmp_path / "d.txt")
    assert found(collection, "*") == ["sub/c.txt"] and collection.summary().left_out == {"link": 1}
    assert collection.summary()[:2] == (1, 1)


def test_a_file_of_the_same_size_and_times(tmp_path):
    path = tmp_path / "a.txt"
    write(path, "one owl")
    collection = Collection(str(tmp_path), MOST)
    times = os.stat(path)
    write(path, "one fox")
    os.utime(path, ns=(times.st_atime_ns, times.st_mtime_ns))
    # it had stood for less than two seconds when it was read
    assert found(collection, "fox") == ["a.txt"]


def test_what_stands_still_is_not_read_again(tmp_path, monkeypatch):
    monkeypatch.setattr(files, "_SETTLED", 0)
    for name in ("a.txt", "b.txt"):
        write(tmp_path / name, name)
    # longer than the clock of a file takes to go on
    time.sleep(0.1)
    read = []
    is_read = files.read_text
    monkeypatch.setattr(files, "read_text", lambda path, most: read.append(path) or is_read(path, most))
    collection = Collection(str(tmp_path), MOST)
    assert len(read) == 2
    assert found(collection, "a") == ["a.txt"] and len(read) == 2
    write(tmp_path / "b.txt", "a")
    assert found(collection, "a") == ["a.txt", "b.txt"] and read[2:] == [str(tmp_path / "b.txt")]


def test_a_file_that_vanishes_while_it_is_read(tmp_path, monkeypatch):
    write(tmp_path / "a.txt", "owl")
    write(tmp_path / "b.txt", "owl")
    listed = files.files_below

    def vanishing(folder):
        listing = listed(folder)
        if (tmp_path / "a.txt").exists():
            os.remove(tmp_path / "a.txt")
        return listing

    monkeypatch.setattr(files, "files_below", vanishing)
    collection = Collection(str(tmp_path), MOST)
    assert found(collection, "owl") == ["b.txt"] and collection.summary().left_out == {}


def test_the_folder_itself_vanishes(tmp_path):
    write(tmp_path / "in/a.txt", "owl")
    collection = Collection(str(tmp_path / "in"), MOST)
    os.rename(tmp_path / "in", tmp_path / "gone")
    assert found(collection, "owl") == [] and collection.summary().left_out == {"unreadable": 1}
    os.rename(tmp_path / "gone", tmp_path / "in")
    assert found(collection, "owl") == ["a.txt"]


def test_a_worn_index_is_made_anew(tmp_path, monkeypatch):
    monkeypatch.setattr(passage_index, "_FEW_DELETED", 5)
    write(tmp_path / "stays.txt", "an owl stays")
    collection = Collection(str(tmp_path), MOST)
    for number in range(30):
        write(tmp_path / "changes.txt", f"the owl of number{number}")
        assert found(collection, f"number{number}") == ["changes.txt"]
        assert found(collection, "owl") == ["changes.txt", "stays.txt"]
        # deleted passages count in no weight
        assert collection.search(read_query("owl"), 1, 10, 1).weights.words["owl"].held == 2
        assert len(collection._passages.index) <= 8


def test_the_same_text_is_one_passage(tmp_path):
    for name in "dbac":
        write(tmp_path / f"{name}.txt", "the same owl")
    collection = Collection(str(tmp_path), MOST)
    (result,) = collection.search(read_query("owl"), 1, 10, 1).results
    assert result.place.file.path == "a.txt" and result.held_by == 4
    assert [it.file.path for it in result.others] == ["b.txt", "c.txt", "d.txt"]
    os.remove(tmp_path / "a.txt")
    write(tmp_path / "c.txt", "another owl\n\nthe same owl\n\nthe same owl")
    assert found(collection, "same") == ["b.txt", "c.txt", "d.txt"]
    assert collection.summary().passages == 2


def test_a_passage_that_stands_twice_in_a_file(tmp_path):
    text = "an owl that stands in a paragraph of some length, of sixty letters and more"
    write(tmp_path / "a.txt", f"{text}\n\n{text}\n\nend")
    collection = Collection(str(tmp_path), MOST)
    answer = collection.search(read_query("owl"), 1, 10, 1)
    assert answer.found == 1 and answer.results[0].place[1:] == (0, 1)
    write(tmp_path / "a.txt", text)
    assert found(collection, "owl") == ["a.txt"] and collection.summary().passages == 1


def test_pages(tmp_path):
    for number in range(25):
        write(tmp_path / f"{number:02}.txt", f"owl {number} " + "word " * number)
    collection = Collection(str(tmp_path), MOST)
    query = read_query("owl")
    pages = [collection.search(query, page, 10, 100) for page in (1, 2, 3, 4, 10**9)]
    assert [it.page for it in pages] == [1, 2, 3, 3, 3] and {it.pages for it in pages} == {3}
    names = [it.place.file.path for answer in pages[:3] for it in answer.results]
    assert names == [f"{number:02}.txt" for number in range(25)]
    assert pages[3].results == pages[2].results
    few = collection.search(query, 3, 10, 2)
    assert (few.page, few.pages, few.found) == (2, 2, 25)


def test_threads_search_while_files_change(tmp_path):
    write(tmp_path / "stays.txt", "an owl stays")
    collection = Collection(str(tmp_path), MOST)
    failed = []

    def search():
        try:
            for _ in range(40):
                assert "stays.txt" in found(collection, "owl")
        except BaseException as error:
            failed.append(error)

    threads = [threading.Thread(target=search) for _ in range(8)]
    for it in threads:
        it.start()
    for number in range(200):
        write(tmp_path / f"{number % 7}.txt", f"owl {number}")
        if number % 3 == 0:
            os.remove(tmp_path / f"{number % 7}.txt")
    for it in threads:
        it.join()
    assert not failed
