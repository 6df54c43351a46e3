"""Indexes as bytes and pickled: what they hold then, and what bytes are refused."""

import copy
import os
import pickle
import random
import struct
import subprocess
import sys

import pytest
from birchagain import ClosedError, FormatError, Index, NoDocumentError, WordError
from test_beside_the_model import Beside

HEAD = b"birchall" + struct.pack("<Q", 1)


def small_index():
    """Three segments, of which the second has a deleted document; one word has a weight of its own."""
    index = Index(["a b a", "b"])
    index.end_segment()
    for document in ("a c", "c c"):
        index.add(document)
    index.end_segment()
    index.delete(3)
    index.add("d a")
    index.weigh({"a": 2000})
    return index


def told(index):
    """What an index answers: as many documents, words and scores as `small_index` has."""
    tops = [index.top(f"{word} a", 10) for word in "abcd"]
    return len(index), index.frequencies("abcd"), index.count("c"), index.count('"b a"'), tops


# the scores are 2000 * n / (n + length) for `a`, which stands there n times, and 1000 * n / (n + length) for the others
TOLD = (5, [3, 2, 2, 1], 1, 1, [
    [(0, 1600), (2, 1332), (4, 1332)],
    [(0, 1050), (2, 666), (4, 666), (1, 500)],
    [(2, 999), (0, 800), (4, 666)],
    [(4, 999), (0, 800), (2, 666)],
])


@pytest.mark.parametrize("through", [
    lambda index: Index.from_bytes(index.to_bytes()),
    lambda index: Index.from_bytes(bytearray(index.to_bytes())),
    lambda index: Index.from_bytes(memoryview(index.to_bytes())),
    *(lambda index, protocol=protocol: pickle.loads(pickle.dumps(index, protocol)) for protocol in range(pickle.HIGHEST_PROTOCOL + 1)),
    copy.copy,
    copy.deepcopy,
])
def test_there_and_back(through):
    with small_index() as index:
        assert told(index) == TOLD
        with through(index) as other:
            assert told(index) == told(other) == TOLD
            # from there on each goes its own way
            other.delete(0)
            other.add("e")
            index.add("f")
            assert (len(other), len(index)) == (6, 6)
            assert other.frequencies("ef") == [1, 0] and index.frequencies("ef") == [0, 1]
            assert index.count("a") == 3 and other.count("a") == 2


def test_same_bytes_again():
    with small_index() as index:
        data = index.to_bytes()
        assert index.to_bytes() == data and Index.from_bytes(data).to_bytes() == data
        index.delete(0)
        assert index.to_bytes() != data


def test_no_documents():
    for index in (Index(), Index([""])):
        other = Index.from_bytes(index.to_bytes())
        assert len(other) == len(index) and other.frequencies(["a"]) == [0]
        other.add("a")
        assert other.count("a") == 1


def test_many_documents():
    with Index(f"all w{n % 7} x{n % 1000}" for n in range(20_000)) as index:
        with Index.from_bytes(index.to_bytes()) as other:
            assert other.frequencies(["all", "w6", "x3"]) == [20_000, 2857, 20]
            assert other.top("x3", 3) == index.top("x3", 3)


class Named(Index):
    """A subclass with an attribute of its own."""


def test_subclass():
    index = Named(["a"])
    index.name = "mine"
    other = pickle.loads(pickle.dumps(index))
    assert type(other) is Named and other.name == "mine" and other.count("a") == 1
    assert not hasattr(Named.from_bytes(index.to_bytes()), "name")


def test_pickled_elsewhere(tmp_path):
    """Another process reads what was pickled here."""
    with small_index() as index, open(tmp_path / "pickled", "wb") as it:
        pickle.dump(index, it)
    program = "import pickle, sys; print(pickle.load(open(sys.argv[1], 'rb')).count('a'))"
    folder = os.path.dirname(os.path.dirname(os.path.abspath(__file__)))
    path = os.pathsep.join([folder, os.environ.get("PYTHONPATH", "")])
    words = [sys.executable, "-c", program, str(tmp_path / "pickled")]
    ran = subprocess.run(words, check=True, stdout=subprocess.PIPE, text=True, env={**os.environ, "PYTHONPATH": path})
    assert ran.stdout == "3\n"
    assert pickle.loads(pickle.dumps(WordError(68))).status == 68
    assert pickle.loads(pickle.dumps(FormatError(82))).status == 82


def test_what_is_no_index():
    for data, status in ((b"", 80), (HEAD[:15], 80), (b"x" * 100, 80), (HEAD[:8] + struct.pack("<Q", 2), 81), (HEAD, 82), (HEAD + b"x", 82)):
        with pytest.raises(FormatError) as caught:
            Index.from_bytes(data)
        assert caught.value.status == status and isinstance(caught.value, ValueError)
    for data in ("birchall", 16, None):
        with pytest.raises(TypeError):
            Index.from_bytes(data)


def test_closed():
    index = small_index()
    index.close()
    for call in (index.to_bytes, lambda: pickle.dumps(index)):
        with pytest.raises(ClosedError):
            call()


def is_refused(data):
    try:
        index = Index.from_bytes(data)
    except FormatError:
        return True
    assert told(index) == TOLD
    return False


def test_each_bit_and_each_cut():
    """Other bytes are refused, or they are the same index."""
    with small_index() as index:
        data = bytearray(index.to_bytes())
    assert not is_refused(data)
    for bit in range(8 * len(data)):
        data[bit // 8] ^= 1 << bit % 8
        assert is_refused(data), bit
        data[bit // 8] ^= 1 << bit % 8
    for length in range(len(data)):
        assert is_refused(data[:length]), length
    assert is_refused(data + b"\0") and is_refused(data + data[16:])
    assert not is_refused(data)


def test_any_bytes():
    """No bytes make the library fail otherwise than by a refusal."""
    chance = random.Random(1)
    with small_index() as index:
        data = index.to_bytes()
    for _ in range(3000):
        it = bytearray(data)
        for _ in range(chance.choice([1, 2, 5])):
            at, length = chance.randrange(len(it)), chance.choice([0, 1, 8, 50])
            it[at : at + length] = chance.choice([b"", b"\xff" * 8, chance.randbytes(length), it[chance.randrange(len(it)) :][:length]])
        is_refused(it)


@pytest.mark.parametrize("seed", range(200))
def test_beside_the_model(seed):
    """An index by chance answers as the plain model does, also when it is read back in between."""
    chance = random.Random(seed)
    beside = Beside(chance, Index())
    for _ in range(chance.choice([3, 20, 40])):
        beside.step()
        if chance.random() < 0.2:
            before = beside.index
            if beside.script.segments[-1]:
                beside.script.segments.append([])
            beside.index = chance.choice([
                lambda: Index.from_bytes(before.to_bytes()),
                lambda: pickle.loads(pickle.dumps(before)),
            ])()
            before.close()
    beside.count_words()
    beside.search()
    with pytest.raises(NoDocumentError):
        beside.index.delete(len(beside.documents()))
