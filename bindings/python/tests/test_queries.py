"""Queries in both languages, and the words of one."""

import pickle

import birchagain
import pytest
from birchagain import Hit, Index, QueryError, query_words

TEXTS = ["an old apple tree", "an apple a day", "woodpeckers nest in old trees"]


@pytest.fixture
def index():
    with Index(TEXTS) as it:
        yield it


def test_what_people_type(index):
    wanted = {
        "apple": [0, 1],
        "old apple": [0, 1, 2],
        "old AND apple": [0],
        "+old apple": [0, 2],
        "old -apple": [2],
        "old NOT apple": [2],
        "tree*": [0, 2],
        '"old apple"': [0],
        '"apple old"': [],
        '"old tree"': [],
        '"old tree"~1': [0],
        '"in  old tr"*': [2],
        '"old"~7': [0, 2],
        "(apple tree*) AND an": [0, 1],
        "*": [0, 1, 2],
        "* -apple": [2],
        "-apple": [],
        "": [],
        '""': [],
        '" "*': [],
        "Apple": [],
        r"app\*": [],
    }
    assert {query: [*index.search(query)] for query in wanted} == wanted
    assert {query: index.count(query) for query in wanted} == {query: len(found) for query, found in wanted.items()}
    index.delete(0)
    assert [*index.search("apple")] == [1] and index.count("old") == 1


def test_boosts(index):
    # 1000 / (1 + 4), and 1000 / (1 + 5) rounded down
    assert index.top("old^3 apple") == [Hit(0, 800), Hit(2, 498), Hit(1, 200)]
    assert index.top("(old apple)^2", 1) == [Hit(0, 800)]
    assert index.top("old^0", 0) == [] and index.top("tree*") == [Hit(0, 1), Hit(2, 1)]


def test_scripts(index):
    assert index.top("bool 0 2 ? boost 3 term old ? term apple", language="script") == index.top("old^3 apple")
    assert index.count("phrase 1 2 old tree", language="script") == 1
    assert [*index.search("prefix 1 1 a", language="script")] == [1]
    assert [*index.search("prefix 2 1 a", language="script")] == [0, 1]
    for query, status in {"oops": 65, "phrase 0 1 a": 1, "prefix 5 0": 2, "max 1001 1 all": 8}.items():
        with pytest.raises(QueryError) as caught:
            index.count(query, language="script")
        assert caught.value.status == status and caught.value.place is None


REFUSED = {
    'é "old': (102, 2, "the quote isn't ended (at character 2)"),
    "(a": (103, 0, "the parenthesis isn't ended (at character 0)"),
    "old ap*le": (106, 6, "* stands only alone, or at the end of a word or a phrase, and ? nowhere (at character 6)"),
    "a OR": (118, 2, "a clause must stand on each side of AND and OR (at character 2)"),
    "title:old": (71, None, "a query names a field, and the documents have no fields"),
}


def test_what_is_not_understood(index):
    for query, (status, place, text) in REFUSED.items():
        for call in (index.count, index.top, index.page, index.search, index.weigh_for, query_words):
            with pytest.raises(QueryError) as caught:
                call(query)
            assert isinstance(caught.value, ValueError)
            for error in (caught.value, pickle.loads(pickle.dumps(caught.value))):
                assert (error.status, error.place, str(error)) == (status, place, text)
    assert index.count("old") == 2


def test_what_is_no_query(index):
    for call in (index.count, index.top, index.page, index.search, index.weigh_for, query_words):
        with pytest.raises(ValueError, match="there is no language 'spoken'"):
            call("old", language="spoken")
        with pytest.raises(UnicodeEncodeError):
            call("\ud800")
    for page in (0, -1):
        with pytest.raises(ValueError):
            index.search("old", page=page)
    for first in (-1, 1 << 64):
        with pytest.raises(OverflowError):
            index.page("old", first)


def test_pages():
    with Index("ab" * 50) as index:
        index.delete(0)
        assert index.page("a", 0, 3) == [2, 4, 6] and index.page("a", 3, 2) == [4, 6]
        assert index.page("a", 99) == [] and index.page("a", (1 << 64) - 1) == [] and index.page("a", 0, 0) == []
        for page in (1, 7, 49, 50, 1000):
            assert [*index.search("a", page=page)] == [*range(2, 100, 2)]
        # what is added on the way is found, and what is deleted is not
        found = index.search("a b", page=2)
        assert [next(found), next(found)] == [1, 2]
        index.delete(3)
        index.add("a")
        assert [*found] == [*range(4, 101)]


def test_words_of_a_query():
    typed = 'old +"apple  tree"~2 -(an old^2) nes* "in the nes"*'
    assert query_words(typed) == ["old", "apple", "tree", "an", "old", "in", "the"]
    script = "bool 0 2 + term a - max 5 2 const 1 term é phrase 0 2 b b"
    assert query_words(script, language="script") == ["a", "é", "b", "b"]
    assert query_words("") == query_words("*") == query_words("a*") == query_words("all", language="script") == []
    long_word = "x" * 100_000
    assert query_words(f"{long_word} 漢") == [long_word, "漢"] and Index.query_words("a b") == ["a", "b"]


def test_weights_for_a_query(index):
    index.weigh_for('"old apple" owl nes*')
    with Index(TEXTS) as other:
        other.weigh_by_rarity(["old", "apple", "owl"])
        assert index.top("old apple owl tree") == other.top("old apple owl tree")
    # 470 / (1 + 4) for each of its words, and of five words 470 / (1 + 5)
    assert index.top("old apple") == [Hit(0, 188), Hit(1, 94), Hit(2, 78)]


def test_what_the_package_has():
    assert {*birchagain.__all__} <= {*vars(birchagain)}
