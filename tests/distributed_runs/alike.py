"""A cluster answers what one index does whose segments are its partitions, with 1, 3 and 8 of them."""

import itertools
import random
import re

from birchagain import NoDocumentError, QueryError
from birchagain.distributed import Cluster, PartitionError, Processes, Texts

from distributed_runs import corpus
from distributed_runs.checks import Checks

DOCUMENTS, QUERIES, TYPED, DELETED, MOST = 6000, 1000, 200, 60, 10
SCRIPT = {"language": "script"}


class Pair:
    """A cluster, and one index that has the same segments."""

    def __init__(self, engine, partitions, **how):
        self.parts = corpus.borders(DOCUMENTS, partitions)
        self.cluster = Cluster(engine, [Texts(corpus.texts, *it) for it in self.parts], **how)
        self.one = corpus.one_index(self.parts)

    def weigh(self, queries, language):
        """The index takes the weights that the cluster makes, which are those of one index of all documents."""
        weights = self.cluster.weights(queries, language=language)
        self.one.weigh_by_rarity(weights)
        return weights

    def close(self):
        self.cluster.close()
        self.one.close()


def answers(checks, name, pair, queries, language):
    got = pair.cluster.top_many(queries, MOST, language=language)
    for query, found in zip(queries, got):
        checks.same(f"{name}: top {query}", pair.one.top(query, MOST, language=language), found)


def counts_and_pages(checks, name, pair, queries):
    for query in queries:
        wanted = [*pair.one.search(query, **SCRIPT)]
        checks.same(f"{name}: count {query}", len(wanted), pair.cluster.count(query, **SCRIPT))
        checks.same(f"{name}: search {query}", wanted, [*pair.cluster.search(query, page=500, **SCRIPT)])
        first = DOCUMENTS // 2
        page = [it for it in wanted if it >= first][:20]
        checks.same(f"{name}: page {query}", page, pair.cluster.page(query, first, 20, **SCRIPT))


def one_segment(checks, name, pair, queries, whole):
    """What hangs on no segment is the same as in one of all documents: all but prefixes that are full."""
    whole.weigh(pair.cluster.weights(queries, **SCRIPT))
    for query, found in zip(queries, pair.cluster.top_many(queries, MOST, **SCRIPT)):
        if not re.search(r"prefix [0-9] ", query):
            checks.same(f"{name}, beside one segment: {query}", whole.top(query, MOST, **SCRIPT), found)


def deletions(checks, name, pair):
    documents = random.Random(name).sample(range(DOCUMENTS), DELETED)
    for it in documents[:10]:
        pair.cluster.delete(it)
    pair.cluster.delete_many(documents)
    for it in documents:
        pair.one.delete(it)
    checks.same(f"{name}: documents that are left", DOCUMENTS - DELETED, pair.cluster.count("all", **SCRIPT))
    checks.same(f"{name}: all documents", DOCUMENTS, len(pair.cluster))


def refused_with(call):
    """The status of its refusal, or what it gives."""
    try:
        return call()
    except QueryError as error:
        return error.status


def refusals(checks, cluster):
    """What an index refuses, a cluster does."""
    boosted = "boost 4294967297 boost 4294967296 all"
    for query, status in (("oops", 65), ("phrase 0 1 a", 1), ("prefix 1 0", 2), ("max 1001 1 all", 8), (boosted, 9)):
        checks.same(f"refusal of {query}", status, refused_with(lambda: cluster.top(query, **SCRIPT)))
        if query != boosted:
            checks.same(f"refusal to count {query}", status, refused_with(lambda: cluster.count(query, **SCRIPT)))
    # a count asks for no score
    every = cluster.count("all", **SCRIPT)
    checks.same("documents of a score that is too great", every, cluster.count(boosted, **SCRIPT))
    for document in (-1, DOCUMENTS, 1 << 64):
        checks.raises(f"deletion of {document}", NoDocumentError, "no document", lambda: cluster.delete(document))
    checks.raises("an open quote", QueryError, "character", lambda: cluster.top('a "b'))
    checks.raises("a page from below 0", OverflowError, "64 bits", lambda: cluster.page("a", -1))
    checks.raises("no copies", ValueError, "one copy", lambda: Cluster(None, [], copies=0))
    checks.raises("pages without room", ValueError, "room for one", lambda: cluster.search("a", page=0))
    checks.same("the best none", [], cluster.top(corpus.RANKED[3], 0))


def failures(checks, engine):
    """Errors name the partition."""
    good = Texts(corpus.texts, 0, 5)
    for source, said in (
        (Texts(corpus.failing_texts), r"partition 1: Texts\(failing_texts\).*the shelf is empty"),
        (Texts(corpus.lines_of, "/nowhere"), r"partition 1: Texts\(lines_of, '/nowhere'\).*No such file"),
        (Texts(corpus.ending_texts), r"partition 1: Texts\(ending_texts\).*processes ended"),
    ):
        checks.raises(f"it fails: {source!r}", PartitionError, said, lambda: Cluster(engine, [good, source]))


def added(checks, engine):
    """A partition more: numbers stay, and words weigh by all documents."""
    pair = Pair(engine, 3)
    words = corpus.RANKED[:50]
    pair.cluster.top_many(words)
    more = pair.cluster.add(Texts(corpus.texts, 9000, 9500))
    checks.same("numbers of a partition more", range(DOCUMENTS, DOCUMENTS + 500), more)
    for text in corpus.texts(9000, 9500):
        pair.one.add(text)
    pair.one.end_segment()
    checks.same("how often words are held", pair.one.frequencies(words), pair.cluster.frequencies(words))
    queries = corpus.Queries("added", DOCUMENTS).take(100)
    pair.weigh(queries, "script")
    answers(checks, "a partition more", pair, queries, "script")
    failing = Texts(corpus.failing_texts)
    checks.raises("it fails", PartitionError, "partition 4: .*shelf", lambda: pair.cluster.add(failing))
    checks.same("documents behind that", DOCUMENTS + 500, len(pair.cluster))
    answers(checks, "a partition more that failed", pair, queries[:20], "script")
    pair.close()


def main():
    checks = Checks("alike")
    queries, typed = corpus.Queries(1, DOCUMENTS).take(QUERIES), corpus.Queries(2, DOCUMENTS).typed(TYPED)
    whole = corpus.one_index([(0, DOCUMENTS)])
    engine = Processes(3)
    for partitions, copies in itertools.zip_longest((1, 3, 8), (1, 2, 1)):
        name, pair = f"{partitions} partitions", Pair(engine, partitions, copies=copies)
        pair.weigh(queries, "script")
        answers(checks, name, pair, queries, "script")
        one_segment(checks, name, pair, queries, whole)
        counts_and_pages(checks, name, pair, queries[:30])
        deletions(checks, name, pair)
        answers(checks, f"{name}, some deleted", pair, queries[::5], "script")
        counts_and_pages(checks, f"{name}, some deleted", pair, queries[30:50])
        pair.weigh(typed, "typed")
        answers(checks, f"{name}, typed", pair, typed, "typed")
        refusals(checks, pair.cluster)
        pair.close()
    failures(checks, engine)
    added(checks, engine)
    engine.close()
    checks.end()


if __name__ == "__main__":
    main()
