"""Many threads, on indexes of their own and on one."""

import threading

from birchagain import Index

THREADS, DOCUMENTS = 8, 300


def work(number, shared, failed):
    try:
        with Index() as own:
            for n in range(DOCUMENTS):
                own.add(f"all x{n % number}")
                shared.add(["all", f"of{number}"])
                if n % 50 == 49:
                    shared.end_segment()
                assert own.frequencies(["x0"]) == [n // number + 1]
                assert shared.frequencies([f"of{number}"]) == [n + 1]
    except BaseException as error:
        failed.append(error)


def test_threads():
    failed = []
    with Index() as shared:
        threads = [threading.Thread(target=work, args=(number, shared, failed)) for number in range(1, THREADS + 1)]
        for it in threads:
            it.start()
        for it in threads:
            it.join()
        assert not failed and len(shared) == THREADS * DOCUMENTS
        assert shared.frequencies(["all"]) == [THREADS * DOCUMENTS]


def test_closed_while_others_call():
    index = Index(["a"])

    def call_until_closed():
        try:
            while True:
                index.frequencies(["a"])
        except ValueError:
            pass

    threads = [threading.Thread(target=call_until_closed) for _ in range(4)]
    for it in threads:
        it.start()
    index.close()
    for it in threads:
        it.join()
