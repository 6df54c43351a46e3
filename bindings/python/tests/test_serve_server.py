"""The page as it is served: requests that are answered, and those that are not; the command."""

import os
import re
import signal
import socket
import threading
import time

import pytest
from birchagain import __version__
from serving import Page, Served, start

HEADERS = {
    "Content-Security-Policy": "default-src 'none'; style-src 'self'; img-src 'self'; form-action 'self'; "
    "base-uri 'none'; frame-ancestors 'none'",
    "X-Content-Type-Options": "nosniff",
    "X-Frame-Options": "DENY",
    "Referrer-Policy": "no-referrer",
    "Cross-Origin-Opener-Policy": "same-origin",
    "Cross-Origin-Resource-Policy": "same-origin",
    "Cache-Control": "no-store",
}


@pytest.fixture(name="served", scope="module")
def served_folder(tmp_path_factory):
    folder = tmp_path_factory.mktemp("served")
    (folder / "a.txt").write_text("an owl in an oak")
    (folder / "b.txt").write_text("an oak")
    (folder / "c.bin").write_bytes(b"\0")
    with Served(str(folder)) as served:
        yield served
    # what is asked is told nowhere, and no request has gone wrong
    assert (served.process.returncode, served.output, served.errors.strip()) == (0, "", "")


def raw(port, data):
    """All that is answered to some bytes."""
    with socket.create_connection(("127.0.0.1", port), 60) as it:
        it.sendall(data)
        answer = b""
        while piece := it.recv(1 << 16):
            answer += piece
        return answer


def test_answers(served):
    assert re.fullmatch(r"2 texts with 2 passages, read in \d+\.\d s\. Left out: 1 binary file\.\n", served.read)
    status, headers, body = served.ask("/?q=owl")
    assert status == 200 and Page(body).text("h1") == "1 passage found"
    assert headers["Content-Type"] == "text/html; charset=utf-8" and int(headers["Content-Length"]) == len(body)
    assert served.ask("/style.css")[1]["Content-Type"] == "text/css; charset=utf-8"
    assert served.ask("/icon.svg")[1]["Content-Type"] == "image/svg+xml"
    for target, wanted in (("/", 200), ("/?q=owl", 200), ('/?q="', 400), ("/nothing", 404), ("/style.css", 200)):
        got, headers, body = served.ask(target)
        assert got == wanted and {name: headers[name] for name in HEADERS} == HEADERS
        assert (
            not any(it in headers for it in ("Set-Cookie", "Access-Control-Allow-Origin"))
            and "Python" not in headers["Server"]
        )
        of_head = served.ask(target, "HEAD")
        assert of_head[0] == wanted and of_head[2] == b""
        assert target == "/?q=owl" or of_head[1]["Content-Length"] == str(len(body))


@pytest.mark.parametrize(
    "host", ["evil.example", "127.0.0.1.evil.example", "localhost.evil:8000", "", "[::1]", "127.0.0.1:x", "0.0.0.0"]
)
def test_other_hosts(served, host):
    status, headers, body = served.ask("/?q=owl", Host=host)
    assert status == 421 and b"an owl" not in body and headers["Content-Security-Policy"]


def test_hosts(served):
    for host in ("127.0.0.1", "localhost", "LOCALHOST:1", f"localhost:{served.port}", "127.0.0.1:65535"):
        assert served.ask("/?q=owl", Host=host)[0] == 200
    none, two = b"GET / HTTP/1.0\r\n\r\n", b"GET / HTTP/1.1\r\nHost: localhost\r\nHost: evil.example\r\n\r\n"
    for request in (none, two):
        assert raw(served.port, request).startswith(b"HTTP/1.0 421 ")


@pytest.mark.parametrize(
    "site, to, wanted",
    [
        ("cross-site", "image", 403),
        ("cross-site", "iframe", 403),
        ("same-site", "script", 403),
        ("cross-site", "document", 200),
        ("same-origin", "style", 200),
        ("none", "document", 200),
    ],
)
def test_what_other_sites_build_in(served, site, to, wanted):
    assert served.ask("/?q=owl", **{"Sec-Fetch-Site": site, "Sec-Fetch-Dest": to})[0] == wanted


@pytest.mark.parametrize("method", ["POST", "PUT", "DELETE", "OPTIONS", "PATCH", "TRACE", "CONNECT", "get", "OTHER"])
def test_other_methods(served, method):
    status, headers, body = served.ask("/?q=owl", method, b"q=owl")
    assert status == 405 and headers["Allow"] == "GET, HEAD" and b"an owl" not in body
    assert headers["Content-Security-Policy"]


def test_what_is_no_request(served):
    long_line, long_head = (
        b"GET /?q=" + b"a" * 70_000,
        b"GET / HTTP/1.1\r\nHost: localhost\r\nX: " + b"a" * 70_000 + b"\r\n\r\n",
    )
    many = b"GET / HTTP/1.1\r\nHost: localhost\r\n" + b"".join(b"X%d: a\r\n" % it for it in range(200)) + b"\r\n"
    cases = [
        (long_line + b" HTTP/1.1\r\n\r\n", 414),
        (long_head, 431),
        (many, 431),
        (b"GET\r\n\r\n", 400),
        (b"GET / HTTP/9.9\r\n\r\n", 505),
    ]
    cases += [
        (b"\x16\x03\x01\0\0 x y z\r\n\r\n", 400),
        (b"GET /../../etc/passwd HTTP/1.0\r\nHost: localhost\r\n\r\n", 404),
    ]
    cases += [
        (b"GET http://localhost/ HTTP/1.0\r\nHost: localhost\r\n\r\n", 400),
        (b"GET /\xff\0 HTTP/1.0\r\nHost: localhost\r\n\r\n", 404),
    ]
    for request, wanted in cases:
        head, _, body = raw(served.port, request).partition(b"\r\n\r\n")
        assert head.startswith(b"HTTP/1.0 %d " % wanted), (request[:60], head)
        assert b"Content-Security-Policy: default-src 'none'" in head
        Page(body)


def test_fifty_at_once(served):
    failed, started = [], threading.Barrier(50)

    def ask(number):
        try:
            started.wait()
            for query in ("owl", "oak", "ow*", f"none{number}", '"'):
                status, _, body = served.ask(f"/?q={query}")
                assert status == (400 if query == '"' else 200)
                assert (b"passages found" in body or b"passage found" in body) == (query in ("owl", "oak", "ow*"))
        except BaseException as error:
            failed.append(error)

    threads = [threading.Thread(target=ask, args=(number,)) for number in range(50)]
    for it in threads:
        it.start()
    for it in threads:
        it.join()
    assert not failed


def test_one_that_says_nothing_keeps_nobody_waiting(served):
    with socket.create_connection(("127.0.0.1", served.port), 60) as silent:
        silent.sendall(b"GET / HT")
        assert served.page("/?q=owl").text("h1") == "1 passage found"
    # one that goes away before it is answered is no fault
    for _ in range(20):
        with socket.create_connection(("127.0.0.1", served.port), 60) as hasty:
            hasty.sendall(b"GET /?q=owl HTTP/1.0\r\nHost: localhost\r\n\r\n")


def test_a_file_that_vanishes_between_two_searches(tmp_path):
    (tmp_path / "a.txt").write_text("an owl in an oak")
    (tmp_path / "b.txt").write_text("an oak")
    with Served(str(tmp_path)) as served:
        assert served.page("/?q=oak").text("h1") == "2 passages found"
        os.remove(tmp_path / "a.txt")
        (tmp_path / "d.txt").write_text("an oak and a fox")
        until = time.monotonic() + 120
        while served.page("/?q=fox").text("h1") == "Nothing found" and time.monotonic() < until:
            time.sleep(0.05)
        assert served.page("/?q=oak").text("h2") == "b.txt line 1 d.txt line 1"
        assert served.page("/?q=owl").text("h1") == "Nothing found"


def ended(*words):
    """The status of a command that ends by itself, and what it wrote."""
    process = start(*words)
    output, errors = process.communicate(timeout=60)
    return process.returncode, output, errors


def test_the_command():
    status, output, errors = ended()
    assert (status, errors) == (0, "") and output.startswith("usage: python -m birchagain") and "serve" in output
    assert ended("-h") == (0, output, "")
    assert ended("--version") == (0, f"birchagain {__version__}\n", "")
    status, output, errors = ended("serve", "-h")
    assert status == 0 and all(
        it in output for it in ("FOLDER", "--port", "--open", "--max-size", "127.0.0.1", "Ctrl-C")
    )
    for words in (
        (),
        (".", "--port", "x"),
        (".", "--port", "65536"),
        (".", "--port", "-1"),
        (".", "--max-size", "0"),
        (".", "more"),
    ):
        status, output, errors = ended("serve", *words)
        assert status == 2 and output == "" and "usage" in errors
    assert ended("other")[0] == 2


def test_what_is_no_folder(tmp_path):
    (tmp_path / "a.txt").write_text("an owl")
    for folder in ("none\x1b[31m", "a.txt", ""):
        status, output, errors = ended("serve", str(tmp_path / folder) if folder else "")
        assert status == 2 and output == "" and errors.endswith(" is no folder\n") and "\x1b" not in errors


def test_a_port_that_is_taken(tmp_path):
    with socket.create_server(("127.0.0.1", 0)) as taken:
        port = taken.getsockname()[1]
        status, output, errors = ended("serve", str(tmp_path), "--port", str(port))
    assert (status, output) == (2, "")
    assert errors == f"birchagain: port {port} is taken: choose another by --port, or 0 for any that is free\n"


def test_too_large_files(tmp_path):
    (tmp_path / "a.txt").write_text("an owl")
    (tmp_path / "b.txt").write_text("owl " * (1 << 18) + "owl")
    with Served(str(tmp_path), "--max-size", "1") as served:
        assert re.fullmatch(r"1 text with 1 passage, read in \d+\.\d s\. Left out: 1 file too large\.\n", served.read)
        assert served.page("/?q=owl").text("h1") == "1 passage found"


def test_a_browser_is_opened(tmp_path, monkeypatch):
    (tmp_path / "browser").write_text(f'#!/bin/sh\necho "$1" > {tmp_path}/opened\n')
    (tmp_path / "browser").chmod(0o700)
    monkeypatch.setenv("BROWSER", f"{tmp_path}/browser %s")
    with Served(str(tmp_path), "--open") as served:
        until = time.monotonic() + 30
        while not (tmp_path / "opened").exists() and time.monotonic() < until:
            time.sleep(0.05)
        time.sleep(0.2)
        assert (tmp_path / "opened").read_text() == served.address + "\n"


def test_an_interruption_while_the_folder_is_read(tmp_path):
    for name in "abc":
        (tmp_path / name).write_text("".join(f"{name}{number} owl\n" for number in range(500_000)))
    process = start("serve", str(tmp_path), "--port", "0")
    assert process.stderr.readline() == "11 MB are read ..\n"
    process.send_signal(signal.SIGINT)
    output, errors = process.communicate(timeout=60)
    assert (process.returncode, output, errors.strip()) == (0, "", "")
