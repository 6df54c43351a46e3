"""A search page in a process of its own, and what it answers."""

import http.client
import os
import signal
import subprocess
import sys
from html.parser import HTMLParser

PACKAGE = os.path.join(os.path.dirname(os.path.abspath(__file__)), "..")
VOID = {"input", "link", "meta"}
# the tags that the pages have, with the attributes of each
TAGS = {
    "html": {"lang"},
    "head": set(),
    "meta": {"charset", "name", "content"},
    "title": set(),
    "link": {"rel", "href", "type"},
    "body": set(),
    "header": set(),
    "main": {"id", "tabindex"},
    "footer": set(),
    "nav": {"aria-label"},
    "section": {"id", "tabindex"},
    "form": {"action", "method", "role"},
    "label": {"for", "class"},
    "input": {
        *("type", "id", "name", "value", "autofocus", "autocomplete", "autocapitalize", "spellcheck", "enterkeyhint"),
        *("placeholder", "aria-invalid", "aria-describedby"),
    },
    "button": {"type"},
    "h1": set(),
    "h2": set(),
    "p": {"class", "dir", "lang", "id", "role"},
    "ol": {"start", "class"},
    "ul": {"class"},
    "li": set(),
    "a": {"href", "class", "rel", "aria-label"},
    "span": {"class"},
    "bdi": set(),
    "mark": set(),
    "code": set(),
    "pre": {"dir", "lang", "class"},
    "details": {"class", "open"},
    "summary": set(),
    "div": {"class", "role", "aria-label", "tabindex"},
    "table": set(),
    "thead": set(),
    "tbody": set(),
    "tfoot": set(),
    "tr": set(),
    "th": {"scope", "class", "colspan"},
    "td": {"colspan", "data-head"},
}


class Page(HTMLParser):
    """A page: its texts by tag, and its links. Fails where a tag or an attribute stands that the pages don't write."""

    def __init__(self, body):
        super().__init__()
        self.open, self.texts, self.links, self.ids, self.values = [], {}, [], set(), []
        self.feed(body.decode())
        self.close()
        assert not self.open
        assert all(it[1:] in self.ids for it in self.links if it.startswith("#"))

    def handle_starttag(self, tag, attributes):
        assert {name for name, _ in attributes} <= TAGS[tag], (tag, attributes)
        known = dict(attributes)
        assert known.get("id") not in self.ids
        if "id" in known:
            self.ids.add(known["id"])
        if tag == "a":
            self.links.append(known["href"])
        if tag == "input":
            self.values.append(known["value"])
        if tag not in VOID:
            self.open.append(tag)
            self.texts.setdefault(tag, []).append("")

    def handle_endtag(self, tag):
        assert self.open.pop() == tag

    def handle_data(self, data):
        for tag in {*self.open}:
            self.texts[tag][-1] += data

    def text(self, tag="body"):
        """The texts of all elements of a tag."""
        return " ".join(" ".join(self.texts.get(tag, [])).split())


class Served:
    """A page that is served, in a process of its own. It is a context manager: behind the block it has ended."""

    def __init__(self, *words):
        self.process = start("serve", *words, "--port", "0")
        self.read = self.process.stdout.readline()
        self.address = self.process.stdout.readline().split(" ")[0]
        assert self.address.startswith("http://127.0.0.1:"), self.process.stderr.read()
        self.port = int(self.address.strip("/").rpartition(":")[2])

    def __enter__(self):
        return self

    def __exit__(self, *_exception):
        self.process.send_signal(signal.SIGINT)
        try:
            self.output, self.errors = self.process.communicate(timeout=60)
        finally:
            self.process.kill()

    def ask(self, target, method="GET", body=None, **headers):
        """The status, the headers and the body that a request is answered by."""
        connection = http.client.HTTPConnection("127.0.0.1", self.port, timeout=60)
        try:
            connection.request(method, target, body, headers)
            response = connection.getresponse()
            return response.status, response.headers, response.read()
        finally:
            connection.close()

    def page(self, target, status=200):
        """The page at an address, which is answered with this status."""
        got, _, body = self.ask(target)
        assert got == status, body
        return Page(body)


def start(*words):
    """`python -m birchagain` with these words, as a process."""
    path = os.pathsep.join([PACKAGE, *filter(None, [os.environ.get("PYTHONPATH")])])
    pipes = {"stdin": subprocess.DEVNULL, "stdout": subprocess.PIPE, "stderr": subprocess.PIPE, "text": True}
    environment = {**os.environ, "PYTHONPATH": path, "COLUMNS": "120", "PYTHONUNBUFFERED": "1"}
    command = [sys.executable, "-m", "birchagain", *words]
    return subprocess.Popen(command, env=environment, preexec_fn=_heed_interruptions, **pipes)


def _heed_interruptions():
    """Tests that run in the background of a shell are told to ignore what Ctrl-C sends; what they start must not."""
    signal.signal(signal.SIGINT, signal.SIG_DFL)
