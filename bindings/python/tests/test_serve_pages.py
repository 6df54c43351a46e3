"""The pages, by a parser that fails at each tag and attribute that they don't write."""

import os
from urllib.parse import quote, urlsplit

import pytest
from birchagain.serve import site as sites
from birchagain.serve.collection import Collection
from birchagain.serve.markup import Markup, element, escaped
from birchagain.serve.site import Site
from serving import Page

HOSTILE = "<script>alert(1)</script> <img src=x onerror=alert(2)> \"'&amp; </mark></p> owl"
NAMES = [
    b"<script>alert(1)<\xe2\x88\x95script>.txt",
    b"\"onmouseover='alert(1)'.txt",
    b"'><b>.txt",
    b"new\nline\r\ttab\x1b[31m.txt",
    b"no-utf8-\xff\xfe.txt",
    "turned\u202etxt.exe".encode(),
    b"%00%2e%2e%2fetc.txt",
    b"&lt;.txt",
    b" .txt",
]


def site_of(folder, texts):
    for name, text in texts.items():
        path = os.path.join(os.fsencode(folder), name if isinstance(name, bytes) else name.encode())
        os.makedirs(os.path.dirname(path), exist_ok=True)
        with open(path, "wb") as it:
            it.write(text.encode())
    return Site(Collection(str(folder), 1 << 20), "notes")


def asked(site, query, status=200, **values):
    more = "".join(f"&{name}={value}" for name, value in values.items())
    response = site.respond(f"/?q={quote(query, safe='')}{more}")
    assert response.status == status
    return Page(response.body)


def test_markup():
    assert escaped('<a href="x">\'&amp;') == "&lt;a href=&quot;x&quot;&gt;&#x27;&amp;amp;"
    assert escaped("a\0\x1b\ud800\u202e\n\tb") == "a\ufffd\ufffd\ufffd\ufffd\n\tb"
    assert escaped(Markup("<b>")) == "<b>"
    made = element("a", "<", element("b", ">"), href='"', class_="x", aria_label="y", hidden=True, rel=None, lang=False)
    assert made == '<a href="&quot;" class="x" aria-label="y" hidden>&lt;<b>&gt;</b></a>'
    assert element("input", value="<") == '<input value="&lt;">'


def test_the_first_page(tmp_path):
    site = site_of(tmp_path, {"a.txt": "an owl", "b.txt": "an oak"})
    for target in ("/", "/?", "/?q=", "/?q=+%09", "/?page=2", "/?other=x"):
        page = Page(site.respond(target).body)
        assert page.text("h1") == "Search 2 texts" and page.values == [""]
        assert page.text("footer") == f"2 texts with 2 passages in {tmp_path}. No file was left out."
        assert page.text("title") == "Search \u2013 notes" and page.text("label") == "Search"


def test_results(tmp_path):
    site = site_of(tmp_path, {"a.txt": "An owl in the old OAK", "deep/b.txt": "an oak, \u00f3wl", "c.txt": "nothing"})
    page = asked(site, "owl old*")
    assert page.text("h1") == "2 passages found" and page.values == ["owl old*"]
    assert page.text("h2") == "a.txt line 1 deep/b.txt line 1"
    assert page.text("mark") == "owl old \u00f3wl"
    # of three passages two hold owl: floor(1000 ln(8 / 5)) = 470, and one of these a word that begins with old, 980
    assert "470 \u00d7 1 \u00f7 (1 + 6) = 67" in page.text("tr") and "470 \u00d7 1 \u00f7 (1 + 3) = 117" in page.text(
        "tr"
    )
    # the mean length of a passage is (6 + 3 + 1) / 3, rounded down
    assert "980 \u00f7 (1 + 3) = 245" in page.text("tr")
    assert page.text("summary").startswith("Score 312: why Score 117: why")
    assert "This passage has 6 words." in page.text("details")


def test_a_result_leads_to_its_text(tmp_path):
    text = "\n\n".join(
        f"paragraph {number} that is long enough to be a passage of its own, by far more than sixty"
        for number in range(120)
    )
    site = site_of(tmp_path, {"a.txt": text})
    page = asked(site, "+paragraph +77")
    (link,) = [it for it in page.links if it.startswith("/file/")]
    assert urlsplit(link).fragment == "p78"
    shown = Page(site.respond(link.partition("#")[0]).body)
    assert "p78" in shown.ids and "p51" in shown.ids and "p101" not in shown.ids
    assert shown.texts["mark"] == ["paragraph"] * 28 + ["77"] + ["paragraph"] * 22
    assert shown.text("h1") == "a.txt" and "Page 2 of 3" in shown.text("nav")
    assert shown.values == ["+paragraph +77"]
    for query in ("", "?q=%22", "?part=99999999999", "?part=-1"):
        assert site.respond(urlsplit(link).path + query).status == 200


def test_the_same_text_elsewhere(tmp_path):
    site = site_of(tmp_path, {f"{number:02}.txt": "the same owl" for number in range(14)})
    page = asked(site, "owl")
    assert page.text("h2") == "00.txt line 1" and "The same in 13 other texts" in page.text("summary")
    assert "10.txt line 1 and 3 more" in page.text("li") and "11.txt" not in page.text()


def test_pages(tmp_path, monkeypatch):
    site = site_of(tmp_path, {f"{number:02}.txt": f"owl {number}" for number in range(25)})
    first, second, third = (asked(site, "owl", page=it) for it in (1, 2, 3))
    assert first.text("nav") == "Page 1 of 3 Next \u2192" and third.text("nav") == "\u2190 Previous Page 3 of 3"
    assert second.text("nav") == "\u2190 Previous Page 2 of 3 Next \u2192"
    assert "/?q=owl&page=1" in second.links and "/?q=owl&page=3" in second.links
    assert len(third.texts["h2"]) == 5
    for odd in ("0", "-1", "x", "", "1e9", "%00", "\u0663", "9" * 400):
        assert asked(site, "owl", page=quote(odd, safe="%")).text("h2") == first.text("h2")
    assert asked(site, "owl", page="999999999").text("h2") == third.text("h2")
    monkeypatch.setattr(sites, "MOST_PAGES", 2)
    assert "The best 20 are listed" in asked(site, "owl", page=3).text("main")


@pytest.mark.parametrize(
    "query, said",
    [
        ("owlet", "No passage holds the word \u201cowlet\u201d. Words that begin alike: owl* finds 1 passage."),
        ("xyzzy", "No passage holds the word \u201cxyzzy\u201d."),
        ("owl AND oak", "Each word is there, but not as it is asked for. Any of them: owl oak finds 2 passages."),
        ("owl AND xyzzy", "Any of the words that there are: owl finds 1 passage."),
        ("xyz*", "No passage holds a word that begins so."),
        ("()", "Words are found whole"),
    ],
)
def test_nothing_found(tmp_path, query, said):
    site = site_of(tmp_path, {"a.txt": "an owl", "b.txt": "an oak"})
    page = asked(site, query)
    assert page.text("h1") == "Nothing found" and said in page.text("main")
    for link in page.links:
        if link.startswith("/?q=") and "old" not in link and "app" not in link:
            assert "found" in Page(site.respond(link).body).text("h1")


@pytest.mark.parametrize(
    "query, said, marked",
    [
        ('owl "oak', "Not understood at letter 5: the quote isn't ended.", '"'),
        ("a ~", "Not understood at letter 3: ~ stands only behind a phrase", "~"),
        ("owl &", "Not understood at letter 5: this has no letter or digit.", "&"),
        ("\u00e9 title:x", "Not understood at letter 3: there are no fields here", "t"),
        ("<b>", "Not understood at letter 1: ranges can", "<"),
    ],
)
def test_refused(tmp_path, query, said, marked):
    site = site_of(tmp_path, {"a.txt": "an owl"})
    page = asked(site, query, 400)
    assert said in page.text("main") and page.text("mark") == marked and page.values == [query]
    assert page.text("pre") == query


def test_long_and_odd_queries(tmp_path):
    site = site_of(tmp_path, {"a.txt": "an owl"})
    assert "2,000 letters at most" in asked(site, "owl " * 2500, 400).text("main")
    assert "owl" in asked(site, ("owl " * 500).strip()).text("mark")
    assert asked(site, "owl\0owl").text("h1") == "Nothing found"
    assert site.respond("/?q=%00").status == 400
    assert Page(site.respond("/?q=%ff%fe+owl").body).text("main").startswith("The query is refused")
    assert asked(site, "..%2f..%2fetc OR owl").text("mark") == "owl"
    assert asked(site, " ".join(["a*", "b*", "o*"] * 200)).text("h1") == "1 passage found"


def test_hostile_names_and_texts(tmp_path):
    site = site_of(tmp_path, {name: f"{HOSTILE} {number}" for number, name in enumerate(NAMES)})
    page = asked(site, "owl")
    assert page.text("h1") == f"{len(NAMES)} passages found"
    shown = page.text("h2")
    for name in (
        "<script>alert(1)<\u2215script>.txt",
        "\"onmouseover='alert(1)'.txt",
        "'><b>.txt",
        "%00%2e%2e%2fetc.txt",
        "&lt;.txt",
    ):
        assert name in shown
    assert "new\u240aline\u240d\u2409tab\u241b[31m.txt" in shown and "no-utf8-\ufffd\ufffd.txt" in shown
    assert "turned\ufffdtxt.exe" in shown
    assert HOSTILE.rpartition(" ")[0] in page.text("p")
    links = [it for it in page.links if it.startswith("/file/")]
    assert len({*links}) == len(NAMES)
    for link in links:
        text = Page(site.respond(link.partition("#")[0]).body)
        assert HOSTILE in text.text("pre") and text.text("mark") == "owl"


@pytest.mark.parametrize(
    "query", [HOSTILE, '"><script>alert(1)</script>', "</title><script>", "';alert(1)//", "\u202e\ud7ff"]
)
def test_hostile_queries(tmp_path, query):
    site = site_of(tmp_path, {"a.txt": "an owl"})
    page = Page(site.respond(f"/?q={quote(query, safe='')}").body)
    assert page.values == [query.replace("\u202e", "\ufffd")]


def test_no_path_of_a_request_is_read(tmp_path):
    (tmp_path / "secret").write_text("top secret")
    site = site_of(tmp_path / "in", {"a.txt": "an owl"})
    (link,) = {urlsplit(it).path for it in asked(site, "owl").links if it.startswith("/file/")}
    targets = [
        "/../secret",
        "/file/../secret",
        "/file/..%2f..%2fsecret",
        "//etc/passwd",
        "/etc/passwd",
        "/a.txt",
        "/file/a.txt",
    ]
    targets += [
        "/file/0000000000000000",
        link + "/",
        link + "%00",
        link.upper(),
        "/style.css/../a",
        "http://127.0.0.1/",
        "*",
        "",
    ]
    targets += ["http://[", "/?" + "q=x&" * 50, "/\0", "/file/" + "\u0663" * 16, "/STYLE.CSS"]
    for target in targets:
        response = site.respond(target)
        assert response.status in (400, 404), target
        assert b"secret" not in response.body.replace(target.encode(), b"") and b"an owl" not in response.body
        Page(response.body)


def test_a_text_that_vanishes(tmp_path, monkeypatch):
    monkeypatch.setattr("birchagain.serve.collection._BETWEEN_LOOKS", 0)
    site = site_of(tmp_path, {"a.txt": "an owl"})
    link = next(it for it in asked(site, "owl").links if it.startswith("/file/")).partition("#")[0]
    os.remove(tmp_path / "a.txt")
    assert site.respond(link).status == 404
    assert asked(site, "owl").text("h1") == "Nothing found"
