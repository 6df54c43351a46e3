"""The page in a chromium without a window, by the keyboard alone."""

import os

import pytest
from browser import Browser, command
from serving import Served

pytestmark = pytest.mark.skipif(not command(), reason="there is no chromium, so the search page was not drawn")

HOSTILE = "an owl <script>window.ran = 1</script> <img src=x onerror='window.ran = 2'> \"'&lt;"
NAMES = [b"<img src=x onerror=window.ran=3>.txt", b'"><svg onload=window.ran=4>.txt', b"'\n\xff\xe2\x80\xaetxt.exe"]
SHOWN_NAMES = ["<img src=x onerror=window.ran=3>.txt", '"><svg onload=window.ran=4>.txt', "'\u240a\ufffd\ufffdtxt.exe"]
NOTES = {
    "trees.txt": "An old apple tree gives more shade than apples, and woodpeckers nest in it.",
    "garden/garden.txt": "Old \u00e4pple trees are cut in late winter.",
    "birds.txt": "The wren builds several nests.",
}
# the contrast of the colours of a text and what is behind it, as WCAG 2 counts it
CONTRAST = """(selector => {
  const light = colour => {
    const parts = colour.match(/[0-9.]+/g).slice(0, 3).map(it => it / 255)
    return parts.map(it => it <= 0.04045 ? it / 12.92 : ((it + 0.055) / 1.055) ** 2.4)
      .reduce((sum, it, at) => sum + it * [0.2126, 0.7152, 0.0722][at], 0)
  }
  const element = document.querySelector(selector)
  let behind = element
  const background = () => getComputedStyle(behind).backgroundColor
  while (behind.parentElement && background() === "rgba(0, 0, 0, 0)") behind = behind.parentElement
  const both = [light(getComputedStyle(element).color), light(background())].sort((a, b) => b - a)
  return (both[0] + 0.05) / (both[1] + 0.05)
})"""


@pytest.fixture(name="browser", scope="module")
def one_browser():
    with Browser() as it:
        yield it


@pytest.fixture(name="served", scope="module")
def served_folder(tmp_path_factory):
    folder = tmp_path_factory.mktemp("notes")
    texts = {os.fsencode(name): text for name, text in NOTES.items()}
    texts.update({name: f"{HOSTILE} {number}" for number, name in enumerate(NAMES)})
    texts.update({b"many%d.txt" % number: f"a finch of number {number}" for number in range(25)})
    for name, text in texts.items():
        path = os.path.join(os.fsencode(folder), name)
        os.makedirs(os.path.dirname(path), exist_ok=True)
        with open(path, "wb") as it:
            it.write(text.encode())
    with Served(str(folder)) as it:
        yield it


def shown(browser, selector):
    """The texts of all elements that a selector finds, as they are shown."""
    return browser.ask(f"[...document.querySelectorAll({selector!r})].map(it => it.innerText)")


def wait_for_caret(browser):
    browser.wait_until("document.activeElement.id === 'q'")


def focused(browser):
    return browser.ask(
        "document.activeElement.id || document.activeElement.innerText || document.activeElement.tagName"
    )


def test_a_query_is_typed(browser, served):
    browser.open(served.address)
    wait_for_caret(browser)
    assert browser.ask("document.activeElement.labels[0].innerText") == "Search"
    browser.type('"old apple" nest*')
    browser.press_and_load("Enter")
    assert browser.ask("location.pathname + location.search") == "/?q=%22old+apple%22+nest*"
    assert shown(browser, "h1") == ["3 passages found"]
    assert browser.ask("document.title") == '"old apple" nest* \u2013 notes0'
    assert shown(browser, "h2 a") == ["trees.txt", "garden/garden.txt", "birds.txt"]
    assert shown(browser, "mark") == ["old", "apple", "nest", "Old", "\u00e4pple", "nests"]
    assert browser.ask("document.querySelector('#q').value") == '"old apple" nest*'


def test_by_the_keyboard(browser, served):
    browser.open(f"{served.address}?q=wren")
    browser.press("Tab")
    assert focused(browser) == "Skip to the results"
    assert browser.ask("document.activeElement.getBoundingClientRect().left >= 0")
    browser.press("Enter")
    browser.press("Tab")
    assert focused(browser) == "birds.txt"
    assert browser.ask("getComputedStyle(document.activeElement).outlineStyle") == "solid"
    browser.press("Tab")
    assert focused(browser).startswith("Score ") and not browser.ask("document.querySelector('.why').open")
    browser.press("Space")
    assert browser.ask("document.querySelector('.why').open") and "wren" in shown(browser, ".why tbody")[0]
    browser.ask("document.querySelector('h2 a').focus()")
    browser.press_and_load("Enter")
    assert shown(browser, "h1") == ["birds.txt"] and shown(browser, "mark") == ["wren"]
    assert browser.ask("document.querySelector(':target').innerText").endswith(NOTES["birds.txt"])


def test_pages(browser, served):
    browser.open(f"{served.address}?q=finch")
    browser.ask("document.querySelector('nav a').focus()")
    browser.press_and_load("Enter")
    assert browser.ask("location.search") == "?q=finch&page=2" and len(shown(browser, "h2")) == 10
    assert shown(browser, "nav a") == ["\u2190 Previous", "Next \u2192"]


def test_hostile_names_and_texts(browser, served):
    for target in (
        "?q=owl",
        "?q=owl+%3Cscript%3Ewindow.ran%3D5%3C%2Fscript%3E",
        "?q=%22%3E%3Csvg+onload%3Dwindow.ran%3D6%3E",
    ):
        browser.open(served.address + target)
        assert browser.ask("window.ran") is None
        assert browser.ask("document.querySelectorAll('script, img, svg, [onload], [onerror], [style]').length") == 0
    browser.open(served.address + "?q=owl")
    assert sorted(shown(browser, "h2 a")) == sorted(SHOWN_NAMES)
    assert all(it.startswith(HOSTILE) for it in shown(browser, ".passage"))
    for link in browser.ask("[...document.querySelectorAll('h2 a')].map(it => it.href)"):
        browser.open(link)
        assert browser.ask("window.ran") is None and shown(browser, "section pre")[0].startswith(HOSTILE)
    # the policy has stopped nothing, since nothing of theirs was made
    assert [it for it in browser.events if it.get("method") == "Log.entryAdded"] == []


def test_the_policy_stops_scripts(browser, served):
    browser.open(served.address)
    browser.ask(
        "document.body.append(Object.assign(document.createElement('script'), {textContent: 'window.ran = 7'}))"
    )
    assert browser.ask("window.ran") is None


def test_an_empty_answer(browser, served):
    browser.open(f"{served.address}?q=woodpekcer")
    wait_for_caret(browser)
    assert shown(browser, "h1") == ["Nothing found"]
    assert shown(browser, ".hints a") == ["woodpe*"]
    browser.ask("document.querySelector('.hints a').focus()")
    browser.press_and_load("Enter")
    assert shown(browser, "mark") == ["woodpeckers"]


def test_a_refused_query(browser, served):
    browser.open(f"{served.address}?q=old+%22apple")
    assert shown(browser, "#why") == ["Not understood at letter 5: the quote isn't ended."] and shown(
        browser, "pre mark"
    ) == ['"']
    assert browser.ask("document.querySelector('#q').getAttribute('aria-describedby')") == "why"


def test_without_scripts(browser, served):
    browser.call("Emulation.setScriptExecutionDisabled", value=True)
    try:
        browser.open(served.address)
        wait_for_caret(browser)
        browser.type("wren")
        browser.press_and_load("Enter")
        assert shown(browser, "h2 a") == ["birds.txt"]
    finally:
        browser.call("Emulation.setScriptExecutionDisabled", value=False)


@pytest.mark.parametrize("is_dark", [False, True])
def test_colours(browser, served, is_dark):
    browser.look(900, is_dark)
    browser.open(f"{served.address}?q=old+apple")
    backgrounds = browser.ask("getComputedStyle(document.body).backgroundColor.match(/[0-9]+/g).map(Number)")
    assert (max(backgrounds) < 60) == is_dark and (min(backgrounds) > 200) == (not is_dark)
    for selector in (
        "body",
        "h2 a",
        ".line",
        "mark",
        "button",
        "#q",
        ".told",
        ".why summary",
        "footer p",
        ".label",
        ".site span",
    ):
        assert browser.ask(f"{CONTRAST}({selector!r})") >= 4.5, selector


def test_narrow(browser, served):
    browser.look(400, False)
    for target in ("", "?q=%22old+apple%22+nest*+(wren+AND+builds)", "?q=none", "?q=%22", "?q=owl"):
        browser.open(served.address + target)
        browser.ask("document.querySelectorAll('details').forEach(it => { it.open = true })")
        assert browser.ask("document.documentElement.scrollWidth") <= 400, target


def test_what_screen_readers_find(browser, served):
    browser.open(f"{served.address}?q=finch&page=2")
    nodes = browser.call("Accessibility.getFullAXTree")["nodes"]
    seen = [(it["role"]["value"], it.get("name", {}).get("value", "")) for it in nodes if not it.get("ignored")]
    for role in ("banner", "search", "main", "navigation", "contentinfo"):
        assert sum(it[0] == role for it in seen) == 1, role
    wanted = [
        ("searchbox", "Search"),
        ("button", "Search"),
        ("navigation", "Pages of results"),
        ("link", "Skip to the results"),
    ]
    assert all(it in seen for it in wanted)
    assert [name for role, name in seen if role == "heading"][0] == "25 passages found"
    assert browser.ask("document.documentElement.lang") == "en"
