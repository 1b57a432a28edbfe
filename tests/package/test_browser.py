"""The page in Chromium, used as a reader does: keys, clicks, print, and what a hostile archive gets. It wants chromium, chromium-driver and
python3-selenium."""

from __future__ import annotations

import base64
import shutil
from collections.abc import Callable, Iterator
from pathlib import Path
from typing import Any

import pytest
from tests.answers import found
from tests.conftest import TOP, Asking
from tests.package.test_diagrams import HOSTILE
from tests.processes import PATIENCE, becomes

pytestmark = [
    pytest.mark.usefixtures("pgnjson"),
    pytest.mark.skipif(not shutil.which("chromedriver"), reason="chromium-driver is not installed"),
]
MEN = (
    "const m = {}; for (const u of document.querySelectorAll(arguments[0] + ' use')) { const man = u.getAttribute('href')[1];"
    "m['abcdefgh'[u.getAttribute('x')] + (8 - u.getAttribute('y'))] = u.classList.contains('w') ? man : man.toLowerCase() }"
    "return m"
)
IN_VIEW = (
    "const e = document.querySelector(arguments[0]); if (!e) return false; const r = e.getBoundingClientRect();"
    "return r.top >= 0 && r.bottom <= innerHeight && r.width > 0"
)
# the board after each marked move, shown as any other one, is the one that the page has of it
DIFFERENT = (
    "let bad = 0, n = 0; for (const a of document.querySelectorAll('article')) { wrapMoves(a); movesOf(a).forEach((m, i) => {"
    "if (!m.dataset.match) return; n++; const f = document.getElementById(m.dataset.match);"
    "if (positions(a)[i][0].join('') !== boardOf(f.dataset.fen.split(' ')[0]).join('')) bad++ }) } return [n > 0, bad]"
)


def men_of(fen: str) -> dict[str, str]:
    """The letters of a FEN's men, by square."""
    men = {}
    for row, text in enumerate(fen.split()[0].split("/")):
        file = 0
        for letter in text:
            if letter.isdigit():
                file += int(letter)
            else:
                men["abcdefgh"[file] + str(8 - row)] = letter
                file += 1
    return men


class Browser:
    """A browser without a window, at a page."""

    def __init__(self, driver: Any) -> None:
        self.driver = driver

    def go(self, page: Path) -> None:
        self.driver.get(page.as_uri())

    def all(self, selector: str) -> list[Any]:
        found: list[Any] = self.driver.find_elements("css selector", selector)
        return found

    def text(self, selector: str) -> str:
        found: str = self.all(selector)[0].text
        return found

    def run(self, script: str, *words: object) -> Any:
        return self.driver.execute_script(script, *words)

    def press(self, *keys: str) -> None:
        for key in keys:
            self.all("body")[0].send_keys(key)

    def click(self, element: Any) -> None:
        self.run("arguments[0].scrollIntoView({block: 'center'})", element)
        element.click()

    def shows(self, wanted: object, told: Callable[[], object]) -> None:
        """What is told of the page is what is wanted, or becomes so: boards are drawn as they come into view."""
        becomes(lambda: told() == wanted)
        assert told() == wanted

    def errors(self) -> list[str]:
        return [entry["message"] for entry in self.driver.get_log("browser") if entry["level"] == "SEVERE"]


@pytest.fixture(scope="module")
def browser() -> Iterator[Browser]:
    webdriver = pytest.importorskip("selenium.webdriver")
    service = pytest.importorskip("selenium.webdriver.chrome.service")
    options = webdriver.ChromeOptions()
    for word in ("--headless=new", "--no-sandbox", "--disable-gpu", "--hide-scrollbars", "--window-size=1280,900"):
        options.add_argument(word)
    options.set_capability("goog:loggingPrefs", {"browser": "ALL"})
    driver = webdriver.Chrome(service=service.Service(shutil.which("chromedriver")), options=options)
    driver.set_script_timeout(PATIENCE)
    yield Browser(driver)
    driver.quit()


def made(asked: Asking, room: Path, *words: str) -> Path:
    """A page of the checks of the examples."""
    games = found((TOP / "examples" / "games.pgn").read_bytes(), asking="cql(variations) check")
    (room / "page.html").write_bytes(asked("cqlpgn-diagrams", *words, data=games).out)
    return room / "page.html"


def test_keys_and_clicks(asked: Asking, room: Path, browser: Browser) -> None:
    browser.go(made(asked, room))
    boards = len(browser.all("figure"))
    assert boards == len(browser.all(".moves b")) == 21
    browser.press("j", "j", "j")
    browser.shows(("3 of 21", True, 1), lambda: (browser.text("#n"), browser.run(IN_VIEW, "figure.at"), len(browser.all(".moves b.at"))))
    assert browser.run(MEN, "figure.at") == men_of(browser.all("figure.at")[0].get_attribute("data-fen"))
    browser.press("k", "f")
    dark = "return document.querySelector('figure.at svg .d').getAttribute('d').slice(0, 4)"
    browser.shows(("2 of 21", "M7 0"), lambda: (browser.text("#n"), browser.run(dark)))
    browser.press("f")
    browser.click(browser.all(".moves b")[4])
    browser.shows(("5 of 21", True), lambda: (browser.text("#n"), browser.run(IN_VIEW, "figure.at")))
    browser.run("document.querySelector('#g3').scrollIntoView()")
    assert becomes(lambda: browser.all("#g3 .moves u"))
    browser.click(browser.all("#g3 .moves u")[0])
    browser.shows(True, lambda: browser.run(IN_VIEW, "aside svg"))
    browser.press("\ue014", "\ue00c")
    browser.shows(False, lambda: browser.run(IN_VIEW, "aside svg"))
    assert browser.run(DIFFERENT) == [True, 0]
    assert browser.errors() == []


def test_turned_boards_and_coordinates(asked: Asking, room: Path, browser: Browser) -> None:
    browser.go(made(asked, room, "--exercises", "--flip", "side-to-move", "--coordinates"))
    script = "figures().forEach(drawFigure); return figures().map(f => [f.dataset.turned || '', f.querySelector('text').textContent])"
    first = browser.run(script)
    assert {tuple(pair) for pair in first} == {("", "a"), ("1", "h")}
    assert browser.all("figure details[open]") == []
    browser.click(browser.all("figure summary")[1])
    browser.shows(1, lambda: len(browser.all("figure details[open]")))
    assert "1-0" in browser.text("figure details[open]")
    assert browser.errors() == []


@pytest.mark.parametrize(("words", "pages"), [([], 3), (["--per-page", "12"], 2), (["--exercises"], 3)])
def test_print(asked: Asking, room: Path, browser: Browser, words: list[str], pages: int) -> None:
    """Boards alone, none parted from its caption: eight or twelve are on a page."""
    browser.go(made(asked, room, *words))
    pdf = base64.b64decode(
        browser.driver.execute_cdp_cmd("Page.printToPDF", {"printBackground": True, "paperWidth": 8.27, "paperHeight": 11.69})["data"]
    )
    assert (pdf.count(b"/Type /Page\n") or pdf.count(b"/Type /Page")) in (pages, pages + pdf.count(b"/Type /Pages"))
    assert len(browser.all("figure svg")) == 21


def test_a_hostile_archive(asked: Asking, room: Path, browser: Browser) -> None:
    """No script of the archive runs, in the page and when its moves are clicked."""
    (room / "page.html").write_bytes(asked("cqlpgn-diagrams", data=HOSTILE).out)
    browser.go(room / "page.html")
    browser.press("j")
    for move in browser.all(".moves u, .moves b"):
        browser.click(move)
    assert browser.run("return document.querySelectorAll('img, article script').length") == 0
    assert "<img src=x onerror=alert(1)>" in browser.text(".moves em")
    head = browser.run("return getComputedStyle(document.querySelector('h2 bdi')).unicodeBidi")
    assert (head, browser.text("h2 small"), browser.errors()) == ("isolate", "1-0", [])
