"""The desk's page in headless Chromium, used as a reader does, by mouse and by keys; a hostile archive, and a hostile page that knows the
desk's address. It wants chromium, chromium-driver, python3-selenium, python3-aiohttp and libjs-codemirror."""

from __future__ import annotations

import csv
import gzip
import http.server
import io
import os
import shutil
import threading
import time
import urllib.request
from collections.abc import Iterator
from pathlib import Path
from typing import Any

import pytest
from tests.conftest import TOP, Asking, program
from tests.desks import GAME, Served
from tests.processes import PATIENCE, becomes

webdriver = pytest.importorskip("selenium.webdriver")
pytest.importorskip("aiohttp")
if not shutil.which("chromedriver"):
    pytest.skip("chromium-driver is not installed", allow_module_level=True)
if not os.path.exists("/usr/share/javascript/codemirror/lib/codemirror.js"):
    pytest.skip("libjs-codemirror is not installed", allow_module_level=True)

SCRIPT = "<script>window.hit = 1</script><img src=x onerror='window.hit = 2'>"
HOSTILE = (
    f'[White "{SCRIPT}"]\n[Black "javascript:window.hit=3"]\n[Event "\\"><svg onload=window.hit=4>"]\n\n1. f3 '
    f"{{{SCRIPT}}} e5 2. g4 Qh4# 0-1\n\n"
    '[White "line\u2028separator \u202eright to left"]\n[Black "back\\\\slash \\" quote \' &lt;b&gt;"]\n\n1. f3 e5 2. g4 Qh4# 0-1\n\n'
    f'[White "{"x" * 200_000}"]\n[Black "long"]\n\n1. f3 e5 2. g4 {{{"y " * 100_000}}} 2... Qh4# 0-1\n\n'
    f'[White "A"]\n[Annotator "</p></article></main><script>window.hit=5</script>"]\n\n'
    f'1. f3 $139 e5 2. g4 {"(2. g3 " * 30 + ")" * 30} 2... Qh4# 0-1\n\n'
)
ODD = b'[White "M\xfcller \xff\xfe\x80"]\n[Black "\xe2\x80"]\n\n1. f3 e5 2. g4 Qh4# 0-1\n\n'
LONG = '[White "endless"]\n\n' + " ".join(f"{n}. Nf3 Nf6 {n + 1}. Ng1 Ng8" for n in range(1, 400, 2)) + " *\n\n"
NAMED = "<img src=x onerror='window.hit=6'>.pgn"
EDITOR = "const c = document.querySelector('.CodeMirror').CodeMirror; "


@pytest.fixture(scope="module")
def served(tmp_path_factory: pytest.TempPathFactory) -> Iterator[Served]:
    folder = tmp_path_factory.mktemp("games")
    for name in ("games.pgn", "famous.pgn"):
        (folder / name).write_bytes((TOP / "examples" / name).read_bytes())
    games = (GAME + b"1. e4 e5 2. Nf3 Nc6 3. Bb5 a6 4. Bxc6 dxc6 5. O-O f6 *\n\n" * 5) * 100_000
    (folder / "large.pgn.gz").write_bytes(gzip.compress(games) * 100)  # so that no program is through before it is stopped
    (folder / "hostile.pgn").write_bytes(HOSTILE.encode() + ODD)
    (folder / "doubtful.pgn").write_bytes(b'1. e4 *\n----\n[A "b"]\n1. 1/2\n')
    (folder / "long.pgn").write_bytes(LONG.encode())
    (folder / NAMED).write_bytes(ODD)
    desk = Served(folder, CQLPGN=program("CQLPGN", "cqlpgn"), PGNJSON=program("PGNJSON", "pgnjson"))
    yield desk
    desk.close()


class Browser:
    """A browser without a window."""

    def __init__(self, *more: str) -> None:
        options = webdriver.ChromeOptions()
        for word in ("--headless=new", "--no-sandbox", "--disable-gpu", "--window-size=1280,900", "--disable-dev-shm-usage", *more):
            options.add_argument(word)
        options.set_capability("goog:loggingPrefs", {"browser": "ALL"})
        service = pytest.importorskip("selenium.webdriver.chrome.service").Service(shutil.which("chromedriver"))
        self.driver: Any = webdriver.Chrome(service=service, options=options)
        self.driver.set_script_timeout(PATIENCE)

    def run(self, script: str, *words: object) -> Any:
        return self.driver.execute_script(script, *words)

    def until(self, script: str, *words: object) -> Any:
        end = time.monotonic() + PATIENCE
        while not (value := self.run(script, *words)):
            assert time.monotonic() < end, (script, words, self.text("fault"), self.errors())
            time.sleep(0.05)
        return value

    def open(self, address: str) -> None:
        self.driver.get(address)
        self.until("return document.querySelector('.CodeMirror') && document.querySelector('#lost').hidden")

    def write(self, query: str) -> None:
        self.run(EDITOR + "c.setValue(arguments[0])", query)

    def choose(self, *names: str) -> None:
        """Chooses archives, as a click on each would."""
        self.run(
            "for (const box of document.querySelectorAll('#archives input'))"
            "  if (box.checked !== arguments[0].includes(box.value)) box.click()",
            names,
        )

    def ask(self, query: str, *names: str) -> None:
        """Asks a query, and waits until the run is known to the page."""
        before = self.run("return document.querySelector('#links a').getAttribute('href')")
        self.write(query)
        self.choose(*names)
        self.click("#run")
        self.until(
            "return document.querySelector('#links a').getAttribute('href') !== arguments[0] && !document.querySelector('#report').hidden",
            before,
        )

    def ended(self) -> None:
        self.until("return !document.getElementById('report').hidden && document.getElementById('progress').hidden")

    def click(self, selector: str) -> None:
        self.driver.find_element("css selector", selector).click()

    def text(self, name: str) -> str:
        said: str = self.run("return document.getElementById(arguments[0]).textContent", name)
        return said

    def value(self) -> str:
        said: str = self.run(EDITOR + "return c.getValue()")
        return said

    def press(self, *keys: str) -> None:
        webdriver.ActionChains(self.driver).send_keys(*keys).perform()

    def count(self, selector: str) -> int:
        number: int = self.run("return document.querySelectorAll(arguments[0]).length", selector)
        return number

    def errors(self) -> list[str]:
        return [entry["message"] for entry in self.driver.get_log("browser") if entry["level"] == "SEVERE"]


@pytest.fixture(scope="module")
def one(served: Served) -> Iterator[Browser]:
    made = Browser()
    yield made
    made.driver.quit()


@pytest.fixture
def browser(one: Browser, served: Served) -> Iterator[Browser]:
    """The browser at a page of its own; nothing may have gone wrong in it."""
    one.open(served.address)
    one.run("sessionStorage.clear()")
    one.open(served.address)
    yield one
    assert one.errors() == []


@pytest.mark.parametrize(
    ("query", "byte", "marked"),
    [
        ("cql()\n// Müller 🙂\nmate echo", 27, "echo"),
        ("cql() #check", 7, "check"),
        ("cql() mate !", 11, "!"),
        ("cql() mate\n%%\ncql() Kf1 x", 24, "x"),
    ],
)
def test_a_fault_is_marked_at_its_byte(browser: Browser, query: str, byte: int, marked: str) -> None:
    browser.write(query)
    browser.until("return document.getElementById('fault').textContent.endsWith(arguments[0])", f"byte {byte}")
    found = browser.run(
        EDITOR + "const m = c.getAllMarks().filter(m => m.className).map(m => m.find());"
        "return [m.map(m => c.getRange(m.from, m.to)).join('|'), new TextEncoder().encode(c.getRange({line: 0, ch: 0}, m[0].from)).length]"
    )
    assert found == [marked, byte]


def test_a_query_that_ends_too_soon(browser: Browser) -> None:
    browser.write("cql() mate and")
    browser.until("return document.querySelector('.end')")
    browser.write("cql() mate")
    browser.until("return document.getElementById('fault').className === 'good'")
    assert not browser.count(".end, .CodeMirror-lint-mark-error")


def test_keys_alone(browser: Browser) -> None:
    browser.write("")
    browser.run(EDITOR + "c.focus()")
    browser.choose("games.pgn")
    browser.run(EDITOR + "c.focus()")
    browser.press("cql() stalem")
    browser.until("return document.querySelector('.CodeMirror-hint')")
    browser.press("\ue007")
    assert "mated, stalemated" in browser.text("meaning")
    webdriver.ActionChains(browser.driver).key_down("\ue009").send_keys("\ue007").key_up("\ue009").perform()
    browser.until("return document.querySelector('#found figure svg')")
    browser.ended()
    assert browser.text("sum") == "1 game, 1 position" and "20 games of games.pgn" in browser.text("how")
    assert "1 game is faulty" in browser.text("faults")


def test_the_cookbook_over_the_examples(browser: Browser) -> None:
    for name, games in (("every mate", 8), ("a queen is taken", 3), ("notes to variations", 4), ("the king in all four corners", 0)):
        browser.run("[...document.querySelectorAll('.recipe')].find(b => b.textContent === arguments[0]).click()", name)
        browser.ask(browser.value(), "games.pgn")
        browser.ended()
        browser.until("return document.querySelectorAll('#articles article').length === arguments[0]", games)
        browser.until("return document.querySelectorAll('.row').length === arguments[0]", games)
        boards = browser.count("#articles figure")
        assert boards == browser.count("#articles .moves b") and (boards > 0) == (games > 0)


def test_runs_do_not_mix(browser: Browser) -> None:
    """One query after the other, faster than they are answered: what stands at last is of the last one."""
    browser.choose("games.pgn")
    for query in ["cql() check", "cql() stalemate"] * 4:
        browser.write(query)
        browser.run("document.getElementById('ask').requestSubmit()")
        time.sleep(0.1)
    browser.ended()
    browser.ask("cql() stalemate", "games.pgn")
    browser.until("return document.getElementById('sum').textContent === '1 game, 1 position'")
    browser.until("return document.querySelectorAll('.row').length === 1 && document.querySelectorAll('#articles article').length === 1")


def test_two_tabs(served: Served, browser: Browser) -> None:
    """Each has its own run, and keeps it when the other asks; one that is loaded again has its own again."""
    first = browser.driver.current_window_handle
    browser.ask("cql() mate", "games.pgn")
    browser.ended()
    browser.driver.switch_to.new_window("tab")
    try:
        browser.open(served.address)
        browser.ask("cql() stalemate", "games.pgn")
        browser.ended()
        browser.until("return document.querySelectorAll('#articles article').length === 1")
        second = browser.driver.current_window_handle
        for tab, said in ((first, "8 games, 8 positions"), (second, "1 game, 1 position")):
            browser.driver.switch_to.window(tab)
            assert browser.text("sum") == said
            browser.driver.refresh()
            browser.until("return document.getElementById('sum').textContent === arguments[0]", said)
            browser.until("return document.querySelectorAll('#articles article').length === arguments[0]", int(said.split()[0]))
        browser.driver.close()
    finally:
        browser.driver.switch_to.window(first)


def test_boards_before_the_end_and_stop(served: Served, browser: Browser) -> None:
    browser.ask("cql() mate", "large.pgn.gz")
    browser.until("return document.querySelector('#found figure svg')")
    assert served.children() and browser.text("run") == "Stop"
    browser.driver.refresh()  # a page that is loaded again finds its run
    browser.until("return document.querySelector('#found figure svg')")
    assert browser.value() == "cql() mate"
    browser.until("return document.getElementById('run').textContent === 'Run' || document.getElementById('run').click()")
    assert served.no_children()
    games = int(browser.text("count").replace(",", ""))
    assert browser.count("article") <= 70
    browser.run("const l = document.getElementById('list'); l.scrollTop = l.scrollHeight")
    row = f"[...document.querySelectorAll('.row')].find(r => r.dataset.place == {games - 1})"
    browser.until("return !!" + row)
    browser.run(row + ".click()")
    browser.until(f"return document.querySelector('article[data-place=\"{games - 1}\"] figure svg')")
    browser.run("document.activeElement.blur()")
    # where games must be brought first, a key that comes meanwhile is dropped
    browser.until(
        "document.body.dispatchEvent(new KeyboardEvent('keydown', {key: 'k', bubbles: true}));"
        f"const f = document.querySelector('figure.at'); return f && Number(f.closest('article').dataset.place) <= {games - 12}"
    )


def test_the_process_ends_with_the_tab(served: Served) -> None:
    other = Browser()
    other.open(served.address)
    other.ask("cql() flip shift { Ka1 Qb2 kh8 }", "large.pgn.gz")
    other.until("return document.getElementById('how').textContent.includes(' of ')")
    assert served.children()
    other.driver.quit()
    assert served.no_children()


def test_rows_are_those_of_cqlpgn_rows(browser: Browser, asked: Asking, room: Path) -> None:
    browser.ask("cql() check", "famous.pgn")
    browser.ended()
    links = {a.get_attribute("data-form"): a.get_attribute("href") for a in browser.driver.find_elements("css selector", "#links a")}
    saved = {form: urllib.request.urlopen(link).read() for form, link in links.items()}
    assert saved["pgn"].count(b"{CQL}") == int(browser.text("sum").split()[2])
    columns = next(csv.reader(io.StringIO(saved["csv"].decode())))
    games = saved["pgn"].count(b"[Event ")
    (room / "index").write_text("found,archive,game\n" + "".join(f"{number},famous.pgn,\n" for number in range(1, games + 1)))
    for form in ("csv", "json"):
        words = (f"--{form}", "--index", "index", "--columns", ",".join(columns))
        assert saved[form] == asked("cqlpgn-rows", *words, data=saved["pgn"]).out
    assert saved["epd"] == asked("cqlpgn-rows", "--epd", "--index", "index", data=saved["pgn"]).out


def test_keys_in_the_list_and_in_a_game(browser: Browser) -> None:
    browser.ask("cql() mate", "famous.pgn")
    browser.ended()
    last = int(browser.text("count")) - 1
    browser.run("document.getElementById('list').focus()")
    at = "const r = document.querySelector('.row[aria-selected=true]'); return !!r && r.dataset.place == arguments[0]"
    for key, place in (("\ue015", 0), ("\ue015", 1), ("\ue010", last), ("\ue015", last), ("\ue013", last - 1), ("\ue011", 0)):
        browser.press(key)
        browser.until(at, place)
        browser.until('return !!document.querySelector(`article[data-place="${arguments[0]}"] figure svg`)', place)
    browser.press("j")
    browser.until("return document.querySelector('figure.at')")
    moves = browser.run(
        "return document.querySelector('article:has(.at) .moves').textContent.split(/\\s+/).filter(w => /^[A-Za-z]/.test(w))"
    )
    seen = "return document.querySelector('aside').hidden ? '' : document.querySelector('aside span').textContent"
    for key, move in (("\ue012", moves[-2]), ("\ue012", moves[-3]), ("\ue014", moves[-2]), ("\ue00c", "")):
        browser.press(key)
        browser.until(f"{seen.replace('return ', 'return (')}) === arguments[0]", move)


def test_escape_closes_what_is_open_and_then_stops(served: Served, browser: Browser) -> None:
    browser.ask("cql() mate", "large.pgn.gz")
    browser.until("return document.querySelector('#found figure svg')")
    browser.until("const u = document.querySelector('.moves u'); if (u) u.click(); return !document.querySelector('aside').hidden")
    browser.press("\ue00c")
    browser.until("return document.querySelector('aside').hidden")
    assert browser.text("run") == "Stop" and served.children()
    browser.run("document.querySelector('#archives summary').focus()")
    browser.press(" ")
    browser.until("return document.getElementById('archives').open")
    browser.press("\ue00c")
    browser.until("return !document.getElementById('archives').open")
    assert browser.text("run") == "Stop"
    browser.press("\ue00c")
    browser.until("return document.getElementById('run').textContent === 'Run'")
    assert served.no_children()


def test_a_filter_says_what_is_left(browser: Browser) -> None:
    browser.ask("cql() mate", "famous.pgn")
    browser.ended()
    games = browser.text("count")
    browser.driver.find_element("id", "filter").send_keys("morphy")
    browser.until(f"return document.getElementById('left').textContent.startsWith('1 of {games} games')")
    browser.until("return document.querySelectorAll('.row').length === 1 && document.querySelectorAll('#articles article').length === 1")
    browser.ask("cql() mate", "games.pgn")
    assert browser.text("left") == "" and browser.run("return document.getElementById('filter').value") == ""


def test_light_or_dark(browser: Browser) -> None:
    back = "return getComputedStyle(document.body).backgroundColor"
    choose = "const look = document.getElementById('look'); look.value = arguments[0]; look.dispatchEvent(new Event('change'))"
    seen = {}
    for look in ("dark", "light", ""):
        browser.run(choose, look)
        browser.driver.refresh()
        browser.until("return document.querySelector('.CodeMirror')")
        assert browser.run("return document.getElementById('look').value") == look
        seen[look] = browser.run(back)
    assert seen["dark"] == "rgb(23, 24, 26)" and seen["light"] == "rgb(246, 243, 236)" and seen[""] in (seen["dark"], seen["light"])


def test_boards_that_cannot_be_read(browser: Browser, tmp_path: Path) -> None:
    """The page says that the program which reads the games is not there any more."""
    (tmp_path / "games.pgn").write_bytes(GAME)
    reader = tmp_path / "pgnjson"
    shutil.copy(program("PGNJSON", "pgnjson"), reader)
    desk = Served(tmp_path, CQLPGN=program("CQLPGN", "cqlpgn"), PGNJSON=str(reader))
    try:
        browser.open(desk.address)
        reader.unlink()
        browser.ask("cql() mate", "games.pgn")
        says = "return document.getElementById('fault').textContent.includes('there is no program')"
        browser.until(says)
        browser.until("return document.querySelectorAll('.row').length === 1")
        # that the query has no fault does not hide it
        browser.run(EDITOR + "c.performLint()")
        time.sleep(0.7)
        assert browser.run(says)
    finally:
        desk.close()


def test_a_position_is_set(browser: Browser) -> None:
    browser.write("cql() ")
    browser.run(EDITOR + "c.setCursor(0, 6)")
    browser.click("[data-pane=setting]")
    browser.click("#squares [data-square='4']")
    browser.click("#palette [data-man=r]")
    browser.click("#squares [data-square='63']")
    browser.press("\ue012", "q")  # one square to the left, by keys
    browser.click("#several")
    browser.click("#palette [data-man=N]")
    browser.click("#squares [data-square='21']")
    browser.click("#squares [data-square='18']")
    assert browser.text("designators") == "Ke1 qg8 rh8 N[c3,f3]"
    browser.run("document.getElementById('exact').click()")
    assert browser.text("designators") == "Ke1 qg8 rh8 N[c3,f3] #(A | a) == 4"
    browser.click("#insert")
    assert browser.value() == "cql() Ke1 qg8 rh8 N[c3,f3] #(A | a) == 4 "
    browser.until("return document.getElementById('fault').className === 'good'")
    browser.driver.find_element("id", "fen").send_keys("7k/8/6K1/8/8/8/8/5Q2 w - - 0 1")
    assert browser.text("designators") == "Qf1 Kg6 kh8 #(A | a) == 3 wtm"
    browser.write("cql() ")
    browser.run(EDITOR + "c.setCursor(0, 6)")
    browser.click("#insert")
    browser.ask(browser.value(), "games.pgn")
    browser.ended()
    assert browser.text("sum") == "1 game, 1 position"


def test_several_queries_archives_and_faults(browser: Browser) -> None:
    browser.ask("cql() mate\n%%\ncql() stalemate", "games.pgn", "famous.pgn")
    browser.ended()
    first = browser.text("sum")
    browser.run("const w = document.getElementById('which'); w.value = 1; w.onchange()")
    browser.until("return document.getElementById('sum').textContent === '1 game, 1 position'")
    browser.until("return document.querySelectorAll('#articles article').length === 1")
    assert first == "14 games, 14 positions" and "29 games of 2 archives" in browser.text("how")
    browser.click("#faults summary")
    browser.until("return document.querySelector('#faults li button')").click()
    shown = browser.until(
        "const p = document.querySelector('#faults pre'), m = p.querySelector('mark'); return m && [p.textContent, m.textContent]"
    )
    assert browser.run("return document.querySelector('#faults mark').getBoundingClientRect().bottom <= innerHeight")
    assert "1. e4 e5 2. Ke3 *" in shown[0] and shown[1] == "K"


def test_hints_and_doubtful_games(browser: Browser) -> None:
    """Below a faulty game that is looked at is a hint, and after the faulty games come doubtful ones."""
    browser.ask("cql() mate", "doubtful.pgn")
    browser.ended()
    browser.until("const f = document.getElementById('faults'); return !f.hidden && (f.open || (f.open = true))")
    told = browser.until("const b = [...document.querySelectorAll('#faults button')]; return b.length > 1 && b.map(one => one.textContent)")
    assert told[:1] == ["doubtful.pgn: game 3, byte 24: not a move"] and told[1].startswith(
        "doubtful.pgn: game 2, byte 8: it has null moves alone"
    )
    browser.run("document.querySelector('#faults button').click()")
    wanted = "the result of a draw is written `1/2-1/2`"
    browser.until("return document.querySelector('#faults .hint').textContent === arguments[0]", wanted)


def test_explained_kept_and_varied(browser: Browser) -> None:
    browser.write('cql(matchstring "a)") flipcolor Ka1')
    browser.click("#variations")
    assert browser.value() == 'cql(variations matchstring "a)") flipcolor Ka1'
    browser.click("#variations")
    assert browser.value() == 'cql(matchstring "a)") flipcolor Ka1'
    browser.click("[data-pane=explained]")
    browser.until("return document.getElementById('explained').textContent.startsWith('(union')")
    browser.write("cql() mate")
    browser.until("return document.getElementById('explained').textContent.includes('mate')")
    browser.write('cql(matchstring "a)") flipcolor Ka1')
    browser.click("[data-pane=keeping]")
    browser.driver.find_element("id", "name").send_keys("corner")
    browser.click("#keep")
    browser.until("return document.getElementById('kept').textContent === 'corner.cql is saved'")
    browser.click("#keep")
    browser.until("return document.getElementById('keep').textContent === 'Write over it'")
    browser.write("cql() ")
    browser.run("document.querySelector('#own button').click()")
    browser.until(EDITOR + "return c.getValue().includes('flipcolor Ka1')")


def test_a_hostile_archive(browser: Browser) -> None:
    browser.ask("cql() mate", "hostile.pgn")
    browser.ended()
    browser.until("return document.querySelectorAll('#articles article').length === 5 && document.querySelectorAll('.row').length === 5")
    assert browser.run("return window.hit") is None
    assert not browser.count("main img, main script, #list img, #list script, #archives img")
    assert "<script>window.hit = 1</script>" in browser.run("return document.querySelector('article h2').textContent")
    assert browser.run("return document.documentElement.scrollWidth <= innerWidth")
    browser.ask("cql() mate", NAMED)
    browser.until("const h = document.querySelector('article h2'); return h && h.textContent.includes('Müller')")
    browser.write('cql() player "<img src=x onerror=window.hit=7>" <script>')
    browser.until("return document.getElementById('fault').className === 'bad'")
    assert browser.run("return window.hit") is None


def test_a_game_with_many_positions(browser: Browser) -> None:
    browser.ask("cql() wtm", "long.pgn")
    browser.ended()
    browser.until("return document.querySelector('#found figure svg')")
    assert browser.count("#articles figure") == 200 and "more positions" in browser.run(
        "return document.querySelector('article').textContent"
    )


@pytest.mark.parametrize("dark", [False, True])
def test_a_narrow_page(browser: Browser, dark: bool) -> None:
    features = [{"name": "prefers-color-scheme", "value": "dark" if dark else "light"}]
    browser.driver.execute_cdp_cmd("Emulation.setEmulatedMedia", {"features": features})
    browser.driver.execute_cdp_cmd(
        "Emulation.setDeviceMetricsOverride", {"width": 400, "height": 800, "deviceScaleFactor": 1, "mobile": False}
    )
    try:
        browser.ask("cql() mate", "famous.pgn")
        browser.ended()
        browser.until("return document.querySelector('#found figure svg')")
        browser.click("[data-pane=setting]")
        wide = (
            "return [...document.querySelectorAll('body *')].filter(e => e.getBoundingClientRect().right > 401"
            "  && !e.closest('.CodeMirror, #archives')).map(e => e.outerHTML)"
        )
        if shots := os.environ.get("SHOTS"):
            browser.driver.save_screenshot(os.path.join(shots, f"narrow-{'dark' if dark else 'light'}.png"))
        assert browser.run("return document.documentElement.scrollWidth") <= 400 and browser.run(wide) == []
    finally:
        browser.driver.execute_cdp_cmd("Emulation.clearDeviceMetricsOverride", {})
        browser.driver.execute_cdp_cmd("Emulation.setEmulatedMedia", {"features": []})


ATTACK = """<!DOCTYPE html><body><script>
const at = "%s", out = window.out = {};
fetch(at).then(r => r.text()).then(t => out.fetch = t.length, () => out.fetch = "refused");
fetch(at, {mode: "no-cors"}).then(r => out.blind = r.type, () => out.blind = "refused");
const s = new WebSocket(at.replace("http", "ws") + "socket");
s.onopen = () => out.socket = "open"; s.onerror = () => out.socket = "refused";
const i = document.createElement("iframe"); i.src = at; document.body.append(i);
const j = document.createElement("script"); j.src = at + "cql.js";
j.onload = () => out.script = "loaded"; j.onerror = () => out.script = "refused";
document.body.append(j);
</script>"""


def test_a_hostile_page(served: Served) -> None:
    """A page of another origin that knows the address, and one whose name was made to mean this machine."""

    class Evil(http.server.BaseHTTPRequestHandler):
        def do_GET(self) -> None:
            self.send_response(200)
            self.send_header("Content-Type", "text/html")
            self.end_headers()
            self.wfile.write((ATTACK % served.address).encode())

        def log_message(self, *_words: object) -> None:
            pass

    evil = http.server.ThreadingHTTPServer(("127.0.0.1", 0), Evil)
    threading.Thread(target=evil.serve_forever, daemon=True).start()
    other = Browser("--host-resolver-rules=MAP evil.example 127.0.0.1")
    try:
        for name in ("127.0.0.1", "evil.example"):
            other.driver.get(f"http://{name}:{evil.server_address[1]}/")
            assert becomes(lambda: len(other.run("return window.out")) == 4)
            assert other.run("return window.out") == dict.fromkeys(("fetch", "blind", "socket", "script"), "refused")
            other.driver.switch_to.frame(0)
            assert not other.run("return document.querySelector('#ask')")
            other.driver.switch_to.default_content()
        other.driver.get(served.address.replace("127.0.0.1", "evil.example"))
        assert "not the one that cqlpgn-desk has printed" in other.run("return document.body.textContent")
    finally:
        other.driver.quit()
        evil.shutdown()
