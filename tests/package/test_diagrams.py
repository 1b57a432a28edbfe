"""cqlpgn-diagrams: boards, exercises, several files; and what a hostile archive gets."""

from __future__ import annotations

import base64
import hashlib
import re
import shutil
import subprocess
from html.parser import HTMLParser
from pathlib import Path

import pytest
from tests.answers import found
from tests.conftest import TOP, Answer, Asking
from tests.processes import PATIENCE

pytestmark = pytest.mark.usefixtures("pgnjson", "room")
GAME = b'[White "A"]\n[Black "B"]\n\n1. e4 {CQL} {a note} e5 (1... c5 {other}) 2. Nf3 {CQL} -- {CQL} 3. Bc4 1-0\n'
PROMOTION = b'[FEN "7k/P7/8/8/8/8/8/K7 w - - 0 41"]\n[SetUp "1"]\n\n{CQL} 41. a8=Q+ {CQL} Kg7 *\n'
HOSTILE = (
    '[White "<script>alert(1)</script>"]\n[Black "\u202e0-1"]\n[Event "\' onload=x <img/src=x>"]\n'
    '[Annotator "\\\\input{x} $x^2$ ~#%&_"]\n[X "]]>--></bdi></p>"]\n\n'
    "1. e4 {CQL} {<img src=x onerror=alert(1)> \\write18 ^^5c} e5 {</script><script>alert(2)</script>} 1-0\n"
).encode()
NO_MOVES = b'1. a8="><script>alert(1)</script> {CQL} *\n\n1. e4 O<img/src=x onerror=alert(1)> {CQL} *\n'


class Parsed(HTMLParser):
    """The elements of a page with their attributes, and its text."""

    def __init__(self, text: str) -> None:
        super().__init__()
        self.elements: list[tuple[str, dict[str, str | None]]] = []
        self.open: list[str] = []
        self.text: list[tuple[list[str], str]] = []
        self.feed(text)
        self.close()

    def handle_starttag(self, tag: str, attrs: list[tuple[str, str | None]]) -> None:
        self.elements.append((tag, dict(attrs)))
        self.open.append(tag)

    def handle_endtag(self, tag: str) -> None:
        while self.open and self.open.pop() != tag:
            pass

    def handle_data(self, data: str) -> None:
        self.text.append((list(self.open), data))

    def attributes(self, tag: str, name: str) -> list[str | None]:
        return [attributes.get(name) for own, attributes in self.elements if own == tag]


def page(answer: Answer) -> Parsed:
    assert (answer.status in (0, 1), "Traceback" in answer.err) == (True, False)
    return Parsed(answer.out.decode())


def boards(answer: Answer) -> list[str]:
    return [str(fen).split(" ")[0] for fen in page(answer).attributes("figure", "data-fen")]


def test_a_board_for_each_match(asked: Asking) -> None:
    answer = asked("cqlpgn-diagrams", data=GAME + PROMOTION)
    assert (answer.status, answer.err) == (0, "")
    assert boards(answer) == [
        "rnbqkbnr/pppppppp/8/8/4P3/8/PPPP1PPP/RNBQKBNR",
        "rnbqkbnr/pppp1ppp/8/4p3/4P3/5N2/PPPP1PPP/RNBQKB1R",
        "rnbqkbnr/pppp1ppp/8/4p3/4P3/5N2/PPPP1PPP/RNBQKB1R",
        "7k/P7/8/8/8/8/8/K7",
        "Q6k/8/8/8/8/8/8/K7",
    ]
    read = page(answer)
    assert read.attributes("figure", "data-move") == ["Mc", "GV", "!!", None, "w4Q"]
    assert read.attributes("article", "data-moves") == ["Mc0k(yi)GV!!Fa", "w4=Q-2"]
    assert read.attributes("figure", "id") == ["m1", "m2", "m3", "m4", "m5"]


@pytest.mark.usefixtures("cqlpgn")
def test_the_boards_of_the_examples(asked: Asking) -> None:
    """As many as the model marks, and no comment of the archive's own is one."""
    for name in ("games.pgn", "themes.pgn", "positions.pgn"):
        text = found((TOP / "examples" / name).read_bytes(), asking='cql(variations matchstring "here") check')
        assert len(boards(asked("cqlpgn-diagrams", "--mark", "here", data=text))) == text.count(b"{here}")


def test_several_marks_files_and_titles(asked: Asking, room: Path) -> None:
    (room / "a.pgn").write_bytes(GAME)
    (room / "b.pgn").write_bytes(PROMOTION)
    assert len(boards(asked("cqlpgn-diagrams", "--mark", "other", "--mark", "a  note", "a.pgn"))) == 2
    answer = asked("cqlpgn-diagrams", "--title", "One & one", "a.pgn", "b.pgn", "-o", "page.html")
    assert (answer.status, answer.out) == (0, b"")
    read = Parsed((room / "page.html").read_text())
    heads = ["".join(text for open_, text in read.text if open_[-2:] == ["h1", "bdi"])]
    assert heads == ["One & one · b.pgnOne & oneb.pgn"]
    assert read.attributes("figure", "id") == ["m1", "m2", "m3", "m4", "m5"]


def test_exercises(asked: Asking) -> None:
    answer = asked("cqlpgn-diagrams", "--exercises", "--flip", "side-to-move", data=GAME)
    read = page(answer)
    assert read.attributes("figure", "data-move") == [None, None, None]
    assert read.attributes("figure", "data-turned") == ["1", "1", None]
    assert read.attributes("article", "data-moves") == [None]
    told = [text for open_, text in read.text if "figure" in open_ and "details" not in open_]
    assert not any("Nf3" in text or "A" == text for text in told)
    assert sum("details" in open_ and "1...e5 2.Nf3 -- 3.Bc4 1-0" in text for open_, text in read.text) == 1
    text = asked("cqlpgn-diagrams", "--exercises", "--tex", "--flip", "side-to-move", data=GAME).out.decode()
    assert (text.count("inverse,setfen") + text.count("{inverse}"), "markmoves={" in text, "after 1" in text) == (2, False, False)
    assert "\\textbf{1} 1...e5 2.Nf3 {-\\kern0pt}{-\\kern0pt} 3.Bc4 1{-\\kern0pt}0" in text.partition("Solutions")[2]
    bare = b"1. e4 {CQL} e5 *\n"
    assert "{\\footnotesize ? -- ?}\\par" in asked("cqlpgn-diagrams", "--exercises", "--tex", data=bare).out.decode()
    assert "<small><bdi>?</bdi> – <bdi>?</bdi></small></details>" in asked("cqlpgn-diagrams", "--exercises", data=bare).out.decode()


def test_a_sheet_of_problems(asked: Asking, room: Path) -> None:
    """A problem has its stipulation below the board, and its variations among the solutions."""
    games = (TOP / "tests" / "package" / "data" / "problems" / "sample.pgn").read_text()
    marked = re.sub(r"^(\[(?:SetUp|FEN)[^\n]*\]\n(?:\[[^\n]*\]\n)*\n)", r"\1{CQL} ", games, flags=re.M)
    read = page(asked("cqlpgn-diagrams", "--exercises", data=marked.encode()))
    told = " ".join(text for open_, text in read.text if "figcaption" in open_)
    assert "1 #5 · Loyd, Samuel" in re.sub(r"\s+", " ", told) and "s#1" in told and "h#2" in told
    solved = "".join(text for open_, text in read.text if "details" in open_)
    assert "1.Qe3! zugzwang (1.Qc5? zugzwang 1...g1=Q (1...Kh1 2.Qg1#) (1...Kg3! but) 2.Qxg1#) 1...g1=Q (1...g1=R 2.Qxg1#)" in solved
    text = asked("cqlpgn-diagrams", "--exercises", "--tex", data=marked.encode()).out.decode()
    assert "\\textbf{1}\\quad \\#5\\par Loyd, Samuel" in text
    assert "(1...{-\\kern0pt}{-\\kern0pt} \\emph{threat} 2.Rd5" in text.partition("Solutions")[2]


def test_latex(asked: Asking) -> None:
    text = asked("cqlpgn-diagrams", "--tex", "--coordinates", data=GAME * 3 + PROMOTION).out.decode()
    assert (text.count("\n\\match{") + text.count("\\hfill\n\\match{"), text.count("\\newpage"), "label=true" in text) == (11 + 5, 1, True)
    assert "markmoves={e2-e4}" in text and "after 2...{-\\kern0pt}{-\\kern0pt}" in text
    assert asked("cqlpgn-diagrams", "--tex", "--per-page", "12", data=GAME * 4).out.decode().count("\\newpage") == 0


def test_what_is_no_move_is_refused(asked: Asking) -> None:
    answer = asked("cqlpgn-diagrams", data=NO_MOVES + GAME)
    assert (answer.status, len(boards(answer)), b"alert" in answer.out, len(answer.lines)) == (1, 3, False, 1)
    answer = asked("cqlpgn-diagrams", data=GAME[: GAME.index(b"Bc4")] + b"(3. d4")
    assert (answer.status, boards(answer)) == (1, [])


def test_variations_within_variations(asked: Asking) -> None:
    """A hundred levels are shown, and more are refused where the archive is read, so that nothing here is deeper."""

    def nested(levels: int) -> bytes:
        return b"1. e4 " + b"(1. d4 " * levels + b"{CQL} " + b")" * levels + b" e5 {CQL} *\n\n"

    choices: list[list[str]] = [[], ["--exercises"], ["--tex"], ["--tex", "--exercises"]]
    for words in choices:
        answer = asked("cqlpgn-diagrams", *words, data=nested(100))
        assert (answer.status, answer.err) == (0, "")
        assert "--tex" in words or len(boards(answer)) == 2
        answer = asked("cqlpgn-diagrams", *words, data=nested(3000) + GAME)
        assert (answer.status, answer.lines) == (1, ["-: game 1 byte 706: too deep"])
        assert "--tex" in words or len(boards(answer)) == 3


def test_no_script_of_an_archive(asked: Asking) -> None:
    """What an archive has is text within `bdi`, and the page's policy lets no script run but its own."""
    choices: list[list[str]] = [[], ["--exercises"], ["--title", "<script>alert(1)</script>\u202e"]]
    for words in choices:
        answer = asked("cqlpgn-diagrams", *words, data=HOSTILE)
        read, text = page(answer), answer.out.decode()
        tags = [tag for tag, _ in read.elements]
        assert (tags.count("script"), tags.count("style"), tags.count("img"), "innerHTML" in text) == (1, 1, 0, False)
        assert not any(name.startswith("on") or name == "style" for _, attributes in read.elements for name in attributes)
        said = [(open_, data) for open_, data in read.text if "alert" in data or "\u202e" in data or "onload" in data]
        assert said and all("bdi" in open_ or open_[-1:] == ["title"] for open_, _ in said)
        policy = next(a["content"] or "" for tag, a in read.elements if a.get("http-equiv") == "Content-Security-Policy")
        for tag in ("style", "script"):
            inside = re.findall(rf"<{tag}>(.*?)</{tag}>", text, re.S)[0]
            digest = base64.b64encode(hashlib.sha256(inside.encode()).digest()).decode()
            assert f"{tag}-src 'sha256-{digest}'" in policy
        assert policy.startswith("default-src 'none'")


def test_no_control_sequence_of_an_archive(asked: Asking) -> None:
    text = asked(
        "cqlpgn-diagrams", "--tex", data=HOSTILE + '[White "Иванов Ιωάννης Đặng 中文 \U0001f600"]\n\n1. e4 {CQL} *\n'.encode()
    ).out.decode()
    body = text.partition("\\begin{document}")[2]
    known = {"begin", "end", "match", "textbf", "quad", "par", "emph", "textless", "textgreater", "textbackslash", "textasciicircum"}
    known |= {"textasciitilde", "letter", "hfill", "null", "vfill", "newpage", "large", "dots", "kern"}
    assert set(re.findall(r"\\([A-Za-z]+)", body)) <= known
    assert "\u202e" not in text and "^^" not in body and not re.search(r"(?<!\\)[#$&~_]", body.replace("\\_", ""))
    assert "\\letter{418}{?}" in text and "\\letter{1F600}{?}" in text and "\\letter{1EB7}{a}" in text


@pytest.mark.skipif(not shutil.which("pdflatex"), reason="pdflatex is not installed")
@pytest.mark.parametrize("engine", ["pdflatex", "lualatex"])
@pytest.mark.parametrize("words", [[], ["--exercises", "--per-page", "12"]])
def test_the_text_is_set(asked: Asking, room: Path, engine: str, words: list[str]) -> None:
    names = '[White "Иванов Ιωάννης Đặng 中文 \U0001f600"]\n\n1. e4 {CQL} *\n'.encode()
    if not shutil.which(engine):
        pytest.skip(f"{engine} is not installed")
    (room / "a.tex").write_bytes(asked("cqlpgn-diagrams", "--tex", *words, data=HOSTILE + names + GAME * 2).out)
    done = subprocess.run([engine, "-interaction=nonstopmode", "a.tex"], capture_output=True, check=False, timeout=6 * PATIENCE)
    said = done.stdout.decode("utf-8", "replace")
    if "not found" in said and "chessboard.sty" in said:
        pytest.skip("the package chessboard is not installed")
    assert (done.returncode, re.findall(r"^! .*", said, re.M), (room / "a.pdf").stat().st_size > 1000) == (0, [], True)


def test_what_is_not_there(asked: Asking, room: Path) -> None:
    answer = asked("cqlpgn-diagrams")
    assert (answer.status, answer.lines, boards(answer)) == (0, ["there is no game: -"], [])
    answer = asked("cqlpgn-diagrams", "--mark", "fork", data=GAME)
    assert (answer.status, answer.lines) == (0, ["no position has the comment {fork}; --mark names another one"])
    answer = asked("cqlpgn-diagrams", data=b"query 1 bytes 3\n*\n\n")
    assert (answer.status, answer.out, "`cqlpgn many` writes" in answer.err) == (5, b"", True)
    (room / "page.html").write_bytes(b"old")
    (room / "a.pgn").write_bytes(GAME)
    assert asked("cqlpgn-diagrams", "-o", "page.html", "a.pgn", "none.pgn").status == 4
    assert (room / "page.html").read_bytes() == b"old"
    assert asked("cqlpgn-diagrams", "-o", "a.pgn", "a.pgn").status == 3
    assert asked("cqlpgn-diagrams", "--per-page", "9").status == 3
