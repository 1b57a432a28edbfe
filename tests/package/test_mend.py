"""cqlpgn-mend: what is mended, what is left, and that nothing else is touched."""

from __future__ import annotations

import csv
import gzip
import os
import random
import subprocess
from collections.abc import Callable
from pathlib import Path

import pytest
from cqlpgn import archives
from cqlpgn.commands.mend import parser
from cqlpgn.mending.archive import Mender, Told
from cqlpgn.mending.classes import CLASSES
from cqlpgn.mending.text import Change, Text
from model import pgn, program
from tests.conftest import TOP, Answer, Asking

Mend = Callable[..., Answer]
FIRST, LAST = b'[Event "sound"]\n\n1. d4 {Bb5 + 1/2} d5 *\n\n', b'\n[Event "sound too"]\n\n1. c4 (1. Nf3) c5 *\n'
TAGS = b'[Event "it"]\n[White "A"]\n\n'


@pytest.fixture
def mend(asked: Asking, cqlpgn: str, pgnjson: str, pgnpieces: str) -> Mend:
    return lambda *words, **more: asked("cqlpgn-mend", *words, **more)


# What stands in a game, what it is mended to, and the class of each change.
MENDED: list[tuple[str, str, str]] = [
    ("1. e4 e5 1/2", "1. e4 e5 1/2-1/2", "results"),
    ("1. e4 e5 1/2 - 1/2", "1. e4 e5 1/2-1/2", "results"),
    ("1. e4 e5 ½-½", "1. e4 e5 1/2-1/2", "results"),
    ("1. e4 e5 1:0", "1. e4 e5 1-0", "results"),
    ("1. e4 e5 0 - 1", "1. e4 e5 0-1", "results"),
    ("1. e4 e5 0-0", "1. e4 e5 {0-0} *", "results"),
    ("1. e4 e5 1-0ff", "1. e4 e5 {ff} 1-0", "results"),
    ("1. e4 e5 1/2\n\n1. d4 *", "1. e4 e5 1/2-1/2\n\n1. d4 *", "results"),
    ("1. e4 e5 draw", "1. e4 e5 1/2-1/2", "results"),
    ("1. e2e4 e7e5 2. g1f3 b8-c6 *", "1. e2e4 e7e5 2. Ng1f3 Nb8c6 *", "notation notation"),
    ("1. e2–e4 e5 *", "1. e2e4 e5 *", "notation"),
    ("1. e4 e5 2. nf3 nc6 *", "1. e4 e5 2. Nf3 Nc6 *", "notation notation"),
    ("1. e4 e5 2. Nf3 Nf6 3. Be2 Be7 4. o-o OO *", "1. e4 e5 2. Nf3 Nf6 3. Be2 Be7 4. O-O O-O *", "castling castling"),
    ("1. e4 e5 2. Nf3 Nf6 3. Be2 Be7 4. e1g1 Ke8-g8 *", "1. e4 e5 2. Nf3 Nf6 3. Be2 Be7 4. O-O O-O *", "castling castling"),
    ("1. e4 e5 2. Nf3 Nf6 3. Be2 Be7 4. Kg1 *", "1. e4 e5 2. Nf3 Nf6 3. Be2 Be7 4. O-O *", "castling"),
    ("1. e4 d5 2. ed Q:d5 *", "1. e4 d5 2. exd5 Qxd5 *", "captures captures"),
    ("1. Nf3 d5 2. Nf3x e5 Nc6 *", "1. Nf3 d5 2. Nf3xe5 Nc6 *", "captures"),
    ("1. Nf3 e5 2. Nf3 : e5 Nc6 *", "1. Nf3 e5 2. Nf3xe5 Nc6 *", "captures"),
    ("1. e4 d5 2. exd *", "1. e4 d5 2. exd5 *", "captures"),
    ("1. e4 d5 2. Bb5 + c6 *", "1. e4 d5 2. Bb5 c6 *", "checks"),
    ("1. e4 d5 2. Bb5 dis ch *", "1. e4 d5 2. Bb5 *", "checks"),
    ("1. e4 d5 2. Bb5† c6 *", "1. e4 d5 2. Bb5 c6 *", "checks"),
    ("1. e4 d5 2. Bb5ch c6 *", "1. e4 d5 2. Bb5 c6 *", "checks"),
    ("1. e4 a6 2. e5 d5 3. exd6 e.p. *", "1. e4 a6 2. e5 d5 3. exd6 *", "checks"),
    ("1. e4 a6 2. e5 d5 3. exd6e.p. *", "1. e4 a6 2. e5 d5 3. exd6 *", "checks"),
    ("1. e4 e5 2. Sf3 Sc6 3. Lb5 *", "1. e4 e5 2. Nf3 Nc6 3. Bb5 *", "letters letters letters"),
    ("1. e4 e5 2. Cf3 {Cf3} Cc6 3. Fb5 *", "1. e4 e5 2. Nf3 {Cf3} Nc6 3. Bb5 *", "letters letters letters"),
    ("1. e4 e5 2. Nf3 (2. Sc3) Sc6 *", "1. e4 e5 2. Nf3 (2. Nc3) Nc6 *", "letters letters"),
    ("1. e4 e5 2. ♘f3 *", "1. e4 e5 2. Nf3 *", "letters"),
    ("1. e4 e5 2. Кf3 *", "1. e4 e5 2. Nf3 *", "letters"),
    ("1. e4 e5 2. Nf3 = Nc6 3. Bb5 +- *", "1. e4 e5 2. Nf3 $10 Nc6 3. Bb5 $18 *", "glyphs glyphs"),
    ("1. e4 e5 2. Nf3+- Nc6 N *", "1. e4 e5 2. Nf3 $18 Nc6 $146 *", "glyphs glyphs"),
    ("1. e4(!) e5 $300 *", "1. e4! e5 *", "glyphs glyphs"),
    ("1. e4 e5 2. Nf3 ± *", "1. e4 e5 2. Nf3 $16 *", "glyphs"),
    ("1. e4 (1. d4)) e5 () *", "1. e4 (1. d4) e5  *", "brackets brackets"),
    ("1. e4 } e5 (1... c5 *", "1. e4  e5 (1... c5) *", "brackets brackets"),
    ("1. e4 {a {b} c} e5 *", "1. e4 {a (b) c} e5 *", "brackets"),
    ("1e4 e5 2) Nf3, Nc6 *", "1. e4 e5 2. Nf3 Nc6 *", "numbers numbers numbers"),
    ("1. e4 null 2. d4 <> *", "1. e4 -- 2. d4 -- *", "nulls nulls"),
    ("1. e4 (0.24/12) [%clk 0:01:02] e5 <x> %y\n*", "1. e4 {0.24/12} {[%clk 0:01:02]} e5 {<x>} {%y}\n*", "remarks remarks remarks remarks"),
    ("1. e4\x00 e5\u00a02. d4 *\x1a", "1. e4 e5 2. d4 *", "bytes bytes bytes"),
]
TAG_LINES = [
    ('[Event "Open "B""]', r'[Event "Open \"B\""]'),
    ('[Event "x]', '[Event "x"]'),
    ('[Event "x"', '[Event "x"]'),
    ("[Event x y]", '[Event "x y"]'),
    ("[Annotator]", '[Annotator "?"]'),
    ('[White Elo "2000"]', '[WhiteElo "2000"]'),
    ('[_Name "x"]', '[Name "x"]'),
    ('[Event "x\ny"]', '[Event "x y"]'),
    ("[Event “x”]", '[Event "x"]'),
    (r'[Event "c:\games\"]', r'[Event "c:\\games\\"]'),
]
FENS = [
    ("4k3/8/8/8/8/8/8/4K3 W - - 0 1", "4k3/8/8/8/8/8/8/4K3 w - - 0 1"),
    ("4k3/8/8/8/8/8/8/4K3 w", "4k3/8/8/8/8/8/8/4K3 w - - 0 1"),
    ("4k3/8/8/8/8/8/8/4K3 w - - 0", "4k3/8/8/8/8/8/8/4K3 w - - 0 1"),
    ("4k3/8/8/8/8/8/8/4K3 w - - -1 -1", "4k3/8/8/8/8/8/8/4K3 w - - 0 1"),
]


def classes_in(report: Path) -> str:
    with open(report, encoding="utf-8", newline="") as file:
        return " ".join(row["class"] for row in csv.DictReader(file))


@pytest.mark.parametrize(("text", "wanted", "kinds"), MENDED)
def test_a_spelling(mend: Mend, room: Path, text: str, wanted: str, kinds: str) -> None:
    """Between two games that are sound, and have in a comment what would be mended elsewhere."""
    (room / "a.pgn").write_bytes(FIRST + TAGS + text.encode() + b"\n" + LAST)
    answer = mend("--report", "r.csv", "a.pgn")
    assert (answer.out.decode(), classes_in(room / "r.csv")) == ((FIRST + TAGS + wanted.encode() + b"\n" + LAST).decode(), kinds)
    assert answer.status == ("left" in kinds) and program.run_eval(b"cql() initial", answer.out)[0] == answer.status


@pytest.mark.parametrize(("line", "wanted"), TAG_LINES)
@pytest.mark.parametrize("end", ["\n", "\r\n"])
def test_a_tag(mend: Mend, line: str, wanted: str, end: str) -> None:
    rest = f'{end}[Site "s"]{end}{end}1. e4 *{end}'
    assert mend("-", data=(line + rest).encode()).out.decode() == wanted + rest


@pytest.mark.parametrize(("fen", "wanted"), FENS)
def test_a_position(mend: Mend, fen: str, wanted: str) -> None:
    answer = mend("-", data=f'[FEN "{fen}"]\n\n1. Kd2 *\n'.encode())
    assert (answer.status, answer.out.decode()) == (0, f'[FEN "{wanted}"]\n\n1. Kd2 *\n')


# What is left as it is, and what is told of it.
LEFT = [
    ('1. e4 [clk "0:01"] e5 *', "bad tag"),
    ("1. e4 (2. Zf3) e5 *", "not a move"),
    ("1. e4 e5 2. Ke3 *", "illegal move; it is left, since no other spelling fits"),
    ('[FEN "7k/P7/8/8/8/8/8/K7 w - - 0 1"]\n\n1. a8 *', "two moves fit, as a8=Q and a8=R"),
    ('[FEN "k7/8/8/8/8/2p1p3/3P4/K7 w - - 0 1"]\n\n1. dxf *', "no other spelling fits"),
    ('[FEN "k7/8/8/3p4/1p1p4/2P5/2P5/K7 w - - 0 1"]\n\n1. d2d3 *', "no other spelling fits"),
    ('[FEN "k7/8/8/8/8/8/8/KK6 w - - 0 1"]\n\n*', "bad FEN: White has 2 kings"),
    ('[FEN "k7/8/8/8/8/8/8/K6r b - - 0 1"]\n\n*', "bad FEN: the side that is not to move is in check"),
]


@pytest.mark.parametrize(("text", "told"), LEFT)
def test_what_is_left(mend: Mend, text: str, told: str) -> None:
    data = FIRST + text.encode() + b"\n" + LAST
    answer = mend("-", data=data)
    assert (answer.status, answer.out) == (1, data) and told in answer.err


def test_an_evaluation_may_be_a_result(mend: Mend) -> None:
    data = b"1. e4 e5 2. Nf3 +-\n"
    assert (mend("-", data=data).status, mend("-", data=data).out) == (1, data)


def test_two_languages(mend: Mend) -> None:
    """`S` is a knight in German and a bishop in Czech, and both can go there."""
    both = b'[FEN "4k3/8/8/8/8/8/8/4KBN1 w - - 0 1"]\n\n1. Sh3 *\n'
    answer = mend("-", data=both)
    assert (answer.status, answer.out) == (1, both) and "two languages fit, German and Czech" in answer.err


def test_english_letters_alone_tell_no_language(mend: Mend) -> None:
    data = b"1. e4 e5 2. Nf3 Nc6 3. Nh8 Nb8 *\n"
    assert mend("-", data=data).out == data


@pytest.mark.parametrize("kind", CLASSES)
def test_classes_that_are_chosen(mend: Mend, kind: str) -> None:
    """A class changes what is its own alone; without it, that stays."""
    text = next((text for text, _, kinds in MENDED if kinds.split()[0] == kind), TAG_LINES[0][0] + "\n\n*")
    if kind == "positions":
        text = f'[FEN "{FENS[0][0]}"]\n\n*'
    data = text.encode() + b"\n"
    assert mend("--only", kind, "-", data=data).out != data
    assert mend("--not", kind, "-", data=data).out == data


def test_words(mend: Mend, room: Path) -> None:
    (room / "a.pgn").write_bytes(b"1. e4 1/2\n")
    assert mend("--only", "nothing", "a.pgn").status == 3
    assert mend("--dry-run", "-o", "b.pgn", "a.pgn").status == 3
    assert mend("-o", "a.pgn", "a.pgn").status == 3 and (room / "a.pgn").read_bytes() == b"1. e4 1/2\n"
    assert mend("none.pgn").status == 4
    assert mend("--dry-run", "a.pgn") == Answer(
        0, b"", "a.pgn: game 1 byte 6: `1/2` is now `1/2-1/2` (results; not a move)\na.pgn: faulty 1 mended 1 left 0 changes 1\n"
    )
    assert mend("-q", "--dry-run", "a.pgn").err == "a.pgn: faulty 1 mended 1 left 0 changes 1\n"


def test_a_file(mend: Mend, room: Path) -> None:
    with gzip.open(room / "a.pgn.gz", "wb") as file:
        file.write(FIRST + b"1. e4 1/2\n")
    (room / "b.pgn").write_bytes(b"old")
    assert mend("-o", "b.pgn", "a.pgn.gz").status == 0
    assert (room / "b.pgn").read_bytes() == FIRST + b"1. e4 1/2-1/2\n"


@pytest.mark.parametrize("last", [b"\n", b""])
def test_a_diff_makes_the_mended_archive(mend: Mend, room: Path, last: bytes) -> None:
    draw = random.Random(7)
    games = [FIRST, TAGS + b"1. e4 e5 2. nf3 1/2\n\n", b"1. e4 1/2 1. d4 1/2\n", b"\n\n[A b]\n1. e4 o-o *\n", LAST]
    archive = b"".join(draw.choice(games) for _ in range(60)) + b"1. e4 1/2" + last
    (room / "a.pgn").write_bytes(archive)
    wanted, diff = mend("a.pgn").out, mend("--diff", "a.pgn").out
    subprocess.run(["patch", "--quiet", "a.pgn"], input=diff, cwd=room, check=True)
    assert (room / "a.pgn").read_bytes() == wanted != archive


def test_nothing_sound_is_touched(mend: Mend, room: Path) -> None:
    """All samples, and what the program writes of them."""
    for path in sorted((TOP / "examples").glob("*.pgn")):
        written = program.run_eval(b'cql(matchstring "") initial', path.read_bytes())[1]
        assert mend("-", data=written).out == written
    examples = (TOP / "examples" / "games.pgn").read_bytes()
    answer = mend("-", data=examples)
    assert (answer.status, answer.out) == (1, examples)


class Written:
    """What a mender writes and tells."""

    def __init__(self, path: Path) -> None:
        self.out, self.told = b"", list[Told]()
        self.sums = Mender(archives.single(str(path)), CLASSES, self, self.told.append).run()

    def same(self, data: bytes) -> None:
        self.out += data

    def changed(self, _old: bytes, new: bytes) -> None:
        self.out += new


ALPHABET = b'()[]{}"\\;%$!?*.-+=#/:, \n\r1abehBNKQRSOo\x00\x1a\xa0\xef'


@pytest.mark.usefixtures("cqlpgn", "pgnjson", "pgnpieces")
@pytest.mark.parametrize("seed", range(12))
def test_drawn_archives(room: Path, seed: int) -> None:
    """Games with some wrong bytes: the changes that are told are those between the archives, all of them in games that are faulty; and
    what is mended is read."""
    draw = random.Random(seed)
    data = bytearray((TOP / "examples" / "games.pgn").read_bytes())
    for _ in range(8):
        data[draw.randrange(len(data))] = draw.choice(ALPHABET)
    (room / "a.pgn").write_bytes(data)
    written, made = Written(room / "a.pgn"), bytes(data)
    faulty, before = set[int](), 0
    for span in pgn.cut(bytes(data)):
        faulty.update(range(before, span[1] + 1) if isinstance(pgn.read_game(bytes(data), span), tuple) else ())
        before = span[1]
    for told in reversed([told for told in written.told if isinstance(told.said, Change)]):
        assert isinstance(told.said, Change) and told.byte in faulty and data[told.byte :].startswith(told.old)
        made = made[: told.byte] + told.said.new + made[told.byte + len(told.old) :]
    assert made == written.out
    refused = sum(isinstance(game, tuple) for game in program.games_of(written.out))
    assert (refused == 0) == (written.sums.mended == written.sums.faulty)


def test_the_manual_has_all_options_and_classes() -> None:
    page = (TOP / "docs" / "cqlpgn-mend.1").read_text()
    assert [name for name in CLASSES if f".B {name}\n" not in page] == []
    options = [option.replace("-", "\\-") for action in parser()._actions for option in action.option_strings if "help" not in option[-4:]]
    assert [option for option in options if option != "\\-h" and option not in page] == []


def test_a_comment_without_an_end_in_a_long_archive(mend: Mend, room: Path) -> None:
    """It takes all games after it; once it has its end, these are read, and mended, by themselves."""
    open_one, many = b'[Event "x"]\n\n1. e4 {a e5 *\n\n', b'[Event "y"]\n\n1. e4 *\n\n' * 200_000
    data = FIRST + open_one + many + TAGS + b"1. e4 1/2\n"
    answer = mend("-", data=data)
    assert answer.out == FIRST + open_one.replace(b"*", b"*}") + many + TAGS + b"1. e4 1/2-1/2\n"


HOSTILE = [
    b"=cmd|' /C calc'!A0 1. e4 *\n",
    b'[Event "\x1b[31m"] [_x "`touch here`"]\n1. e4 $(touch here) *\n',
    b'[Probe "1"]\n\n1. e4 [Probe "2"] nf3 *\n',
    b"1. e4 (" * 3000 + b"\n",
    b'[FEN "' + b"k" * 5000 + b'"]\n*\n',
    bytes(range(256)) * 20,
    b"[" * 3000,
    b"1. e4 )" * 300,
    b"1. e4 " + b"x" * 100_000 + b" *\n",
    b"1. e4 e5 " + b"Sf3 " * 20_000 + b"*\n",
    b"1. e4 {" * 20_000,
    b"1. e4 e5 1/2" + b" \n" * 50_000 + b"x\n",
]


@pytest.mark.parametrize("data", HOSTILE, ids=range(len(HOSTILE)))
def test_hostile_archives(mend: Mend, room: Path, data: bytes) -> None:
    answer = mend("--report", "r.csv", "-", data=FIRST + data)
    assert answer.status in (0, 1) and answer.out.startswith(FIRST)
    assert sorted(os.listdir(room)) == ["r.csv"] and "\x1b" not in answer.err
    for line in (room / "r.csv").read_text(encoding="utf-8", errors="surrogateescape").splitlines():
        assert line[:1] not in "=+@"


def test_changes_of_a_text() -> None:
    """Changes in any order make the text that one gets by hand, and each byte of it has its place in the old one."""
    draw = random.Random(3)
    for _ in range(300):
        text, by_hand = Text(b"abcdefghij"), b"abcdefghij"
        for _ in range(5):
            begin = draw.randrange(len(by_hand) + 1)
            end = draw.randrange(begin, len(by_hand) + 1)
            new = bytes(draw.choice(b"XYZ") for _ in range(draw.randrange(3)))
            text, by_hand = text.changed(begin, end, new, "kind", "why"), by_hand[:begin] + new + by_hand[end:]
        assert text.bytes == by_hand
        for at, letter in enumerate(by_hand):
            if letter in b"abcdefghij" and not any(c.begin <= text.origin(at) < max(c.end, c.begin + 1) for c in text.changes):
                assert text.old[text.origin(at)] == letter
