"""pgnpieces as a process: its tables beside those made of the model's cut, and its exit statuses but 7 and 8."""

from __future__ import annotations

import functools
import random
from pathlib import Path
from typing import Any

import pytest
from model import pgn
from model.pieces import table, text_of
from tests import failing
from tests.cases import EXAMPLES
from tests.processes import Word, run

USAGE = b"usage: pgnpieces ARCHIVE BYTES\n"
MOST = 1 << 40


# Archives, and where each of their games begins and ends.
CUTS: list[tuple[bytes, list[tuple[int, int]]]] = [
    (b"", []),
    (b" \r\n\t ", []),
    (b"\xef\xbb\xbf", []),
    (b'\xef\xbb\xbf[A "b"] *\n', [(3, 12)]),
    (b"\xef\xbb*", [(0, 3)]),
    (b"* * *", [(0, 1), (2, 3), (4, 5)]),
    (b"*\n*", [(0, 1), (2, 3)]),
    (b"1. e4 *1. d4 *", [(0, 7), (7, 14)]),
    (b'1. e4\n\n[A "b"]\n1. d4 *', [(0, 7), (7, 22)]),
    (b'1. e4\n [A "b"]\n*', [(0, 16)]),
    (b'e4 {\n[A "b"]\n} *', [(0, 16)]),
    (b'e4 "a\n[A "b"]\n*', [(0, 6), (6, 15)]),
    (b'{c}\n[A "b"]\n[C "d"]\n*', [(0, 21)]),
    (b']\n[A "b"]\n*', [(0, 11)]),
    (b"e4 (d4 1-0 (*)) e5 0-1 x", [(0, 22), (23, 24)]),
    (b'[1-0 "x"]', [(0, 4), (5, 9)]),
    (b"e4 {*} ;1-0\n1/2-1/2", [(0, 19)]),
    (b"1-0x 1-0", [(0, 8)]),
    (b"* {a} ;b\n%c", [(0, 1)]),
    (b"{a} *", [(0, 5)]),
    (b"* {a", [(0, 1), (2, 4)]),
    (b")) e4 * (e5 *) *", [(0, 7), (8, 16)]),
    (b"1. e4 (1. d4\n ", [(0, 14)]),
    (b'e4 [A\n[B "c"]\n*', [(0, 6), (6, 15)]),
    (b"[( * ) *", [(0, 8)]),
    (b'e4 ([1-0 "x"]) *', [(0, 16)]),
    (b"%x\n*", [(0, 4)]),
    (b"1.\n[a", [(0, 3), (3, 5)]),
    (b"$1\n[a", [(0, 3), (3, 5)]),
    (b"--\n[a", [(0, 3), (3, 5)]),
    (b'"a"\n[b', [(0, 6)]),
    (b"\xef*", [(0, 2)]),
    (b"\xef", [(0, 1)]),
    (b"\xef\xbb", [(0, 2)]),
    (b"1/2-1/2*0-1", [(0, 7), (7, 8), (8, 11)]),
    (b'"\\"*" $1!?--*', [(0, 13)]),
    (b"1. e4 1-0x *", [(0, 12)]),
]

# An archive, the least number of bytes, and the table.
WORKED = [
    (b"", "1", b""),
    (b"{ no game }\n", "1", b"1 0 12 1 0\n"),
    (b"*", "1", b"1 0 1 1 1\n"),
    (b"1. e4 *\n", "7", b"1 0 7 1 1\n2 7 1 2 0\n"),
    (b"1. e4 *\n", "8", b"1 0 8 1 1\n"),
    (b"1. e4 *\n1. d4 *\n1. c4 *", "8", b"1 0 15 1 2\n2 15 8 3 1\n"),
    (b"1. e4 *1. d4 *", "7", b"1 0 7 1 1\n2 7 7 2 1\n"),
    (b"* 1. d4 d5 2. c4 * *", "3", b"1 0 18 1 2\n2 18 2 3 1\n"),
    (b"*\n*\n; the end\n% and no more", "2", b"1 0 3 1 2\n2 3 24 3 0\n"),
    (b"* 1. e4", "1", b"1 0 1 1 1\n2 1 6 2 1\n"),
]

# Texts, how often each is repeated to give some 16 MiB, and how many games that has.
LONG = [
    (b"{", 16_777_216, 1),
    (b"(", 16_777_216, 1),
    (b'"x\n', 5_592_405, 1),
    (b"1-", 8_388_608, 1),
    (b'[Event "x"]\n\n1. e4 e5 2. Nf3 {the move} Nc6 $1 3. Bb5 a6!? 1-0\n\n', 262_144, 262_144),
]


@pytest.mark.parametrize(("archive", "games"), CUTS)
def test_the_model(archive: bytes, games: list[tuple[int, int]]) -> None:
    assert [(begin, end) for begin, end, _ in pgn.cut(archive)] == games


@pytest.mark.parametrize(("archive", "games"), CUTS)
def test_game_by_game(pgnpieces: str, archive: bytes, games: list[tuple[int, int]]) -> None:
    """Each game with what stands before it is a piece, and what comes after the last one is one too."""
    ends = [0, *(end for _, end in games)]
    lines = [(begin, end - begin, first, 1) for first, (begin, end) in enumerate(zip(ends, ends[1:]), 1)]
    if ends[-1] < len(archive):
        lines.append((ends[-1], len(archive) - ends[-1], len(games) + 1, 0))
    assert run(pgnpieces, "-", "1", data=archive) == (0, text_of(lines), b"")


@pytest.mark.parametrize(("archive", "least", "wanted"), WORKED)
def test_a_worked_table(pgnpieces: str, archive: bytes, least: str, wanted: bytes) -> None:
    assert run(pgnpieces, "-", least, data=archive) == (0, wanted, b"")


@pytest.mark.parametrize(("archive", "least", "wanted"), WORKED)
def test_a_worked_table_of_the_model(archive: bytes, least: str, wanted: bytes) -> None:
    assert table(archive, int(least)) == wanted


@pytest.mark.parametrize(("text", "times", "games"), LONG)
def test_a_long_archive(pgnpieces: str, text: bytes, times: int, games: int) -> None:
    archive = text * times
    assert run(pgnpieces, "-", str(MOST), data=archive) == (0, b"1 0 %d 1 %d\n" % (len(archive), games), b"")


# Tables beside those of the model.


@pytest.mark.parametrize("least", [1, 100, 2000, 0, MOST])
@pytest.mark.parametrize("name", sorted(path.name for path in EXAMPLES.glob("*.pgn")))
def test_an_example(pgnpieces: str, name: str, least: int) -> None:
    """Pieces of so many bytes at least; of those of the whole archive where 0 is said."""
    archive = (EXAMPLES / name).read_bytes()
    bound = least or len(archive)
    assert run(pgnpieces, "-", str(bound), data=archive) == (0, table(archive, bound), b"")


@pytest.mark.parametrize("least", [1, 2, 5, 100])
@pytest.mark.parametrize("archive", [b"", b" ", b"*", b"* ", b"*%\n*", b"{no game}", b"1. e4 * {and} 1. d4 *\n\n;end"])
def test_a_short_archive(pgnpieces: str, archive: bytes, least: int) -> None:
    assert run(pgnpieces, "-", str(least), data=archive) == (0, table(archive, least), b"")


def test_many_games(pgnpieces: str) -> None:
    """One read closes many thousand games."""
    archive = b"* " * 200_000
    assert run(pgnpieces, "-", "1000", data=archive) == (0, table(archive, 1000), b"")


PARTS = [
    b"*",
    b" * ",
    b"\n",
    b"%",
    b"\n%*\n",
    b'[A "*"]\n',
    b"1. e4 ",
    b"(",
    b")",
    b"{*}",
    b";*\n",
    b"1-0\n",
    b"\xef\xbb\xbf",
    b'"',
    b"\r\n",
]


def drawn() -> list[tuple[bytes, int]]:
    """Archives of such parts, each with a least number of bytes."""
    draw = random.Random(1)
    return [(b"".join(draw.choice(PARTS) for _ in range(draw.randrange(40))), draw.randrange(1, 60)) for _ in range(200)]


@pytest.mark.parametrize("number", range(200))
def test_a_drawn_archive(pgnpieces: str, number: int) -> None:
    archive, least = drawn()[number]
    assert run(pgnpieces, "-", str(least), data=archive) == (0, table(archive, least), b"")


# Exit statuses.


@pytest.fixture
def named(tmp_path: Path) -> str:
    """The name of an archive."""
    (tmp_path / "a.pgn").write_bytes(b"1. e4 *\n1. d4 *\n")
    return str(tmp_path / "a.pgn")


def test_a_file(pgnpieces: str, named: str) -> None:
    assert run(pgnpieces, named, "1") == (0, b"1 0 7 1 1\n2 7 8 2 1\n3 15 1 3 0\n", b"")


@pytest.mark.parametrize(
    "words", [[], ["a.pgn"], ["a.pgn", "0"], ["a.pgn", "x"], ["a.pgn", "1099511627777"], ["a.pgn", "1", "2"], ["--help"]]
)
def test_words_that_are_refused(pgnpieces: str, named: str, words: list[str]) -> None:
    assert run(pgnpieces, *(named if word == "a.pgn" else word for word in words)) == (3, b"", USAGE)


def test_no_such_file(pgnpieces: str, tmp_path: Path) -> None:
    assert run(pgnpieces, str(tmp_path / "b.pgn"), "1") == (4, b"", b"")


def test_a_folder(pgnpieces: str, tmp_path: Path) -> None:
    assert run(pgnpieces, str(tmp_path), "1") == (5, b"", b"")


@pytest.mark.parametrize(("stream", "words"), [("stdout", ["-", "1"]), ("stderr", [])])
def test_a_full_device(pgnpieces: str, stream: str, words: list[Word]) -> None:
    with open("/dev/full", "wb") as full:
        streams: dict[str, Any] = {stream: full}
        assert run(pgnpieces, *words, data=b"*", **streams) == (6, b"", b"")


# Reads and writes that fail after some bytes: the lines of the pieces that are long enough by then, or a front of the table.
THREE = b"1 0 1 1 1\n2 1 2 2 1\n3 3 2 3 1\n"


@pytest.mark.parametrize(
    ("archive", "least", "wanted"),
    [
        (b"* *", "1", THREE[:20]),
        (b"* * *", "1", THREE),
        (b"* * 1-0", "1", THREE[:20]),
        (b"* * *", "2", b"1 0 3 1 2\n2 3 2 3 1\n"),
        (b"* * *", "4", b"1 0 5 1 3\n"),
        (b"* * *", "6", b""),
    ],
)
def test_a_read_that_fails(pgnpieces: str, archive: bytes, least: str, wanted: bytes) -> None:
    with failing.input_of(archive) as end:
        assert run(pgnpieces, "-", least, stdin=end) == (5, wanted, b"")


@pytest.mark.parametrize("size", range(len(THREE) + 1))
def test_a_file_of_some_bytes(pgnpieces: str, size: int) -> None:
    """A front of the table, and the table itself where there is room for it."""
    asked = functools.partial(run, pgnpieces, "-", "1", data=b"* * *")
    assert failing.short(asked, size, "stdout") == (6 if size < len(THREE) else 0, THREE[:size], b"")


def test_a_file_that_takes_a_front_of_the_usage_line(pgnpieces: str) -> None:
    assert failing.short(functools.partial(run, pgnpieces), 12, "stderr") == (6, b"", USAGE[:12])
