"""pgnjson as a process: its lines beside those of the model, read again by Python's json, and its exit statuses."""

from __future__ import annotations

import functools
import gzip
import json
from collections.abc import Iterator
from pathlib import Path
from typing import Any

import pytest
from model import json_lines, pgn
from tests import failing
from tests.cases import CASES, EXAMPLES
from tests.drawn import fuzz
from tests.processes import Word, run

USAGE = b"usage: pgnjson [--mark TEXT] [--workers N] [--limit B] [ARCHIVE]\n"
DRAWN = 300
SMALL = 1 << 20
# texts as they are met in tags and comments: UTF-8, Latin-1, parts of characters, and what has to be escaped
TEXTS: list[bytes] = [
    b"M\xc3\xbcller \xe2\x82\xac \xf0\x9f\x98\x80",
    b"M\xfcller",
    b"M\xc3\xbcller M\xfcller",
    b"\xed\xa0\x80 \xc0\xaf \xf4\x90\x80\x80",
    b"\xf0\x9f\x98",
    bytes(b for b in range(1, 256) if b not in b'\n"\\}'),
    b"\x00\x01\x1f\x7f\xc2\x80\xe2\x80\xa8",
    rb"\"quoted\" \\ /",
    b"\xef\xbb\xbf",
    b"</script><!-- {",
]
# A position, a move, and the position after it. The first three are examples of the PGN standard, 16.1.4; then both castle, a pawn is taken
# in passing, a pawn takes a rook at home and becomes a knight, a rook leaves its home, and a king that steps keeps no right.
PLAYED = [
    ("rnbqkbnr/pppppppp/8/8/8/8/PPPPPPPP/RNBQKBNR w KQkq - 0 1", "e4", "rnbqkbnr/pppppppp/8/8/4P3/8/PPPP1PPP/RNBQKBNR b KQkq e3 0 1"),
    (
        "rnbqkbnr/pppppppp/8/8/4P3/8/PPPP1PPP/RNBQKBNR b KQkq e3 0 1",
        "c5",
        "rnbqkbnr/pp1ppppp/8/2p5/4P3/8/PPPP1PPP/RNBQKBNR w KQkq c6 0 2",
    ),
    (
        "rnbqkbnr/pp1ppppp/8/2p5/4P3/8/PPPP1PPP/RNBQKBNR w KQkq c6 0 2",
        "Nf3",
        "rnbqkbnr/pp1ppppp/8/2p5/4P3/5N2/PPPP1PPP/RNBQKB1R b KQkq - 0 2",
    ),
    ("r3k2r/8/8/8/8/8/8/R3K2R w KQkq - 0 1", "O-O", "r3k2r/8/8/8/8/8/8/R4RK1 b kq - 0 1"),
    ("r3k2r/8/8/8/8/8/8/R4RK1 b kq - 0 1", "O-O-O", "2kr3r/8/8/8/8/8/8/R4RK1 w - - 0 2"),
    ("4k3/8/8/2ppP3/8/8/8/4K3 w - d6 0 2", "exd6", "4k3/8/3P4/2p5/8/8/8/4K3 b - - 0 2"),
    ("r3k2r/6P1/8/8/8/8/8/4K3 w kq - 0 1", "gxh8=N", "r3k2N/8/8/8/8/8/8/4K3 b q - 0 1"),
    ("r3k2r/8/8/8/8/8/8/4K3 b kq - 0 7", "Ra1", "4k2r/8/8/8/8/8/8/r3K3 w k - 0 8"),
    ("4k3/8/8/8/8/8/8/R3K2R w KQ - 0 7", "Ke2", "4k3/8/8/8/8/8/4K3/R6R b - - 0 7"),
    ("rnbqkbnr/pppppppp/8/8/4P3/8/PPPP1PPP/RNBQKBNR b KQkq e3 0 1", "--", "rnbqkbnr/pppppppp/8/8/4P3/8/PPPP1PPP/RNBQKBNR w KQkq - 0 2"),
    ("8/8/8/8/8/8/8/K1k5 b - - 0 999999999", "Kd2", "8/8/8/8/8/8/3k4/K7 w - - 0 1000000000"),
    ("r3k2r/1p6/8/2pP3p/8/P1P1P1P1/8/R3K2R w Kq c6 0 12", "dxc6", "r3k2r/1p6/2P5/7p/8/P1P1P1P1/8/R3K2R b Kq - 0 12"),
]
# A game with a tag that has to be escaped and is no UTF-8, comments, glyphs, a variation and a null move, behind another one; and its line.
WORKED = (
    b'* [White "a\\"b\xe9"] {at the start} 1. e4 $1 $3 {CQL} {x\xc3\xa9} (1. -- e5) 1... c5 1-0',
    '{"game":2,"byte":2,"tags":[["White","a\\"b\u00e9"]],'
    '"start":"rnbqkbnr/pppppppp/8/8/8/8/PPPPPPPP/RNBQKBNR w KQkq - 0 1",'
    '"result":"1-0","comments":["at the start"],"nodes":['
    '{"parent":0,"ply":1,"uci":"e2e4","san":"e4","nags":[1,3],'
    '"comments":["CQL","x\u00e9"],'
    '"fen":"rnbqkbnr/pppppppp/8/8/4P3/8/PPPP1PPP/RNBQKBNR b KQkq e3 0 1"},'
    '{"parent":1,"ply":2,"uci":"c7c5","san":"c5"},'
    '{"parent":0,"ply":1,"uci":"0000","san":"--"},'
    '{"parent":3,"ply":2,"uci":"e7e5","san":"e5"}]}\n',
)


def compare_lines(pgnjson: str, archive: bytes, mark: str | None = None) -> None:
    """The lines of an archive beside the model's, and each as Python reads it."""
    answer = run(pgnjson, *([] if mark is None else ["--mark=" + mark]), data=archive)
    assert answer == json_lines.answer(archive, b"CQL" if mark is None else mark.encode())
    for line in answer[1].splitlines():
        json.loads(line)


def stored() -> Iterator[Path]:
    """The archives of the examples and of the cases, and what these find; no large ones."""
    yield from sorted(EXAMPLES.glob("*.pgn"))
    for case in sorted(CASES.iterdir()):
        for name in ("archive.pgn", "archive.pgn.gz", "out"):
            path = case / name
            if path.exists() and len(read(path)) < SMALL:
                yield path


def read(path: Path) -> bytes:
    data = path.read_bytes()
    return gzip.decompress(data) if path.suffix == ".gz" else data


STORED = list(stored())


@pytest.mark.parametrize("mark", [None, "", " mate "])
@pytest.mark.parametrize("path", STORED, ids=[f"{path.parent.name}/{path.name}" for path in STORED])
def test_a_stored_archive(pgnjson: str, path: Path, mark: str | None) -> None:
    compare_lines(pgnjson, read(path), mark)


@pytest.mark.parametrize("mark", [None, "", "CQL"])
@pytest.mark.parametrize("text", TEXTS)
def test_texts(pgnjson: str, text: bytes, mark: str | None) -> None:
    compare_lines(pgnjson, b'[Event "%s"]\n{%s} 1. e4 {%s} {CQL} (1. -- $3 {CQL}) e5 *\n' % (text, text, text), mark)


@pytest.mark.parametrize("mark", [None, "", "A B", "\tA  B ", "-x", "A}B"])
@pytest.mark.parametrize(
    "archive", [b"", b" \n", b"*", b"{CQL} *", b"{A  B} 1. e4 {A\nB} *", b"1. e4 {-x} *", b"1. e4 ; A}B\n*", b"{no game}"]
)
def test_marks(pgnjson: str, archive: bytes, mark: str | None) -> None:
    compare_lines(pgnjson, archive, mark)


def test_the_worked_line_of_the_model() -> None:
    archive, line = WORKED
    assert json_lines.answer(archive)[1].splitlines(True)[1:] == [line.encode()]


def test_the_worked_line(pgnjson: str) -> None:
    archive, line = WORKED
    assert run(pgnjson, data=archive)[1].splitlines(True)[1:] == [line.encode()]


@pytest.mark.parametrize(("before", "move", "after"), PLAYED)
def test_the_position_after_a_move(pgnjson: str, before: str, move: str, after: str) -> None:
    """At a node that is marked."""
    archive = b'[FEN "%s"]\n%s {CQL} *\n' % (before.encode(), move.encode())
    compare_lines(pgnjson, archive)
    game = json.loads(run(pgnjson, data=archive)[1])
    assert (game["start"], game["nodes"][0]["fen"]) == (before, after)


@pytest.mark.parametrize("number", range(DRAWN))
def test_a_drawn_archive(pgnjson: str, number: int) -> None:
    fuzz.RANDOM.seed(number)
    archive = fuzz.random_archive()
    compare_lines(pgnjson, archive, fuzz.RANDOM.choice((None, "", "CQL")))


# Exit statuses.
TWO = b"1. e4 *\n1. d5 *\n"


@pytest.fixture
def named(tmp_path: Path) -> str:
    """The name of an archive."""
    (tmp_path / "a.pgn").write_bytes(TWO)
    return str(tmp_path / "a.pgn")


@pytest.mark.parametrize("words", [[], ["--workers", "64"], ["--limit", "16"]])
def test_a_file(pgnjson: str, named: str, words: list[str]) -> None:
    assert run(pgnjson, *words, named) == json_lines.answer(TWO)


def test_a_byte_above_the_limit(pgnjson: str, named: str) -> None:
    assert run(pgnjson, "--limit", "15", named) == (8, b"", b"")


@pytest.mark.parametrize(
    "words",
    [
        ["--workers", "0"],
        ["--workers", "65"],
        ["--limit", "0"],
        ["--limit", "1099511627777"],
        ["a", "b"],
        ["--help"],
        ["--mark"],
        [b"a\xff.pgn"],
        ["--limit", "5", b"a\xff.pgn"],
        [b"--mark=\xff"],
    ],
)
def test_words_that_are_refused(pgnjson: str, words: list[Word]) -> None:
    assert run(pgnjson, *words) == (3, b"", USAGE)


def test_no_such_file(pgnjson: str, tmp_path: Path) -> None:
    assert run(pgnjson, str(tmp_path / "b.pgn")) == (4, b"", b"")


def test_a_folder(pgnjson: str, tmp_path: Path) -> None:
    assert run(pgnjson, str(tmp_path)) == (5, b"", b"")


def test_no_memory_for_a_game(pgnjson: str) -> None:
    assert run(pgnjson, data=b"{" + b"x" * 2**24 + b"} 1. e4 *", memory=2**23) == (7, b"", b"")


@pytest.mark.parametrize(("stream", "words"), [("stdout", []), ("stdout", ["-"]), ("stderr", ["--help"])])
def test_a_full_device(pgnjson: str, stream: str, words: list[Word]) -> None:
    with open("/dev/full", "wb") as full:
        streams: dict[str, Any] = {stream: full}
        assert run(pgnjson, *words, data=b"*", **streams) == (6, b"", b"")


def test_a_full_device_takes_no_report(pgnjson: str) -> None:
    with open("/dev/full", "wb") as full:
        status, out, _ = run(pgnjson, data=b"*", stderr=full)
    assert (status, out) == (6, json_lines.answer(b"*")[1])


# Reads and writes that fail after some bytes: what the full batches give is written, or a front.
WORKERS = pytest.mark.parametrize("workers", ["1", "4"])
FAULTY = b"* 1. d5 * *"
_, LINES, REPORT = json_lines.answer(FAULTY)
BATCH = b"1. d5 *\n" + b"*\n" * 1023


@WORKERS
@pytest.mark.parametrize("archive", [FAULTY, BATCH[:-2]], ids=["three", "almost-a-batch"])
def test_a_read_that_fails_in_the_first_batch(pgnjson: str, workers: str, archive: bytes) -> None:
    with failing.input_of(archive) as end:
        assert run(pgnjson, "--workers", workers, stdin=end) == (5, b"", b"")


@WORKERS
def test_a_read_that_fails_behind_a_batch(pgnjson: str, workers: str) -> None:
    _, lines, report = json_lines.answer(BATCH)
    with failing.input_of(BATCH) as end:
        assert run(pgnjson, "--workers", workers, stdin=end) == (5, lines, report[: report.index(b"games ")])


@WORKERS
@pytest.mark.parametrize("size", [0, 1, 4, 60, len(LINES) - 1])
def test_a_file_for_the_lines(pgnjson: str, workers: str, size: int) -> None:
    asked = functools.partial(run, pgnjson, "--workers", workers, data=FAULTY)
    assert failing.short(asked, size, "stdout") == (6, LINES[:size], b"")


@WORKERS
@pytest.mark.parametrize("size", [0, 5, 27, 28, len(REPORT) - 1])
def test_a_file_for_the_report(pgnjson: str, workers: str, size: int) -> None:
    asked = functools.partial(run, pgnjson, "--workers", workers, data=FAULTY)
    assert failing.short(asked, size, "stderr") == (6, LINES, REPORT[:size])


def test_a_file_that_takes_a_front_of_the_usage_line(pgnjson: str) -> None:
    assert failing.short(functools.partial(run, pgnjson, "--help"), 6, "stderr") == (6, b"", USAGE[:6])


@pytest.mark.parametrize(("length", "status"), [(pgn.MOST_BYTES, 0), (pgn.MOST_BYTES + 1, 1)])
def test_a_long_game(pgnjson: str, length: int, status: int) -> None:
    """Games of as many bytes as may be, and of one more."""
    rest = b"1. e4 *"
    archive = b"{" + b"x\xe9" * ((length - len(rest) - 2) // 2) + b"x" * ((length - len(rest) - 2) % 2) + b"}" + rest
    assert (len(archive), run(pgnjson, data=archive)[0]) == (length, status)
