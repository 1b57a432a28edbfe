"""Where a game came from: `--number`, and `found` of the package, beside a count by hand over archives with equal games."""

from __future__ import annotations

import csv
import gzip
import io
from pathlib import Path
from typing import Any

import cqlpgn as package
import pytest
from model import program
from tests.answers import ONE, QUERY, TWO, nodes_found
from tests.conftest import Asking

pytestmark = pytest.mark.usefixtures("cqlpgn", "archives")
MATE, QUIET, BAD = b"1. f3 e5 2. g4 Qh4# 0-1\n", b"1. e4 *\n", b"1. e4 e5 2. Ke3 *\n"
LONG = b"1. f3 e5 2. g4 d6 3. h3 Qh4# 0-1\n"
EQUAL = MATE + QUIET + MATE + BAD + MATE + QUIET * 2 + LONG + BAD + MATE + LONG


def by_model(query: str, archive: bytes) -> list[int]:
    """The numbers of the games that match, in the archive's order: each game is asked alone."""
    return [number for number, nodes in nodes_found(query, archive) if nodes]


@pytest.mark.parametrize(
    ("query", "wanted"),
    [
        ("cql() mate", [1, 3, 5, 8, 10, 11]),
        ('cql() mate comment "x"', [1, 3, 5, 8, 10, 11]),
        ('cql(matchstring "y") child mate', [1, 3, 5, 8, 10, 11]),
        ("cql() Pe4", [2, 6, 7]),
        ("cql() initial", [1, 2, 3, 5, 6, 7, 8, 10, 11]),
        ("cql() Pa8", []),
        ('cql() mate sort "ply" ply', [8, 11, 1, 3, 5, 10]),
        ('cql() mate sort min "ply" ply', [1, 3, 5, 10, 8, 11]),
    ],
)
def test_equal_games(room: Path, query: str, wanted: list[int]) -> None:
    (room / "equal.pgn").write_bytes(EQUAL)
    assert sorted(wanted) == by_model(query, EQUAL)
    assert [game.game_number for game in package.found(query, "equal.pgn")] == wanted


def table(data: bytes) -> list[list[str]]:
    return list(csv.reader(io.StringIO(data.decode(), newline="")))


def test_rows_of_several_archives(asked: Asking, room: Path) -> None:
    (room / "equal.pgn.gz").write_bytes(gzip.compress(EQUAL))
    equal = [[f"{found}", "equal.pgn.gz", f"{game}"] for found, game in enumerate((1, 3, 5, 8, 10, 11), 2)]
    rows = [["found", "archive", "game"], ["1", "one.pgn", "2"], *equal, ["8", "two.pgn", "3"]]
    names = ["one.pgn", "equal.pgn.gz", "two.pgn"]
    choices: list[list[str]] = [[], ["-j", "3"]]
    for options in choices:
        answer = asked("cqlpgn-over", "--number", "-c", *options, QUERY, *names)
        assert (answer.status, table(answer.out)) == (1, rows)
        assert asked("cqlpgn-over", "--number", "-o", "out.pgn", *options, QUERY, *names).status == 1
        assert [row[:3] for row in table((room / "out.pgn.csv").read_bytes())] == rows
        assert (room / "out.pgn").read_bytes().count(b"[Event ") == 8
    answer = asked("cqlpgn-over", "--number", "-c", QUERY, data=EQUAL)
    assert table(answer.out)[1:] == [[f"{n}", "'-", f"{g}"] for n, g in enumerate((1, 3, 5, 8, 10, 11), 1)]
    answer = asked("cqlpgn-over", "--first", "--number", "-c", "cql() Pe4", "equal.pgn.gz", "two.pgn")
    assert table(answer.out)[1:] == [["1", "equal.pgn.gz", "2"]]


@pytest.mark.usefixtures("pgnpieces")
def test_tags_that_are_missing(room: Path) -> None:
    """Two games that are written alike, of which one has no tag White and the other has `?`."""
    with_tag = b'[White "?"]\n\n1. e4 *\n\n'
    (room / "tags.pgn").write_bytes(QUIET + b"\n" + with_tag + BAD + b"\n" + QUIET + b"\n" + with_tag)
    wanted = by_model('cql() player white "?"', (room / "tags.pgn").read_bytes())
    assert wanted == [2, 5]
    assert [game.game_number for game in package.found('cql() player white "?"', "tags.pgn")] == wanted


def test_a_stream(room: Path) -> None:
    """The first games come while the archive is still read."""
    (room / "long.pgn").write_bytes((MATE + QUIET * 99) * 2000)
    stream = package.found("cql() mate", "long.pgn")
    assert next(stream).game_number == 1
    assert next(stream).game_number == 101
    stream.close()  # type: ignore[attr-defined]


def test_what_found_raises(room: Path) -> None:
    with pytest.raises(package.Fault) as fault:
        next(package.found("cql() echo", "one.pgn"))
    assert (fault.value.byte, fault.value.line, fault.value.column, fault.value.reason) == (6, 1, 7, "outside profile echo")
    with pytest.raises(package.NotFound):
        list(package.found(QUERY, ["one.pgn", "none.pgn"]))
    (room / "cut.pgn.gz").write_bytes(gzip.compress(ONE)[:-4])
    with pytest.raises(package.Unreadable):
        list(package.found(QUERY, "cut.pgn.gz"))
    games = list(package.found(QUERY, [room / "one.pgn", room / "two.pgn"]))
    assert [(Path(game.archive).name, game.game_number) for game in games] == [("one.pgn", 2), ("two.pgn", 3)]
    want: list[Any] = [program.run_eval(QUERY.encode(), data)[1] for data in (ONE, TWO)]
    assert [game.pgn for game in games] == want


def test_no_program(monkeypatch: pytest.MonkeyPatch) -> None:
    monkeypatch.setenv("CQLPGN", "none")
    with pytest.raises(package.NotFound):
        package.check("cql() check")
