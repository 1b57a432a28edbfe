"""The ways in for archives and queries, and each exit status that a process can be brought to."""

from __future__ import annotations

import os
from pathlib import Path

import pytest
from model import program
from tests.cqlpgn.conftest import ARCHIVE, FAULTY, ONE, QUERY, Asks
from tests.processes import Word

USAGE = (3, b"", program.USAGE)


# An archive from a file, from a pipe, and from the name `-`; a query from a word and from a file.


@pytest.mark.parametrize(
    ("words", "data"),
    [
        (["eval", QUERY, "a.pgn"], b""),
        (["eval", QUERY], ARCHIVE),
        (["eval", QUERY, "-"], ARCHIVE),
        (["run", "q.cql", "a.pgn"], b""),
        (["run", "q.cql"], ARCHIVE),
    ],
)
def test_a_way_in(ask: Asks, words: list[Word], data: bytes) -> None:
    assert ask(*words, data=data) == program.run_eval(QUERY, ARCHIVE)


def test_a_file_as_standard_input(ask: Asks, folder: Path) -> None:
    with open(folder / "a.pgn", "rb") as file:
        assert ask("eval", QUERY, stdin=file) == program.run_eval(QUERY, ARCHIVE)


@pytest.mark.parametrize("workers", ["1", "4", "64"])
def test_workers(ask: Asks, workers: str) -> None:
    assert ask("eval", QUERY, "a.pgn", "--workers", workers) == program.run_eval(QUERY, ARCHIVE)


def test_a_file_beside_others(ask: Asks) -> None:
    assert ask("eval", QUERY, "one.pgn") == program.run_eval(QUERY, ONE)


def test_a_file_of_several_pieces(ask: Asks, folder: Path) -> None:
    (folder / "long.pgn").write_bytes(b'[FEN "8/8/8/8/8/8/8/K1k5 w - - 0 1"]\n*\n' * 5000)
    assert ask("eval", "cql() Qa1", "long.pgn") == (0, b"", b"games 5000 matched 0 refused 0\n")


# Statuses 0 to 3.


@pytest.mark.parametrize("workers", ["1", "4", "64"])
def test_an_empty_archive(ask: Asks, workers: str) -> None:
    assert ask("eval", QUERY, "--workers", workers) == program.run_eval(QUERY, b"")


def test_a_faulty_game(ask: Asks) -> None:
    assert ask("eval", QUERY, "faulty.pgn") == program.run_eval(QUERY, FAULTY)


def test_modes_without_an_archive(ask: Asks) -> None:
    assert ask("check", "q.cql") == program.run_check(QUERY)
    assert ask("explain", "q.cql") == program.run_explain(QUERY)
    assert ask("selfrun", QUERY, "--seed", "3", "--games", "10") == program.run_selfrun(QUERY, 3, 10)


@pytest.mark.parametrize("words", [["eval", "cql() echo", "none.pgn"], ["run", "bad.cql", "none.pgn"], ["check", "bad.cql"]])
def test_a_faulty_query_opens_no_archive(ask: Asks, words: list[Word]) -> None:
    assert ask(*words) == program.run_check(b"cql() echo")


@pytest.mark.parametrize("words", [[], ["eval"], ["eval", QUERY, "--workers", "0"], ["check", "q.cql", "a.pgn"], ["eval", b"cql() \xff"]])
def test_words_that_are_refused(ask: Asks, words: list[Word]) -> None:
    assert ask(*words) == USAGE


# Statuses 4 to 8.


@pytest.mark.parametrize(
    "words",
    [
        ["run", "none.cql", "a.pgn"],
        ["run", "q.cql", "none.pgn"],
        ["eval", QUERY, "none.pgn"],
        ["eval", QUERY, ""],
        ["check", "none.cql"],
        ["explain", "none.cql"],
    ],
)
def test_no_such_file(ask: Asks, words: list[Word]) -> None:
    assert ask(*words) == (4, b"", b"")


@pytest.mark.parametrize("words", [["eval", QUERY, "."], ["run", "q.cql", "."], ["run", ".", "a.pgn"], ["check", "."]])
def test_a_folder(ask: Asks, words: list[Word]) -> None:
    assert ask(*words) == (5, b"", b"")


@pytest.mark.parametrize(
    ("stream", "words"),
    [
        ("stdout", ["eval", QUERY, "a.pgn"]),
        ("stdout", ["check", "q.cql"]),
        ("stderr", ["eval", "cql() echo"]),
        ("stderr", []),
    ],
)
def test_a_full_device(ask: Asks, stream: str, words: list[Word]) -> None:
    with open("/dev/full", "wb") as full:
        assert ask(*words, **{stream: full}) == (6, b"", b"")


def test_a_full_device_takes_no_report(ask: Asks) -> None:
    with open("/dev/full", "wb") as full:
        assert ask("eval", b"cql() initial", "one.pgn", stderr=full) == (6, program.run_eval(b"cql() initial", ONE)[1], b"")


def test_a_file_that_is_open_for_reading_alone(ask: Asks, folder: Path) -> None:
    with open(folder / "a.pgn", "rb") as unwritable:
        assert ask("check", "q.cql", stdout=unwritable) == (6, b"", b"")


def test_a_closed_pipe(ask: Asks) -> None:
    read_end, write_end = os.pipe()
    os.close(read_end)
    try:
        assert ask("eval", QUERY, "a.pgn", stdout=write_end) == (6, b"", b"")
    finally:
        os.close(write_end)


def test_limits(ask: Asks) -> None:
    """One byte more than the limit, and the limit itself."""
    assert ask("eval", QUERY, "a.pgn", "--limit", str(len(ARCHIVE) - 1)) == (8, b"", b"")
    assert ask("eval", QUERY, "a.pgn", "--limit", str(len(ARCHIVE))) == program.run_eval(QUERY, ARCHIVE)


def test_no_memory_for_a_game(ask: Asks) -> None:
    assert ask("eval", QUERY, data=b"{" + b"x" * 2**24 + b"} 1. e4 *", memory=2**23) == (7, b"", b"")
