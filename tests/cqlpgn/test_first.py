"""The first match: in a batch's last game, the next batch's first, a last batch, and behind faulty games; by any number of workers."""

from __future__ import annotations

import subprocess

import pytest
from model import program
from tests.cqlpgn.conftest import Asks, in_pieces
from tests.processes import PATIENCE, Word

QUERY = b"cql() mate"
MATE, MISS, BAD = b"1. f3 e5 2. g4 Qh4# 0-1\n", b"1. e4 *\n", b"1. e4 e5 2. Ke3 *\n"
ONE = program.run_eval(QUERY, MATE)[1]
WORKERS = pytest.mark.parametrize("workers", ["1", "2", "4", "64"])
BEFORE = pytest.mark.parametrize(("games", "kind"), [(1023, MISS), (1024, MISS), (1100, MISS), (3000, BAD), (0, b"")])


@BEFORE
def test_the_model(games: int, kind: bytes) -> None:
    _, out, err = program.run_eval(QUERY, kind * games + MATE + MISS + MATE, first=True)
    assert (out, err.splitlines()[-1].split()[1]) == (ONE, b"%d" % (games + 1))


@WORKERS
@BEFORE
def test_games_before_it(cqlpgn: str, games: int, kind: bytes, workers: str) -> None:
    archive = kind * games + MATE + MISS + MATE
    answer = in_pieces(cqlpgn, ["eval", QUERY, "--first", "--workers", workers], archive, 4096)
    assert answer == program.run_eval(QUERY, archive, first=True)


@WORKERS
def test_two_hundred_runs_with_three_matches(ask: Asks, workers: str) -> None:
    archive = b"".join(MATE if number in (5, 700, 1023) else MISS for number in range(1, 1025))
    wanted = program.run_eval(QUERY, archive, first=True)
    for _ in range(200):
        assert ask("eval", QUERY, "--first", "--workers", workers, data=archive) == wanted


def test_a_sort_item_orders_nothing(ask: Asks) -> None:
    query = b'cql() sort "ply" ply mate'
    archive = b"".join(MATE if number in (5, 700, 1023) else MISS for number in range(1, 1025))
    assert ask("eval", query, "--first", data=archive) == program.run_eval(query, archive, first=True)


@pytest.mark.parametrize("words", [["check", "q.cql", "--first"], ["selfrun", QUERY, "--first"], ["eval", QUERY, "--first", "--first"]])
def test_words_that_are_refused(ask: Asks, words: list[Word]) -> None:
    assert ask(*words) == (3, b"", program.USAGE)


def test_within_the_limit(ask: Asks) -> None:
    answer = ask("eval", QUERY, "--first", "--limit", "10000", data=MATE + MISS * 4000)
    assert answer == (0, ONE, b"games 1 matched 1 refused 0\n")


def test_it_ends_before_its_writer(cqlpgn: str) -> None:
    """The program ends with the first match while the writer of the archive waits."""
    archive, pipe = b"*\n" * 1025, subprocess.PIPE
    with subprocess.Popen([cqlpgn, "eval", "cql() initial", "--first"], bufsize=0, stdin=pipe, stdout=pipe, stderr=pipe) as process:
        assert process.stdin and process.stdout and process.stderr
        process.stdin.write(archive)
        answer = (process.wait(timeout=PATIENCE), process.stdout.read(), process.stderr.read())
    assert answer == program.run_eval(b"cql() initial", archive, first=True)
