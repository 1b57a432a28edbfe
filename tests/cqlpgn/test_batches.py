"""Archives of one batch and more, in pieces, by any number of workers: one text, which is written while the archive is read."""

from __future__ import annotations

import os
import select
import subprocess

import pytest
from model import program
from tests.cqlpgn.conftest import Asks, in_pieces
from tests.processes import PATIENCE

INITIAL = b"cql() initial"
ONE = program.run_eval(INITIAL, b"*\n")[1]
BATCH = b"*\n" * 1024


@pytest.mark.parametrize("games", [1023, 1024, 1025, 2048, 2049])
@pytest.mark.parametrize("piece", [7, 4096, 65536])
@pytest.mark.parametrize("workers", ["1", "2", "3", "4", "64"])
def test_an_archive_in_pieces(cqlpgn: str, games: int, piece: int, workers: str) -> None:
    status, out, err = in_pieces(cqlpgn, ["eval", INITIAL, "--workers", workers], b"*\n" * games, piece)
    assert (status, len(out), err) == (0, len(ONE) * games, b"games %d matched %d refused 0\n" % (games, games))
    assert out == ONE * games


def test_a_game_that_fills_a_batch_by_its_bytes(cqlpgn: str) -> None:
    archive = b"1. e4 *\n{" + b"x" * 2**24 + b"} *\n1. d4 *\n"
    one, four = (in_pieces(cqlpgn, ["eval", INITIAL, "--workers", workers], archive, 65536) for workers in ("1", "4"))
    assert one == four


def test_byte_by_byte(cqlpgn: str) -> None:
    status, out, err = in_pieces(cqlpgn, ["eval", INITIAL], BATCH + b"*\n", 1)
    assert (status, out == ONE * 1025, err) == (0, True, b"games 1025 matched 1025 refused 0\n")
    marker = b"1. e4 1-0x *"
    assert in_pieces(cqlpgn, ["eval", INITIAL], marker, 1) == program.run_eval(INITIAL, marker)


def test_a_batch_within_the_limit(cqlpgn: str) -> None:
    status, out, err = in_pieces(cqlpgn, ["eval", INITIAL, "--limit", "2048"], BATCH + b"*\n", 4096)
    assert (status, len(out), err) == (8, 104448, b"")


LIMITED = BATCH + b"1. e4 e5 *\n"


@pytest.mark.parametrize("limit", range(len(BATCH), len(LIMITED)))
def test_a_limit(cqlpgn: str, limit: int) -> None:
    status, out, err = in_pieces(cqlpgn, ["eval", INITIAL, "--limit", str(limit)], LIMITED, 65536)
    assert (status, out == ONE * 1024, err) == (8, True, b"")


def test_a_limit_that_is_met(cqlpgn: str) -> None:
    status, _, err = in_pieces(cqlpgn, ["eval", INITIAL, "--limit", str(len(LIMITED))], LIMITED, 65536)
    assert (status, err) == (0, b"games 1025 matched 1025 refused 0\n")


def test_as_it_is_read(cqlpgn: str) -> None:
    """The games of a batch are written while the writer of the archive waits."""
    pipe = subprocess.PIPE
    with subprocess.Popen([cqlpgn, "eval", INITIAL], bufsize=0, stdin=pipe, stdout=pipe, stderr=pipe) as process:
        assert process.stdin and process.stdout
        for more in (b"*", b""):
            process.stdin.write(BATCH + more)
            out = b""
            while len(out) < 1024 * len(ONE) and select.select([process.stdout], [], [], PATIENCE)[0]:
                out += os.read(process.stdout.fileno(), 1024 * len(ONE) - len(out))
            assert out == ONE * 1024
        rest, err = process.communicate(timeout=PATIENCE)
    assert (process.returncode, rest, err) == (0, ONE, b"games 2049 matched 2049 refused 0\n")


@pytest.mark.parametrize(("query", "matched"), [("cql() initial %s == 64", 1), ("cql() %s > 64", 0)])
def test_most_places(ask: Asks, query: str, matched: int) -> None:
    """A line of 64 parts, each of which may stand any number of times, over as many positions as a game may have: the longest has 64."""
    line = "(line" + " --> wtm* --> btm*" * 32 + ")"
    knights = b"Nf3 Nf6 Ng1 Ng8 " * 16383 + b"Nf3 Nf6 Ng1 *"
    status, out, err = ask("eval", query % line, data=knights)
    assert (status, bool(out), err) == (0, bool(matched), b"games 1 matched %d refused 0\n" % matched)


def test_many_runs(ask: Asks) -> None:
    """Two hundred runs by 64 workers."""
    archive = b"".join(b"1. e4 e5 2. Qh5 Nc6 3. Bc4 Nf6 4. Qxf7# 1-0\n" if i % 7 else b"1. e4 e5 2. Ke3 *\n" for i in range(3000))
    wanted = ask("eval", "cql() mate", "--workers", "1", data=archive)
    for _ in range(200):
        assert ask("eval", "cql() mate", "--workers", "64", data=archive) == wanted
