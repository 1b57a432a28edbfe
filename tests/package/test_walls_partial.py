"""What `--keep-partial` keeps: whole games alone, and rows that fit them."""

from __future__ import annotations

import csv
import gzip
import os
import resource
import signal
import subprocess
import sys
from pathlib import Path

import pytest
from tests.conftest import BIN, Asking
from tests.processes import PATIENCE

pytestmark = pytest.mark.usefixtures("cqlpgn", "pgnjson", "room")
GAME = b'[Event "%d"]\n[White "A"]\n\n1. f3 e5 2. g4 Qh4# 0-1\n\n'
ARCHIVE = b"".join(GAME % number for number in range(300))
QUERY = "cql() mate"


def over(room: Path, size: int, *words: str) -> int:
    """The status of the command, whose files have so many bytes at most."""

    def bound() -> None:
        signal.signal(signal.SIGXFSZ, signal.SIG_IGN)
        resource.setrlimit(resource.RLIMIT_FSIZE, (size, size))

    call = [sys.executable, str(BIN / "cqlpgn-over"), "--keep-partial", "-o", "out.pgn", *words]
    return subprocess.run(call, cwd=room, preexec_fn=bound, capture_output=True, timeout=PATIENCE, check=False).returncode


def games_in(data: bytes) -> int:
    """How many games a file has, each of which must be whole."""
    parts = data.split(b"\n\n")
    assert parts.pop() == b"" and len(parts) % 2 == 0, data[-40:]
    assert all(part.startswith(b"[") for part in parts[::2]) and all(part.endswith(b" 0-1") for part in parts[1::2])
    return len(parts) // 2


def fit(room: Path) -> list[list[str]]:
    """The rows, one for each game of the file, in their order."""
    with open(room / "out.pgn.csv", newline="", encoding="utf-8") as file:
        rows = list(csv.reader(file))[1:]
    assert [int(row[0]) for row in rows] == list(range(1, games_in((room / "out.pgn").read_bytes()) + 1))
    return rows


@pytest.mark.parametrize("jobs", [[], ["-j", "2"]])
@pytest.mark.parametrize("number", [[], ["--number"]])
@pytest.mark.parametrize("size", [4096, 5000, 10001, 20011])
def test_a_file_that_takes_no_more(room: Path, size: int, jobs: list[str], number: list[str]) -> None:
    (room / "a.pgn").write_bytes(ARCHIVE[: size // 3].rpartition(b"\n\n[Event")[0] + b"\n\n")
    status = over(room, size, *jobs, *number, QUERY, "a.pgn", "a.pgn", "a.pgn", "a.pgn")
    # an engine that writes into the file itself may be ended by a signal
    assert status in (6, 7) and games_in((room / "out.pgn").read_bytes()) > 0
    if number:
        rows = fit(room)
        assert all(int(row[2]) > 0 for row in rows if row[2])


@pytest.mark.parametrize("jobs", [[], ["-j", "2"]])
def test_an_archive_that_is_cut_off(asked: Asking, room: Path, jobs: list[str]) -> None:
    """The archives before it and after it have their numbers; the games of it have none."""
    (room / "a.pgn").write_bytes(GAME % 1)
    # more than one block, of games that are not packed well
    long = b"".join(GAME.replace(b"e5", b"{%s} e5" % os.urandom(20_000).hex().encode()) % number for number in range(40))
    (room / "b.pgn.gz").write_bytes(gzip.compress(long)[:-20_000])
    answer = asked("cqlpgn-over", *jobs, "--keep-partial", "--number", "-o", "out.pgn", QUERY, "a.pgn", "b.pgn.gz", "a.pgn")
    assert answer.status == 5
    rows = fit(room)
    assert (rows[0][1:3], rows[-1][1:3]) == (["a.pgn", "1"], ["a.pgn", "1"])
    assert {tuple(row[1:3]) for row in rows[1:-1]} == {("b.pgn.gz", "")}


KILLED = """#!/bin/sh
case "$*" in *" /dev/null"*) exec "$REAL" "$@" ;; esac
"$REAL" "$@" | head -c 5000
kill -9 $$
"""


@pytest.mark.parametrize("jobs", [[], ["-j", "2"]])
def test_an_engine_that_is_killed(asked: Asking, room: Path, cqlpgn: str, jobs: list[str]) -> None:
    (room / "a.pgn").write_bytes(ARCHIVE)
    (room / "killed").write_text(KILLED)
    (room / "killed").chmod(0o755)
    words = [*jobs, "--keep-partial", "--number", "-o", "out.pgn", QUERY, "a.pgn", "a.pgn"]
    answer = asked("cqlpgn-over", *words, CQLPGN=str(room / "killed"), REAL=cqlpgn)
    assert answer.status == 7
    assert len(fit(room)) > 10
