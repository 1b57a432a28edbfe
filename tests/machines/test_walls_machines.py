"""machines/run-over and join: words, tables, jobs, folders and streams of which nothing good comes."""

from __future__ import annotations

import os
import signal
import subprocess
import sys
import time
from pathlib import Path

import pytest
from tests.conftest import TOP
from tests.processes import PATIENCE

# the engine of these tests finds nothing in a piece, and takes all of it
ENGINE = '#!/bin/sh\ncase "$3" in /dev/null) ;; *) cat "$3" > /dev/null ;; esac\necho "games 0 matched 0 refused 0" >&2\n'
PIECES = '#!/bin/sh\necho 1 0 $(wc -c < "$1") 1 0\n'
QUERY = "cql() check"
pytestmark = pytest.mark.usefixtures("stubs")
LINKS = ["query.cql", "query.cql.new", "ask.cql.new", "job.new", "table.new", "table", "log", "todo.new"]
JOBS = [b"", b"[]", b"{", b"\xff", b"null", b'{"program": 1}', b"[" * 100000, b"9" * 5000]


@pytest.fixture
def stubs(room: Path, monkeypatch: pytest.MonkeyPatch) -> None:
    """The room with an archive, and programs of its own in place of cqlpgn and pgnpieces."""
    (room / "a.pgn").write_bytes(b"1. e4 *\n" * 9)
    for variable, text in {"CQLPGN": ENGINE, "PGNPIECES": PIECES}.items():
        (room / variable).write_text(text)
        (room / variable).chmod(0o755)
        monkeypatch.setenv(variable, str(room / variable))


def call(script: str, *words: str, redirect: str = "") -> subprocess.CompletedProcess[bytes]:
    """A script with streams as a shell is told."""
    shell = ["bash", "-c", f'exec "$@" {redirect}', "-", sys.executable, str(TOP / "machines" / script), *words]
    done = subprocess.run(shell, capture_output=True, stdin=subprocess.DEVNULL, timeout=PATIENCE, check=False)
    assert b"Traceback" not in done.stderr and b"\x1b" not in done.stderr, done.stderr
    return done


def test_a_run() -> None:
    done = call("run-over", QUERY, "a.pgn")
    assert (done.returncode, done.stdout, done.stderr) == (0, b"", b"games 0 matched 0 refused 0\n")


def test_a_run_that_has_ended_is_not_ended_by_its_timer(room: Path) -> None:
    """Signals that come in its last moments leave its status as it is."""
    for number in range(4):
        words = [sys.executable, str(TOP / "machines" / "run-over"), QUERY, "a.pgn"]
        with subprocess.Popen(words, stdout=subprocess.PIPE, stderr=subprocess.PIPE) as command:
            assert command.stderr is not None
            command.stderr.readline()
            while command.poll() is None:
                command.send_signal(signal.SIGALRM)
                time.sleep(0.0005)
            assert command.returncode == 0, number


@pytest.mark.parametrize("engine", ["", " ", "'", '"x', "\\"])
def test_the_command_of_an_engine(engine: str) -> None:
    assert call("run-over", "--engine", engine, QUERY, "a.pgn").returncode == 3


@pytest.mark.parametrize("row", [b"1 0 " + b"9" * 5000 + b" 1 1\n", b"9" * 5000 + b" 0 1 1 1\n", b"\xff\n", b"\x1b[31m\n"])
def test_a_table(room: Path, row: bytes) -> None:
    (room / "table").write_bytes(row)
    assert call("run-over", "--table", "table", QUERY, "a.pgn").returncode == 9


@pytest.mark.parametrize("redirect", [">&-", "2>&-", ">&- 2>&-", "2> /dev/full", "<&-"])
def test_streams(redirect: str) -> None:
    assert call("run-over", QUERY, "a.pgn", redirect=redirect).returncode == (0 if redirect == "<&-" else 6)


@pytest.mark.parametrize("redirect", [">> a.pgn", "2>> a.pgn"])
def test_streams_that_are_the_archive(room: Path, redirect: str) -> None:
    before = (room / "a.pgn").read_bytes()
    status = call("run-over", QUERY, "a.pgn", redirect=redirect).returncode
    said = (room / "a.pgn").read_bytes()[len(before) :]
    assert status == 3 and (room / "a.pgn").read_bytes().startswith(before)
    assert said == b"" or redirect[0] == "2" and said.startswith(b"run-over: standard error is ")


@pytest.mark.parametrize("name", LINKS)
def test_links_in_the_folder(room: Path, name: str) -> None:
    (room / "mine").write_bytes(b"mine\n")
    (room / "folder").mkdir()
    (room / "folder" / name).symlink_to(room / "mine")
    call("run-over", "--in", "folder", *(["--engine", "true"] if name in ("log", "todo.new") else []), QUERY, "a.pgn")
    assert (room / "mine").read_bytes() == b"mine\n"


@pytest.mark.parametrize("job", JOBS)
def test_a_damaged_job(room: Path, job: bytes) -> None:
    (room / "folder").mkdir()
    (room / "folder" / "job").write_bytes(job)
    (room / "folder" / "table").write_bytes(b"")
    for words in (["run-over", "--in", "folder", QUERY, "a.pgn"], ["join", "folder"], ["piece", "folder", "1"]):
        done = call(*words)
        assert done.returncode == 9 and b"job: is damaged" in done.stderr, words


def test_a_folder_of_others(room: Path) -> None:
    (room / "folder").mkdir()
    (room / "folder").chmod(0o777)
    done = call("run-over", "--in", "folder", QUERY, "a.pgn")
    assert done.returncode == 4 and b"must be your own" in done.stderr
    assert list((room / "folder").iterdir()) == []
    if os.geteuid() == 0:
        (room / "folder").chmod(0o755)
        os.chown(room / "folder", 65534, 65534)
        assert call("run-over", "--in", "folder", QUERY, "a.pgn").returncode == 4


def test_no_folder(room: Path) -> None:
    assert call("join", "nowhere").returncode == 4
    assert call("join", "a.pgn").returncode == 4


def test_names_that_a_terminal_would_obey(room: Path) -> None:
    for words in (["run-over", "\x1b[31m", "a.pgn"], ["run-over", QUERY, "\x1b[31m"], ["run-over", "--\x1b[31m", QUERY, "a.pgn"]):
        assert b"\\x1b[31m" in call(*words).stderr
    assert b"\\x1b[31m" in call("join", "\x1b[31m").stderr
