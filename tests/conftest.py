"""What the tests share: the programs, a folder of their own, and the independent model.

The programs are named by CQLPGN, PGNPIECES and PGNJSON, or are those that were built in crates/; a test whose program is not there is
skipped.
"""

from __future__ import annotations

import os
import subprocess
import sys
from collections.abc import Callable
from dataclasses import dataclass
from pathlib import Path

import pytest
from tests import answers
from tests.processes import PATIENCE

TOP = Path(__file__).resolve().parent.parent
BIN = TOP / "python" / "bin"
sys.dont_write_bytecode = True


@dataclass
class Answer:
    """The exit status of a command, and what it wrote."""

    status: int
    out: bytes
    err: str

    @property
    def lines(self) -> list[str]:
        return self.err.splitlines()


Asking = Callable[..., Answer]


def pytest_addoption(parser: pytest.Parser) -> None:
    parser.addoption("--archive", metavar="FILE", help="a large archive for the tests of many machines that are marked long")


def pytest_collection_modifyitems(items: list[pytest.Item]) -> None:
    """Where tests run beside each other, those of a file of the package stay together: they have a browser or a desk in common."""
    for item in items:
        if item.path.parent.name == "package":
            item.add_marker(pytest.mark.xdist_group(item.path.stem))


def pytest_collection_finish(session: pytest.Session) -> None:
    """A name that no test has is an error."""
    named = session.config.getoption("keyword")
    if named and not session.items and not hasattr(session.config, "workerinput"):
        raise pytest.UsageError(f"no test has the name {named}")


def path_of(variable: str, name: str) -> str:
    """Where a program is: as the variable says, or where `make build` puts it."""
    return os.path.abspath(os.environ.get(variable) or TOP / "crates" / name / "out" / name)


# Commands that are run as processes find the programs there, too.
for _name in ("cqlpgn", "pgnpieces", "pgnjson"):
    os.environ[_name.upper()] = path_of(_name.upper(), _name)


def program(variable: str, name: str) -> str:
    """The path of a program; the test is skipped where it is not there."""
    path = path_of(variable, name)
    if not os.access(path, os.X_OK):
        pytest.skip(f"there is no program {name}")
    return path


@pytest.fixture
def cqlpgn(monkeypatch: pytest.MonkeyPatch) -> str:
    """The program cqlpgn, which CQLPGN names for the test."""
    path = program("CQLPGN", "cqlpgn")
    monkeypatch.setenv("CQLPGN", path)
    return path


@pytest.fixture
def pgnpieces(monkeypatch: pytest.MonkeyPatch) -> str:
    path = program("PGNPIECES", "pgnpieces")
    monkeypatch.setenv("PGNPIECES", path)
    return path


@pytest.fixture
def pgnjson(monkeypatch: pytest.MonkeyPatch) -> str:
    path = program("PGNJSON", "pgnjson")
    monkeypatch.setenv("PGNJSON", path)
    return path


@pytest.fixture
def room(tmp_path: Path, monkeypatch: pytest.MonkeyPatch) -> Path:
    """An empty folder, in which the test runs."""
    monkeypatch.chdir(tmp_path)
    return tmp_path


@pytest.fixture
def asked(room: Path) -> Asking:
    """Runs a command of python/bin in the room: `asked("cqlpgn-over", ..words, data=b"..")`."""

    def run(command: str, *words: str | bytes, data: bytes = b"", **environment: str) -> Answer:
        env = {**os.environ, **environment}
        call: list[str | bytes] = [sys.executable, str(BIN / command), *words]
        done = subprocess.run(call, input=data, capture_output=True, env=env, check=False, timeout=PATIENCE)
        return Answer(done.returncode, done.stdout, done.stderr.decode("utf-8", "surrogateescape"))

    return run


@pytest.fixture
def archives(room: Path) -> Path:
    """The room with one.pgn, two.pgn, an archive whose name begins with a dash, and q.cql."""
    for name, data in {"one.pgn": answers.ONE, "two.pgn": answers.TWO, "-odd.pgn": answers.ONE, "q.cql": answers.QUERY.encode()}.items():
        (room / name).write_bytes(data)
    return room
