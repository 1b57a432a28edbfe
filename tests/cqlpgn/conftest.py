"""What the tests of cqlpgn as a process share: the program with its words and a folder of files."""

from __future__ import annotations

import contextlib
import subprocess
import threading
from collections.abc import Callable, Sequence
from pathlib import Path
from typing import Any

import pytest
from model.program import Answer
from tests.processes import PATIENCE, Word, run

ARCHIVE = b"1. e4 e5 2. Nf3 *\n1. f3 e5 2. g4 Qh4# 0-1\n1. d4 *\n"
FAULTY = b"1. e4 *\n1. e4 e5 2. Ke3 *\n"
QUERY = b"cql() check"
ONE = b"1. e4 *\n"
FILES = {"a.pgn": ARCHIVE, "one.pgn": ONE, "faulty.pgn": FAULTY, "q.cql": QUERY, "bad.cql": b"cql() echo"}
Asks = Callable[..., Answer]


@pytest.fixture
def folder(tmp_path: Path) -> Path:
    """A folder with archives and queries."""
    for name, data in FILES.items():
        (tmp_path / name).write_bytes(data)
    return tmp_path


@pytest.fixture
def ask(cqlpgn: str, folder: Path) -> Asks:
    """Asks the program in that folder: `ask(..words, data=b"..", memory=N, stdout=..)`."""

    def asked(*words: Word, **how: Any) -> Answer:
        return run(cqlpgn, *words, folder=folder, **how)

    return asked


def in_pieces(cqlpgn: str, words: Sequence[Word], data: bytes, piece: int) -> Answer:
    """The answer of the program to an archive that is written in pieces."""
    with subprocess.Popen([cqlpgn, *words], bufsize=0, stdin=subprocess.PIPE, stdout=subprocess.PIPE, stderr=subprocess.PIPE) as process:
        assert process.stdin and process.stdout and process.stderr
        to, out, err = process.stdin, process.stdout, process.stderr

        def write() -> None:
            # the program may end before it has read all
            with contextlib.suppress(BrokenPipeError):
                for start in range(0, len(data), piece):
                    to.write(data[start : start + piece])
            to.close()

        said: list[bytes] = []
        threads = [threading.Thread(target=write), threading.Thread(target=lambda: said.append(err.read()))]
        for thread in threads:
            thread.start()
        written = out.read()
        for thread in threads:
            thread.join()
        return process.wait(timeout=PATIENCE), written, said[0]
