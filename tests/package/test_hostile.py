"""Archives packed badly, and queries that are no queries: a line and a status."""

from __future__ import annotations

import bz2
import gzip
import lzma
import os
import struct
import subprocess
import sys
import warnings
import zipfile
from collections.abc import Callable
from pathlib import Path
from typing import Any

import pytest
from tests.answers import COUNTS_ONE, ONE, QUERY, TWO, found
from tests.conftest import BIN, Answer, Asking

pytestmark = pytest.mark.usefixtures("cqlpgn", "archives")


def is_told(answer: Answer, status: int = 5) -> bool:
    """A status, and lines without a traceback."""
    return answer.status == status and bool(answer.err) and "Traceback" not in answer.err


def test_members_named_as_options(asked: Asking) -> None:
    with zipfile.ZipFile("a.zip", "w") as file:
        file.writestr("-d.pgn", ONE)
        file.writestr("*.pgn", TWO)
    answer = asked("cqlpgn-over", QUERY, "a.zip")
    assert (answer.status, answer.out, answer.lines[0]) == (1, found(ONE, TWO), f"a.zip:-d.pgn: {COUNTS_ONE}")


def test_two_members_of_one_name(asked: Asking) -> None:
    with warnings.catch_warnings(), zipfile.ZipFile("a.zip", "w") as file:
        warnings.simplefilter("ignore")
        file.writestr("a.pgn", ONE)
        file.writestr("a.pgn", TWO)
    answer = asked("cqlpgn-over", QUERY, "a.zip")
    assert (answer.status, answer.out) == (1, found(ONE, TWO))
    assert [line.split(": ")[0] for line in answer.lines] == ["a.zip:a.pgn", "a.zip:a.pgn (2)", "a.zip:a.pgn (2)", "all archives"]


def test_a_zip_that_is_named_as_a_pattern(asked: Asking) -> None:
    for name, data in (("*.zip", ONE), ("x.zip", TWO)):
        with zipfile.ZipFile(name, "w") as file:
            file.writestr("a.pgn", data)
    assert asked("cqlpgn-over", QUERY, "*.zip") == Answer(0, found(ONE), f"*.zip:a.pgn: {COUNTS_ONE}\n")


def test_a_wrong_checksum_in_a_zip(asked: Asking, room: Path) -> None:
    with zipfile.ZipFile("a.zip", "w") as file:
        file.writestr("a.pgn", ONE)
    (room / "a.zip").write_bytes((room / "a.zip").read_bytes().replace(b"1. d4", b"1. d3"))
    assert is_told(asked("cqlpgn-over", QUERY, "a.zip"))


def test_an_encrypted_zip(asked: Asking, room: Path) -> None:
    with zipfile.ZipFile("a.zip", "w") as file:
        file.writestr("a.pgn", ONE)
    data = bytearray((room / "a.zip").read_bytes())
    for mark, at in ((b"PK\x03\x04", 6), (b"PK\x01\x02", 8)):
        begin = data.index(mark) + at
        data[begin : begin + 2] = struct.pack("<H", struct.unpack("<H", data[begin : begin + 2])[0] | 1)
    (room / "a.zip").write_bytes(data)
    answer = asked("cqlpgn-over", QUERY, "a.zip")
    assert is_told(answer) and "a.zip:a.pgn: is encrypted" in answer.lines


@pytest.mark.parametrize("cut", [1, 10, 30, 60, 100])
def test_a_zip_cut_off(asked: Asking, room: Path, cut: int) -> None:
    with zipfile.ZipFile("a.zip", "w", zipfile.ZIP_DEFLATED) as file:
        file.writestr("a.pgn", ONE)
    (room / "a.zip").write_bytes((room / "a.zip").read_bytes()[:-cut])
    assert is_told(asked("cqlpgn-over", QUERY, "a.zip"))


@pytest.mark.parametrize("kind", ["gz", "xz", "bz2"])
def test_rubbish_after_the_end(asked: Asking, room: Path, kind: str) -> None:
    packers: dict[str, Callable[[bytes], bytes]] = {"gz": gzip.compress, "xz": lzma.compress, "bz2": bz2.compress}
    packer = packers[kind]
    packed = packer(ONE)
    (room / f"a.{kind}").write_bytes(packed + b"rubbish")
    assert is_told(asked("cqlpgn-over", QUERY, f"a.{kind}"))
    for cut in (1, 6, 20, len(packed)):
        (room / f"a.{kind}").write_bytes((packed + packed)[: len(packed) - cut])
        assert is_told(asked("cqlpgn-over", QUERY, f"a.{kind}"))
    (room / f"a.{kind}").write_bytes(b"no games at all")
    assert is_told(asked("cqlpgn-over", QUERY, f"a.{kind}"))


def peak(*words: str) -> tuple[int, int]:
    """Status and the greatest memory of a run, in MB."""
    call = (
        "import resource, subprocess, sys; status = subprocess.run(sys.argv[1:], stderr=subprocess.DEVNULL).returncode;"
        "print(status, resource.getrusage(resource.RUSAGE_CHILDREN).ru_maxrss // 1024)"
    )
    done = subprocess.run([sys.executable, "-c", call, sys.executable, *words], stdout=subprocess.PIPE, check=True)
    status, memory = map(int, done.stdout.split())
    return status, memory


@pytest.mark.parametrize("kind", ["gz", "xz", "bz2", "zst", "zip"])
def test_a_bomb_takes_no_memory(room: Path, kind: str) -> None:
    size, space = 100 << 20, b" " * (1 << 20)
    if kind == "zip":
        with zipfile.ZipFile("a.zip", "w", zipfile.ZIP_DEFLATED) as packed, packed.open("a.pgn", "w") as inside:
            for _turn in range(size // len(space)):
                inside.write(space)
    elif kind == "zst":
        zstandard = pytest.importorskip("zstandard")
        (room / "a.zst").write_bytes(zstandard.ZstdCompressor().compress(space * 100))
    else:
        opener: Any = {"gz": gzip.open, "xz": lzma.open, "bz2": bz2.open}[kind]
        with opener(f"a.{kind}", "wb") as file:
            for _turn in range(size // len(space)):
                file.write(space)
    status, memory = peak(str(BIN / "cqlpgn-over"), "-c", QUERY, f"a.{kind}")
    assert (status, memory < 100) == (0, True)


@pytest.mark.parametrize(
    "text",
    [
        "cql() " + "(" * 20000,
        "cql() " + "{" * 20000 + "check",
        "cql() #P == " + "9" * 5000,
        "cql(" * 9000,
        'cql() player "',
        "cql() \udcff",
    ],
)
def test_queries_that_are_none(asked: Asking, room: Path, text: str) -> None:
    (room / "bad.cql").write_bytes(os.fsencode(text))
    for words in ([text, "one.pgn"], ["bad.cql", "one.pgn"], ["--check", "bad.cql"], ["-p", text]):
        assert is_told(asked("cqlpgn-over", *words), 2)


def test_names_that_speak_to_the_terminal(asked: Asking) -> None:
    with zipfile.ZipFile("a.zip", "w") as file:
        file.writestr("\x1b[2J.pgn", ONE)
    answer = asked("cqlpgn-over", QUERY, "a.zip", "none\x1b.pgn")
    assert (answer.status, "\x1b" in answer.err) == (4, False)
