"""cqlpgn-split as a process: a file for each query."""

from __future__ import annotations

from pathlib import Path

import pytest
from model import program
from tests.answers import ONE, found
from tests.conftest import Answer, Asking


def split(asked: Asking, data: bytes, *words: str) -> Answer:
    """In a locale whose letters are bytes as in another."""
    one, other = (asked("cqlpgn-split", *words, data=data, LC_ALL=locale) for locale in ("C", "C.UTF-8"))
    assert one == other
    return one


def kept(name: str, numbers: tuple[int, ...] = (1, 2, 3)) -> list[bytes]:
    return [Path(f"{name}0{number}.pgn").read_bytes() for number in numbers]


@pytest.fixture
def joint(room: Path) -> tuple[bytes, list[bytes]]:
    """What the model's `many` writes of three queries, and what each of them finds alone."""
    archive = '[White "Müller"]\n'.encode() + ONE
    texts = ["cql() check", "cql() Pa8", 'cql(matchstring "für") initial']
    (room / "found").mkdir()
    return program.run_many("\n%%\n".join(texts).encode(), archive)[1], [program.run_eval(text.encode(), archive)[1] for text in texts]


def test_three_queries_apart(asked: Asking, joint: tuple[bytes, list[bytes]]) -> None:
    assert split(asked, joint[0], "found/") == Answer(0, b"", "")
    assert kept("found/") == joint[1]


def test_lines_are_counted_and_not_sought(asked: Asking) -> None:
    assert split(asked, b"query 1 bytes 16\nquery 2 bytes 0\nquery 2 bytes 3\n\xffb\nquery 3 bytes 0\n", "x") == Answer(0, b"", "")
    assert kept("x") == [b"query 2 bytes 0\n", b"\xffb\n", b""]


def test_a_file_longer_than_a_read(asked: Asking, joint: object) -> None:
    assert split(asked, b"query 1 bytes 200000\n" + b"\n" * 200000, "found/") == Answer(0, b"", "")
    assert kept("found/", (1,)) == [b"\n" * 200000]


def test_what_many_does_not_write(asked: Asking, joint: tuple[bytes, list[bytes]]) -> None:
    """The status is 5, and the files that were there stand."""
    Path("found/01.pgn").write_bytes(b"old")
    too_long = b"query 1 bytes " + b"9" * 5000 + b"\n"
    for data in (joint[0][:-1], b"", found(ONE), b"query 2 bytes 0\n", too_long, b"query 1 bytes 999999999999\nx"):
        answer = split(asked, data, "found/")
        assert (answer.status, answer.out, "Traceback" in answer.err, bool(answer.err)) == (5, b"", False, True)
        assert sorted(path.name for path in Path("found").iterdir()) == ["01.pgn"]
        assert Path("found/01.pgn").read_bytes() == b"old"


def test_no_such_folder(asked: Asking, joint: tuple[bytes, list[bytes]]) -> None:
    assert split(asked, joint[0], "none/") == Answer(6, b"", "none/01.pgn: No such file or directory\n")


@pytest.mark.parametrize("words", [[], ["a", "b"], ["-x"]])
def test_refused_words(asked: Asking, words: list[str]) -> None:
    assert split(asked, b"", *words).status == 3
