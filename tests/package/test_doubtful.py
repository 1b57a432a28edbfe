"""Games that are read and may mean something else than was meant, as `cqlpgn-over --doubtful` tells them."""

from __future__ import annotations

import gzip
from pathlib import Path

import pytest
from cqlpgn import doubts
from model import pgn
from tests.conftest import TOP, Answer, Asking

pytestmark = pytest.mark.usefixtures("pgnpieces")
TWICE = "the tag White is given twice; the first one counts"
WITHIN = "a line begins with `[Event ` within a comment, a text or the moves: the game may have taken the next one"
NULLS, NOTHING = "it has null moves alone, as a line of dashes is read", "it has neither tags nor moves"

# An archive, and the doubts: game, what stands from the byte on, and what is said.
ARCHIVES: list[tuple[bytes, list[tuple[int, bytes, str]]]] = [
    (b'[Event "A"]\n[White "B"]\n\n1. e4 -- 2. d4 *\n', []),
    (b'[White "Carlsen"]\n[Black "X"]\n\n[White "Tal"]\n\n1. e4 *\n', [(1, b'[White "Tal', TWICE)]),
    (b'1. e4 *\n\n------------------\n\n[Event "B"]\n\n1. d4 *\n', [(2, b"----", NULLS)]),
    (b"1. e4 -- *\nZ0 Z0 *\n", [(2, b"Z0", NULLS)]),
    (b"****", [(number, b"*" * (5 - number), NOTHING) for number in (1, 2, 3, 4)]),
    (b"1. e4 1-0 1-0\n12\n", [(2, b"1-0", NOTHING), (3, b"12", NOTHING)]),
    (b'1. e4 {a\n\n[Event "B"]\n\n1. d4 } e5 *\n', [(1, b"[Event", WITHIN)]),
    (b'[Event "A"\n[Event "B"]\n\n1. d4 *\n', [(1, b'[Event "A', WITHIN)]),
    (b'{a comment\n[White "x"]}\n[White "y"]\n\n1. e4 *\n', []),
    (b'[White "a"] [White "b"]\n\n1. e4 *\n', [(1, b'[White "b', TWICE)]),
    (b'[White "12"]\n\n*\n{the end}', []),
]


@pytest.mark.parametrize(("archive", "wanted"), ARCHIVES)
def test_doubts(asked: Asking, room: Path, archive: bytes, wanted: list[tuple[int, bytes, str]]) -> None:
    """In a file, a packed one and on standard input."""
    (room / "a.pgn").write_bytes(archive)
    with gzip.open(room / "a.pgn.gz", "wb") as file:
        file.write(archive)
    for name in ("a.pgn", "a.pgn.gz", "-"):
        answer = asked("cqlpgn-over", "--doubtful", name, data=archive)
        found = [line.split(" ", 5) for line in answer.out.decode().splitlines()]
        assert [(int(words[2]), words[5]) for words in found] == [(game, said) for game, _, said in wanted]
        assert all(archive[int(words[4][:-1]) :].startswith(begin) for words, (_, begin, _) in zip(found, wanted))
        assert (answer.status, answer.err) == (int(bool(wanted)), "")


@pytest.mark.parametrize("name", ["games.pgn", "famous.pgn", "themes.pgn", "positions.pgn"])
def test_samples_have_none(asked: Asking, name: str) -> None:
    assert asked("cqlpgn-over", "--doubtful", str(TOP / "examples" / name)) == Answer(0, b"", "")


def test_a_quick_look_hides_nothing(monkeypatch: pytest.MonkeyPatch) -> None:
    """Whatever it lets pass has no doubt when all of it is looked at."""
    games = [archive[begin:end] for archive, _ in ARCHIVES for begin, end, _ in pgn.cut(archive)]
    quick = [list(doubts.of_game(game)) for game in games]
    monkeypatch.setattr(doubts, "_is_plain", lambda _game: False)
    assert quick == [list(doubts.of_game(game)) for game in games]


def test_words(asked: Asking, room: Path) -> None:
    assert asked("cqlpgn-over", "--doubtful", "none.pgn").status == 4
    assert asked("cqlpgn-over", "--doubtful", "--check", "a.pgn").status == 3
    assert asked("cqlpgn-over", "--doubtful", "-o", "b.pgn", "a.pgn").status == 3
    (room / "a\x1b[31m.pgn").write_bytes(b"*")
    assert b"\x1b" not in asked("cqlpgn-over", "--doubtful", ".").out
