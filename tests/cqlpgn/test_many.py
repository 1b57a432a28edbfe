"""Files of queries: answered at once as query by query; how they are cut, what is refused of them, and each status of `many`."""

from __future__ import annotations

from collections.abc import Callable
from pathlib import Path
from typing import Any

import pytest
from model import program
from model.program import Answer
from tests.cases import all_cases
from tests.cqlpgn.conftest import ARCHIVE, FAULTY, QUERY, Asks
from tests.processes import Word

Many = Callable[..., Answer]
TWO = b"cql() initial\n%%\ncql() check\n"


@pytest.fixture
def many(ask: Asks, folder: Path) -> Many:
    """The answer to the queries of a file over an archive by its name: `many(text, "a.pgn", ..words)`."""

    def asked(text: bytes, archive: str = "a.pgn", *words: Word, **how: Any) -> Answer:
        (folder / "queries.cql").write_bytes(text)
        return ask("many", "queries.cql", archive, *words, **how)

    return asked


@pytest.mark.parametrize("workers", ["1", "4", "64"])
def test_the_cookbook(many: Many, folder: Path, workers: str) -> None:
    cookbook = [case for case in all_cases() if case.name.startswith("cookbook-")][:16]
    (folder / "games.pgn").write_bytes(cookbook[0].archive)
    answer = many(b"%%\n".join(case.query for case in cookbook), "games.pgn", "--workers", workers)
    assert answer == program.joined([case.wanted() for case in cookbook])


SIXTEEN = [b"cql() check //" + b"x" * 65521 + b"\n" for _ in range(15)] + [b"cql() mate //" + b"x" * 65478]
LONGEST = b"%%\n".join(SIXTEEN)
ACCEPTED = {
    "two queries": b"cql() Pd4\n%%\ncql() check\n",
    "one query": QUERY,
    "queries whose lines end with CR LF": b"// %%\r\ncql()\r\ncheck\r\n%%\n// b\r\ncql() mate\r\n",
    "%% in a remark": b"// %%\ncql() check\n%%\n//%%\n//\ncql() mate",
    "a sort item in one query alone": b'cql() terminal sort min "p" ply\n%%\ncql() terminal\n%%\ncql() terminal sort "p" ply\n',
    "1,048,576 bytes": LONGEST,
}


def test_how_long_the_longest_file_is() -> None:
    assert len(LONGEST) == 1048576


@pytest.mark.parametrize("name", ACCEPTED)
def test_a_file_that_is_accepted(many: Many, name: str) -> None:
    text = ACCEPTED[name]
    assert many(text) == program.joined([program.run_eval(piece, ARCHIVE) for piece in program.pieces_of(text)])


REFUSED = {
    "queries too long": [LONGEST + b" ", b"%%\n" * 349526],
    "queries too many": [b"%%\n" * 16, b"cql() check\n%%\n" * 16 + b"cql() !"],
    "query 1 byte 0: unexpected end": [b"", b"%%", b"%%\n", b"%%\n" * 15, b"%%\ncql() !"],
    "query 2 byte 0: unexpected end": [b"cql() check\n%%\n", b"cql() check\n%%\n%%\ncql() check"],
    "query 1 byte 13: bad byte": [b"cql() check\r\n%%\r\ncql() mate\r\n", b"cql() check\n %%\n"],
    "query 1 byte 12: bad byte": [b"cql() check\n%%%\n", b"cql() check\n%% \n%%\ncql() !"],
    "query 1 byte 14: unclosed text": [b'cql() comment "a\n%%\nb" check'],
    "query 2 byte 6: outside profile echo": [b"cql() check\n%%\ncql() echo\n%%\ncql() !\n"],
    "query 2 byte 65536: query too long": [b"cql() check\n%%\n" + b" " * 65537],
}
TURNED_AWAY = [(line, number) for line, texts in REFUSED.items() for number in range(len(texts))]


@pytest.mark.parametrize(("line", "number"), TURNED_AWAY)
def test_a_file_that_is_refused(many: Many, line: str, number: int) -> None:
    assert many(REFUSED[line][number], "none.pgn") == (2, b"", line.encode() + b"\n")


def test_a_faulty_game(many: Many) -> None:
    assert many(TWO, "faulty.pgn") == program.run_many(TWO, FAULTY)


def test_ways_in(ask: Asks, folder: Path) -> None:
    """An archive from a pipe, words in another order, and queries from a pipe."""
    (folder / "two.cql").write_bytes(TWO)
    wanted = program.run_many(TWO, ARCHIVE)
    assert ask("many", "two.cql", data=ARCHIVE) == wanted
    assert ask("--limit", str(len(ARCHIVE)), "many", "two.cql", "--workers=64", "a.pgn") == wanted
    assert ask("many", "-", "a.pgn", data=TWO) == wanted


def test_no_such_file(ask: Asks, many: Many) -> None:
    assert ask("many", "none.cql", "a.pgn") == (4, b"", b"")
    assert many(TWO, "none.pgn") == (4, b"", b"")


def test_a_folder(ask: Asks, many: Many) -> None:
    assert ask("many", ".", "a.pgn") == (5, b"", b"")
    assert many(TWO, ".") == (5, b"", b"")


def test_a_full_device(many: Many) -> None:
    """It takes no games, no counts, and no fault of a query."""
    with open("/dev/full", "wb") as full:
        assert many(TWO, stdout=full) == (6, b"", b"")
        status, out, _ = many(TWO, stderr=full)
        assert (status, program.run_many(TWO, ARCHIVE)[1].startswith(out)) == (6, True)
        assert many(b"%%", stderr=full) == (6, b"", b"")


def test_no_memory_for_a_game(ask: Asks, folder: Path) -> None:
    (folder / "two.cql").write_bytes(TWO)
    assert ask("many", "two.cql", data=b"{" + b"x" * 2**24 + b"} 1. e4 *", memory=2**23) == (7, b"", b"")


TWO_BATCHES = b"1. e4 e5 2. Ke3 *\n" + b"*\n" * 1023 + b"1. e4 e5 *\n"


def test_one_byte_more_than_the_limit(ask: Asks, folder: Path) -> None:
    (folder / "two.cql").write_bytes(TWO)
    answer = ask("many", "two.cql", "--limit", str(len(TWO_BATCHES) - 1), data=TWO_BATCHES)
    assert answer == (8, b"", b"game 1 byte 12: illegal move\n")


@pytest.mark.parametrize("workers", ["1", "64"])
def test_two_batches(ask: Asks, folder: Path, workers: str) -> None:
    (folder / "two.cql").write_bytes(TWO)
    answer = ask("many", "two.cql", "--limit", str(len(TWO_BATCHES)), "--workers", workers, data=TWO_BATCHES)
    assert answer == program.run_many(TWO, TWO_BATCHES)


@pytest.mark.parametrize(
    "words", [[], ["a.pgn", "b.pgn", "c.pgn"], ["a.pgn", "--first"], ["a.pgn", "--seed", "1"], ["a.pgn", "--games", "1"]]
)
def test_words_that_are_refused(ask: Asks, words: list[Word]) -> None:
    assert ask("many", *words) == (3, b"", program.USAGE)
