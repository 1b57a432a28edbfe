"""cqlpgn-over as a process: what it writes, what it says and its exit status. What the games should be comes from the model."""

from __future__ import annotations

import bz2
import gzip
import hashlib
import lzma
import zipfile
from collections.abc import Callable
from pathlib import Path

import pytest
from model import program
from tests.answers import COUNTS_ONE, COUNTS_TWO, FAULT_TWO, LINES, MANY, ONE, QUERY, TOTAL, TWO, found
from tests.conftest import Answer, Asking

pytestmark = pytest.mark.usefixtures("cqlpgn", "archives")
Over = Callable[..., Answer]


@pytest.fixture
def over(asked: Asking) -> Over:
    def run(*words: str | bytes, data: bytes = b"", **environment: str) -> Answer:
        return asked("cqlpgn-over", *words, data=data, **environment)

    return run


def test_archives_one_after_the_other(over: Over) -> None:
    assert over(QUERY, "one.pgn", "two.pgn") == Answer(1, found(ONE, TWO), "\n".join([*LINES, TOTAL, ""]))


@pytest.mark.parametrize("words", [["one.pgn"], ["-"], []])
def test_one_archive(over: Over, words: list[str]) -> None:
    name = (words or ["-"])[0]
    assert over(QUERY, *words, data=ONE) == Answer(0, found(ONE), f"{name}: {COUNTS_ONE}\n")


def test_a_query_in_a_file(over: Over) -> None:
    assert over("q.cql", "one.pgn") == Answer(0, found(ONE), LINES[0] + "\n")


def test_counts_alone(over: Over) -> None:
    assert over("-c", QUERY, "one.pgn", "two.pgn") == Answer(1, b"", "\n".join([*LINES, TOTAL, ""]))


def test_words_of_the_program(over: Over) -> None:
    assert over("--workers", "2", QUERY, "--limit", "1000", "one.pgn") == Answer(0, found(ONE), LINES[0] + "\n")


def test_a_name_that_begins_with_a_dash(over: Over) -> None:
    assert over(QUERY, "--", "-odd.pgn") == Answer(0, found(ONE), f"-odd.pgn: {COUNTS_ONE}\n")


def test_a_name_that_is_not_utf_8(over: Over, room: Path) -> None:
    with open(b"m\xfcller.pgn", "wb") as file:
        file.write(ONE)
    answer = over(QUERY, b"m\xfcller.pgn")
    assert (answer.status, answer.out, answer.err) == (0, found(ONE), f"m\\xfcller.pgn: {COUNTS_ONE}\n")
    answer = over("--number", "-o", b"\xfc.pgn", QUERY, b"m\xfcller.pgn")
    with open(b"\xfc.pgn.csv", "rb") as file:
        of = hashlib.sha256(found(ONE)).hexdigest().encode()
        rows = b'"found","archive","game","of"\r\n"1","m\\xfcller.pgn","2","sha256:' + of + b'"\r\n'
        assert (answer.status, file.read()) == (0, rows)


def test_a_folder(over: Over, room: Path) -> None:
    (room / "all" / "old").mkdir(parents=True)
    (room / "all" / "b.pgn").write_bytes(ONE)
    (room / "all" / "notes.txt").write_bytes(b"no games")
    (room / "all" / "old" / "a.pgn.gz").write_bytes(gzip.compress(TWO))
    lines = [f"all/b.pgn: {COUNTS_ONE}", f"all/old/a.pgn.gz: {FAULT_TWO}", f"all/old/a.pgn.gz: {COUNTS_TWO}", TOTAL]
    assert over(QUERY, "all") == Answer(1, found(ONE, TWO), "\n".join([*lines, ""]))
    (room / "none").mkdir()
    assert over(QUERY, "none") == Answer(4, b"", "none: is a folder without archives\n")


@pytest.mark.parametrize(
    "text",
    [
        QUERY,
        'cql(matchstring "here") check',
        '// matchstring "x"\ncql ( matchstring // a "\n "b"variations) check',
        'cql(input a//b matchstring "x") check',
        'cql(output // c\nd//e matchstring "x" input "//f" matchstring "y") check',
    ],
)
def test_no_marks(over: Over, text: str) -> None:
    answer = over("-p", text, "one.pgn")
    assert (answer.status, answer.out) == (0, found(ONE, asking='cql(matchstring "") check'))


def test_comments_stay_without_marks(over: Over) -> None:
    text = 'cql(matchstring "a") check comment "matchstring"'
    assert over("-p", text, "one.pgn").out == found(ONE, asking=text.replace('"a"', '""'))


PACKERS: dict[str, Callable[[bytes], bytes]] = {"gz": gzip.compress, "bz2": bz2.compress, "xz": lzma.compress}


@pytest.mark.parametrize("kind", PACKERS)
def test_packed(over: Over, room: Path, kind: str) -> None:
    name = f"one.pgn.{kind}"
    (room / name).write_bytes(PACKERS[kind](ONE))
    assert over(QUERY, name) == Answer(0, found(ONE), f"{name}: {COUNTS_ONE}\n")
    (room / name).write_bytes(PACKERS[kind](ONE) + PACKERS[kind](ONE))
    assert over(QUERY, name).out == found(ONE, ONE)
    assert over(QUERY, "none." + kind) == Answer(4, b"", f"none.{kind}: could not be opened\n")


def test_packed_by_zstandard(over: Over, room: Path) -> None:
    zstandard = pytest.importorskip("zstandard")
    packed = zstandard.ZstdCompressor().compress(ONE)
    (room / "one.pgn.zst").write_bytes(packed)
    assert over(QUERY, "one.pgn.zst") == Answer(0, found(ONE), f"one.pgn.zst: {COUNTS_ONE}\n")
    (room / "two.pgn.zst").write_bytes(packed + packed)
    assert over(QUERY, "two.pgn.zst").out == found(ONE, ONE)
    (room / "cut.zst").write_bytes(packed[:-3])
    assert over(QUERY, "cut.zst").status == 5


def test_what_unpacks_it_is_not_installed(over: Over, room: Path) -> None:
    (room / "one.pgn.zst").write_bytes(b"packed")
    (room / "zstandard.py").write_text("raise ImportError\n")
    lines = ["one.pgn.zst: python3-zstandard, which unpacks it, is not installed", LINES[0], "all archives: games 3 matched 1 refused 0"]
    assert over(QUERY, "one.pgn.zst", "one.pgn", PYTHONPATH=str(room)) == Answer(5, found(ONE), "\n".join([*lines, ""]))


def test_members_of_a_zip(over: Over, room: Path) -> None:
    with zipfile.ZipFile("both.zip", "w") as file:
        file.writestr("a [1].pgn", ONE)
        file.writestr("read me.txt", "no games")
        file.writestr("b/two.PGN", TWO)
    lines = [f"both.zip:a [1].pgn: {COUNTS_ONE}", f"both.zip:b/two.PGN: {FAULT_TWO}", f"both.zip:b/two.PGN: {COUNTS_TWO}", TOTAL]
    assert over(QUERY, "both.zip") == Answer(1, found(ONE, TWO), "\n".join([*lines, ""]))
    (room / "no.zip").write_bytes(b"no games")
    assert over(QUERY, "no.zip").status == 5


@pytest.mark.parametrize(
    ("text", "shown"),
    [
        ("cql() & x", ["cql() & x", "      ^ unexpected token (line 1, byte 6)"]),
        (
            "cql()\n  check & mate",
            [
                "  check & mate",
                "  ^ kind mismatch, wanted set, found position (line 2, byte 8)",
                "    `&` is of squares; of positions it is `and`, or nothing at all: as `check and mate`, not `check & mate`",
            ],
        ),
        ("cql() not \n", ["cql() not", "         ^ unexpected end (line 1, byte 11)"]),
    ],
)
def test_a_caret_below_a_fault(over: Over, text: str, shown: list[str]) -> None:
    assert over(text, "none.pgn") == Answer(2, b"", "\n".join([*shown, ""]))
    assert over("-p", text, "none.pgn").lines == shown


@pytest.mark.parametrize(
    ("words", "status"),
    [
        ([], 3),
        (["-x", QUERY], 3),
        (["--workers", "0", QUERY, "one.pgn"], 3),
        (["--limit", "9" * 5000, QUERY, "one.pgn"], 3),
        (["-j", "9" * 5000, QUERY, "one.pgn"], 3),
        (["-j", "0", QUERY], 3),
        (["--many", "q.cql", "one.pgn"], 3),
        (["--number", QUERY, "one.pgn"], 3),
        (["-c", "-o", "x.pgn", QUERY, "one.pgn"], 3),
        (["--check"], 3),
        (["none.cql", "one.pgn"], 4),
        (["-o", "none/out.pgn", QUERY, "one.pgn"], 6),
        (["-o", ".", QUERY, "one.pgn"], 6),
    ],
)
def test_refused_words(over: Over, words: list[str], status: int) -> None:
    answer = over(*words)
    assert (answer.status, answer.out, "Traceback" in answer.err) == (status, b"", False)
    assert answer.err


def test_each_status_in_words(over: Over) -> None:
    assert over(QUERY, "none.pgn") == Answer(4, b"", "none.pgn: could not be opened\n")
    both = ["none.pgn: could not be opened", LINES[0], "all archives: games 3 matched 1 refused 0", ""]
    assert over(QUERY, "none.pgn", "one.pgn") == Answer(4, found(ONE), "\n".join(both))
    failed = "one.pgn: a write failed: the disk may be full, or the reader of the games has ended"
    answer = over("-o", "/dev/full", QUERY, "one.pgn", "two.pgn")
    assert (answer.status, answer.lines[0], len([line for line in answer.lines if "two.pgn" in line])) == (6, failed, 0)
    assert over("--limit", "20", QUERY, "one.pgn") == Answer(8, b"", "one.pgn: has more bytes than --limit allows\n")


def test_no_program(over: Over) -> None:
    assert over(QUERY, "one.pgn", CQLPGN="none") == Answer(4, b"", "there is no program none; CQLPGN may name it\n")


def test_the_first_game_of_all(over: Over) -> None:
    only = [line.replace("games 3", "games 2") for line in LINES[:1]]
    assert over("--first", QUERY, "one.pgn", "two.pgn") == Answer(0, found(ONE), "\n".join([*only, ""]))
    answer = over("--first", "-j", "2", "cql() Pd4", "two.pgn", "one.pgn", "two.pgn")
    assert (answer.status, answer.out) == (1, found(ONE, asking="cql() Pd4"))


@pytest.mark.parametrize(("archive", "status"), [("one.pgn", 0), ("two.pgn", 0), ("none.pgn", 4)])
def test_quiet(over: Over, archive: str, status: int) -> None:
    answer = over("-q", QUERY, archive)
    assert (answer.status, answer.out, bool(answer.err)) == (status, b"", status > 1)
    assert over("-q", "cql() Pa8", archive).status == (status or 1)
    assert over("-q", QUERY, archive, "one.pgn").status == 0


@pytest.mark.parametrize("jobs", ["2", "8"])
def test_several_at_once(over: Over, jobs: str) -> None:
    names = ["one.pgn", "two.pgn"] * 20
    assert over("-j", jobs, QUERY, *names) == over(QUERY, *names)
    assert over("-j", jobs, QUERY, "none.pgn", *names) == over(QUERY, "none.pgn", *names)


def test_a_table_at_the_end(over: Over) -> None:
    table = over("--summary", "-c", QUERY, "one.pgn", "none.pgn", "two.pgn").lines[-5:]
    assert [line.split()[:-1] for line in table] == [
        ["archive", "games", "matched", "refused"],
        ["one.pgn", "3", "1", "0"],
        ["none.pgn", "-", "-", "-"],
        ["two.pgn", "3", "1", "1"],
        ["all", "archives", "6", "2", "1"],
    ]


@pytest.mark.parametrize("options", [[], ["-j", "2"]])
def test_a_file_for_each_query(over: Over, room: Path, options: list[str]) -> None:
    (room / "many.cql").write_bytes(MANY)
    answer = over(*options, "--many", "many.cql", "-o", "found-", "one.pgn", "two.pgn")
    texts = [piece.decode() for piece in program.pieces_of(MANY)]
    assert [(room / f"found-0{n}.pgn").read_bytes() for n in (1, 2, 3)] == [found(ONE, TWO, asking=text) for text in texts]
    assert (answer.status, answer.out) == (1, b"")
    assert answer.lines[:3] == ["one.pgn: query 1: " + COUNTS_ONE, "one.pgn: query 2: games 3 matched 3 refused 0"] + [
        "one.pgn: query 3: games 3 matched 0 refused 0"
    ]
    assert answer.lines[-3:] == [
        "all archives: query 1: games 6 matched 2 refused 1",
        "all archives: query 2: games 6 matched 5 refused 1",
        "all archives: query 3: games 6 matched 0 refused 1",
    ]
    assert over(*options, "-c", "--many", "many.cql", "one.pgn").status == 0
    plain = over(*options, "-p", "--many", "many.cql", "-o", "plain-", "one.pgn")
    assert (plain.status, (room / "plain-01.pgn").read_bytes()) == (0, found(ONE, asking='cql(matchstring "") check'))


def test_a_fault_in_a_file_of_queries(over: Over, room: Path) -> None:
    (room / "many.cql").write_bytes(b"cql() check\n%%\n// two\ncql() mate\n%%\ncql() echo\n")
    (room / "x01.pgn").write_bytes(b"old")
    answer = over("--many", "many.cql", "-o", "x", "one.pgn")
    shown = ["cql() echo", "      ^ outside profile echo (line 6, byte 42)", "        `echo` of CQL 6 has no counterpart here"]
    assert answer == Answer(2, b"", "\n".join([*shown, ""]))
    assert (room / "x01.pgn").read_bytes() == b"old"
