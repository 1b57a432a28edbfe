"""Rows and the index that says where games came from: what replaces it, which games it is of, and what other programs read in it."""

from __future__ import annotations

import csv
import hashlib
import io
import json
import os
from pathlib import Path

import pytest
from tests import answers
from tests.conftest import Asking

pytestmark = pytest.mark.usefixtures("cqlpgn", "pgnjson", "pgnpieces", "room")
QUERY = "cql() check"
NAMES = ["m.pgn.csv", "./m.pgn.csv", "link", "hard", "d/../m.pgn.csv"]


def table(data: bytes) -> list[list[str]]:
    return list(csv.reader(io.StringIO(data.decode(), newline="")))


def are_quoted(data: bytes) -> bool:
    """Whether each cell has quotes, so that no other sign begins one."""
    text = io.StringIO()
    csv.writer(text, quoting=csv.QUOTE_ALL).writerows(table(data))
    return text.getvalue().encode() == data


@pytest.fixture
def indexed(asked: Asking, archives: Path) -> Path:
    """The room with games that were found, and their index."""
    assert asked("cqlpgn-over", "--number", "-o", "m.pgn", QUERY, "one.pgn", "two.pgn").status in (0, 1)
    assert len(table((archives / "m.pgn.csv").read_bytes())) > 2
    return archives


@pytest.mark.parametrize("kind", ["--csv", "--json", "--epd"])
@pytest.mark.parametrize("name", NAMES)
def test_the_index_is_not_replaced(asked: Asking, indexed: Path, name: str, kind: str) -> None:
    (indexed / "d").mkdir()
    (indexed / "link").symlink_to("m.pgn.csv")
    os.link(indexed / "m.pgn.csv", indexed / "hard")
    before = (indexed / "m.pgn.csv").read_bytes()
    answer = asked("cqlpgn-rows", kind, "m.pgn", "-o", name)
    assert (answer.status, (indexed / "m.pgn.csv").read_bytes() == before) == (3, True)
    assert "which is to be read; nothing was written" in answer.err


@pytest.mark.parametrize("words", [["m.pgn"], ["--index", "m.pgn.csv", "m.pgn"], ["--index", "m.pgn.csv", "-"], ["--json", "m.pgn"]])
def test_an_index_of_other_games(asked: Asking, indexed: Path, words: list[str]) -> None:
    games = (indexed / "m.pgn").read_bytes()
    answer = asked("cqlpgn-rows", *words, data=games)
    assert (answer.status, answer.err, b"one.pgn" in answer.out) == (0, "", True)
    (indexed / "m.pgn").write_bytes(games + b"1. f3 e5 2. g4 Qh4# {CQL} 0-1\n\n")
    answer = asked("cqlpgn-rows", *words, data=(indexed / "m.pgn").read_bytes())
    assert (answer.status, answer.out, "is of other games" in answer.err) == (5, b"", True)


def test_the_digest(asked: Asking, indexed: Path) -> None:
    head, first, *others = table((indexed / "m.pgn.csv").read_bytes())
    assert head == ["found", "archive", "game", "of"]
    assert first[3] == "sha256:" + hashlib.sha256((indexed / "m.pgn").read_bytes()).hexdigest()
    assert {row[3] for row in others} == {""}


def test_an_index_without_a_digest(asked: Asking, indexed: Path) -> None:
    """It is read, and told."""
    rows = [row[:3] for row in table((indexed / "m.pgn.csv").read_bytes())]
    (indexed / "m.pgn.csv").write_text("".join(",".join(row) + "\r\n" for row in rows))
    answer = asked("cqlpgn-rows", "m.pgn")
    assert (answer.status, b"one.pgn" in answer.out) == (0, True)
    assert answer.lines == ["m.pgn.csv: does not say of which file it is; taken as that of m.pgn"]


def test_an_index_that_no_longer_belongs_is_removed(asked: Asking, indexed: Path) -> None:
    answer = asked("cqlpgn-over", "-o", "m.pgn", QUERY, "two.pgn")
    assert (answer.status in (0, 1), (indexed / "m.pgn.csv").exists()) == (True, False)
    assert "m.pgn.csv: was of other games, and is removed" in answer.lines
    (indexed / "m.pgn.csv").write_text("game,mine\n1,2\n")
    asked("cqlpgn-over", "-o", "m.pgn", QUERY, "two.pgn")
    assert (indexed / "m.pgn.csv").read_text() == "game,mine\n1,2\n"


CHANGING = """#!/bin/sh
"$REAL" "$@"
status=$?
case "$*" in *" - "*|*" -") [ -e changed ] || { touch changed; printf "1. f3 e5 2. g4 Qh4# 0-1\\n" >> a.pgn; } ;; esac
exit $status
"""


def test_an_archive_that_changes_while_it_is_read(asked: Asking, room: Path, cqlpgn: str) -> None:
    """It has one game more when it is read for the numbers, and that is told."""
    (room / "a.pgn").write_bytes(b"1. f3 e5 2. g4 Qh4# 0-1\n" * 3)
    (room / "changing").write_text(CHANGING)
    (room / "changing").chmod(0o755)
    answer = asked("cqlpgn-over", "--number", "-o", "m.pgn", QUERY, "a.pgn", CQLPGN=str(room / "changing"), REAL=cqlpgn)
    assert (room / "changed").exists()
    assert (answer.status, (room / "m.pgn").exists()) == (5, False)
    assert "a.pgn: was changed meanwhile" in answer.lines


@pytest.mark.parametrize("sign", [";", "\t", ","])
def test_cells(asked: Asking, room: Path, sign: str) -> None:
    text = f"x{sign}=1+1"
    game = f'[White "{text}"]\n\n{{CQL}} {{{text}}} 1. e4 *\n\n'.encode()
    answer = asked("cqlpgn-rows", "--columns", f"fen,White,comments,{text.replace(',', '')}", data=game)
    assert answer.status == 0 and are_quoted(answer.out)
    # white space within a comment is a blank
    assert table(answer.out)[1][1:3] == [text, text.replace("\t", " ")] or table(answer.out)[1][1:3] == [text, text]
    (room / f"{text}.pgn").write_bytes(answers.ONE)
    (room / "=1.pgn").write_bytes(answers.ONE)
    answer = asked("cqlpgn-over", "-c", "--number", QUERY, f"{text}.pgn", "=1.pgn")
    assert are_quoted(answer.out) and "'=1.pgn" in {row[1] for row in table(answer.out)}


def test_a_name_like_a_formula_is_read_as_it_was(asked: Asking, room: Path) -> None:
    names = ["=1.pgn", "'=1.pgn", "'x.pgn"]
    for name in names:
        (room / name).write_bytes(answers.ONE)
    assert asked("cqlpgn-over", "--number", "-o", "m.pgn", QUERY, *names).status in (0, 1)
    answer = asked("cqlpgn-rows", "--json", "--columns", "archive", "m.pgn")
    assert {json.loads(line)["archive"] for line in answer.out.splitlines()} == set(names)
    picked = asked("cqlpgn-pick", "--rows", "m.pgn.csv")
    assert picked.status == 0 and picked.out.count(b"[") >= 3 * answers.ONE.count(b"[") // len(answers.ONE.split(b"\n\n["))


@pytest.mark.parametrize("raw", [b"\xff", b"\xc3", b"\xed\xa0\x80", b"a\x80b"])
def test_rows_of_json_are_json(asked: Asking, room: Path, raw: bytes) -> None:
    (room / "c.pgn").write_bytes(b'[White "A"]\n\n{CQL} 1. e4 *\n\n')
    (room / "i.csv").write_bytes(b"found,archive,game\r\n1," + raw + b",1\r\n")
    for words in ([b"--columns", b"archive," + raw], [b"--index", b"i.csv"], [b"--index", b"i.csv", b"--columns", b"archive," + raw]):
        answer = asked("cqlpgn-rows", "--json", *words, "c.pgn")
        rows = [json.loads(line) for line in answer.out.decode("utf-8", "strict").splitlines()]
        assert (answer.status, len(rows)) == (0, 1)
