"""cqlpgn-rows, and the positions that `search` gives, beside the model's."""

from __future__ import annotations

import csv
import gzip
import io
import json
import os
import subprocess
import zipfile
from pathlib import Path

import cqlpgn as package
import pytest
from cqlpgn import archives, games
from model.chess import fen_text
from model.pgn import Node
from tests.answers import nodes_found
from tests.conftest import TOP, Answer, Asking
from tests.processes import children, has_ended

pytestmark = pytest.mark.usefixtures("cqlpgn", "pgnjson", "room")
ARCHIVES = ["games.pgn", "famous.pgn", "themes.pgn", "positions.pgn"]
START = "rnbqkbnr/pppppppp/8/8/8/8/PPPPPPPP/RNBQKBNR w KQkq - 0 1"
NULL = b'[White "=1+1"]\n[Black "@x"]\n\n{CQL} 1. e4 {CQL} -- {CQL} (1... e5 {CQL} 2. d4 (2. Nf3 {CQL} {why, "so"}) ) 2. d4 *\n'
EMPTY = "-: no position has the comment {CQL}; --mark names another one"


def by_model(query: str, archive: bytes) -> list[tuple[int, int, str]]:
    """Game, ply and position (without its clocks) of each match, in the order of the tree."""

    def ply(node: Node) -> int:
        return 0 if node.parent is None else 1 + ply(node.parent)

    found = nodes_found(query, archive)
    return [(number, ply(node), " ".join(fen_text(node.pos).split()[:4])) for number, nodes in found for node in nodes]


@pytest.mark.parametrize("name", ARCHIVES)
@pytest.mark.parametrize(
    "query", ["cql() check", "cql(variations) wtm", "cql() initial", "cql(variations) mate", 'cql(matchstring "") check']
)
def test_search(name: str, query: str) -> None:
    archive = (TOP / "examples" / name).read_bytes()
    hits = list(package.search(query, TOP / "examples" / name))
    assert sorted((hit.game_number, hit.ply, " ".join(hit.fen.split()[:4])) for hit in hits) == sorted(by_model(query, archive))
    assert all(hit.archive == str(TOP / "examples" / name) and "White" in hit.tags for hit in hits)


def test_comments_of_an_archive_are_no_hits(room: Path) -> None:
    (room / "a.pgn").write_bytes(b"1. e4 {CQL} e5 {a note} 2. Ke2 *\n")
    hits = list(package.search("cql() Pe4 pe5 wtm", "a.pgn"))
    assert [(hit.ply, hit.san, hit.uci, hit.comments) for hit in hits] == [(2, "e5", "e7e5", "a note")]


def test_a_stream(room: Path) -> None:
    (room / "long.pgn").write_bytes(b"1. f3 e5 2. g4 Qh4# 0-1\n" * 50000)
    stream = package.search("cql() mate", "long.pgn")
    assert next(stream).game_number == 1
    # more is found than pipes hold, so the programs wait until it is taken
    assert not all(map(has_ended, children(os.getpid())))
    assert sum(1 for _ in stream) == 49999
    assert all(map(has_ended, children(os.getpid())))


def table(answer: Answer) -> list[list[str]]:
    return list(csv.reader(io.StringIO(answer.out.decode(), newline="")))


def test_csv(asked: Asking) -> None:
    answer = asked("cqlpgn-rows", data=NULL)
    assert (answer.status, answer.err) == (0, "")
    assert answer.out.count(b"\r\n") == 6
    fens = [row.pop(8) for row in table(answer)[1:]]
    assert fens[0] == START and fens[2].split()[:2] == ["rnbqkbnr/pppppppp/8/8/4P3/8/PPPP1PPP/RNBQKBNR", "w"]
    assert table(answer)[0] == ["archive", "game", "found", "ply", "move", "side", "san", "uci", "fen", "depth", "mainline"]
    assert [row[:8] + row[9:] for row in table(answer)[1:]] == [
        ["'-", "", "1", "0", "1", "w", "", "", "0", "1"],
        ["'-", "", "1", "1", "1", "b", "e4", "e2e4", "0", "1"],
        ["'-", "", "1", "2", "1", "w", "'--", "0000", "0", "1"],
        ["'-", "", "1", "2", "1", "w", "e5", "e7e5", "1", "0"],
        ["'-", "", "1", "3", "2", "b", "Nf3", "g1f3", "2", "0"],
    ]
    answer = asked("cqlpgn-rows", "--columns", "White,Black,comments,Annotator", data=NULL)
    assert table(answer)[5] == ["'=1+1", "'@x", 'why, "so"', ""]


def test_json(asked: Asking) -> None:
    answer = asked("cqlpgn-rows", "--json", "--columns", "ply,san,White,ECO,mainline", data=NULL)
    assert [json.loads(line) for line in answer.out.splitlines()][3:] == [
        {"ply": 2, "san": "e5", "White": "=1+1", "ECO": None, "mainline": 0},
        {"ply": 3, "san": "Nf3", "White": "=1+1", "ECO": None, "mainline": 0},
    ]
    assert answer.lines == ["-: no game has the tag ECO"]


def test_epd(asked: Asking) -> None:
    answer = asked("cqlpgn-rows", "--epd", "--columns", "san,comments", data=NULL)
    assert answer.out.decode().splitlines()[4] == (
        'rnbqkbnr/pppp1ppp/8/4p3/4P3/5N2/PPPP1PPP/RNBQKB1R b KQkq - id "- 1, ply 3"; c0 "Nf3"; c1 "why, \'so\'";'
    )


def test_an_epd_is_one_line(asked: Asking) -> None:
    archive = '[White "a\u2028b\x85c\x7f"]\n\n1. Nf3 {CQL} *\n'.encode()
    answer = asked("cqlpgn-rows", "--epd", "--columns", "White", data=archive)
    assert answer.out.decode().splitlines() == ['rnbqkbnr/pppppppp/8/8/8/5N2/PPPPPPPP/RNBQKB1R b KQkq - id "- 1, ply 1"; c0 "a b c ";']


@pytest.mark.parametrize("mark", ["", "CQL"])
def test_marked_positions_are_those_of_the_tree(room: Path, mark: str) -> None:
    """They are read one by one, without the others."""
    (room / "null.pgn").write_bytes(NULL)
    for path in [room / "null.pgn", *(TOP / "examples" / name for name in ARCHIVES)]:
        with games.read(archives.Archive(str(path), str(path)), mark, err=subprocess.DEVNULL) as reader:
            for game in reader:
                assert list(game.marked()) == [node for node in game.nodes() if node.fen is not None]


def test_no_row_is_lost(asked: Asking, room: Path) -> None:
    """Marks on a start position, and lines however long, in every row of the book's archives."""
    for name in ARCHIVES:
        archive = (TOP / "examples" / name).read_bytes()
        for query in ("cql(variations) check", "cql() initial"):
            wanted = by_model(query, archive)
            assert asked("cqlpgn-over", "--number", "-o", "found.pgn", query, str(TOP / "examples" / name)).status in (0, 1)
            rows = table(asked("cqlpgn-rows", "--columns", "archive,game,ply,fen", "found.pgn"))[1:]
            got = sorted((int(row[1]), int(row[2]), " ".join(row[3].split()[:4])) for row in rows)
            assert (got, {Path(row[0]).name for row in rows} <= {name}) == (sorted(wanted), True)


def test_a_cut_off_game_is_refused(asked: Asking) -> None:
    answer = asked("cqlpgn-rows", data=NULL + b"1. e4 {CQL} e5 (1... c5")
    assert (answer.status, len(table(answer)), len(answer.lines), answer.err.startswith("-: game 2 byte ")) == (1, 6, 1, True)


def test_packed_and_index(asked: Asking, room: Path) -> None:
    (room / "a.pgn.gz").write_bytes(gzip.compress(NULL))
    assert len(table(asked("cqlpgn-rows", "a.pgn.gz"))) == 6
    for members in (1, 2):
        with zipfile.ZipFile(room / "a.zip", "w") as packed:
            for number in range(members):
                packed.writestr(f"{number}.pgn", NULL)
        answer = asked("cqlpgn-rows", "a.zip")
        assert (answer.status, len(table(answer))) == ((0, 6) if members == 1 else (5, 0))
    assert answer.lines == ["a.zip: has 2 files *.pgn in it, and one is wanted"]
    (room / "index").write_text("found,archive,game\r\n1,old.pgn,77\r\n")
    assert table(asked("cqlpgn-rows", "--index", "index", "a.pgn.gz"))[1][:3] == ["old.pgn", "77", "1"]
    (room / "index").write_text("found,archive,game\r\n1,old.pgn,\r\n")
    assert table(asked("cqlpgn-rows", "--index", "index", "a.pgn.gz"))[1][:3] == ["old.pgn", "", "1"]
    (room / "index").write_text("found,archive,game\r\n0,old.pgn,1\r\n")
    assert asked("cqlpgn-rows", "--index", "index", "a.pgn.gz").status == 5
    (room / "index").write_text("no index\n")
    assert asked("cqlpgn-rows", "--index", "index", "a.pgn.gz").status == 5
    (room / "index").write_text("found,archive,game\r\n1,old.pgn," + "9" * 5000 + "\r\n")
    assert asked("cqlpgn-rows", "--index", "index", "a.pgn.gz").status == 5


def test_a_file_at_the_end(asked: Asking, room: Path) -> None:
    (room / "rows.csv").write_bytes(b"old")
    (room / "a.pgn").write_bytes(NULL)
    assert asked("cqlpgn-rows", "-o", "rows.csv", "none.pgn").status == 4
    assert (room / "rows.csv").read_bytes() == b"old"
    assert asked("cqlpgn-rows", "-o", "a.pgn", "a.pgn").status == 3
    assert asked("cqlpgn-rows", "-o", "rows.csv", "a.pgn") == Answer(0, b"", "")
    assert (room / "rows.csv").read_bytes().count(b"\r\n") == 6


def test_what_has_no_rows(asked: Asking, room: Path) -> None:
    answer = asked("cqlpgn-rows")
    assert (answer.status, answer.lines, len(table(answer))) == (0, [EMPTY], 1)
    answer = asked("cqlpgn-rows", "--mark", "fork", data=NULL)
    assert (answer.status, answer.lines, len(table(answer))) == (0, [EMPTY.replace("CQL", "fork")], 1)
    many = b"query 1 bytes 10\n1. e4 *\n\n\n"
    (room / "many").write_bytes(many)
    for answer in (asked("cqlpgn-rows", data=many), asked("cqlpgn-rows", "many")):
        assert (answer.status, answer.out, "`cqlpgn many` writes" in answer.err) == (5, b"", True)
    assert asked("cqlpgn-rows", "--csv", "--json").status == 3
    for columns in ("", "fen,", ",fen"):
        assert asked("cqlpgn-rows", "--columns", columns, data=NULL).status == 3
    assert asked("cqlpgn-rows", PGNJSON="none").status == 4
