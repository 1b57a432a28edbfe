"""model/cqlpgn, model/pgnjson and model/pgnpieces, the model as commands, beside the programs: what is written, what is said, and the
status; and what the package does with them in place of the programs."""

from __future__ import annotations

import os
import subprocess
import sys
from pathlib import Path

import cqlpgn as package
import pytest
from tests.conftest import TOP, Asking

QUERY = "cql() mate"
GAMES = str(TOP / "examples" / "games.pgn")
WORDS: list[list[str | bytes]] = [
    ["eval", QUERY, GAMES],
    ["eval", QUERY, GAMES, "--first"],
    ["eval", "--first", QUERY, "--workers", "2", GAMES],
    ["eval", QUERY],
    ["eval", QUERY, "-"],
    ["eval", 'cql() mate sort min "moves" movenumber', GAMES],
    ["eval", "cql() echo", "none.pgn"],
    ["eval", QUERY, "none.pgn"],
    ["eval", QUERY, "."],
    ["eval", QUERY, GAMES, "--limit", "100"],
    ["eval", b"cql() \xff"],
    ["run", "q.cql", GAMES],
    ["run", "none.cql", GAMES],
    ["run", ".", GAMES],
    ["many", "many.cql", GAMES],
    ["many", "many.cql", GAMES, "--first"],
    ["many", "bad.cql", "none.pgn"],
    ["check", "q.cql"],
    ["check", "bad.cql"],
    ["check", "-"],
    ["check", "q.cql", GAMES],
    ["check", "q.cql", "--first"],
    ["explain", "q.cql"],
    ["explain", "none.cql"],
    ["selfrun", QUERY, "--seed", "3", "--games", "10"],
    ["selfrun", QUERY, "a.pgn"],
    ["eval", QUERY, GAMES, "--workers", "0"],
    ["eval", QUERY, GAMES, "--workers", "65"],
    ["eval", QUERY, GAMES, "--workers", "9" * 5000],
    ["eval", QUERY, GAMES, "--workers"],
    ["eval", QUERY, GAMES, "--first", "--first"],
    ["eval", QUERY, GAMES, GAMES],
    ["eval", "--", QUERY],
    ["eval", "--first", "--", QUERY, "--first"],
    ["eval", "--workers=2", QUERY, GAMES],
    ["eval", "--first=x", QUERY, GAMES],
    ["eval", "-x", QUERY],
    ["eval", "cql() #P == 8 check", GAMES],
    ["eval"],
    ["other", QUERY],
    [],
]


OTHERS: list[tuple[str, list[str | bytes]]] = [
    ("pgnjson", []),
    ("pgnjson", ["-"]),
    ("pgnjson", [GAMES]),
    ("pgnjson", ["--mark", "", GAMES]),
    ("pgnjson", ["--mark= A  note ", "--workers=2", GAMES]),
    ("pgnjson", ["--limit", "100", GAMES]),
    ("pgnjson", ["--", GAMES]),
    ("pgnjson", ["none.pgn"]),
    ("pgnjson", ["."]),
    ("pgnjson", [GAMES, GAMES]),
    ("pgnjson", ["--workers", "65", GAMES]),
    ("pgnjson", ["--workers", "1", "--workers", "1", GAMES]),
    ("pgnjson", ["--mark"]),
    ("pgnjson", ["--help"]),
    ("pgnjson", [b"--mark=\xff"]),
    ("pgnpieces", [GAMES, "1"]),
    ("pgnpieces", [GAMES, "2000"]),
    ("pgnpieces", ["-", "1"]),
    ("pgnpieces", ["none.pgn", "1"]),
    ("pgnpieces", [".", "1"]),
    ("pgnpieces", [GAMES]),
    ("pgnpieces", [GAMES, "0"]),
    ("pgnpieces", ["--help"]),
]


@pytest.mark.parametrize(("name", "words"), OTHERS, ids=str)
def test_beside_the_other_programs(pgnjson: str, pgnpieces: str, room: Path, name: str, words: list[str | bytes]) -> None:
    data = b"1. f3 e5 2. g4 Qh4# {CQL} 0-1\n1. e4 e5 2. Ke3 *\n{the end}"
    calls: list[list[str | bytes]] = [[{"pgnjson": pgnjson, "pgnpieces": pgnpieces}[name]], [sys.executable, str(TOP / "model" / name)]]
    wanted, answer = (subprocess.run([*call, *words], input=data, capture_output=True, check=False) for call in calls)
    assert (answer.returncode, answer.stdout, answer.stderr) == (wanted.returncode, wanted.stdout, wanted.stderr)


PYTHON_ALONE = {name.upper(): name for name in ("cqlpgn", "pgnjson", "pgnpieces")} | {"PATH": f"{TOP / 'model'}:{os.environ['PATH']}"}
CALLS: list[list[str]] = [
    ["cqlpgn-over", "-c", QUERY, GAMES],
    ["cqlpgn-over", "--doubtful", GAMES],
    ["cqlpgn-rows", "found.pgn"],
    ["cqlpgn-diagrams", "found.pgn"],
    ["cqlpgn-mend", "half.pgn"],
    ["cqlpgn-pick", GAMES, "1,2"],
    ["cqlpgn-pick", GAMES, "--where", 'Result = "0-1" and not comment ~ "x"'],
    ["cqlpgn-pick", "half.pgn", "--faulty"],
]


@pytest.mark.parametrize("words", CALLS, ids=str)
def test_commands_with_python_alone(cqlpgn: str, pgnjson: str, pgnpieces: str, room: Path, asked: Asking, words: list[str]) -> None:
    """The commands write the same with the model's programs on the path as with those that were built."""
    found = subprocess.run([cqlpgn, "eval", QUERY, GAMES], capture_output=True, check=False).stdout
    (room / "found.pgn").write_bytes(found)
    (room / "half.pgn").write_bytes(b"1. e4 e5 2. nf3 1/2\n")
    assert asked(*words, **PYTHON_ALONE) == asked(*words)


def test_search_with_python_alone(monkeypatch: pytest.MonkeyPatch, pgnjson: str, cqlpgn: str) -> None:
    wanted = list(package.search(QUERY, GAMES))
    for name, value in PYTHON_ALONE.items():
        monkeypatch.setenv(name, value)
    assert list(package.search(QUERY, GAMES)) == wanted and wanted


@pytest.mark.parametrize("words", WORDS, ids=str)
def test_beside_the_program(cqlpgn: str, room: Path, words: list[str | bytes]) -> None:
    for name, text in {"q.cql": QUERY, "many.cql": "cql() mate\n%%\ncql() stalemate\n", "bad.cql": "cql() mate\n%%\ncql() echo\n"}.items():
        (room / name).write_text(text)
    data = b"1. f3 e5 2. g4 Qh4# 0-1\n1. e4 e5 2. Ke3 *\n"
    calls: list[list[str | bytes]] = [[cqlpgn], [sys.executable, str(TOP / "model" / "cqlpgn")]]
    wanted, answer = (subprocess.run([*call, *words], input=data, capture_output=True, check=False) for call in calls)
    assert (answer.returncode, answer.stdout, answer.stderr) == (wanted.returncode, wanted.stdout, wanted.stderr)


@pytest.mark.parametrize(("query", "wanted"), [(QUERY, [1, 3, 5]), ('cql() mate sort "ply" ply', [5, 1, 3])])
def test_where_games_came_from(monkeypatch: pytest.MonkeyPatch, room: Path, query: str, wanted: list[int]) -> None:
    """The games and the report of the model come in the order in which the program writes them."""
    monkeypatch.setenv("CQLPGN", str(TOP / "model" / "cqlpgn"))
    mate, bad = "1. f3 e5 2. g4 Qh4# 0-1\n", "1. e4 e5 2. Ke3 *\n"
    (room / "a.pgn").write_text(mate + bad + mate + bad + "1. f3 e5 2. g4 d6 3. h3 Qh4# 0-1\n")
    assert [game.game_number for game in package.found(query, "a.pgn")] == wanted
