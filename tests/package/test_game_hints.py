"""Hints for faults of games: that each row of the table is of a fault that the program tells so, and where hints are shown."""

from __future__ import annotations

import gzip
from pathlib import Path

import pytest
from cqlpgn import game_hints
from model import pgn
from model.chess import read_fen
from tests.conftest import Answer, Asking

# Rows that name a spelling in words, and the games that have it.
SPELLED = {
    "Ctrl-Z": "1. e4 \x1a",
    "a mark of order": "1. e4 \ufeff e5 *",
    "a no-break space": "1. e4\u00a0e5 *",
    "<html>": "<html>\n",
    "$256": "1. e4 $256 *",
    "(forfeit)": "(forfeit)",
    "()": "1. e4 () *",
    "1)": "1) e4 *",
    "(1. d4": "1. e4 (1. d4 *",
    "{a": "1. e4 {a e5 *",
    '[Event "x]': '[Event "x]\n\n*',
    "[%clk ..]": "1. e4 [%clk 0:01:02] *",
    "1. e4 [Event": '1. e4 [Event "x"]\n*',
    '[Event "Open "B""]': '[Event "Open "B""]\n\n*',
    "1/2": "1. e4 1/2",
    "}": "1. e4 } *",
    "%": "1. e4 %x\n*",
    "e4, e5": "1. e4, e5 *",
    "0-0": "1. e4 0-0",
    "Kg1": "1. e4 e5 2. Nf3 Nf6 3. Be2 Be7 4. Kg1 *",
    "e1g1": "1. e4 e5 2. Nf3 Nf6 3. Be2 Be7 4. e1g1 *",
    "a8": '[FEN "7k/P7/8/8/8/8/8/K7 w - -"]\n1. a8 *',
    "e8=q": '[FEN "7k/4P3/8/8/8/8/8/K7 w - -"]\n1. e8=q *',
    "exd": "1. e4 d5 2. exd *",
    "exd6ep": "1. e4 a6 2. e5 d5 3. exd6ep *",
    "N": "1. e4 N *",
    "ch": "1. e4 d5 2. Bb5 ch *",
    "Bb5+-": "1. e4 d5 2. Bb5+- *",
    "+-": "1. e4 +- *",
    "Bb5 +": "1. e4 d5 2. Bb5 + *",
    "null": "1. e4 null *",
    "N:f6": "1. e4 Nf6 2. e5 g6 3. e:f6 *",
    "♘f3": "♘f3 *",
    "g1f3": "g1f3 *",
}
FENS = {
    "4k3/8/8/8/8/8/8/4K3 w": "a FEN has six fields, or four: the men, the side, castling, en passant, two numbers; here are 2",
    "4k3/8/8/8/8/8/4K3 w - - 0 1": "of a FEN the men are eight ranks with slashes between, each of eight squares",
    "4k3/9/8/8/8/8/8/4K3 w - - 0 1": "of a FEN the men are eight ranks with slashes between, each of eight squares",
    "4k3/8/8/8/8/8/8/4K3 W - - 0 1": "of a FEN the side is `w` or `b`",
    "4k3/8/8/8/8/8/8/4K3 w HA - 0 1": "of a FEN castling has letters of `KQkq`, or `-`",
    "4k3/8/8/8/8/8/8/4K3 w - e5 0 1": "of a FEN en passant is a square of the third or sixth rank, or `-`",
    "4k3/8/8/8/8/8/8/4K3 w - - -1 -1": "the last two fields of a FEN are numbers, from 0",
    "4k3/8/8/8/8/8/8/R7 w - - 0 1": "White has no king",
    "kk6/8/8/8/8/8/8/K7 w - - 0 1": "Black has 2 kings",
    "4k3/8/8/8/8/8/8/P3K3 w - - 0 1": "a pawn stands on the first or the last rank",
    "rnbqkbnr/pppppppp/n7/8/8/8/PPPPPPPP/RNBQKBNR w KQkq - 0 1": "Black has 17 men, and at most 16 are read",
    "4k3/8/8/8/8/8/8/4KR2 w - - 0 1": None,
    "4k3/8/8/8/8/8/4R3/4K3 w - - 0 1": "the side that is not to move is in check",
}


def fault_of(text: str) -> tuple[str, bytes]:
    """The reason of the fault of a text's one game, by the model, and the bytes from the fault's on."""
    data = text.encode()
    (span,) = pgn.cut(data)
    game = pgn.read_game(data, span)
    assert isinstance(game, tuple), text
    return game[2], data[game[1] :]


@pytest.mark.parametrize("row", game_hints.SLIPS, ids=[row.written for row in game_hints.SLIPS])
def test_a_row(row: game_hints.GameSlip) -> None:
    """The game is faulty, and is told what the row says."""
    text = SPELLED.get(row.written, f"1. e4 e5 2. {row.written} *")
    assert game_hints.hint(*fault_of(text)) == row.said


@pytest.mark.parametrize(("fen", "wanted"), FENS.items())
def test_a_position(fen: str, wanted: str | None) -> None:
    assert isinstance(read_fen(fen.encode()), str) == (wanted is not None)
    assert game_hints.position(fen) == wanted
    assert game_hints.hint("bad FEN", f'"{fen}"]'.encode()) == wanted


def test_no_hint() -> None:
    assert game_hints.hint("illegal move", b"Ke3 *") is None
    assert game_hints.hint("too deep", b"(") is None
    assert game_hints.hint("not a move", b"") is None


HINT = "    the result of a draw is written `1/2-1/2`"


@pytest.mark.usefixtures("cqlpgn")
def test_in_the_report(asked: Asking, room: Path) -> None:
    """Of a file, and of a packed one; of standard input, which can be read once, none."""
    data = b"1. d4 *\n" * 40_000 + b"1. e4 1/2\n"
    (room / "a.pgn").write_bytes(data)
    with gzip.open(room / "a.pgn.gz", "wb") as file:
        file.write(data)
    line, counts = "game 40001 byte 320006: not a move", "games 40001 matched 0 refused 1"
    for name in ("a.pgn", "a.pgn.gz"):
        assert asked("cqlpgn-over", "cql() mate", name) == Answer(1, b"", f"{name}: {line}\n{name}: {HINT}\n{name}: {counts}\n")
    assert asked("cqlpgn-over", "cql() mate", data=data) == Answer(1, b"", f"-: {line}\n-: {counts}\n")
