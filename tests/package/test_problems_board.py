"""The board of the converter: counts of move sequences that are known, mates, and moves as PGN writes them."""

from __future__ import annotations

import random
from collections.abc import Iterator

import pytest

from cqlpgn.problems.board import CASTLINGS, NAMES, SQUARES, Board, Move

START = "rnbqkbnr/pppppppp/8/8/8/8/PPPPPPPP/RNBQKBNR w KQkq - 0 1"
# Positions with the number of sequences of one move, of two, .. as all generators of moves are tried with them.
COUNTED = [
    (START, [20, 400, 8902]),
    ("r3k2r/p1ppqpb1/bn2pnp1/3PN3/1p2P3/2N2Q1p/PPPBBPPP/R3K2R w KQkq - 0 1", [48, 2039]),
    ("8/2p5/3p4/KP5r/1R3p1k/8/4P1P1/8 w - - 0 1", [14, 191, 2812]),
    ("r3k2r/Pppp1ppp/1b3nbN/nP6/BBP1P3/q4N2/Pp1P2PP/R2Q1RK1 w kq - 0 1", [6, 264, 9467]),
    ("rnbq1k1r/pp1Pbppp/2p5/8/2B5/8/PPP1NnPP/RNBQK2R w KQ - 1 8", [44, 1486]),
    ("r4rk1/1pp1qppp/p1np1n2/2b1p1B1/2B1P1b1/P1NP1N2/1PP1QPPP/R4RK1 w - - 0 10", [46, 2079]),
    ("8/8/8/2k5/3Pp3/8/8/4KQ2 b - d3 0 1", [7]),
    ("8/8/8/K2pP2r/8/8/8/4k3 w - d6 0 1", [6]),
]


def board(fen: str) -> Board:
    """The position of a FEN."""
    rows, side, castle, passed, _, number = fen.split()
    men: list[str] = []
    for row in reversed(rows.split("/")):
        for letter in row:
            men += [""] * int(letter) if letter.isdigit() else [letter]
    return Board(men, side == "w", castle.replace("-", ""), SQUARES.get(passed, -1), int(number))


def all_moves(position: Board) -> Iterator[Move]:
    """The legal moves, with castling and with each man of a promotion."""
    for move in position.moves():
        promotes = position.men[move.start] in ("P", "p") and move.goal // 8 in (0, 7)
        yield from (move._replace(promotion=man) for man in (("Q", "R", "B", "N") if promotes else ("",)))
    yield from (castling for long in (False, True) if (castling := position.castling(long)))


def count(position: Board, depth: int) -> int:
    """How many sequences of so many moves there are."""
    moves = list(all_moves(position))
    return len(moves) if depth == 1 else sum(count(position.played(move), depth - 1) for move in moves)


@pytest.mark.parametrize("fen, counts", COUNTED)
def test_sequences_are_as_many_as_is_known(fen: str, counts: list[int]) -> None:
    assert [count(board(fen), depth) for depth in range(1, len(counts) + 1)] == counts


def test_a_fen_is_written_as_it_was_read() -> None:
    for fen, _ in COUNTED:
        fields = fen.split()
        assert board(fen).fen().split()[:4] == fields[:4]


def test_mates_are_checks_without_a_legal_move() -> None:
    draw = random.Random(5)
    seen = 0
    for _ in range(30):
        position = board("4k3/1q3r2/8/4b3/4B3/8/1Q3R2/4K3 w - - 0 1")
        for _ in range(40):
            moves = list(all_moves(position))
            assert position.mated() == (position.in_check and not moves)
            seen += position.in_check
            if not moves:
                break
            position = position.played(draw.choice(moves))
    assert seen > 50


@pytest.mark.parametrize(
    "fen, move, san",
    [
        ("4k3/8/8/8/8/8/8/R3K2R w KQ - 0 1", "e1g1", "O-O"),
        ("4k3/8/8/8/8/8/8/R3K2R w KQ - 0 1", "e1c1", "O-O-O"),
        ("4k3/8/8/8/8/8/8/R3K2R w KQ - 0 1", "a1d1", "Rd1"),
        ("4k3/8/8/R7/8/8/8/R3K3 w - - 0 1", "a1a3", "R1a3"),
        ("4k3/8/8/8/8/1N3N2/8/4K3 w - - 0 1", "b3d4", "Nbd4"),
        ("4k3/8/8/8/8/1N3N2/8/1N2K3 w - - 0 1", "b3d2", "Nb3d2"),
        ("4k3/4r3/8/8/8/1N2N3/8/4K3 w - - 0 1", "b3c4", "Nc4"),
        ("8/P3k3/8/8/8/8/8/4K3 w - - 0 1", "a7a8", "a8=N"),
        ("1r6/P3k3/8/8/8/8/8/4K3 w - - 0 1", "a7b8", "axb8=N"),
        ("8/8/8/K2pP3/8/8/8/4k3 w - d6 0 1", "e5d6", "exd6"),
    ],
)
def test_moves_are_written_as_pgn_wants(fen: str, move: str, san: str) -> None:
    start, goal = SQUARES[move[:2]], SQUARES[move[2:]]
    assert board(fen).san(Move(start, goal, "N" if "=" in san else "")) == san


def test_castling_needs_free_safe_squares_and_the_right() -> None:
    assert board("4k3/8/8/8/8/8/8/R3K2R w - - 0 1").castling(False) is None
    assert board("4k3/8/8/8/8/8/8/R3KB1R w KQ - 0 1").castling(False) is None
    assert board("4kr2/8/8/8/8/8/8/R3K2R w KQ - 0 1").castling(False) is None
    assert board("1r2k3/8/8/8/8/8/8/R3K2R w KQ - 0 1").castling(True) == Move(4, 2)
    gone = board("4k3/8/8/8/8/8/8/R3K2R w KQ - 0 1").played(Move(7, 6))
    assert gone.castle == "Q" and all(one.rook in (0, 7, 56, 63) for one in CASTLINGS.values())


def test_a_null_move_ends_the_right_to_take_en_passant() -> None:
    passed = board("8/8/8/K2pP3/8/8/8/4k3 w - d6 0 1").passed()
    assert (passed.white, passed.passed_square, passed.number) == (False, -1, 1)
    assert NAMES[0] == "a1" and passed.passed().number == 2
