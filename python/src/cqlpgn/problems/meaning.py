"""Which legal moves a written one stands for."""

from __future__ import annotations

from collections.abc import Iterable

from .board import NAMES, SQUARES, Board, Move
from .faults import AmbiguousMove, IllegalMove, NoMate
from .tokens import Written
from .tree import Node, played


def fits(square: int, file: str, rank: str) -> bool:
    """Is a square on this file and rank, as far as they are said?"""
    return NAMES[square][0] == (file or NAMES[square][0]) and NAMES[square][1] == (rank or NAMES[square][1])


def last_rank(square: int) -> bool:
    """Is it a square where pawns promote?"""
    return square // 8 in (0, 7)


def _only(nodes: list[Node]) -> list[Node]:
    """The one node that there is."""
    if len(nodes) != 1:
        raise AmbiguousMove() if nodes else IllegalMove()
    return nodes


def _candidates(board: Board, written: Written) -> list[Move]:
    """The legal moves that may be meant; a pawn promotes to a queen where no man is said."""
    if written.castling:
        move = board.castling(written.castling.count("-") == 2)
        return [move] if move else []
    man, goal, promotion = written.man or "P", SQUARES[written.goal], written.promotion
    if man == "P" and last_rank(goal):
        promotion = promotion or "Q"
    elif promotion:
        return []
    return [Move(start, goal, promotion) for start in board.legal_origins(man, goal) if fits(start, written.file, written.rank)]


def meant(parent: Node, written: Written) -> list[Node]:
    """The one move that is meant. Where two men could go, the sign of check or mate may tell them apart."""
    nodes = [played(parent, move) for move in _candidates(parent.board, written)]
    if len(nodes) > 1 and written.sign.startswith(("+", "#")):
        signed = [node for node in nodes if node.mates or written.sign != "#" and node.san.endswith("+")]
        nodes = signed if len(signed) == 1 else nodes
    _only(nodes)
    if written.sign == "#" and not nodes[0].mates:
        raise NoMate()
    return nodes


def captures_by_files(board: Board, text: str) -> list[Move]:
    """The captures of pawns that a text like `ed` or `hxg` stands for."""
    start, goal = text[0], text[-1]
    if start == goal:
        return []
    goals = [square for square in range(64) if NAMES[square][0] == goal and not last_rank(square)]
    found = (Move(one, square) for square in goals for one in board.legal_origins("P", square))
    return [move for move in found if NAMES[move.start][0] == start]


def meant_by_files(parent: Node, text: str) -> list[Node]:
    """The one capture of a pawn that is meant."""
    return _only([played(parent, move) for move in captures_by_files(parent.board, text)])


def _promotions(board: Board, move: Move, every: bool) -> Iterable[Move]:
    """A move of `Board.moves`, with the men that it may promote to; with a queen alone, unless every man is said."""
    if board.men[move.start] in ("P", "p") and last_rank(move.goal):
        return [move._replace(promotion=man) for man in ("QRBN" if every else "Q")]
    return [move]


def any_meant(parent: Node, text: str, written: Written) -> list[Node]:
    """All legal moves of such men that the text has not given of their own, as for `S~`, and for `~` in check."""
    board, given = parent.board, {child.move for child in parent.children}
    nodes: list[Node] = []
    for move in board.moves():
        man = board.men[move.start].upper()
        if man != (written.man or man) or not fits(move.start, written.file, written.rank):
            continue
        if written.goal and NAMES[move.goal] != written.goal:
            continue
        nodes += [played(parent, one) for one in _promotions(board, move, bool(written.goal)) if one not in given]
    for node in nodes:
        node.loose = True
        node.comment(text)
    if not nodes:
        raise IllegalMove()
    return nodes
