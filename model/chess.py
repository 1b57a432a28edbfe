"""Positions, legal moves, FEN and SAN, written plainly and without care for speed.

Squares are numbered from a1 = 0 to h8 = 63, men by their index in MEN, an empty square is EMPTY. A side is 0 for
White and 1 for Black. A move is (from, to, piece of the promotion or None); the null move is None."""

from __future__ import annotations

import functools
import re
from typing import List, Optional, Tuple

Move = Tuple[int, int, Optional[int]]
Board = List[int]
Step = Tuple[int, int]

KING, QUEEN, ROOK, BISHOP, KNIGHT, PAWN = range(6)
EMPTY = 12
MEN = "KQRBNPkqrbnp"
KING_STEPS = [(a, b) for a in (-1, 0, 1) for b in (-1, 0, 1) if a or b]
KNIGHT_STEPS = [(1, 2), (2, 1), (-1, 2), (-2, 1), (1, -2), (2, -1), (-1, -2), (-2, -1)]
DIAGONALS = [(1, 1), (1, -1), (-1, 1), (-1, -1)]
ORTHOGONALS = [(1, 0), (-1, 0), (0, 1), (0, -1)]


def on_board(f: int, r: int) -> bool:
    return 0 <= f < 8 and 0 <= r < 8


def steps_of(s: int, ds: list[Step]) -> list[int]:
    f, r = s & 7, s >> 3
    return [(r + b) * 8 + f + a for a, b in ds if on_board(f + a, r + b)]


def ray_of(s: int, d: Step) -> list[int]:
    f, r = s & 7, s >> 3
    out: list[int] = []
    while True:
        f += d[0]
        r += d[1]
        if not on_board(f, r):
            return out
        out.append(r * 8 + f)


KING_GOALS = [steps_of(s, KING_STEPS) for s in range(64)]
KNIGHT_GOALS = [steps_of(s, KNIGHT_STEPS) for s in range(64)]
PAWN_ATTACKS = [
    [steps_of(s, [(-1, 1), (1, 1)]) for s in range(64)],
    [steps_of(s, [(-1, -1), (1, -1)]) for s in range(64)],
]
RAYS = {
    "d": [[x for x in (ray_of(s, d) for d in DIAGONALS) if x] for s in range(64)],
    "o": [[x for x in (ray_of(s, d) for d in ORTHOGONALS) if x] for s in range(64)],
}


@functools.lru_cache(None)
def between(a: int, b: int) -> list[int]:
    """the squares strictly between two squares of a line"""
    for d in DIAGONALS + ORTHOGONALS:
        ry = ray_of(a, d)
        if b in ry:
            return ry[: ry.index(b)]
    return []


class Position:
    __slots__ = ("board", "side", "castling", "en_passant", "number", "legal")

    def __init__(self, board: Board, side: int, castling: str, en_passant: int | None, number: int) -> None:
        self.board, self.side, self.castling = board, side, castling
        self.en_passant, self.number = en_passant, number
        self.legal: list[Move] | None = None


def side_of(m: int) -> int | None:
    return None if m == EMPTY else (0 if m < 6 else 1)


def slides(board: Board, rays: list[list[int]]) -> list[int]:
    out = []
    for ry in rays:
        for t in ry:
            out.append(t)
            if board[t] != EMPTY:
                break
    return out


def attacks_list(board: Board, s: int) -> list[int]:
    """the squares that the man on s attacks"""
    m = board[s]
    if m == EMPTY:
        return []
    k = m % 6
    if k == KING:
        return KING_GOALS[s]
    if k == KNIGHT:
        return KNIGHT_GOALS[s]
    if k == PAWN:
        return PAWN_ATTACKS[m // 6][s]
    out: list[int] = []
    if k in (QUEEN, BISHOP):
        out += slides(board, RAYS["d"][s])
    if k in (QUEEN, ROOK):
        out += slides(board, RAYS["o"][s])
    return out


def attacked(board: Board, s: int, by: int) -> bool:
    """is s attacked by a man of the side"""
    o = 6 * by
    for t in KNIGHT_GOALS[s]:
        if board[t] == KNIGHT + o:
            return True
    for t in KING_GOALS[s]:
        if board[t] == KING + o:
            return True
    for t in PAWN_ATTACKS[1 - by][s]:
        if board[t] == PAWN + o:
            return True
    for kind, a in (("d", BISHOP + o), ("o", ROOK + o)):
        for ry in RAYS[kind][s]:
            for t in ry:
                if board[t] != EMPTY:
                    if board[t] == a or board[t] == QUEEN + o:
                        return True
                    break
    return False


def is_attacked_king(board: Board, side: int) -> bool:
    return attacked(board, board.index(KING + 6 * side), 1 - side)


def in_check(p: Position, side: int) -> bool:
    return is_attacked_king(p.board, side)


CORNER = {7: "K", 0: "Q", 63: "k", 56: "q"}


def read_placement(text: bytes) -> Board | None:
    """the board, or None"""
    rows = text.split(b"/")
    if len(rows) != 8:
        return None
    board = [EMPTY] * 64
    for i, row in enumerate(rows):
        f = 0
        for letter in map(chr, row):
            if letter in "12345678":
                f += int(letter)
            elif letter in MEN and f < 8:
                board[(7 - i) * 8 + f] = MEN.index(letter)
                f += 1
            else:
                return None
        if f != 8:
            return None
    return board


def rights_that_count(board: Board, text: bytes) -> str:
    """the castling rights of the text with king and rook at home"""
    homes = (("K", 4, 7, 0), ("Q", 4, 0, 0), ("k", 60, 63, 6), ("q", 60, 56, 6))
    return "".join(right for right, king, rook, o in homes if ord(right) in text and board[king] == KING + o and board[rook] == ROOK + o)


def square_that_counts(board: Board, side: int, s: int) -> int | None:
    """the en passant square where a pawn can just have passed it, or None"""
    row, up, pawn = (5, 8, PAWN + 6) if side == 0 else (2, -8, PAWN)
    passed = s >> 3 == row and board[s] == EMPTY and board[s - up] == pawn and board[s + up] == EMPTY
    return s if passed else None


def read_fen(text: bytes) -> Position | str:
    """A position, or the name of the first fault."""
    fs = [x for x in text.split(b" ") if x]
    if len(fs) == 4:
        fs += [b"0", b"1"]
    if len(fs) != 6:
        return "Fields"
    board = read_placement(fs[0])
    if board is None:
        return "Placement"
    if fs[1] not in (b"w", b"b"):
        return "Side"
    side = 0 if fs[1] == b"w" else 1
    if fs[2] != b"-" and not re.fullmatch(b"[KQkq]+", fs[2]):
        return "Castling"
    if fs[3] != b"-" and not re.fullmatch(b"[a-h][36]", fs[3]):
        return "EnPassant"
    for x in fs[4:]:
        if not re.fullmatch(b"[0-9]{1,9}", x):
            return "Number"
    if board.count(KING) != 1 or board.count(KING + 6) != 1:
        return "Kings"
    if any(board[s] % 6 == PAWN and board[s] != EMPTY for s in list(range(8)) + list(range(56, 64))):
        return "PawnOnEdge"
    for c in (0, 1):
        if sum(1 for m in board if side_of(m) == c) > 16:
            return "TooManyMen"
    if is_attacked_king(board, 1 - side):
        return "OpponentInCheck"
    castling = rights_that_count(board, fs[2])
    en_passant = None if fs[3] == b"-" else square_that_counts(board, side, (fs[3][1] - 49) * 8 + fs[3][0] - 97)
    return Position(board, side, castling, en_passant, max(1, int(fs[5])))


def position_of(text: bytes) -> Position:
    """the position of a FEN without a fault"""
    p = read_fen(text)
    assert isinstance(p, Position), p
    return p


START = position_of(b"rnbqkbnr/pppppppp/8/8/8/8/PPPPPPPP/RNBQKBNR w KQkq - 0 1")


def fen_text(p: Position) -> str:
    rows = []
    for r in range(7, -1, -1):
        t = ""
        e = 0
        for f in range(8):
            m = p.board[r * 8 + f]
            if m == EMPTY:
                e += 1
            else:
                if e:
                    t += str(e)
                    e = 0
                t += MEN[m]
        if e:
            t += str(e)
        rows.append(t)
    sq = "-" if p.en_passant is None else "abcdefgh"[p.en_passant & 7] + str((p.en_passant >> 3) + 1)
    return "%s %s %s %s 0 %d" % ("/".join(rows), "wb"[p.side], p.castling or "-", sq, p.number)


def play(p: Position, m: Move) -> Position:
    """the position after a move other than the null move"""
    fr, to, pr = m
    board = list(p.board)
    man = board[fr]
    k = man % 6
    o = 6 * p.side
    board[fr] = EMPTY
    if k == PAWN and to == p.en_passant and (fr & 7) != (to & 7):
        board[to + (-8 if p.side == 0 else 8)] = EMPTY
    board[to] = man if pr is None else pr + o
    if k == KING and abs(fr - to) == 2 and (fr >> 3) == (to >> 3):
        if to > fr:
            board[to + 1] = EMPTY
            board[to - 1] = ROOK + o
        else:
            board[to - 2] = EMPTY
            board[to + 1] = ROOK + o
    castling = p.castling
    if k == KING:
        castling = castling.replace("Kk"[p.side], "").replace("Qq"[p.side], "")
    for s in (fr, to):
        if s in CORNER:
            castling = castling.replace(CORNER[s], "")
    en_passant = (fr + to) // 2 if k == PAWN and abs(fr - to) == 16 else None
    return Position(board, 1 - p.side, castling, en_passant, min(p.number + p.side, 4294967295))


def pawn_goals(p: Position, fr: int) -> list[int]:
    up, first = (8, 1) if p.side == 0 else (-8, 6)
    goals = [t for t in PAWN_ATTACKS[p.side][fr] if side_of(p.board[t]) == 1 - p.side or t == p.en_passant]
    if p.board[fr + up] == EMPTY:
        goals.append(fr + up)
        if fr >> 3 == first and p.board[fr + 2 * up] == EMPTY:
            goals.append(fr + 2 * up)
    return goals


def castling_goals(p: Position, fr: int) -> list[int]:
    home = 4 if p.side == 0 else 60
    if fr != home:
        return []
    goals = []
    for right, step, free in (("Kk"[p.side], 1, 2), ("Qq"[p.side], -1, 3)):
        is_free = all(p.board[home + i * step] == EMPTY for i in range(1, free + 1))
        if right in p.castling and is_free and not any(attacked(p.board, home + i * step, 1 - p.side) for i in range(3)):
            goals.append(home + 2 * step)
    return goals


def goals_of(p: Position, fr: int) -> list[int]:
    man = p.board[fr] % 6
    if man == PAWN:
        return pawn_goals(p, fr)
    goals = [t for t in attacks_list(p.board, fr) if side_of(p.board[t]) != p.side]
    return goals + castling_goals(p, fr) if man == KING else goals


def legal_moves(p: Position) -> list[Move]:
    """the legal moves but the null move, by square of origin and then by goal"""
    if p.legal is not None:
        return p.legal
    p.legal = []
    for fr in range(64):
        if side_of(p.board[fr]) != p.side:
            continue
        for to in sorted(goals_of(p, fr)):
            if p.board[to] in (KING, KING + 6) or is_attacked_king(play(p, (fr, to, None)).board, p.side):
                continue
            is_promotion = p.board[fr] % 6 == PAWN and to >> 3 in (0, 7)
            p.legal += [(fr, to, pr) for pr in ((QUEEN, ROOK, BISHOP, KNIGHT) if is_promotion else (None,))]
    return p.legal


def play_null(p: Position) -> Position | None:
    """the position after a null move, None in check"""
    if in_check(p, p.side):
        return None
    return Position(p.board, 1 - p.side, p.castling, None, min(p.number + p.side, 4294967295))


def is_mate(p: Position) -> bool:
    return in_check(p, p.side) and not legal_moves(p)


def is_stalemate(p: Position) -> bool:
    return not in_check(p, p.side) and not legal_moves(p)


SAN = re.compile(rb"([KQRBNP]?)([a-h]?)([1-8]?)[x-]?([a-h])([1-8])(?:=?([QRBN]))?")


def read_san(p: Position, t: bytes) -> str | tuple[Move | None, Position]:
    """the move and the position after it, or why there is none"""
    if t in (b"--", b"Z0"):
        q = play_null(p)
        return "illegal move" if q is None else (None, q)
    s = t.rstrip(b"+#")
    castle = {b"O-O": 2, b"0-0": 2, b"O-O-O": -2, b"0-0-0": -2}.get(s)
    fit = []
    if castle is not None:
        for m in legal_moves(p):
            if p.board[m[0]] % 6 == KING and m[1] - m[0] == castle and (m[0] in (4, 60)):
                fit.append(m)
    else:
        x = SAN.fullmatch(s)
        if not x:
            return "not a move"
        man = "KQRBNP".index((x.group(1) or b"P").decode())
        to = (x.group(5)[0] - 49) * 8 + x.group(4)[0] - 97
        pr = None if not x.group(6) else "KQRBN".index(x.group(6).decode())
        for m in legal_moves(p):
            if p.board[m[0]] % 6 != man or m[1] != to or m[2] != pr:
                continue
            if man == KING and abs(m[0] - m[1]) == 2:
                continue
            if x.group(2) and (m[0] & 7) != x.group(2)[0] - 97:
                continue
            if x.group(3) and (m[0] >> 3) != x.group(3)[0] - 49:
                continue
            fit.append(m)
    if not fit:
        return "illegal move"
    if len(fit) > 1:
        return "ambiguous move"
    return (fit[0], play(p, fit[0]))


def square_name(s: int) -> str:
    return "abcdefgh"[s & 7] + str((s >> 3) + 1)


def san_text(p: Position, m: Move | None) -> str:
    if m is None:
        return "--"
    fr, to, pr = m
    man = p.board[fr] % 6
    q = play(p, m)
    if man == KING and abs(fr - to) == 2:
        t = "O-O" if to > fr else "O-O-O"
    else:
        cap = p.board[to] != EMPTY or (man == PAWN and (fr & 7) != (to & 7))
        t = ""
        if man == PAWN:
            if cap:
                t = "abcdefgh"[fr & 7]
        else:
            t = "KQRBN"[man]
            oth = [
                x[0]
                for x in legal_moves(p)
                if x[1] == to and x[0] != fr and p.board[x[0]] == p.board[fr] and not (man == KING and abs(x[0] - x[1]) == 2)
            ]
            if oth:
                if all((x & 7) != (fr & 7) for x in oth):
                    t += "abcdefgh"[fr & 7]
                elif all((x >> 3) != (fr >> 3) for x in oth):
                    t += str((fr >> 3) + 1)
                else:
                    t += square_name(fr)
        if cap:
            t += "x"
        t += square_name(to)
        if pr is not None:
            t += "=" + "KQRBN"[pr]
    if in_check(q, q.side):
        t += "+" if legal_moves(q) else "#"
    return t
