"""Positions and legal moves: the one board of this package.

A square is a number, a1 = 0 to h8 = 63, file by file along a rank. A man is a letter as in a FEN, and an empty square the empty text.
Legality is strict: a move of a list that is given here is a move of chess, castling and en passant included.
"""

from __future__ import annotations

from collections.abc import Iterator
from typing import NamedTuple

NAMES = [file + rank for rank in "12345678" for file in "abcdefgh"]
SQUARES = {name: square for square, name in enumerate(NAMES)}

ORTHOGONALS = ((1, 0), (-1, 0), (0, 1), (0, -1))
DIAGONALS = ((1, 1), (1, -1), (-1, 1), (-1, -1))
HOPS = ((1, 2), (2, 1), (-1, 2), (-2, 1), (1, -2), (2, -1), (-1, -2), (-2, -1))


def stepped(square: int, files: int, ranks: int) -> int:
    """The square so many steps on, or -1 beyond the edge."""
    file, rank = square % 8 + files, square // 8 + ranks
    return rank * 8 + file if 0 <= file < 8 and 0 <= rank < 8 else -1


def _steps(square: int, directions: tuple[tuple[int, int], ...]) -> tuple[int, ...]:
    return tuple(goal for one in directions if (goal := stepped(square, *one)) >= 0)


def _ray(square: int, direction: tuple[int, int]) -> tuple[int, ...]:
    passed: list[int] = []
    while (square := stepped(square, *direction)) >= 0:
        passed.append(square)
    return tuple(passed)


def _rays(directions: tuple[tuple[int, int], ...]) -> list[tuple[tuple[int, ...], ...]]:
    return [tuple(line for one in directions if (line := _ray(square, one))) for square in range(64)]


STEPS = {"N": [_steps(square, HOPS) for square in range(64)], "K": [_steps(square, ORTHOGONALS + DIAGONALS) for square in range(64)]}
RAYS = {"R": _rays(ORTHOGONALS), "B": _rays(DIAGONALS), "Q": _rays(ORTHOGONALS + DIAGONALS)}
# The squares from which a pawn of White, of Black attacks a square.
PAWN_SOURCES = {white: [_steps(square, ((-1, step), (1, step))) for square in range(64)] for white, step in ((True, -1), (False, 1))}

# A side's king, knight and pawn, and the men that attack along ranks and files, along diagonals.
ATTACKING = {True: ("K", "N", "P", "RQ", "BQ"), False: ("k", "n", "p", "rq", "bq")}


class Castling(NamedTuple):
    """A right to castle: the squares of king and rook, and where each of them goes."""

    king: int
    rook: int
    goal: int
    crossed: int


CASTLINGS = {"K": Castling(4, 7, 6, 5), "Q": Castling(4, 0, 2, 3), "k": Castling(60, 63, 62, 61), "q": Castling(60, 56, 58, 59)}


class Move(NamedTuple):
    """From, to, and the man of a promotion; castling is the king's move."""

    start: int
    goal: int
    promotion: str = ""


def coloured(man: str, white: bool) -> str:
    """The letter of a man, an upper case one, for this side."""
    return man if white else man.lower()


class Board:
    """A position: the men, who is to move, the rights to castle, the en passant square (or -1), and the move's number."""

    __slots__ = ("men", "white", "castle", "passed_square", "number")

    def __init__(self, men: list[str], white: bool, castle: str = "", passed_square: int = -1, number: int = 1) -> None:
        self.men = men
        self.white = white
        self.castle = castle
        self.passed_square = passed_square
        self.number = number

    def attackers(self, square: int, white: bool) -> list[int]:
        """The squares from which a man of the side attacks a square."""
        men = self.men
        king, knight, pawn, rook_or_queen, bishop_or_queen = ATTACKING[white]
        found = [start for start in STEPS["N"][square] if men[start] == knight]
        found += [start for start in STEPS["K"][square] if men[start] == king]
        found += [start for start in PAWN_SOURCES[white][square] if men[start] == pawn]
        for lines, sliders in ((RAYS["R"][square], rook_or_queen), (RAYS["B"][square], bishop_or_queen)):
            for line in lines:
                for start in line:
                    if men[start]:
                        if men[start] in sliders:
                            found.append(start)
                        break
        return found

    def attacked(self, square: int, white: bool) -> bool:
        """Is a square attacked by this side?"""
        return bool(self.attackers(square, white))

    def king(self, white: bool) -> int:
        """Where the king of a side stands."""
        return self.men.index("K" if white else "k")

    def checked(self, white: bool) -> bool:
        """Is the king of a side attacked?"""
        return self.attacked(self.king(white), not white)

    @property
    def in_check(self) -> bool:
        """Is the side to move in check?"""
        return self.checked(self.white)

    def own(self, man: str) -> bool:
        """Is it a man of the side to move?"""
        return man != "" and man.isupper() == self.white

    def pawn_origins(self, goal: int) -> Iterator[int]:
        """The squares of pawns that can go to a square, their king left aside."""
        men, back, pawn = self.men, -1 if self.white else 1, coloured("P", self.white)
        if men[goal] or goal == self.passed_square:
            yield from (start for start in PAWN_SOURCES[self.white][goal] if men[start] == pawn)
        if not men[goal]:
            one, two = stepped(goal, 0, back), stepped(goal, 0, 2 * back)
            if one >= 0 and men[one] == pawn:
                yield one
            elif one >= 0 and not men[one] and goal // 8 == (3 if self.white else 4) and men[two] == pawn:
                yield two

    def origins(self, man: str, goal: int) -> Iterator[int]:
        """The squares of men of the side to move that can go to a square, castling and their king left aside."""
        men, letter = self.men, coloured(man, self.white)
        if self.own(men[goal]):
            return
        if man == "P":
            yield from self.pawn_origins(goal)
        elif man in STEPS:
            yield from (start for start in STEPS[man][goal] if men[start] == letter)
        else:
            for line in RAYS[man][goal]:
                start = next((one for one in line if men[one]), -1)
                if start >= 0 and men[start] == letter:
                    yield start

    def legal(self, start: int, goal: int) -> bool:
        """Is the own king safe after a move that the man could make?"""
        return not self.played(Move(start, goal)).checked(self.white)

    def legal_origins(self, man: str, goal: int) -> list[int]:
        """The squares of men that can go to a square, castling left aside."""
        return sorted(start for start in self.origins(man, goal) if self.legal(start, goal))

    def moves(self) -> list[Move]:
        """The legal moves but castling, by squares; a promotion stands once, without its man."""
        return sorted(Move(start, goal) for goal in range(64) for man in "KQRBNP" for start in self.legal_origins(man, goal))

    def castling(self, long: bool) -> Move | None:
        """The castling to one side, if it is legal."""
        side = coloured("Q" if long else "K", self.white)
        right, men = CASTLINGS[side], self.men
        between = range(min(right.king, right.rook) + 1, max(right.king, right.rook))
        if side not in self.castle or any(men[square] for square in between):
            return None
        if any(self.attacked(square, not self.white) for square in (right.king, right.crossed, right.goal)):
            return None
        return Move(right.king, right.goal)

    def played(self, move: Move) -> Board:
        """The position after a move."""
        start, goal, promotion = move
        men, man, passed_square = self.men[:], self.men[start], -1
        men[goal], men[start] = man, ""
        if man in ("P", "p"):
            if goal == self.passed_square and start % 8 != goal % 8:
                men[goal + (-8 if self.white else 8)] = ""
            if abs(goal - start) == 16:
                passed_square = (start + goal) // 2
            if promotion:
                men[goal] = coloured(promotion, self.white)
        if man in ("K", "k") and abs(start - goal) == 2:
            right = next(right for right in CASTLINGS.values() if (right.king, right.goal) == (start, goal))
            men[right.crossed], men[right.rook] = men[right.rook], ""
        castle = "".join(side for side in self.castle if not {start, goal} & {CASTLINGS[side].king, CASTLINGS[side].rook})
        return Board(men, not self.white, castle, passed_square, self.number + (not self.white))

    def passed(self) -> Board:
        """The position after a null move."""
        return Board(self.men, not self.white, self.castle, -1, self.number + (not self.white))

    def _blocks(self) -> set[int]:
        """The squares to which a man other than the king must go in check; none in double check."""
        king = self.king(self.white)
        checkers = self.attackers(king, not self.white)
        if len(checkers) > 1:
            return set()
        checker = checkers[0]
        line = next((line for line in RAYS["Q"][king] if checker in line), ())
        passing = {self.passed_square} - {-1}
        return {checker, *line[: line.index(checker) if line else 0], *passing}

    def mated(self) -> bool:
        """Is the side to move in check, without a legal move?"""
        if not self.in_check:
            return False
        king, men = self.king(self.white), self.men
        if any(not self.own(men[goal]) and self.legal(king, goal) for goal in STEPS["K"][king]):
            return False
        return not any(self.legal(start, goal) for goal in self._blocks() for man in "QRBNP" for start in self.origins(man, goal))

    def san(self, move: Move) -> str:
        """A legal move as PGN writes it, without the sign of check."""
        start, goal, promotion = move
        man = self.men[start].upper()
        if man == "K" and abs(start - goal) == 2:
            return "O-O" if goal > start else "O-O-O"
        if man == "P":
            return (NAMES[start][0] + "x" if start % 8 != goal % 8 else "") + NAMES[goal] + (f"={promotion}" if promotion else "")
        return man + self._told_apart(man, start, goal) + ("x" if self.men[goal] else "") + NAMES[goal]

    def _told_apart(self, man: str, start: int, goal: int) -> str:
        """The file, rank or square that tells a man from others of its kind that can go there."""
        others = [NAMES[other] for other in self.origins(man, goal) if other != start]
        others = others and [NAMES[other] for other in self.legal_origins(man, goal) if other != start]
        name = NAMES[start]
        if not others:
            return ""
        if all(other[0] != name[0] for other in others):
            return name[0]
        return name[1] if all(other[1] != name[1] for other in others) else name

    def fen(self) -> str:
        """The position as text; the moves without a capture are not counted."""
        rows = ["".join(man or " " for man in self.men[rank * 8 : rank * 8 + 8]) for rank in range(7, -1, -1)]
        text = "/".join(rows)
        for count in range(8, 0, -1):
            text = text.replace(" " * count, str(count))
        passed_square = NAMES[self.passed_square] if self.passed_square >= 0 else "-"
        return f"{text} {'w' if self.white else 'b'} {self.castle or '-'} {passed_square} 0 {self.number}"
