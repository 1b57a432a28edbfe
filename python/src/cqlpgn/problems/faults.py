"""Why a problem can't be written: each cause is an exception of its own, which says what is wrong, and where in the solution."""

from __future__ import annotations


class ProblemFault(Exception):
    """A problem is left out. `detail` is the text that is wrong, `at` its place in the solution's text, where there is one."""

    cause = "not understood"

    def __init__(self, detail: str = "", at: int | None = None) -> None:
        super().__init__(detail)
        self.detail = detail
        self.at = at
        self.after_alternative = False

    def placed(self, detail: str, at: int) -> ProblemFault:
        """The same fault, with the text and the place where it was met, unless it has them."""
        self.detail = self.detail or detail
        self.at = at if self.at is None else self.at
        return self

    @property
    def reason(self) -> str:
        """The cause in words, for the counts."""
        return self.cause + (" after one of the alternatives" if self.after_alternative else "")

    def __str__(self) -> str:
        return self.reason + (f": {self.detail}" if self.detail else "")


class NotARecord(ProblemFault):
    """The text is no record, or a field has not the form that it must have."""

    cause = "not a record"


class OtherStipulation(ProblemFault):
    """The stipulation is none of those that are read."""

    cause = "other stipulation"


class FairyMan(ProblemFault):
    """A man that orthodox chess does not have."""

    cause = "fairy man"


class FairyCondition(ProblemFault):
    """The moves follow other rules."""

    cause = "fairy condition"


class BadDiagram(ProblemFault):
    """The men can't stand so: two on a square, a pawn on the first rank, no king."""

    cause = "impossible diagram"


class BadTwin(ProblemFault):
    """What a twin changes is not understood, or not said."""

    cause = "twin not understood"


class NoSolution(ProblemFault):
    """The record has no text of a solution."""

    cause = "no solution"


class NoMove(ProblemFault):
    """The text of the solution has no move."""

    cause = "no move in the solution"


class IllegalMove(ProblemFault):
    """No legal move is written so."""

    cause = "illegal move"


class AmbiguousMove(ProblemFault):
    """Two legal moves can be written so."""

    cause = "ambiguous move"


class NoMate(ProblemFault):
    """The text says that a move mates, and it does not."""

    cause = "said to be mate and is not"


class NullMoveInCheck(ProblemFault):
    """A threat or set play after a check."""

    cause = "null move in check"


class NoMoveBefore(ProblemFault):
    """A move has a number that no move before it leads to."""

    cause = "no move before this number"


class TooLarge(ProblemFault):
    """The solution would become a larger tree than a game may have."""

    cause = "solution too large"
