"""The men of a problem as its record lists them, and what twins change about them."""

from __future__ import annotations

import re
from collections.abc import Callable, Sequence

from .board import CASTLINGS, SQUARES, coloured, stepped
from .faults import BadDiagram, BadTwin, FairyMan

Men = list[str]
MAN = re.compile(r"[KQRBSP][a-h][1-8]")


def letter(man: str) -> str:
    """The letter of a FEN for that of a record, where S is a knight."""
    return man.upper().replace("S", "N")


def diagram(white: Sequence[str], black: Sequence[str]) -> Men:
    """The men that a record lists, as `Ka8` or `Sb1`."""
    men = [""] * 64
    for side, listed in ((True, white), (False, black)):
        for one in listed:
            if not MAN.fullmatch(one):
                raise FairyMan(one[:40])
            square = SQUARES[one[1:]]
            if men[square]:
                raise BadDiagram(f"two men on {one[1:]}")
            men[square] = coloured(letter(one[0]), side)
    return men


def check_men(men: Men) -> None:
    """Refuses men that no FEN may have."""
    for side, king in (("White", "K"), ("Black", "k")):
        if men.count(king) != 1:
            raise BadDiagram(f"{side} has {men.count(king)} kings")
        if sum(man != "" and man.isupper() == king.isupper() for man in men) > 16:
            raise BadDiagram(f"{side} has more than sixteen men")
    if any(man in ("P", "p") for man in men[:8] + men[56:]):
        raise BadDiagram("a pawn on the first or last rank")


def rights(men: Men) -> str:
    """A right to castle wherever king and rook stand at home, as problems have it by convention."""
    return "".join(side for side, one in CASTLINGS.items() if men[one.king] + men[one.rook] == ("KR" if side.isupper() else "kr"))


def _moved(men: Men, said: re.Match[str]) -> None:
    start, goal = SQUARES[said[1].lower()], SQUARES[said[2].lower()]
    men[start], men[goal] = "", men[start]


def _exchanged(men: Men, said: re.Match[str]) -> None:
    one, other = SQUARES[said[1].lower()], SQUARES[said[2].lower()]
    men[one], men[other] = men[other], men[one]


def _removed(men: Men, said: re.Match[str]) -> None:
    men[SQUARES[said[1].lower()]] = ""


def _added(men: Men, said: re.Match[str]) -> None:
    men[SQUARES[said[3].lower()]] = coloured(letter(said[2]), said[1][0] in "wW")


def _pattern(text: str) -> re.Pattern[str]:
    return re.compile(text.replace("SQUARE", "([a-h][1-8])").replace("MAN", "[wb]?[KQRBSP]?"), re.IGNORECASE)


CHANGES: tuple[tuple[re.Pattern[str], Callable[[Men, re.Match[str]], None]], ...] = (
    (_pattern(r"(?:move )?MANSQUARE ?(?:-->|--|==>|->|==|=|-|>| ) ?SQUARE\b"), _moved),
    (_pattern(r"exchange SQUARE SQUARE\b"), _exchanged),
    (_pattern(r"remove MANSQUARE\b"), _removed),
    (_pattern(r"(?:add )?(white|black|w|b) ?([KQRBSP])SQUARE\b"), _added),
)
PASSED_OVER = re.compile(r"\b(?:continued?|cont\.?|and|then|diagram)(?!\w)|[,;&]", re.IGNORECASE)
SHIFT = _pattern(r"shift SQUARE ?(?:==>|==|=| ) ?SQUARE")
ROTATE = re.compile(r"rotate (90|180|270)", re.IGNORECASE)


def _shifted(men: Men, said: re.Match[str]) -> Men:
    start, goal = SQUARES[said[1].lower()], SQUARES[said[2].lower()]
    files, ranks = goal % 8 - start % 8, goal // 8 - start // 8
    put = {stepped(square, files, ranks): man for square, man in enumerate(men) if man}
    if -1 in put:
        raise BadTwin(said[0])
    return [put.get(square, "") for square in range(64)]


def _turned(men: Men, quarters: int) -> Men:
    """The board turned clockwise, so that what stands on a1 goes to a8."""
    for _ in range(quarters):
        men = [men[square % 8 * 8 + 7 - square // 8] for square in range(64)]
    return men


def _changed(men: Men, text: str, at: int) -> int:
    """Makes the change that the text has at a place, and answers where the next one may begin."""
    for pattern, change in CHANGES:
        if said := pattern.match(text, at):
            change(men, said)
            return said.end()
    raise BadTwin(text[:80])


def twin(men: Men, change: str) -> Men:
    """The men after what a twin changes, as `Move c5 c4` or `Remove b4 add white Pb4`."""
    text = " ".join(PASSED_OVER.sub(" ", change.replace("Moce", "Move")).split())
    if said := SHIFT.fullmatch(text):
        return _shifted(men, said)
    if said := ROTATE.fullmatch(text):
        return _turned(men, int(said[1]) // 90)
    changed, at = men[:], 0
    while at < len(text):
        at = _changed(changed, text, at)
        while at < len(text) and text[at] in " .":
            at += 1
    return changed
