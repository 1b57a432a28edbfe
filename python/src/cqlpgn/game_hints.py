"""Hints for the faults of games: how what stands there is written in PGN, and which condition of a position fails."""

from __future__ import annotations

import re
from dataclasses import dataclass

from .problems.board import Board


@dataclass(frozen=True)
class GameSlip:
    """A row of what is often written wrong in games: an example, the reasons of its fault, the text from the fault's byte on as a pattern,
    and what is said of it."""

    written: str
    reasons: str
    onward: str
    said: str


MOVE, BYTE = "not a move|illegal move", "bad byte"
EITHER = f"{MOVE}|{BYTE}"
SQUARE = "[a-h][1-8]"
SLIPS = [
    GameSlip("1/2", EITHER, r"(?:1/2|½|\udcbd)(?!-1/2)", "the result of a draw is written `1/2-1/2`"),
    GameSlip("1:0", EITHER, r"[01]:[01](?!\w)", "results are written `1-0`, `0-1`, `1/2-1/2` and `*`"),
    GameSlip(
        "0-0", MOVE, r"0-0\s*(?:\[|\Z)", "the result of a game that both have lost has no sign in PGN; without a result a game has `*`"
    ),
    GameSlip("o-o", EITHER, r"(?:o-?o|OO|0–0|O–O)", "castling is written `O-O` or `O-O-O`"),
    GameSlip("e1g1", MOVE, r"K?(?:e1-?[gc]1|e8-?[gc]8)", "castling is written `O-O` or `O-O-O`, and not by the king's squares"),
    GameSlip("Kg1", MOVE, r"K[gc][18](?!\w)", "castling is written `O-O` or `O-O-O`, and not as a move of the king"),
    GameSlip("e8=q", MOVE, r"(?:[a-h]x?)?[a-h][18][=/(]*[qrbnQRBN]\b", "a promotion is written with a capital, as `e8=Q`"),
    GameSlip("a8", MOVE, r"(?:[a-h]x)?[a-h][18](?![\w=(/])", "a promotion is written with its man, as `a8=Q`"),
    GameSlip("g1f3", MOVE, rf"{SQUARE}[-–x:]?{SQUARE}", "the letter of a man stands before its squares, as `Ng1f3`"),
    GameSlip("ch", MOVE, r"(?:dis|dbl|ch|check|mate)\b", "check and mate are written `+` and `#`, right after the move, or not at all"),
    GameSlip("exd", MOVE, r"[a-h][x:]?[a-h](?![\w=])", "a pawn's capture is written with the square, as `exd5`"),
    GameSlip("exd6ep", MOVE, r"(?:[a-h]x[a-h][36])? ?e\.?\s?p\b", "nothing is written of a capture in passing but the move, as `exd6`"),
    GameSlip("Bb5+-", MOVE, rf"[KQRBN]?[a-h1-8x]*{SQUARE}(?:[+-]/?[-+]|=)", "an evaluation is written `$` and a number, as `$18` for `+-`"),
    GameSlip("N:f6", MOVE, rf"[KQRBN]?[a-h1-8]*[:X]{SQUARE}", "a capture is written with `x`, as `Nxf6`"),
    GameSlip("nf3", MOVE, rf"[kqrn][a-h1-8]?x?{SQUARE}", "men are capital letters, as `Nf3`"),
    GameSlip("Sf3", MOVE, rf"[DTLSFCAHWGVJ][a-h1-8]?x?{SQUARE}", "men are the English letters `K Q R B N`"),
    GameSlip("♘f3", BYTE, "[♔-♟]", "men are the English letters `K Q R B N`"),
    GameSlip("N", MOVE, r"T?N(?!\w)", "a novelty is written `$146`"),
    GameSlip("+-", BYTE, r"[+-]/?[-+]|[+=]/?[=+]|[=~±∓⩲⩱∞]", "an evaluation is written `$` and a number, as `$18` for `+-`"),
    GameSlip("Bb5 +", BYTE, r"[+#†‡]", "the sign of a check stands right after the move, before glyphs: `Bb5+`"),
    GameSlip("null", EITHER, r"null\b|<>|@@@@", "a null move is written `--` or `Z0`"),
    GameSlip("e4, e5", BYTE, ",", "nothing but white space stands between moves"),
    GameSlip("}", BYTE, r"\}", "this `}` closes no comment; braces don't nest"),
    GameSlip("%", BYTE, "%", "a `%` begins a line that is passed over in its first column alone"),
    GameSlip("Ctrl-Z", BYTE, "[\x00\x1a]", "a control character of an old file, as Ctrl-Z at its end, is no white space"),
    GameSlip("a mark of order", BYTE, "\ufeff", "a byte order mark is passed over at the archive's beginning alone"),
    GameSlip("a no-break space", BYTE, "[\u00a0\u202f\udca0]", "a no-break space is no white space"),
    GameSlip("<html>", BYTE, "<", "text that is no game stands in braces, as a comment"),
    GameSlip("$256", "NAG out of range", "", "glyphs have the numbers 0 to 255"),
    GameSlip("(forfeit)", "variation without move", "", "a `(` stands after the move that the variation replaces; remarks stand in braces"),
    GameSlip("()", "empty variation", "", "a variation has a move; remarks stand in braces"),
    GameSlip("1)", "unopened variation", "", "this `)` closes no variation; a move's number has a period, as `1.`"),
    GameSlip("(1. d4", "unclosed variation", "", "a `(` of this game has no `)`"),
    GameSlip("{a", "unclosed comment", "", "this `{` has no `}`, so that all that follows is taken for the comment"),
    GameSlip('[Event "x]', "unclosed string", "", "the value of a tag ends with a quote on its line"),
    GameSlip("[%clk ..]", "bad tag", r"\[%", "what begins with `[%` stands in a comment, as `{[%clk 0:01:02]}`"),
    GameSlip("1. e4 [Event", "bad tag", r"\[", "a tag after moves begins its line: nothing stands before its `[`"),
    GameSlip('[Event "Open "B""]', "bad tag", "", 'a tag is written `[Name "value"]`, and a quote within its value `\\"`'),
]

FIELDS = "has six fields, or four: the men, the side, castling, en passant, two numbers"
PLACEMENT = "the men are eight ranks with slashes between, each of eight squares"


def _men(text: str) -> list[str] | None:
    """The men of a FEN by square, a1 first; None where they are none."""
    ranks = [re.sub("[1-8]", lambda found: " " * int(found[0]), rank) for rank in text.split("/")]
    if len(ranks) != 8 or any(re.fullmatch("[KQRBNPkqrbnp ]{8}", rank) is None for rank in ranks):
        return None
    return [man.strip() for rank in reversed(ranks) for man in rank]


def position(text: str) -> str | None:
    """Which condition of a position a FEN fails; None where it fails none."""
    fields = [field for field in text.split(" ") if field]
    if len(fields) not in (4, 6):
        return f"a FEN {FIELDS}; here are {len(fields)}"
    men = _men(fields[0])
    if men is None:
        return f"of a FEN {PLACEMENT}"
    wanted = {
        "w|b": "the side is `w` or `b`",
        "-|[KQkq]+": "castling has letters of `KQkq`, or `-`",
        "-|[a-h][36]": "en passant is a square of the third or sixth rank, or `-`",
    }
    for field, (pattern, said) in zip(fields[1:], wanted.items()):
        if re.fullmatch(pattern, field) is None:
            return f"of a FEN {said}"
    if any(re.fullmatch("[0-9]{1,9}", field) is None for field in fields[4:]):
        return "the last two fields of a FEN are numbers, from 0"
    return _men_fault(men, fields[1] == "w")


def _men_fault(men: list[str], white: bool) -> str | None:
    """Which condition the men of a position fail."""
    for side, king, pick in (("White", "K", str.isupper), ("Black", "k", str.islower)):
        if (kings := men.count(king)) != 1:
            return f"{side} has {kings or 'no'} king{'s' * (kings > 1)}"
        if (count := sum(map(pick, men))) > 16:
            return f"{side} has {count} men, and at most 16 are read"
    if any(man in ("P", "p") for man in men[:8] + men[56:]):
        return "a pawn stands on the first or the last rank"
    return "the side that is not to move is in check" if Board(men, white).checked(not white) else None


def hint(reason: str, onward: bytes) -> str | None:
    """What to write in place of what stands from the byte of a fault on, of which a first part is given; None where nothing is known."""
    text = onward.decode("utf-8", "surrogateescape")
    if reason == "bad FEN":
        value = re.match(r'"((?:[^"\\\n]|\\.)*)"', text)
        return position(re.sub(r'\\(["\\])', r"\1", value[1])) if value else None
    for row in SLIPS:
        if re.fullmatch(row.reasons, reason) and re.match(row.onward, text):
            return row.said if text or not row.onward else None
    return None
