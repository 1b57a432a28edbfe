"""Other spellings of what was refused as a move: each with the class of change that it is of. Which of them is a legal move the reader
says."""

from __future__ import annotations

import re
from collections.abc import Iterator

from .languages import FIGURINES
from .signs import EVALUATIONS

Spelling = tuple[str, str]
DASH = "[-\u2010-\u2015\u2212\udc96\udc97]"
SQUARE = "[a-h][1-8]"
# the word of a move: it may have a blank around its dash, and a promotion in parentheses
SIGN = r"[^\s(){}\[\];\"$.!?,]"
PROMOTED = r"(?:[=/]?\([QRBNqrbn]\))"
WORD = re.compile(
    rf"[KQRBN]?{SQUARE} ?(?:{DASH}|[x:X×]) ?{SQUARE}(?:[=/]?[QRBNqrbn]|{PROMOTED})?[+#]*|{SIGN}+?(?:{PROMOTED}[+#]*|e\.\s?p\.)|{SIGN}+"
)
CHECK = r"(?:dis(?:c)?\.?\s?ch|dbl\.?\s?ch|ch(?:eck)?|mate|[+#†‡]+|e\.?p)\.?"
SIGNS = "|".join(map(re.escape, sorted(EVALUATIONS, key=len, reverse=True)))
TAILS = re.compile(rf"(?P<core>.*?[a-h1-8QRBNqrbn)O0oODTLSFCAVWH])(?P<tail>x|{CHECK}|{SIGNS})\Z")
CASTLES = re.compile(rf"([oO0])(?:{DASH})?\1(?P<long>(?:{DASH})?\1)?")
SQUARES = re.compile(
    rf"(?P<man>[KQRBNkqrbn]?)(?P<from>{SQUARE}) ?(?P<sign>{DASH}|[x:X×])? ?(?P<to>{SQUARE})[=/]?\(?(?P<new>[QRBNqrbn]?)\)?"
)
SHORT = re.compile(r"(?P<from>[a-h])[x:X×]?(?P<to>[a-h])(?:[=/]?\(?(?P<new>[QRBNqrbn])\)?)?")
CAPTURE = re.compile(rf"(?P<man>[KQRBNP]?[a-h]?[1-8]?)[:X×](?P<to>{SQUARE}.*)")
PROMOTION = re.compile(r"(?P<move>(?:[a-h]x?)?[a-h][18])[=/]?\(?(?P<new>[qrbnQRBN])\)?")
LOWER = re.compile(rf"[kqrbn][a-h1-8]?x?{SQUARE}")
KING = re.compile(r"K(?:e[18])?(?P<side>[gc])[18]")
GLUED = re.compile(r"(?P<number>\d+)(?P<move>[a-hKQRBNO].*)")
LONGEST = 24  # letters of a word that may be a move
CASTLED = {"e1g1": "O-O", "e8g8": "O-O", "e1c1": "O-O-O", "e8c8": "O-O-O"}


def _cores(word: str) -> Iterator[Spelling]:
    """Other spellings of a move without its marks."""
    if found := CASTLES.fullmatch(word):
        yield "castling", "O-O-O" if found["long"] else "O-O"
    if found := KING.fullmatch(word):
        yield "castling", "O-O" if found["side"] == "g" else "O-O-O"
    if found := CAPTURE.fullmatch(word):
        yield "captures", f"{found['man']}x{found['to']}"
    if found := SQUARES.fullmatch(word):
        yield from _by_squares(found["man"].upper(), found["from"], found["to"], found["new"].upper(), (found["sign"] or " ") in "x:X×")
    if found := SHORT.fullmatch(word):
        new = f"={found['new'].upper()}" if found["new"] else ""
        ranks = "18" if new else "234567"
        yield from (("captures", f"{found['from']}x{found['to']}{rank}{new}") for rank in ranks)
        if not new:  # a promotion without its man is one of four moves
            yield from (("captures", f"{found['from']}x{found['to']}{rank}={man}") for rank in "18" for man in "QRBN")
    if found := PROMOTION.fullmatch(word):
        yield "captures", f"{found['move']}={found['new'].upper()}"
    if re.fullmatch("[a-h]?x?[a-h][18]", word):
        yield from (("captures", f"{word}={man}") for man in "QRBN")
    if LOWER.fullmatch(word):
        yield "notation", word[0].upper() + word[1:]
    if found := GLUED.fullmatch(word):
        yield "numbers", f"{found['number']}. {found['move']}"
    if any(sign in word for sign in FIGURINES):
        yield "letters", "".join(FIGURINES.get(sign, sign) for sign in word)


def _by_squares(man: str, start: str, goal: str, new: str, takes: bool) -> Iterator[Spelling]:
    if man in ("", "K") and start + goal in CASTLED:
        yield "castling", CASTLED[start + goal]
    promotion = f"={new}" if new else ""
    for letter in [man] if man else ["", *"NBRQK"]:
        yield "captures" if takes else "notation", f"{letter}{start}{'x' * takes}{goal}{promotion}"


def spellings(word: str) -> Iterator[Spelling]:
    """Other spellings of a word, a class with each: of the word itself, and of what is left of it without its last mark."""
    if len(word) > LONGEST:
        return
    yield from _cores(word)
    rest, kind, kept = word, "", ""
    while found := TAILS.fullmatch(rest):
        rest, tail = found["core"], found["tail"]
        if tail in EVALUATIONS:
            kind, kept = kind or "glyphs", f" {EVALUATIONS[tail]}{kept}"
        else:
            kind = kind or "checks"
        yield kind, rest + kept
        yield from ((other, core + kept) for other, core in _cores(rest))
