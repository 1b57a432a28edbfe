"""The letters of men in other languages. A game is written in one language, so all its moves are read by the same letters."""

from __future__ import annotations

import re
from collections.abc import Iterator

FIGURINES = dict(zip("♔♕♖♗♘♙♚♛♜♝♞♟", "KQRBN" + "P" + "KQRBN" + "P"))
ENGLISH = {*"KQRBNP"}  # where these alone would be other men, nothing tells that the language is another one
# king, queen, rook, bishop, knight
LANGUAGES = {
    "German": "K D T L S",
    "French": "R D T F C",
    "Spanish": "R D T A C",
    "Portuguese": "R D T B C",
    "Dutch": "K D T L P",
    "Polish": "K H W G S",
    "Czech": "K D V S J",
    "Hungarian": "K V B F H",
    "Finnish": "K D T L R",
    "Romanian": "R D T N C",
    "Icelandic": "K D H B R",
    "Russian": "Кр Ф Л С К",
}
# what may follow the letter of a man, and what goes before that of a promotion
ONWARD = "(?=[-x:×]?[a-h]?[1-8]?[-–x:×]?[a-h][1-8])"
FIELDS = re.compile(
    r'\{[^}]*(?:\}|\Z)|"(?:[^"\\\n]|\\.)*"|;[^\n]*|^%[^\n]*|(?P<move>(?<![\w=])[^\W\d_]{1,2}' + ONWARD + r"|(?<=[18])=?[^\W\d_](?!\w))",
    re.M,
)


def translated(text: str, language: str) -> Iterator[tuple[int, int, str]]:
    """The letters of men of a language in a text, but for those in tags and comments: from where to where, and the letter of PGN."""
    letters = dict(zip(LANGUAGES[language].split(), "KQRBN"))
    for found in FIELDS.finditer(text):
        if found["move"] is None:
            continue
        sign = found["move"].lstrip("=")
        letter = letters.get(sign)
        begin = found.end() - len(sign)
        if letter is None and len(sign) == 2 and sign[:1] in letters and sign[1:] in "abcdefghx":
            letter, sign = letters[sign[:1]], sign[:1]
        if letter is not None and letter != sign:
            yield begin, begin + len(sign), letter
