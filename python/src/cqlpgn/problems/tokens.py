"""The words of a solution's text: moves in long and short notation, numbers, signs, comments.

White space and lines tell nothing. What stands in several hands is read: `*`, `x`, `:` and `(x)` for a capture, S or N for a knight, D, T
and L for queen, rook and bishop in German, `=Q`, `Q`, `/Q` and `(Q)` for a promotion. The pattern takes steps as the text is long, whatever
the text.
"""

from __future__ import annotations

import re
from collections.abc import Iterator
from dataclasses import dataclass

GERMAN = {"S": "N", "D": "Q", "T": "R", "L": "B"}

TOKEN = re.compile(
    r"""
   (?P<comment>\{[^{}]*\})
 | (?P<label>\[(?:[A-Za-z][0-9]?['*]{0,4}|~)\]|\((?:[A-Z][0-9]?['*]{0,4}|[a-z]['*]{0,4}|~)\))
 | (?P<number>(?<![A-Za-z0-9])(?P<count>\d{1,3})(?:\s*\.(?P<dots>\s*\.+)?|\s+(?P<bare>\.{2,})))
 | (?P<move>(?<![A-Za-z])(?:(?P<castle>[0O]-[0O](?:-[0O])?)
     |(?:(?P<before>[a-h1-8])(?=[KQRBNSDTL]))?(?P<man>[KQRBNSPDTL])?
      (?:(?P<square>[a-h][1-8])(?=[-x*:]?[a-h][1-8])|(?P<file>[a-h])(?=[-x*:]?[a-h][1-8]|\([x:*]\))|(?P<rank>[1-8])(?=[-x*:]?[a-h]))?
      (?:[-x*:]|\([x:*]\))?(?P<goal>[a-h][1-8])(?!~)
      (?:=(?P<p1>[QRBNSDTL])|(?P<p2>[QRBNSDTL])(?![a-h1-8x*:~(])|/(?P<p3>[QRBNSDTL])(?![a-h1-8x*:~(])|\((?P<p4>[QRBNSDTL])\)
        |(?P<every>[=/]~))?(?:\s?e\.?\s?p\.?)?))
     \s?(?P<sign>\+\+|\+|\#|=(?![QRBNSDTL=])|\(\+\))?
 | (?P<any>(?<![A-Za-z])(?P<arank>[1-8])?(?P<aman>[KQRBNSPDTL])?(?P<afile>[a-h])?(?P<arank2>[1-8])?
     (?:~[a-h0-9]*\s?(?:\(?[+\#]\)?)?|(?<=[A-Z])\s?other\b))
 | (?P<pawn>(?<![A-Za-z])[a-h][x*:]?[a-h](?![A-Za-z]))
 | (?P<target>\((?:[x*:]?[a-h][1-8](?:[\s,]|or\b)*)+\))
 | (?P<promotion>/[QRBNSDTL](?![a-h1-8x*:~(]))
 | (?P<mark>[!?]+)
 | (?P<alternative>/|,|;|\bor\b|\boder\b|\band\b|\bund\b|&)
 | (?P<open>[\[(])|(?P<close>[\])])
 | (?P<word>[^\W\d_]+[.:]*)
 | (?P<other>\S)""",
    re.VERBOSE,
)
# What solutions write in place of ASCII; letters of another alphabet that look like files are files before a rank.
LOOKS = str.maketrans({"…": "...", "–": "-", "‡": "#", "×": "x", "\r": " ", "\t": " ", '"': " "})
LIKE_FILES = re.compile("[асе](?=[1-8])")
SPACES = re.compile("  +")


@dataclass(frozen=True)
class Written:
    """A move as it is written; what is not said is the empty text."""

    man: str = ""
    file: str = ""
    rank: str = ""
    goal: str = ""
    promotion: str = ""
    sign: str = ""
    castling: str = ""
    every_promotion: bool = False

    @property
    def goal_alone(self) -> bool:
        """Is nothing said of where the man comes from, nor which it is?"""
        return not (self.man or self.file or self.rank or self.castling)


@dataclass(frozen=True)
class Token:
    """A word: its kind, its place, and for a move what it says, for a number the ply."""

    kind: str
    text: str
    at: int
    written: Written = Written()
    ply: int = -1


def plain(text: str) -> str:
    """The text of a solution in the letters that are read here; it has as many lines as before."""
    text = LIKE_FILES.sub(lambda found: "ace"["асе".index(found[0])], text.translate(LOOKS))
    return SPACES.sub(" ", text)


def man_named(name: str | None) -> str:
    """The letter of a FEN for the name of a man in a solution."""
    return GERMAN.get(name or "", name or "")


def _written(found: re.Match[str]) -> Written:
    """What a move says."""
    said = {name: text or "" for name, text in found.groupdict().items()}
    before, square = said["before"], said["square"]
    return Written(
        man="P" if said["every"] else man_named(said["man"]),
        file=said["file"] or square[:1] or (before if before.isalpha() else ""),
        rank=said["rank"] or square[1:] or (before if before.isdigit() else ""),
        goal=said["goal"],
        promotion=man_named(said["p1"] or said["p2"] or said["p3"] or said["p4"]),
        sign=said["sign"],
        castling=said["castle"],
        every_promotion=bool(said["every"]),
    )


def _any_of(found: re.Match[str]) -> Written:
    """What `S~` or `Sd~` says of its men."""
    man, file = man_named(found["aman"]), found["afile"] or ""
    return Written(man=man or ("P" if file else ""), file=file, rank=found["arank2"] or found["arank"] or "")


def _token(found: re.Match[str]) -> Token:
    """The word that the pattern has found: the last group to be closed is that of its kind, but for a sign behind a move."""
    kind, text, at = found.lastgroup or "", found[0].strip(), found.start()
    if kind in ("move", "sign"):
        return Token("move", text, at, _written(found))
    if kind == "any":
        return Token(kind, text, at, _any_of(found))
    if kind == "number":
        return Token(kind, text, at, ply=2 * (int(found["count"]) - 1) + bool(found["dots"] or found["bare"]))
    return Token(kind, text, at)


def tokens(text: str) -> Iterator[Token]:
    """The words of a text that `plain` has given."""
    return map(_token, TOKEN.finditer(text))
