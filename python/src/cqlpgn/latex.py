"""A text for LaTeX: boards in rows, each with its players, what is to move and how the game went on; or exercises with their solutions."""

from __future__ import annotations

import tempfile
import unicodedata
from collections.abc import Iterable, Iterator
from dataclasses import dataclass
from itertools import islice
from typing import IO

from .boards import Match

ON = 12  # so many moves of both sides, at most, are printed of what came after
LONGEST = 200  # so many letters of a comment
SIGNS = {"\\": r"\textbackslash{}", "~": r"\textasciitilde{}", "^": r"\textasciicircum{}", "…": r"\dots{}", "–": "--", "—": "---"}
SIGNS |= {"“": "``", "”": "''", "‘": "`", "’": "'", '"': "''", "<": r"\textless{}", ">": r"\textgreater{}"}
# hyphens stay apart, and a backquote from a `!` before it: lualatex makes one sign of two, even over braces
SIGNS |= {"-": r"{-\kern0pt}", "`": r"{\kern0pt`}"}
HEAD = r"""% pdflatex, or lualatex for letters that are not of the Latin alphabet
\documentclass[a4paper,10pt]{article}
\usepackage{iftex}
\ifPDFTeX
  \usepackage[T1]{fontenc}
  \usepackage[utf8]{inputenc}
  \usepackage{lmodern}
  \newcommand\letter[2]{#2}
\else
  \usepackage{fontspec}
  \IfFontExistsTF{DejaVu Serif}{\setmainfont{DejaVu Serif}[Scale=0.9]}{\IfFontExistsTF{CMU Serif}{\setmainfont{CMU Serif}}{%
  \IfFontExistsTF{FreeSerif}{\setmainfont{FreeSerif}}{\IfFontExistsTF{Libertinus Serif}{\setmainfont{Libertinus Serif}}{}}}}
  \newcommand\letter[2]{\iffontchar\font"#1\char"#1 \else#2\fi}
\fi
\usepackage[margin=1.8cm,top=1.5cm,bottom=1.6cm]{geometry}
\usepackage{chessboard}
\setchessboard{boardfontsize=@SIZE@,showmover=false,label=@LABEL@,pgfstyle=straightmove,color=black!60,shortenend=0.3em}
\newcommand\match[3]{\begin{minipage}[t]{@WIDTH@\linewidth}\centering
  \chessboard[#1,setfen=#2]\par\smallskip\footnotesize #3\par\end{minipage}}
\setlength\parindent{0pt}
\begin{document}
\begin{center}\large @TITLE@\end{center}
"""


@dataclass(frozen=True)
class Style:
    """How boards are laid out: how many are on a page (8 or 12), whether they have coordinates, whether those with Black to move are
    turned, and whether they are exercises, with their solutions at the end."""

    per_page: int = 8
    coordinates: bool = False
    turned: bool = False
    exercises: bool = False

    @property
    def columns(self) -> int:
        """How many boards stand in a row."""
        return 2 if self.per_page == 8 else 3


def plain(text: str) -> str:
    """A text with LaTeX's signs written out, so that no control sequence comes of it. A letter beyond Latin is taken from the font, and
    where that lacks it, it is written without its marks, or as `?`."""
    out = []
    for letter in unicodedata.normalize("NFC", text):
        if letter in SIGNS:
            out.append(SIGNS[letter])
        elif letter in "#$%&_{}":
            out.append("\\" + letter)
        elif letter <= "\x7f" or "\xc0" <= letter <= "\u017e" and letter not in "\u0138\u0149\u017f":
            out.append(letter if letter >= " " and letter != "\x7f" else " ")
        elif unicodedata.category(letter)[0] in "CZ":
            out.append(" " if unicodedata.category(letter) == "Zs" else "")
        else:
            less = unicodedata.normalize("NFKD", letter).encode("ascii", "ignore").decode()
            less = "".join(SIGNS.get(sign, "\\" + sign if sign in "#$%&_{}" else sign) for sign in less) or "?"
            out.append(rf"\letter{{{ord(letter):X}}}{{{less}}}")
    return "".join(out)


def _moves(match: Match, most: int) -> str:
    return " ".join(plain(word) for word in match.went_on(most))


def _names(match: Match) -> str:
    return " -- ".join(plain(player) for player in match.tree.players)


def _caption(match: Match, style: Style) -> str:
    if style.exercises and match.is_problem:
        composers = rf"\par {plain(match.tree.composers)}" if match.tree.composers else ""
        return rf"\textbf{{{match.number}}}\quad {plain(match.tree.stipulation)}{composers}"
    if style.exercises:
        return rf"\textbf{{{match.number}}}\quad {match.side}"
    comments = " ".join(rf"\emph{{{plain(comment[:LONGEST])}}}" for comment in match.comments)
    where = plain(", ".join(match.tree.where))
    led = plain(match.led)
    said = f"{match.side}; {led}. {comments} {_moves(match, ON)}"
    return rf"\textbf{{{match.number}}}\quad \textbf{{{_names(match)}}}\par {where}\par {said}"


def _board(match: Match, style: Style) -> str:
    keys = [] if match.is_white or not style.turned else ["inverse"]
    if match.arrow and not style.exercises:
        keys.append(f"markmoves={{{match.arrow[0]}-{match.arrow[1]}}}")
    return f"\\match{{{','.join(keys)}}}{{{match.fen}}}{{{_caption(match, style)}}}"


def _rows(matches: Iterable[Match], style: Style) -> Iterator[str]:
    """The boards in rows, numbered across; a page has so many."""
    rest, place = iter(matches), 0
    row = list(islice(rest, style.columns))
    while row:
        following = list(islice(rest, style.columns))
        place += style.columns
        filled = "\\hfill\\null" if len(row) < style.columns else ""
        yield "\\hfill\n".join(_board(match, style) for match in row) + filled + "\\par\n"
        yield "\\newpage\n" if following and place % style.per_page == 0 else "\\vfill\n"
        row = following


def _solution(match: Match) -> str:
    where = ", ".join(filter(None, [_names(match), *map(plain, match.tree.where)]))
    said = "".join(f" {plain(comment)}" for comment in match.comments)
    moves = match.solution(plain, lambda comment: rf"\emph{{{plain(comment[:LONGEST])}}}")
    return rf"\textbf{{{match.number}}} {moves}{said} \hfill {{\footnotesize {where}}}\par" + "\n"


class _Solutions:
    """The solutions of exercises, in a file until all boards are written."""

    def __init__(self, file: IO[str]) -> None:
        self._file, self._is_empty = file, True

    def added(self, matches: Iterable[Match]) -> Iterator[Match]:
        """The same matches, whose solutions are written."""
        for match in matches:
            self._file.write(_solution(match))
            self._is_empty = False
            yield match

    def pages(self) -> Iterator[str]:
        """The last pages, in pieces."""
        if self._is_empty:
            return
        yield "\\clearpage\n\\begin{center}\\large Solutions\\end{center}\n"
        self._file.seek(0)
        while piece := self._file.read(1 << 16):
            yield piece


def document(files: Iterable[tuple[str, Iterable[Match]]], style: Style) -> Iterator[str]:
    """The text, in pieces: of each file its title and its boards. A few games are in memory at a time."""
    parts = {"@SIZE@": "15pt" if style.per_page == 8 else "13pt", "@LABEL@": "true" if style.coordinates else "false"}
    parts |= {"@WIDTH@": "0.48" if style.columns == 2 else "0.31"}
    with tempfile.TemporaryFile("w+", encoding="utf-8", errors="replace", newline="") as file:
        solutions = _Solutions(file)
        for place, (title, matches) in enumerate(files):
            yield _title(title, parts if place == 0 else None)
            yield from _rows(solutions.added(matches) if style.exercises else matches, style)
        yield from solutions.pages()
    yield "\\end{document}\n"


def _title(title: str, parts: dict[str, str] | None) -> str:
    """The head of the text, with the title of the first file, by its parts; or the title of another file."""
    if parts is None:
        return f"\\clearpage\n\\begin{{center}}\\large {plain(title)}\\end{{center}}\n"
    head = HEAD
    for name, value in {**parts, "@TITLE@": plain(title)}.items():
        head = head.replace(name, value)
    return head
