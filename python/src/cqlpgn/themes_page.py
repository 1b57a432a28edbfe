"""The page docs/THEMES.md, made from themes.toml: `python3 -m cqlpgn.themes_page > docs/THEMES.md`."""

from __future__ import annotations

import sys
import textwrap

from .problems.board import Board, Move, SQUARES
from .themes import KINDS, Example, Theme, all_themes

WIDTH = 140
HEAD = """# Themes

Each theme has a name, a sentence, a board with a position that its query finds, and the query. A name finds its games without a query:

    cqlpgn-over --theme smothered-mate -o found.pgn games.pgn

`cqlpgn-over --themes` lists the names, and `cqlpgn-over --all-themes games.pgn` tells which of the themes an archive has. docs/LANGUAGE.md
explains the queries. On a board capitals are White's men and small letters Black's. The examples of each theme, also with colours and
wings exchanged, are cases of the gate, with positions that are like it and must not be found. The page is made by
`python3 -m cqlpgn.themes_page`.
"""


def board_of(example: Example) -> Board:
    """The position in which an example begins."""
    rows, side, castle, passed = example.start.split(" ")
    men = [man for row in reversed(rows.split("/")) for sign in row for man in ([""] * int(sign) if sign.isdigit() else [sign])]
    return Board(men, side == "w", castle.strip("-"), SQUARES.get(passed, -1))


def _move(board: Board, san: str) -> Move:
    plain = san.rstrip("+#")
    castling = [move for long in (False, True) if (move := board.castling(long))]
    body, _, promotion = plain.partition("=")
    return next(
        move
        for one in [*board.moves(), *castling]
        if board.san(move := Move(one.start, one.goal, promotion)) == plain or body == plain and board.san(one) == body
    )


def end_of(example: Example) -> Board:
    """The position in which an example ends."""
    board = board_of(example)
    for san in example.moves:
        board = board.played(_move(board, san))
    return board


def diagram(board: Board) -> str:
    """A position as lines of text."""
    rows = [" ".join(man or "." for man in board.men[rank * 8 : rank * 8 + 8]) for rank in range(7, -1, -1)]
    lines = [f"    {8 - place}  {row}" for place, row in enumerate(rows)]
    return "\n".join([*lines, "", "       a b c d e f g h"])


def _moves(example: Example) -> str:
    first = 1 if example.is_white else 2
    words = ["1..."] if first == 2 and example.moves else []
    for place, move in enumerate(example.moves, first):
        words += [f"{(place + 1) // 2}. {move}" if place % 2 else move]
    return " ".join(words)


def _entry(theme: Theme) -> str:
    shown = theme.found[0]
    also = f"Also: {', '.join(theme.others)}. " if theme.others else ""
    side = "White" if shown.is_white else "Black"
    said = f"The end of {_moves(shown)}:" if theme.kind == "mate" else f"{side} to move; {_moves(shown)}:" if shown.moves else "As here:"
    board = end_of(shown) if theme.kind == "mate" else board_of(shown)
    query = "\n".join(f"    {line}" for line in theme.query.splitlines())
    cost = f"\n\nTime: {theme.cost}" if theme.cost else ""
    parts = [
        f"### {theme.name}",
        textwrap.fill(f"`{theme.id}`. {also}{theme.says}", WIDTH),
        said,
        diagram(board),
        textwrap.fill(f"Left out: {theme.omits}", WIDTH) + cost,
        query,
    ]
    return "\n\n".join(parts)


def page() -> str:
    """The page's text. Raises `Damaged` where the themes can't be read."""
    themes = all_themes()
    parts = [HEAD.strip()]
    for kind, heading in KINDS.items():
        of_kind = [theme for theme in themes if theme.kind == kind]
        parts += [f"## {heading}", *map(_entry, of_kind)] if of_kind else []
    return "\n\n".join(parts) + "\n"


if __name__ == "__main__":
    sys.stdout.write(page())
