"""Rows: one for each marked position, as CSV, as lines of JSON, or as EPD."""

from __future__ import annotations

import csv
import io
import json
import re
from collections.abc import Callable, Iterable, Iterator, Sequence
from itertools import islice
from operator import itemgetter
from typing import NamedTuple

from .errors import Unreadable
from .files import shown
from .games import Game, Node

# How each column is told of in the help of the command.
COLUMNS = {
    "archive": "the name of the archive",
    "game": "the number of the game in the archive, from 1, where that is known",
    "found": "the number of the game in the file, from 1",
    "ply": "moves from the start, null moves included",
    "move": "the number of the move that led there, or of the next one at the start",
    "side": "the side to move, w or b",
    "san": "the move that led there",
    "uci": "the same move as squares",
    "fen": "the position",
    "depth": "how many of the moves to there begin a variation",
    "mainline": "1 on the main line, else 0",
    "comments": "what else is said of the position",
}
USUAL = ["archive", "game", "found", "ply", "move", "side", "san", "uci", "fen", "depth", "mainline"]
# A cell that a spreadsheet takes for a formula, or that looks like the cell of one, begins so.
FORMULA = re.compile("'*[=+\\-@\t\r]")
FIRST = frozenset("'=+-@\t\r")  # the first letters of these
DIGEST = re.compile("sha256:[0-9a-f]{64}")
# What ends a line, or a text, of EPD.
WITHIN_EPD = {ord('"'): "'"} | {code: " " for code in (*range(32), *range(127, 160), 0x2028, 0x2029)}
BATCH = 64  # rows that are written together


class Position(NamedTuple):
    """A marked position of a game, as a row: its archive and the number of its game there are None where they are not known."""

    archive: str | None
    game: int | None
    found: int
    ply: int
    move: int
    side: str
    san: str
    uci: str
    fen: str
    depth: int
    mainline: int
    comments: str
    tags: dict[str, str]


def _position(game: Game, node: Node, mark: str, archive: str | None, number: int | None) -> Position:
    fen = node.fen or ""
    fields = fen.split(" ")
    side, comments = fields[1], node.comments
    # after a move of Black the number is that of the next one
    move = int(fields[5]) - (side == "w")
    said = "; ".join(comment for comment in comments if comment != mark) if len(comments) > 1 or mark not in comments else ""
    mainline = int(node.depth == 0)
    return Position(archive, number, game.number, node.ply, move, side, node.san, node.uci, fen, node.depth, mainline, said, game.tags)


def _start(game: Game, mark: str, archive: str | None, number: int | None) -> Position:
    fields = game.start.split(" ")
    comments = "; ".join(comment for comment in game.comments if comment != mark)
    return Position(archive, number, game.number, 0, int(fields[5]), fields[1], "", "", game.start, 0, 1, comments, game.tags)


def positions(game: Game, mark: str, archive: str | None = None, number: int | None = None) -> Iterator[Position]:
    """The marked positions of a game; archive and number are where it came from, if that is known."""
    if game.is_start_marked:
        yield _start(game, mark, archive, number)
    for node in game.marked():
        yield _position(game, node, mark, archive, number)


def cell(text: str) -> str:
    """A text as a cell of CSV: what a spreadsheet would take for a formula has a `'` before it."""
    return "'" + text if FORMULA.match(text) else text


def text_of(cell_text: str) -> str:
    """The text of such a cell."""
    return cell_text[1:] if cell_text[:1] == "'" and FORMULA.match(cell_text) else cell_text


class Index:
    """Where the games of a file came from, as `cqlpgn-over --number` writes it: rows `found,archive,game,of` by ascending numbers `found`.
    `game` is empty where it is not known. `of` is the digest of the file, in the first row alone; an index without it has no such column.
    It is read as it is asked, by ascending numbers. Raises `Unreadable`."""

    COLUMNS = ("found", "archive", "game", "of")

    def __init__(self, lines: Iterable[str], name: str) -> None:
        self._rows, self._name = csv.reader(lines), name
        self._place = 0
        self._origin: tuple[str, int | None] = ("", None)
        head = self._next()
        if head is None or head not in ([*self.COLUMNS], [*self.COLUMNS[:3]]):
            raise self._fault()
        self._width = len(head)
        self._first = self._next()
        self.is_empty = self._first is None
        self.digest = self._first[3] if self._first is not None and len(self._first) == self._width == 4 else ""
        if self.digest and not DIGEST.fullmatch(self.digest):
            raise self._fault()

    def _fault(self) -> Unreadable:
        return Unreadable(f"{shown(self._name)}: has no rows `found,archive,game`")

    def _next(self) -> list[str] | None:
        try:
            return next(self._rows, None)
        except (ValueError, csv.Error) as fault:
            raise self._fault() from fault

    def _row(self) -> list[str] | None:
        row, self._first = self._first or self._next(), None
        if row is not None and len(row) != self._width:
            raise self._fault()
        return row

    def origin(self, found: int) -> tuple[str, int | None] | None:
        """Archive and number there of the game with this number in the file; None where there is no row of it."""
        while self._place < found and (row := self._row()) is not None:
            try:
                place, archive, game = row[:3]
                before, self._place = self._place, int(place)
                self._origin = (text_of(archive), int(game) if game else None)
            except ValueError as fault:
                raise self._fault() from fault
            if self._place <= before:
                raise self._fault()
        return self._origin if self._place == found else None


Value = str | int | None


def _values(columns: Sequence[str]) -> Callable[[Position], Sequence[Value]]:
    """What gives the values of some columns of a row."""
    places = [Position._fields.index(column if column in COLUMNS else "tags") for column in columns]
    if len(columns) > 1 and all(column in COLUMNS for column in columns):
        return itemgetter(*places)
    pairs = [(place, "" if column in COLUMNS else column) for place, column in zip(places, columns)]
    return lambda row: [row.tags.get(tag) if tag else row[place] for place, tag in pairs]  # type: ignore[misc]


def _cells(columns: Sequence[str]) -> Callable[[Position], Sequence[Value]]:
    """The cells of a row of CSV. What an archive brings in, and a null move, may begin as a formula does; the others can't."""
    values_of = _values(columns)
    guarded = [number for number, column in enumerate(columns) if column not in COLUMNS or column in ("archive", "san", "comments")]

    def cells(row: Position) -> Sequence[Value]:
        values = list(values_of(row))
        for number in guarded:
            value = values[number]
            if isinstance(value, str) and value[:1] in FIRST:
                values[number] = cell(value)
        return values

    return cells


def _batches(rows: Iterable[Position]) -> Iterator[list[Position]]:
    rest = iter(rows)
    while batch := list(islice(rest, BATCH)):
        yield batch


def as_csv(rows: Iterable[Position], columns: Sequence[str]) -> Iterator[str]:
    """The rows as CSV (RFC 4180) with a first line of names, some at a time. Each cell has quotes. A cell that a spreadsheet would take for
    a formula has a `'` before it."""
    text = io.StringIO()
    writer = csv.writer(text, quoting=csv.QUOTE_ALL)
    writer.writerow(map(cell, columns))
    cells = _cells(columns)
    for batch in _batches(rows):
        writer.writerows(map(cells, batch))
        yield text.getvalue()
        text.seek(0)
        text.truncate()
    yield text.getvalue()


def as_json(rows: Iterable[Position], columns: Sequence[str]) -> Iterator[str]:
    """The rows as lines of JSON, each an object with the columns, some at a time."""
    encode, values_of = json.JSONEncoder(ensure_ascii=False, separators=(",", ":")).encode, _values(columns)
    for batch in _batches(rows):
        yield "".join(encode(dict(zip(columns, values_of(row)))) + "\n" for row in batch)


def _text(value: object) -> str:
    """A text of EPD, which has no quotes and no control characters."""
    return str(value).translate(WITHIN_EPD)


def as_epd(rows: Iterable[Position], columns: Sequence[str]) -> Iterator[str]:
    """The rows as EPD: the position, `id` with where it is from, and each column that was asked for as a comment c0, c1, .."""
    values_of = _values(columns)
    for row in rows:
        where = f"{row.archive or 'game'} {row.game or row.found}, ply {row.ply}"
        said = "".join(f' c{number} "{_text(value)}";' for number, value in enumerate(values_of(row)) if value is not None)
        yield f'{" ".join(row.fen.split(" ")[:4])} id "{_text(where)}";{said}\n'


WRITERS = {"csv": as_csv, "json": as_json, "epd": as_epd}
