"""What a program imports: faults of a query, the games that it finds and the positions in them, each with where it came from."""

from __future__ import annotations

import os
import secrets
import subprocess
import tempfile
from collections.abc import Iterable, Iterator
from dataclasses import dataclass

from . import faults, origins, process, rows
from . import query as queries
from .archives import Archive
from .archives import archives as all_archives
from .errors import Error, Fault
from .files import STANDARD_INPUT, shown
from .games import Reader

Names = str | os.PathLike[str] | Iterable[str | os.PathLike[str]]


@dataclass(frozen=True)
class Found:
    """A game that was found: the name of its archive, its number there, from 1, faulty games counted, and its text as cqlpgn writes it."""

    archive: str
    game_number: int
    pgn: bytes


def _bytes(query: str | bytes) -> bytes:
    return query.encode("utf-8", "surrogateescape") if isinstance(query, str) else query


def check(query: str | bytes) -> Fault | None:
    """The fault of the text of a query, with byte (from 0), line and column (from 1), reason and hint; None where it has none. Raises
    `NotFound` where there is no program."""
    text = _bytes(query)
    status, _, report = process.asked(["check", process.Process.QUERY], text)
    if status == 2:
        return faults.fault(text, report) or Fault(report, 0)
    process.raise_for(status, "the query")
    return None


def _names(names: Names) -> list[str]:
    several = [names] if isinstance(names, (str, os.PathLike)) else names
    return [os.fspath(name) for name in several]


def _sources(query: str | bytes, archives: Names) -> Iterator[tuple[bytes, Archive, Archive]]:
    """The bytes of a query with each archive, as it is named and as it can be read several times. Raises `Fault` of the query."""
    text = _bytes(query)
    fault = check(text)
    if fault is not None:
        raise fault
    for archive in all_archives(_names(archives)):
        if isinstance(archive, Error):
            raise archive
        with tempfile.NamedTemporaryFile() as room:
            yield text, archive, origins.kept(archive, room)


def found(query: str | bytes, archives: Names) -> Iterator[Found]:
    """The games that a query finds in one or several archives, packed or not, or in those of a folder; `-` is standard input.
    Without `sort` in the query they come while an archive is still read. Faulty games are passed over. Raises `Fault` of the query,
    `NotFound`, `Unreadable`, and `Stopped`."""
    for text, archive, source in _sources(query, archives):
        for number, game in zip(origins.numbers(source, text), origins.games(source, text)):
            yield Found(archive.name, number, game)


@dataclass(frozen=True)
class Hit:
    """A position at which a query matches: the name of its archive; the number of its game there, from 1, faulty games counted; how many
    moves from the start it is, null moves included; the move that led there (SAN and UCI, empty at the start); the position as FEN; how
    many of the moves to there begin a variation; its comments; and the tags of its game."""

    archive: str
    game_number: int
    ply: int
    san: str
    uci: str
    fen: str
    depth: int
    comments: str
    tags: dict[str, str]


def search(query: str | bytes, archives: Names) -> Iterator[Hit]:
    """The positions at which a query matches, game by game, as `found` gives the games and with what it raises. The query's own
    `matchstring` counts for nothing."""
    mark = "mark-" + secrets.token_hex(8)
    for text, archive, source in _sources(query, archives):
        marked = queries.without_marks(text, mark=queries.text(mark).encode())
        for number, game in zip(origins.numbers(source, text), _marked(source, marked, mark), strict=True):
            for row in game:
                yield Hit(archive.name, number, row.ply, row.san, row.uci, row.fen, row.depth, row.comments, row.tags)


def _marked(archive: Archive, query: bytes, mark: str) -> Iterator[list[rows.Position]]:
    """The marked positions of each game that a query finds: pgnjson reads what cqlpgn writes."""
    words = ["run", process.Process.QUERY, STANDARD_INPUT]
    with origins.start(archive, words, query, err=subprocess.DEVNULL) as run:
        with Reader(None, archive.name, mark, subprocess.DEVNULL, stdin=run.out) as reader:
            run.out.close()
            for game in reader:
                yield list(rows.positions(game, mark))
        process.raise_for(run.finish(), shown(archive.name))
