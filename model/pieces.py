"""Where an archive is cut into pieces: what `pgnpieces` writes."""

from __future__ import annotations

from typing import List, Tuple

from . import pgn


def text_of(lines: List[Tuple[int, int, int, int]]) -> bytes:
    """a table as it is written: of each piece its number, where it begins, its bytes, its first game and how many it has"""
    return b"".join(b"%d %d %d %d %d\n" % (number, *line) for number, line in enumerate(lines, 1))


def table(archive: bytes, least: int) -> bytes:
    """the table of an archive, from the list of all its games"""
    lines: List[Tuple[int, int, int, int]] = []
    begin, first, games = 0, 1, 0
    for _, end, _ in pgn.cut(archive):
        games += 1
        if end - begin >= least:
            lines.append((begin, end - begin, first, games))
            begin, first, games = end, first + games, 0
    if begin < len(archive):
        lines.append((begin, len(archive) - begin, first, games))
    return text_of(lines)
