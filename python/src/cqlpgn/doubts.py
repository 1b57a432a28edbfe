"""Games that are read, and may mean something else than was meant: a tag given twice, neither tags nor moves, null moves alone, a line of
another game's tags within."""

from __future__ import annotations

import os
import re
from collections.abc import Iterator
from dataclasses import dataclass

from . import places
from .archives import Archive

MOST = 1 << 24  # bytes of a game that are looked at
NAMES = re.compile(rb'\[\s*(\w+)\s*"')
EVENT = re.compile(rb"^\[Event ", re.M)
TOKEN = re.compile(
    rb'(?P<note>\{[^}]*(?:\}|\Z)|;[^\n]*|^%[^\n]*)|"(?:[^"\\\n]|\\[^\n])*"?|'
    rb'(?P<tag>\[\s*(?P<name>[A-Za-z0-9][\w+#=:/-]*)\s*"(?:[^"\\\n]|\\[^\n])*"\s*\])'
    rb"|(?P<null>--|Z0(?![\w+#=:/-]))|(?P<word>[A-Za-z0-9][\w+#=:/-]*)",
    re.M,
)
NUMBER = re.compile(rb"\d+|1-0|0-1|1/2-1/2")


@dataclass(frozen=True)
class Doubt:
    """A game that may not be what was meant: its number, the byte in the archive, and what is odd about it."""

    game: int
    byte: int
    said: str


def _is_plain(game: bytes) -> bool:
    """Whether a look shows that nothing is odd: tags of different names, the one `[Event ` at the beginning, no null move."""
    names = NAMES.findall(game)
    head = game.lstrip()
    return (
        len(set(names)) == len(names) > 0
        and head.startswith(b"[")
        and (game.count(b"[Event ") == head.startswith(b"[Event "))
        and b"--" not in game
        and b"Z0" not in game
    )


def of_game(game: bytes) -> Iterator[tuple[int, str]]:
    """What is odd about a game, each with its byte in it."""
    if _is_plain(game):
        return
    names: set[bytes] = set()
    nulls = moves = 0
    first = -1
    in_tags = {match.start("tag") for match in TOKEN.finditer(game) if match["tag"]}
    for token in TOKEN.finditer(game):
        first = token.start() if first < 0 and not token["note"] else first
        if token["tag"]:
            name = token["name"]
            if name in names:
                yield token.start(), f"the tag {name.decode('ascii', 'replace')} is given twice; the first one counts"
            names.add(name)
        elif token["null"]:
            nulls += 1
        elif token["word"] and not NUMBER.fullmatch(token["word"]):
            moves += 1
    for event in EVENT.finditer(game):
        if event.start() not in in_tags:
            yield event.start(), "a line begins with `[Event ` within a comment, a text or the moves: the game may have taken the next one"
    if nulls and not moves:
        yield first, "it has null moves alone, as a line of dashes is read"
    elif not names and not moves:
        yield max(first, len(game) - len(game.lstrip())), "it has neither tags nor moves"


def of_archive(archive: Archive) -> Iterator[Doubt]:
    """The doubtful games of an archive, in its order. Raises what reading raises."""
    with places.in_file(archive) as file, places.games(file, archive.name) as found:
        for begin, length, number in found:
            for byte, said in of_game(os.pread(file.fileno(), min(length, MOST), begin)):
                yield Doubt(number, begin + byte, said)
