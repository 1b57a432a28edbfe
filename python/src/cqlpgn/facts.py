"""What conditions ask of a game: its tags, result and length, and what is said of its moves, as it stands in a line of pgnjson.

Within a text of JSON each quote has a backslash before it, so the names of fields are found as they are written.
"""

from __future__ import annotations

import json
import re
from collections.abc import Callable
from functools import lru_cache
from math import inf

from .games import NODE, Game, game_of

NODES = b'"nodes":['
PLY = re.compile(r'"ply":(\d+)', re.ASCII)
# within so many letters a node has its ply
WITHIN = 40
CLOCK = re.compile(r"\[%clk (\d{1,4}):(\d{1,2}):(\d{1,2}(?:\.\d{1,6})?)\]", re.ASCII)
EVALUATION = re.compile(r"\[%eval (?:#([+-]?\d{1,4})|([+-]?\d{0,6}\.?\d{1,6}))(?:,\d{1,4})?\]", re.ASCII)
GLYPHS = re.compile(r'"nags":\[([\d,]+)\]', re.ASCII)
COMMENTS = re.compile(r'"comments":\[((?:"[^"\\]*(?:\\.[^"\\]*)*",?)+)\]')
NUMBER = re.compile(r"\s*([+-]?\d{1,300}(?:\.\d{1,300})?)\s*", re.ASCII)
DATE = re.compile(r"(\d{4})(?:[./-]([\d?]{1,2})(?:[./-]([\d?]{1,2}))?)?", re.ASCII)
decode = json.JSONDecoder().raw_decode


def seconds(hours: str, minutes: str, rest: str) -> float:
    """What a clock shows, in seconds."""
    return int(hours) * 3600 + int(minutes) * 60 + float(rest)


def pawns(mate: str, number: str) -> float:
    """An evaluation in pawns; a mate is beyond every number."""
    if mate:
        return -inf if mate.startswith("-") else inf
    return float(number)


@lru_cache(maxsize=4096)
def number_of(value: str) -> float | None:
    """The number that a tag has; None where it has none."""
    found = NUMBER.fullmatch(value)
    return float(found[1]) if found else None


@lru_cache(maxsize=4096)
def date_of(value: str, parts: int) -> tuple[int, ...] | None:
    """Year, or year and month, or the day too, of a tag's date; None where it has a `?` there, or is no date."""
    found = DATE.fullmatch(value)
    said = found.groups()[:parts] if found else ()
    return tuple(map(int, said)) if said and all(part and part.isdigit() for part in said) else None


class Facts:
    """What is known of a game, by its line of pgnjson. With `variations` the moves of each line are asked, else of the main line."""

    __slots__ = ("number", "tags", "result", "line", "_variations", "_game", "_nodes", "_known")

    def __init__(self, line: bytes, variations: bool) -> None:
        head = decode(line[: line.index(NODES)].decode() + '"":0}')[0]
        self.number: int = head["game"]
        self.tags: dict[str, str] = dict(head["tags"])
        self.result: str = head["result"]
        self.line, self._variations = line, variations
        self._game: Game | None = None
        self._nodes: dict[str | None, str] = {}
        self._known: dict[tuple[re.Pattern[str], str | None], list[float]] = {}

    @property
    def game(self) -> Game:
        """All of the game."""
        if self._game is None:
            self._game = game_of(self.line.decode())
        return self._game

    @property
    def plies(self) -> int:
        """How many moves the main line has."""
        return self.game.plies

    def nodes(self, side: str | None) -> str:
        """The nodes that are asked, those of a side's moves or all, as they stand in the line."""
        known = self._nodes.get(side)
        if known is None:
            game = self.game
            known = game.line[game.at :] if self._variations else game.main_line
            if side is not None:
                # White's moves are those of odd numbers where White begins
                odd = (side == "white") == (game.start.split(" ")[1] == "w")
                nodes = known.split(NODE)[1:]
                if self._variations:
                    known = "".join(node for node in nodes if int(PLY.findall(node, 0, WITHIN)[0]) % 2 == odd)
                else:
                    known = "".join(nodes[1 - odd :: 2])
            self._nodes[side] = known
        return known

    def _measured(self, pattern: re.Pattern[str], sign: bytes, side: str | None, value_of: Callable[..., float]) -> list[float]:
        if sign not in self.line:
            return []
        known = self._known.get((pattern, side))
        if known is None:
            before = self.game.comments if side is None else []
            said = [found for text in (*before, self.nodes(side)) for found in pattern.findall(text)]
            known = self._known[pattern, side] = [value_of(*found) for found in said]
        return known

    def clocks(self, side: str | None) -> list[float]:
        """What clocks show after moves, in seconds."""
        return self._measured(CLOCK, b"[%clk ", side, seconds)

    def evaluations(self, side: str | None) -> list[float]:
        """Evaluations of moves, in pawns."""
        return self._measured(EVALUATION, b"[%eval ", side, pawns)

    def glyphs(self, side: str | None) -> list[int]:
        """The glyphs of moves, and of the start where all are asked, by their numbers."""
        if b'"nags":[' not in self.line:
            return []
        found = [int(word) for words in GLYPHS.findall(self.nodes(side)) for word in words.split(",")]
        return found if side else self.game.nags + found

    def comments(self, side: str | None) -> list[str]:
        """The comments of moves, and of the start where all are asked."""
        if b'"comments":[' not in self.line:
            return []
        found: list[str] = json.loads("[" + ",".join(COMMENTS.findall(self.nodes(side))) + "]")
        return found if side else self.game.comments + found
