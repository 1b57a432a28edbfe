"""Which games of an archive are wanted: by their numbers, by conditions, those that are refused, and those that were there before."""

from __future__ import annotations

import csv
import json
import random
import re
import subprocess
import tempfile
from collections.abc import Callable, Iterable, Iterator, Mapping, Sequence
from hashlib import blake2b
from itertools import chain, count

from . import games, process
from .archives import Archive
from .conditions import Condition
from .errors import Fault, Unreadable
from .facts import Facts
from .files import shown
from .games import Game
from .origins import start
from .process import Counts, FaultyGame, Process, raise_for
from .rows import text_of

# a query that no position meets: what is asked for is the report
NOTHING = b"cql() wtm btm"
UCI = re.compile(r'"uci":"(\w+)"')
RANGE = re.compile(r"(\d{1,15})(?:-(\d{1,15}))?", re.ASCII)
HEAD = re.compile(r'(?:.*,)?("?)game\1(?:,.*)?')
NUMBERS = re.compile(r"\d{1,15}(?:-\d{1,15})?(?:,\d{1,15}(?:-\d{1,15})?)*", re.ASCII)
REPORT = re.compile(r"(?:.*: )?(?:game (\d{1,15}) byte \d+: .*|games \d+ matched \d+ refused \d+)", re.ASCII)
# What makes two games the same, by the word of `--by`.
BY = {"moves": "the same start and moves of the main line", "players": "the same White, Black and Date too"}

# Games of an archive as it is told, or None where it is not named: the first number and the last.
Places = tuple[str | None, int, int]
Range = tuple[int, int]
Chosen = Callable[[Archive], Iterator[int]]
Telling = Callable[[str], object]


def of_word(word: str) -> Iterator[Range]:
    """The numbers of a word as 3,5,7-9. Raises `ValueError`."""
    for piece in word.split(","):
        found = RANGE.fullmatch(piece)
        if found is None:
            raise ValueError(piece)
        first, last = int(found[1]), int(found[2] or found[1])
        if not 1 <= first <= last:
            raise ValueError(piece)
        yield first, last


def places(lines: Iterable[str], name: str) -> Iterator[Places]:
    """The numbers in a file: words as 3 or 7-9 with white space or commas between them, rows of CSV or lines of JSON with a column `game`,
    as of `cqlpgn-rows`, or a report of cqlpgn, whose faulty games they are then. Raises `Unreadable`."""
    rest, number, rows = iter(lines), 0, None
    try:
        for number, line in enumerate(rest, 1):
            if number == 1 and HEAD.fullmatch(line.rstrip("\r\n")):
                rows = csv.DictReader(chain([line], rest))
                for row in rows:
                    yield from _of_row(row)
                return
            yield from _of_line(line)
    except (ValueError, KeyError, TypeError, RecursionError, csv.Error) as fault:
        at = number if rows is None else rows.line_num
        raise Unreadable(f"{shown(name)}: line {at}: is no number of a game, and no row of one") from fault


def _of_line(line: str) -> Iterator[Places]:
    if line.startswith("{"):
        yield from _of_row(json.loads(line))
    elif report := REPORT.fullmatch(line.rstrip("\r\n")):
        if report[1]:
            yield None, int(report[1]), int(report[1])
    else:
        for word in line.split():
            for first, last in of_word(word.strip(",")):
                yield None, first, last


def _of_row(row: Mapping[str, object]) -> Iterator[Places]:
    number, archive = row["game"], row.get("archive")
    if number in (None, ""):
        return
    if not RANGE.fullmatch(str(number)) or int(str(number)) < 1:
        raise ValueError(number)
    name = text_of(str(archive)) if archive else None
    yield name, int(str(number)), int(str(number))


def merged(ranges: Iterable[Range]) -> list[Range]:
    """The same numbers, ascending and each once."""
    found: list[Range] = []
    for first, last in sorted(ranges):
        if found and first <= found[-1][1] + 1:
            found[-1] = found[-1][0], max(last, found[-1][1])
        else:
            found.append((first, last))
    return found


def numbers_of(ranges: Iterable[Range]) -> Iterator[int]:
    """The numbers one by one."""
    for first, last in ranges:
        yield from range(first, last + 1)


def faulty(archive: Archive, told: Telling) -> Iterator[int]:
    """The numbers of the games that are refused, each of which is told as `cqlpgn` tells it."""
    with start(archive, ["run", Process.QUERY, "-"], NOTHING, out=subprocess.DEVNULL) as asked:
        for line in asked.report():
            said = process.read_line(line)
            if isinstance(said, FaultyGame):
                told(line)
                yield said.game
            elif not isinstance(said, Counts):
                told(line)
        raise_for(asked.finish(), shown(archive.name))


def _key(game: Game, by: str) -> bytes | None:
    """What a game has in common with those that are the same; None where it has no moves to tell it by."""
    moves = UCI.findall(game.main_line)
    if by == "moves" and not moves and "FEN" not in game.tags:
        return None
    said = [game.start, " ".join(moves), *(game.tags.get(tag, "") for tag in ("White", "Black", "Date") if by == "players")]
    return blake2b(json.dumps(said).encode(), digest_size=16).digest()


class Asking:
    """What is asked of each game that the reader reads: a condition, and whether the same game was there before, in any archive that was
    asked. Games that are refused are not asked, and are counted."""

    def __init__(self, condition: Condition | None, by: str | None, variations: bool, options: Sequence[str]) -> None:
        self._condition, self._by, self._variations, self._options = condition, by, variations, options
        self._seen: set[bytes] = set()
        self.unseen_tags = set(condition.tags) if condition else set()
        self.games, self.refused = 0, 0

    def __call__(self, archive: Archive) -> Iterator[int]:
        """The numbers of the games that meet all of it. Raises `Fault` of a pattern that takes too long, and what `games.read` does."""
        with tempfile.TemporaryFile() as report, games.read(archive, err=report, options=self._options) as reader:
            for line in reader.lines():
                facts = Facts(line, self._variations)
                self.games += 1
                if self.unseen_tags:
                    self.unseen_tags.difference_update(facts.tags)
                if self._holds(facts, archive):
                    yield facts.number
            report.seek(0)
            self.refused += sum(line.startswith(b"game ") for line in report)

    def _holds(self, facts: Facts, archive: Archive) -> bool:
        try:
            if self._condition is not None and not self._condition.holds(facts):
                return False
        except Fault as fault:
            fault.reason += f" at game {facts.number} of {shown(archive.name)}"
            raise
        if self._by is None or (key := _key(facts.game, self._by)) is None:
            return self._by is None
        is_known = key in self._seen
        self._seen.add(key)
        return is_known


def every(_archive: Archive) -> Iterator[int]:
    """All numbers."""
    return count(1)


class Sample:
    """So many of the places that are given, each as likely as another, and the same ones for a seed."""

    def __init__(self, size: int, seed: int) -> None:
        self._size, self._random, self._given = size, random.Random(seed), 0
        self.kept: list[tuple[int, int]] = []

    def give(self, place: tuple[int, int]) -> None:
        """One more place."""
        self._given += 1
        if len(self.kept) < self._size:
            self.kept.append(place)
            return
        at = int(self._random.random() * self._given)
        if at < self._size:
            self.kept[at] = place
