"""Games as pgnjson reads them: tags, tree and marked positions. What is no game, or no legal move, does not come through it."""

from __future__ import annotations

import json
import os
import re
import subprocess
from collections.abc import Iterable, Iterator, Sequence
from dataclasses import dataclass, field
from functools import cached_property, lru_cache
from itertools import chain
from typing import IO, Any, NamedTuple

from .archives import Archive
from .errors import Error, Unreadable
from .files import STANDARD_INPUT, shown
from .process import Process, executable, raise_for

MARK = "CQL"
NODE, FEN = '{"parent":', '"fen":"'
PARENT = re.compile(r'\{"parent":(\d+)')
PLACE = re.compile(r'\{"parent":(\d+),"ply":(\d+)')
# a node up to what is said of it
HEAD = re.compile(r'\{"parent":(\d+),"ply":(\d+),"uci":"(\w+)","san":"([^"]+)",')
SHORT = 200  # letters of notes that are kept, since they may come again
MANY = re.compile(rb"query \d+ bytes \d+\r?\n")


class Node(NamedTuple):
    """A position of a game that a move led to. `number` counts from 1 in the order of the tree, and `parent` is the number of the position
    before it, 0 the start. `ply` counts moves from the start, `depth` those among them that begin a variation. `fen` is there where the
    position is marked."""

    number: int
    parent: int
    ply: int
    uci: str
    san: str
    nags: list[int]
    comments: list[str]
    fen: str | None
    depth: int

    @property
    def is_null(self) -> bool:
        """Whether no man moved."""
        return self.uci == "0000"


@dataclass(frozen=True)
class Game:
    """A game: its number in the file, from 1, faulty games counted, its tags in their order, the FEN of its start, its result, and what is
    said of the start."""

    number: int
    byte: int
    tags: dict[str, str]
    start: str
    result: str
    comments: list[str]
    is_start_marked: bool
    line: str = field(repr=False)
    at: int = field(repr=False)
    nags: list[int] = field(default_factory=list)

    @property
    def main_line(self) -> str:
        """The nodes of the main line as they stand in `line`, of which they are a first part."""
        line, at = self.line, self.at
        if not self._has_variations:
            return line[at:]
        for number, found in enumerate(PARENT.finditer(line, at)):
            if int(found[1]) != number:
                return line[at : found.start()]
        return line[at:]

    @property
    def plies(self) -> int:
        """How many moves the main line has, null moves included."""
        return self._place(self.line.rfind(NODE, self.at))[1] if not self._has_variations else self.main_line.count(NODE)

    @cached_property
    def _depths(self) -> list[int]:
        """How deep each position is in variations; the first child of a position is the next one."""
        depths = [0]
        for number, parent in enumerate(map(int, PARENT.findall(self.line, self.at)), 1):
            depths.append(depths[parent] + (parent != number - 1))
        return depths

    def _place(self, at: int) -> tuple[int, int]:
        """Parent and ply of the node at a byte of the line; those of the start where there is none."""
        found = PLACE.match(self.line, at) if at >= 0 else None
        return (int(found[1]), int(found[2])) if found else (-1, 0)

    @cached_property
    def _has_variations(self) -> bool:
        # all is one line where the last position came from the last but one, and is as many moves from the start as its number says
        last = self.line.rfind(NODE, self.at)
        parent, ply = self._place(last)
        before, _ = self._place(self.line.rfind(NODE, self.at, last))
        return last >= 0 and (parent != ply - 1 or before != parent - 1)

    def _node(self, number: int, said: dict[str, Any], depth: int) -> Node:
        nags, comments, fen = said.get("nags", []), said.get("comments", []), said.get("fen")
        return Node(number, said["parent"], said["ply"], said["uci"], said["san"], nags, comments, fen, depth)

    def nodes(self) -> list[Node]:
        """All positions but the start, in the order of the tree: after a move what was played after it, and then what was played in its
        place."""
        every = json.loads(self.line[self.at : self.line.rindex("}")])
        return [self._node(number, said, self._depths[number]) for number, said in enumerate(every, 1)]

    def marked(self) -> Iterator[Node]:
        """The marked positions but the start, in the order of the tree; the others are not read, as they may be many."""
        line, at, number, counted, has_variations = self.line, self.at, 0, self.at, self._has_variations
        # within a text of JSON each quote has a backslash before it, so these are fields
        while (at := line.find(FEN, at)) >= 0:
            begin, fen = line.rfind(NODE, 0, at), at + len(FEN)
            head = HEAD.match(line, begin)
            assert head is not None
            parent, ply, uci, san = head.groups()
            said = line[head.end() : at]
            nags, comments = _known_notes(said) if len(said) < SHORT else _notes(said)
            at, depth = line.index('"', fen), 0
            if has_variations:
                number += line.count(NODE, counted, begin + len(NODE))
                counted, depth = begin + len(NODE), self._depths[number]
            else:
                number = int(ply)
            yield Node(number, int(parent), int(ply), uci, san, [*nags], [*comments], line[fen:at], depth)


def _notes(said: str) -> tuple[tuple[int, ...], tuple[str, ...]]:
    """Glyphs and comments of a node, which stand between its move and its position."""
    read = json.loads("{" + said.rstrip(",") + "}")
    return tuple(read.get("nags", ())), tuple(read.get("comments", ()))


# most are the same mark
_known_notes = lru_cache(maxsize=256)(_notes)


def game_of(line: str) -> Game:
    """A game from a line of pgnjson."""
    at = line.index('"nodes":[') + len('"nodes":')
    head = json.loads(line[:at] + "[]}")
    tags = dict(head["tags"])
    return Game(
        head["game"],
        head["byte"],
        tags,
        head["start"],
        head["result"],
        head.get("comments", []),
        head.get("marked", False),
        line,
        at,
        head.get("nags", []),
    )


def _refuse_many(first: bytes, name: str) -> None:
    """Raises `Error` where a file begins as `cqlpgn many` writes it."""
    if MANY.match(first):
        raise Error(f"{shown(name)}: is what `cqlpgn many` writes; cqlpgn-split gives each of its queries a file", 5)


def read(archive: Archive, mark: str = MARK, err: int | IO[bytes] | None = subprocess.DEVNULL, options: Sequence[str] = ()) -> Reader:
    """The games of an archive, packed or not, with their marked positions: `with read(..) as reader: for game in reader: ..`. Raises
    `NotFound`, and `Error` of what `cqlpgn many` has written."""
    with archive.open() as file:
        if not archive.is_plain or not file.seekable():
            blocks = archive.blocks()
            first = next(blocks, b"")
            _refuse_many(first, archive.name)
            return Reader(chain([first], blocks), archive.name, mark, err, options)
        try:
            first = os.pread(file.fileno(), 100, 0)
        except OSError as fault:
            raise Unreadable(f"{shown(archive.name)}: could not be read to its end") from fault
        _refuse_many(first, archive.name)
        return Reader(None, archive.name, mark, err, options, file)


class Reader:
    """A run of pgnjson. Reading raises `Unreadable` and `Stopped` as the status says; `status` is 0, or 1 where games were refused."""

    def __init__(
        self,
        blocks: Iterable[bytes] | None,
        name: str,
        mark: str,
        err: int | IO[bytes] | None,
        options: Sequence[str] = (),
        stdin: IO[bytes] | None = None,
    ) -> None:
        self._name, self.status = name, 0
        words = [f"--mark={mark}", *options, STANDARD_INPUT]
        self.process = Process(words, blocks=blocks, err=err, program=executable("PGNJSON", "pgnjson"), stdin=stdin)

    def __iter__(self) -> Iterator[Game]:
        for line in self.lines():
            yield game_of(line.decode())

    def lines(self) -> Iterator[bytes]:
        """The games as pgnjson writes them, a line for each."""
        for line in self.process.out:
            if line.endswith(b"\n"):  # else it was ended within a line, as its status says
                yield line
        self.status = self.process.finish()
        raise_for(self.status, shown(self._name))

    def __enter__(self) -> Reader:
        return self

    def __exit__(self, *_words: object) -> None:
        self.process.__exit__(None, None, None)
