"""An archive is written with its faulty games mended, all other bytes as they are."""

from __future__ import annotations

import os
import subprocess
from collections.abc import Callable, Container, Iterator
from contextlib import ExitStack
from dataclasses import dataclass
from typing import IO, Protocol

from .. import places
from ..archives import BLOCK, Archive
from ..errors import Error
from ..files import STANDARD_INPUT, shown
from ..process import FaultyGame, Process, raise_for, read_line
from . import asking
from .game import PARAGRAPH, Left, mended
from .text import Change

# a query that no position meets, so that nothing is written but the report
NOTHING = b"cql() ply < 0"
LONG = 1 << 22  # a piece that is longer is looked at no further
SHORT = 1 << 16  # a comment without an end in a piece that is longer has the games after it read anew
MOST_TURNS = 1000  # how often an archive is read anew after a comment that was not closed
SHOWN = 120  # bytes from a fault on that is left


@dataclass(frozen=True)
class Told:
    """What is told of a game: its number in the archive, the byte there, what stood there, and the change or the fault that is left."""

    game: int
    byte: int
    old: bytes
    said: Change | Left


class Writer(Protocol):
    """Where the bytes of the archive go, in their order."""

    def same(self, data: bytes) -> None:
        """Bytes that stay as they are."""
        ...

    def changed(self, old: bytes, new: bytes) -> None:
        """Bytes in whose place others come."""
        ...


@dataclass
class Sums:
    """How many games were faulty, of how many of them no fault is left, and how much was changed."""

    faulty: int = 0
    mended: int = 0
    changes: int = 0

    def __str__(self) -> str:
        return f"faulty {self.faulty} mended {self.mended} left {self.faulty - self.mended} changes {self.changes}"


class Mender:
    """The work on one archive: what it has goes to the writer, and each change and each fault that is left is told."""

    def __init__(self, archive: Archive, kinds: Container[str], writer: Writer, tell: Callable[[Told], None]) -> None:
        self._archive, self._kinds, self._writer, self._tell = archive, kinds, writer, tell
        self.sums = Sums()
        self._written = 0

    def run(self) -> Sums:
        """Writes the archive. Raises what reading and writing raise."""
        with places.in_file(self._archive) as file:
            begin: int | None = 0
            number = turns = 0
            while begin is not None:
                begin, number = self._turn(file, begin, number, turns < MOST_TURNS)
                turns += 1
            self._copy(file, None)
        return self.sums

    def _turn(self, file: IO[bytes], begin: int, known: int, may_part: bool) -> tuple[int | None, int]:
        """Mends the archive from a byte on. Gives, where a comment without an end took the games after it, the byte from which these are
        to be read, and the number of the game that they were."""
        with ExitStack() as stack:
            pieces: Iterator[tuple[int, int, int]] | None = None
            for fault in self._faults(file, begin, stack):
                if pieces is None:
                    pieces = stack.enter_context(places.games(file, self._archive.name, begin))
                place, length = next(((place, length) for place, length, game in pieces if game == fault.game), (-1, 0))
                if place < 0:
                    raise Error(f"{shown(self._archive.name)}: was changed meanwhile")
                number = known or fault.game
                self.sums.faulty += 1
                if length > LONG or length > SHORT and fault.reason == "unclosed comment":
                    return self._first_part(file, place, number, may_part)
                self._mend(file, place, os.pread(file.fileno(), length, place), number)
        return None, 0

    def _faults(self, file: IO[bytes], begin: int, stack: ExitStack) -> Iterator[FaultyGame]:
        words, nowhere = ["run", Process.QUERY, STANDARD_INPUT], subprocess.DEVNULL
        asked = stack.enter_context(Process(words, NOTHING, blocks=places.blocks(file, begin), out=nowhere))
        for line in asked.report():
            said = read_line(line)
            if isinstance(said, FaultyGame):
                yield said
        raise_for(asked.finish(), shown(self._archive.name))

    def _copy(self, file: IO[bytes], end: int | None) -> None:
        """Writes what stays as it is, up to a byte or to the end."""
        while block := os.pread(file.fileno(), BLOCK if end is None else min(BLOCK, end - self._written), self._written):
            self._writer.same(block)
            self._written += len(block)

    def _first_part(self, file: IO[bytes], place: int, number: int, may_part: bool) -> tuple[int | None, int]:
        """Mends the first part of a piece that is long: what stands before the game after the one whose comment is not closed."""
        head = os.pread(file.fileno(), LONG, place)
        fault = next((one for one in asking.faults(head) if one.reason == "unclosed comment"), None)
        cut = PARAGRAPH.search(head, fault.byte) if fault is not None and may_part and "brackets" in self._kinds else None
        if cut is None:
            reason = fault.reason if fault is not None else "game too long"
            self._tell(Told(number, place, head[:SHOWN], Left(0, reason, "it is too long to be mended")))
            return None, 0
        self._mend(file, place, head[: cut.end()], number)
        return place + cut.end(), number

    def _mend(self, file: IO[bytes], place: int, old: bytes, number: int) -> None:
        self._copy(file, place)
        # a mark of order counts for nothing as the first bytes of an archive alone
        head = 3 if place == 0 and old[:3] == b"\xef\xbb\xbf" else 0
        done = mended(old[head:], self._kinds)
        place += head
        for change in done.changes:
            self._tell(Told(number, place + change.begin, old[head + change.begin : head + change.end], change))
        for left in done.left:
            self._tell(Told(number, place + left.byte, old[head + left.byte : head + left.byte + SHOWN], left))
        self.sums.changes += len(done.changes)
        self.sums.mended += not done.left
        if done.changes:
            self._writer.changed(old, old[:head] + done.bytes)
            self._written += len(old)
