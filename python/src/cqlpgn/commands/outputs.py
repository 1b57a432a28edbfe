"""Where the games of several archives go: standard output, a file, or a file for each query; and the rows of where they came from."""

from __future__ import annotations

import argparse
import csv
import hashlib
import io
import os
import stat
from collections.abc import Iterator, Sequence
from typing import IO, BinaryIO, Protocol, Union

from .. import archives, origins, process, rows
from ..errors import Stopped
from ..files import Replacing, shown, standard_output
from .ends import tell
from .split import split

# the digest of the games is put in its place when they are all there
UNKNOWN = "sha256:" + 64 * "0"
Number = Union[int, None]


class Given(Protocol):
    """What an archive gave: its name and status, the numbers of its games there, and a file with them, where they have one."""

    name: str
    status: int
    numbers: list[int]
    out: IO[bytes] | None


class Whole:
    """A file in which whole parts follow one another: what is written after the last of them can be taken back. A device or a pipe keeps
    all that it takes."""

    def __init__(self, file: BinaryIO) -> None:
        self.file, self.end = file, 0
        self._number = file.fileno()
        self.is_regular = stat.S_ISREG(os.fstat(self._number).st_mode)

    def write(self, data: bytes) -> None:
        """Writes at the end, past every buffer. Raises `OSError`."""
        rest = memoryview(data)
        while rest:
            rest = rest[os.write(self._number, rest) :]

    def keep(self) -> None:
        """All that is written is whole."""
        self.end = os.lseek(self._number, 0, os.SEEK_CUR) if self.is_regular else 0

    def cut(self, end: int) -> None:
        """What is written after a byte is taken back."""
        if self.is_regular:
            os.ftruncate(self._number, end)
            os.lseek(self._number, end, os.SEEK_SET)
            self.end = end

    def patch(self, data: bytes, at: int) -> None:
        """Other bytes in the place of those that are there. Raises `OSError`."""
        os.pwrite(self._number, data, at)

    def blocks(self, begin: int) -> Iterator[bytes]:
        """The file from a byte on."""
        while block := os.pread(self._number, archives.BLOCK, begin):
            yield block
            begin += len(block)

    def games(self) -> int:
        """How many whole games are written after the end; what follows the last of them is taken back."""
        end, count = self.end, 0
        for unit in origins.units_of(self.blocks(end)):
            end, count = end + len(unit), count + 1
        self.cut(end)
        return count


class Rows:
    """The rows `found,archive,game,of`: the last column has the digest of the file of the games, in the first row; where there is no such
    file there is no such column."""

    def __init__(self, to: Whole | None) -> None:
        self._to, self._found, self._place = to, 0, 0
        self._columns = rows.Index.COLUMNS if to is not None else rows.Index.COLUMNS[:3]
        self._write([self._columns])

    def add(self, name: str, numbers: Sequence[Number]) -> None:
        """Rows of an archive's games, whose numbers there are None where they are not known. Raises `OSError`; then none is written."""
        begin, has_place = self._to.end if self._to is not None else 0, self._found == 0
        made = [(self._found + place, rows.cell(name), number, "") for place, number in enumerate(numbers, 1)]
        if made and has_place and self._to is not None:
            made[0] = (*made[0][:3], UNKNOWN)
        try:
            first = self._write(row[: len(self._columns)] for row in made)
        except OSError:
            if self._to is not None:
                self._to.cut(begin)
            raise
        self._found += len(made)
        if made and has_place:
            self._place = begin + first

    def _write(self, made: Iterator[Sequence[object]] | list[Sequence[str]]) -> int:
        """Writes rows; the length of the first one."""
        text, first = io.StringIO(), 0
        writer = csv.writer(text, quoting=csv.QUOTE_ALL)
        for row in made:
            writer.writerow(row)
            first = first or len(text.getvalue().encode("utf-8", "surrogateescape"))
        data = text.getvalue().encode("utf-8", "surrogateescape")
        if self._to is not None:
            self._to.write(data)
            self._to.keep()
        else:
            to = standard_output()
            to.write(data)
            to.flush()
        return first

    def finish(self, games: Whole) -> None:
        """The digest of the games takes its place. Raises `OSError`."""
        if self._to is None or not self._found or not self._to.is_regular or not games.is_regular:
            return
        made = hashlib.sha256()
        for block in games.blocks(0):
            made.update(block)
        # the row ends with the last sign of the digest, a quote and a line end
        self._to.patch(made.hexdigest().encode(), self._place - len('"\r\n') - 64)


class Outputs:
    """Where the games go: standard output, a file, a file for each query, or nowhere; and the rows of where they came from."""

    def __init__(self, flags: argparse.Namespace, files: Replacing, queries: int) -> None:
        self._name = flags.out
        self._is_partial = flags.keep_partial
        self._to: list[BinaryIO] = []
        self.nowhere = flags.count or flags.quiet
        self._games: Whole | None = None
        if flags.out is not None and flags.many is not None:
            self._to = [files.open(f"{flags.out}{number:02}.pgn") for number in range(1, queries + 1)]
        elif flags.out is not None:
            self._games = Whole(files.open(flags.out))
        self._rows: Rows | None = None
        if flags.number:
            self._rows = Rows(Whole(files.open(index_name(flags.out))) if flags.out is not None else None)

    @property
    def direct(self) -> BinaryIO | None:
        """The file of -o, where there is one."""
        return self._games.file if self._games is not None else None

    def take(self, answer: Given) -> None:
        """Hands on what an archive gave, where it is not written yet; of a file that takes no more, whole games alone are kept, and
        `status` is 6."""
        begin = self._games.end if self._games is not None else 0
        try:
            numbers = self._settled(answer)
            if self._rows is not None:
                self._rows.add(answer.name, numbers)
        except OSError as fault:
            if self._games is None:
                raise Stopped(process.in_words(6) or "", 6) from fault
            self._games.cut(begin)
            self._fail(answer)

    def _settled(self, answer: Given) -> list[Number]:
        """Writes the games; the numbers of those that are written."""
        was = answer.status
        if answer.out is not None and not self.nowhere and was not in (2, 3, 4):
            answer.out.seek(0)
            if self._to and was in (0, 1):
                split(answer.out, self._to)
            elif not self._to:
                self._copy(answer, answer.out)
        known: list[Number] = [*answer.numbers]
        if self._games is None:
            return known
        if answer.status in (0, 1):
            self._games.keep()
            return known
        if not self._is_partial or not self._games.is_regular:
            return []
        count = self._games.games()
        return [*known[:count], *[None] * (count - len(known))]

    def _copy(self, answer: Given, source: IO[bytes]) -> None:
        if self._games is None:
            copy(source, standard_output())
            return
        try:
            while block := source.read(archives.BLOCK):
                self._games.write(block)
        except OSError:
            self._fail(answer)

    @staticmethod
    def _fail(answer: Given) -> None:
        if answer.status != 6:
            tell(f"{answer.name}: {process.in_words(6)}")
            answer.status = 6

    def finish(self) -> None:
        """The rows are told the digest of the games, which are all there. Raises `Stopped` (status 6)."""
        if self._rows is None or self._games is None:
            return
        try:
            self._rows.finish(self._games)
        except OSError as fault:
            raise Stopped(f"{shown(index_name(self._name))}: {fault.strerror}", 6) from fault

    def drop_index(self) -> None:
        """Removes the rows that stand beside a file whose games are others now."""
        if self._games is None or self._rows is not None or not self._games.is_regular:
            return
        name = index_name(self._name)
        if is_index(name):
            try:
                os.remove(name)
            except OSError as fault:
                raise Stopped(f"{shown(name)}: {fault.strerror}", 6) from fault
            tell(f"{shown(name)}: was of other games, and is removed")


def is_index(name: str) -> bool:
    """Whether a file has rows that `--number` has written."""
    try:
        if not stat.S_ISREG(os.stat(name).st_mode):
            return False
        with open(name, encoding="utf-8", errors="backslashreplace", newline="") as file:
            head: list[str] = next(csv.reader([file.readline(100)]), [])
    except (OSError, ValueError, csv.Error):
        return False
    return head in ([*rows.Index.COLUMNS], [*rows.Index.COLUMNS[:3]])


def index_name(out: str) -> str:
    """The file beside the games that says where they came from."""
    return out + ".csv"


def copy(source: IO[bytes], to: BinaryIO) -> None:
    """Copies a file. Raises `Stopped` where the other one takes nothing."""
    try:
        while block := source.read(archives.BLOCK):
            to.write(block)
        to.flush()
    except OSError as fault:
        raise Stopped(process.in_words(6) or "", 6) from fault
