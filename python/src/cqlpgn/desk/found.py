"""What a run has found: the games in a file without a name, as the program wrote them, and where each one ends.

The file holds whole games alone, so that it can be read, shown and saved while the run goes on. In memory there are sixteen bytes for each
game, whatever its length."""

from __future__ import annotations

import contextlib
import os
import re
import tempfile
from array import array
from collections.abc import Callable, Iterator, Sequence
from typing import Any

from ..boards import UNKNOWN
from ..errors import Stopped

MOST_BYTES = 1 << 33
BLOCK = 1 << 18
MOST_LETTERS = 80
TAG = re.compile(rb'^\[(White|Black|Event|Date|Result) "([^"\\\n]*(?:\\.[^"\\\n]*)*)"\]', re.M)


class Full(Exception):
    """There is no place for more of what is found."""


class Room:
    """How much all runs together keep, on a disk: in a folder for temporary files that lie longer, as others may be memory."""

    def __init__(self, most: int = MOST_BYTES) -> None:
        self.left = most
        self.folder = "/var/tmp" if os.access("/var/tmp", os.W_OK) else None

    def take(self, count: int) -> None:
        """Takes room for so many bytes. Raises `Full` where there is not so much."""
        if count > self.left:
            raise Full("what was found by all pages together fills the place for it; close some of them")
        self.left -= count


def text_of(value: bytes) -> str:
    """The letters of a tag: UTF-8, or else Latin-1, as pgnjson has them."""
    plain = re.sub(rb"\\(.)", rb"\1", value) if b"\\" in value else value
    try:
        return plain.decode()
    except UnicodeDecodeError:
        return plain.decode("latin-1")


def shortened(text: str, most: int) -> str:
    """The text, or its first `most` letters and an ellipsis where it has more."""
    return text if len(text) <= most else text[:most] + "…"


def tags_of(game: bytes) -> dict[str, str]:
    """The tags of a game by which it is listed and filtered."""
    return {tag.decode(): text_of(value) for tag, value in TAG.findall(game, 0, game.find(b"\n\n"))}


def has_text(game: bytes, wanted: str) -> bool:
    """Whether the players, the event or the date contain a text, which is in lower case. Tags are nearly always plain ASCII; then their
    bytes show where there is no need to read them."""
    tags = game[: game.find(b"\n\n")]
    if tags.isascii() and b"\\" not in tags and wanted.encode("utf-8", "surrogatepass") not in tags.lower():
        return False
    return any(wanted in value.lower() for tag, value in tags_of(game).items() if tag != "Result")


class Found:
    """The games that one query has found. `mark` is the comment of the positions that match; without one nothing is counted."""

    def __init__(self, mark: bytes, room: Room) -> None:
        self.mark, self._room, self.folder = mark.decode("utf-8", "replace"), room, room.folder
        self._pattern = re.compile(rb"\{" + rb"\s+".join(map(re.escape, mark.split())) + rb"\}") if mark else None
        self._file = tempfile.TemporaryFile(buffering=0, dir=room.folder)
        # after each game: the bytes of the file, and the marked positions, so far
        self.ends, self.marks = array("Q", [0]), array("Q", [0])
        self._rest = bytearray()
        self._readers, self._is_dropped = 0, False
        # the first game of each archive
        self._archives: list[tuple[int, str]] = []

    def __len__(self) -> int:
        return len(self.ends) - 1

    def begin(self, archive: str) -> None:
        """What is taken from now on comes from this archive; a game that was not whole is dropped."""
        self._rest.clear()
        self._archives.append((len(self), archive))

    def archive_of(self, number: int) -> str:
        """The archive from which the game with this number, from 0, was taken."""
        return next((name for first, name in reversed(self._archives) if first <= number), "")

    def take(self, data: bytes) -> None:
        """Keeps what the program has written; a game is tags, an empty line, moves, an empty line, and has no other empty line. Games count
        once they are written. Raises `Full`, and `OSError` where the disk is full; nothing of these bytes is kept then."""
        self._rest += data
        begin, ends, marks = 0, array("Q"), array("Q")
        while (tags := self._rest.find(b"\n\n", begin)) >= 0 and (last := self._rest.find(b"\n\n", tags + 2)) >= 0:
            begin = last + 2
            ends.append(self.ends[-1] + begin)
            found = len(self._pattern.findall(self._rest, tags, last)) if self._pattern else 0
            marks.append((marks or self.marks)[-1] + found)
        try:
            self._write(bytes(self._rest[:begin]))
        except BaseException:
            self._rest.clear()
            raise
        self.ends.extend(ends)
        self.marks.extend(marks)
        del self._rest[:begin]

    def _write(self, games: bytes) -> None:
        """Writes games behind those that count."""
        self._room.take(len(games))
        written = 0
        try:
            while written < len(games):
                written += os.pwrite(self._file.fileno(), memoryview(games)[written:], self.ends[-1] + written)
        except BaseException:
            self._room.left += len(games)
            raise

    @contextlib.contextmanager
    def held(self) -> Iterator[None]:
        """Within the `with`, the games can be read even if the run is dropped meanwhile."""
        self._readers += 1
        try:
            yield
        finally:
            self._readers -= 1
            if self._is_dropped:
                self.close()

    def close(self) -> None:
        """Gives back the place that it takes, once nobody reads it any more."""
        self._is_dropped = True
        if not self._readers and not self._file.closed:
            self._room.left += self.ends[-1]
            self._file.close()

    def bytes_of(self, first: int, count: int) -> list[bytes]:
        """The games from the first one named, as many as there are up to the count."""
        first, last = max(0, min(first, len(self))), max(0, min(first + count, len(self)))
        begin = self.ends[first]
        data = os.pread(self._file.fileno(), self.ends[last] - begin, begin)
        return [data[self.ends[n] - begin : self.ends[n + 1] - begin] for n in range(first, last)]

    def origins(self, count: int) -> Iterator[tuple[int, str]]:
        """The first so many games, each by its number from 1, with its archive."""
        ends = [first for first, _ in self._archives[1:]] + [count]
        for (first, name), end in zip(self._archives, ends):
            for number in range(first, min(end, count)):
                yield number + 1, name

    def blocks(self, count: int) -> Iterator[bytes]:
        """The first so many games, in blocks. Raises `Stopped` where the file has become shorter."""
        at, end = 0, self.ends[count]
        while at < end:
            block = os.pread(self._file.fileno(), min(BLOCK, end - at), at)
            if not block:
                raise Stopped("what was found could not be read to its end")
            at += len(block)
            yield block

    def row(self, number: int) -> list[Any]:
        """What the list of games says of one: number, players, event and date, result, how many positions are marked, archive."""
        tags = {tag: "" if text in UNKNOWN else shortened(text, MOST_LETTERS) for tag, text in tags_of(self.bytes_of(number, 1)[0]).items()}
        where = ", ".join(filter(None, (tags.get("Event"), tags.get("Date", "").replace(".??", ""))))
        marks = self.marks[number + 1] - self.marks[number]
        return [number, tags.get("White", ""), tags.get("Black", ""), where, tags.get("Result", ""), marks, self.archive_of(number)]

    def with_text(self, text: str) -> Sequence[int]:
        """The numbers of the games that have a text in their players, event or date, whatever its capitals."""
        wanted, numbers = text.lower(), array("Q")
        for first in range(0, len(self), 1000):
            for number, game in enumerate(self.bytes_of(first, 1000), first):
                if has_text(game, wanted):
                    numbers.append(number)
        return numbers


class Parted:
    """What `cqlpgn many` writes, parted as it comes: a line with the number of a query and how many bytes its games have, and these."""

    LINE = re.compile(rb"query (\d+) bytes (\d+)\n")

    def __init__(self, takers: Sequence[Callable[[bytes], None]]) -> None:
        self._takers = takers
        self._head, self._query, self._left = bytearray(), 0, 0

    def take(self, data: bytes) -> None:
        """Hands each taker the games of its query, as far as these bytes have them."""
        at = 0
        while at < len(data):
            if self._left:
                piece = data[at : at + self._left]
                self._takers[self._query](piece)
                self._left -= len(piece)
                at += len(piece)
            else:
                end = data.find(b"\n", at) + 1 or len(data)
                self._head += data[at:end]
                at = end
                if said := self.LINE.fullmatch(self._head):
                    self._query, self._left = int(said[1]) - 1, int(said[2])
                    self._head.clear()
