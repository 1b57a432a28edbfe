"""Games as they stand in an archive: the bytes of each, as pgnpieces cuts them, and how they are put together again.

Where games that did not follow one another are put together, the first might run into the second, as one without a result does. `Joint`
puts a line end, or a line end and `*`, between them there.
"""

from __future__ import annotations

import fcntl
import os
import re
import subprocess
import threading
from collections import deque
from collections.abc import Callable, Iterable, Iterator
from contextlib import ExitStack
from io import BufferedReader
from types import TracebackType
from typing import NamedTuple

from .archives import Archive
from .errors import Error, Unreadable
from .files import STANDARD_INPUT, shown
from .process import Process, executable, raise_for

ROW = re.compile(rb"(\d{1,15}) (\d{1,15}) (\d{1,15}) (\d{1,15}) ([01])\n")
# what stands in a pipe of pgnpieces, so that no more of a packed archive is held than what some thousand games have
FEW = 1 << 16
BYTE_ORDER_MARK = b"\xef\xbb\xbf"
# a tag that begins a line
TAG_LINE = re.compile(rb"(?:[\t-\r ]*\n)?\[")
# what is passed over where variations are looked for, and their signs
QUIET = re.compile(rb'\{[^}]*\}?|;[^\n]*|(?:(?<=\n)|\A)%[^\n]*|"(?:[^"\\\n]|\\[^\n])*|[()]')
BETWEEN = (b"", b"\n", b"\n*", b"\n*\n")


class Piece(NamedTuple):
    """The place of a game: its number in the archive, from 1, its first byte, how many it has, and whether the archive ends with it."""

    number: int
    begin: int
    length: int
    is_last: bool


class _Window:
    """The blocks of an archive on their way to pgnpieces, as long as the game is not told that has them."""

    def __init__(self, blocks: Iterable[bytes]) -> None:
        self._blocks, self._lock = blocks, threading.Lock()
        self._held: deque[tuple[int, bytes]] = deque()

    def __iter__(self) -> Iterator[bytes]:
        begin = 0
        for block in self._blocks:
            with self._lock:
                self._held.append((begin, block))
            begin += len(block)
            yield block

    def forget(self, begin: int) -> None:
        """Drops what stands before a byte."""
        with self._lock:
            while self._held and self._held[0][0] + len(self._held[0][1]) <= begin:
                self._held.popleft()

    def text(self, begin: int, length: int) -> bytes:
        """So many bytes from a byte on, which are all held."""
        found = bytearray()
        with self._lock:
            for at, block in self._held:
                if at >= begin + length:
                    break
                found += block[max(0, begin - at) : begin + length - at]
        return bytes(found)


class Cut:
    """The games of an archive one by one: `with Cut(archive) as cut: for piece in cut: cut.text(piece)`; the text is that of the piece
    that was given last. A plain file is read where a game is wanted, anything else is a stream. Raises `NotFound`, and the exception of a
    status from 2 on; where that is so of what comes last, the last game is not given."""

    def __init__(self, archive: Archive) -> None:
        self._archive, self._room = archive, ExitStack()
        self._file: BufferedReader | None = None
        self._window: _Window | None = None
        self._base = 0

    def __enter__(self) -> Cut:
        try:
            self._begin()
        except BaseException:
            self._room.close()
            raise
        return self

    def __exit__(self, _kind: type[BaseException] | None, _value: BaseException | None, _trace: TracebackType | None) -> None:
        self._room.close()

    def _begin(self) -> None:
        words, program = [STANDARD_INPUT, "1"], executable("PGNPIECES", "pgnpieces")
        if self._archive.is_plain:
            file = self._room.enter_context(self._archive.open())
            if file.seekable():
                self._file, self._base = file, os.lseek(file.fileno(), 0, os.SEEK_CUR)
                self._process = self._room.enter_context(Process(words, program=program, stdin=file, err=subprocess.DEVNULL))
                return
        self._archive.look()
        self._window = _Window(self._archive.blocks())
        self._process = self._room.enter_context(Process(words, program=program, blocks=self._window, err=subprocess.DEVNULL))
        fcntl.fcntl(self._process.out.fileno(), fcntl.F_SETPIPE_SZ, FEW)

    def __iter__(self) -> Iterator[Piece]:
        before: tuple[int, int, int] | None = None
        for line in self._process.out:
            said = ROW.fullmatch(line)
            if said is None:
                if line.endswith(b"\n"):
                    raise Error(f"{shown(self._archive.name)}: pgnpieces has written what is no row of its table")
                break  # it was ended within a line, as its status says
            if before is not None:
                yield self._given(Piece(*before, False))
            _, begin, length, first, count = map(int, said.groups())
            before = (first, begin, length) if count else None
        raise_for(self._process.finish(), shown(self._archive.name))
        if before is not None:
            yield self._given(Piece(*before, True))

    def _given(self, piece: Piece) -> Piece:
        if self._window is not None:
            self._window.forget(piece.begin)
        return piece

    def text(self, piece: Piece) -> bytes:
        """The bytes of the game. Raises `Unreadable` where the archive no longer has them."""
        if self._window is not None:
            return self._window.text(piece.begin, piece.length)
        assert self._file is not None
        found = bytearray()
        try:
            while len(found) < piece.length:
                block = os.pread(self._file.fileno(), piece.length - len(found), self._base + piece.begin + len(found))
                if not block:
                    raise Unreadable(f"{shown(self._archive.name)}: was changed meanwhile")
                found += block
        except OSError as fault:
            raise Unreadable(f"{shown(self._archive.name)}: could not be read to its end") from fault
        return bytes(found)


class Standing(NamedTuple):
    """A game as it stands: the name of its archive, its number there, its bytes, and whether the archive begins and ends with it."""

    archive: str
    number: int
    text: bytes
    is_first: bool
    is_last: bool

    def __str__(self) -> str:
        return f"{self.archive}: game {self.number}"


class Joint:
    """Games are written one after the other, so that they are cut as they stand; what is put between them is told. A game that would take
    what comes after it, whatever is put there, is left out where something comes; `left_out` counts these."""

    def __init__(self, write: Callable[[bytes], object], told: Callable[[str], object]) -> None:
        self._write, self._told = write, told
        self._before: tuple[str, int, int] | None = None
        # a game without an end of its own waits for the next one, and for that which comes next where this one may be left out; each with
        # what is to be put before it, if that is known
        self._held: list[tuple[Standing, bytes | None]] = []
        self.left_out = 0

    def add(self, game: Standing) -> None:
        """One more game."""
        between: bytes | None = None
        if self._before is not None or self._held:
            game = _without_mark(game)
        while self._held and (between := _end_between(self._held[-1][0], game)) is None:
            self._told(f"{self._held.pop()[0]}: is left out: it has no end, and would take the game after it")
            self.left_out += 1
        self._held.append((game, between))
        if game.is_last or game.text.endswith(b"\n"):
            if can_be_ended(game):
                self._write_held(1)
        else:
            self._write_held(0)

    def finish(self) -> None:
        """Nothing comes any more."""
        self._write_held(0)

    def _write_held(self, kept: int) -> None:
        """Writes those that wait, but for so many at the end."""
        while len(self._held) > kept:
            self._put(*self._held.pop(0))

    def _put(self, game: Standing, between: bytes | None) -> None:
        if between is None:
            between = self._between(game)
        if between:
            put = "an LF and `*` are" if b"*" in between else "a space is" if between == b" " else "an LF is"
            self._told(f"{game}: {put} put before it, so that it begins there")
        self._write(between + game.text)
        self._before = game.archive, game.number, game.text[-1]

    def _between(self, game: Standing) -> bytes:
        """What is put before a game, where the one before it ends with a result, or there is none."""
        if self._before is None:
            # as the first byte of an archive either means something else
            return b"" if game.is_first or not game.text.startswith((b"%", BYTE_ORDER_MARK)) else b" "
        archive, number, last = self._before
        if _follows((archive, number), game) or game.text[:1].isspace() or game.text.startswith(b"%") and not game.is_first:
            return b""
        # a result goes on as one word, and other programs want the first tag at the beginning of a line
        return b"" if last == ord("\n") else b"\n"


def _follows(before: tuple[str, int], game: Standing) -> bool:
    """Whether a game is in its archive the next one."""
    return before == (game.archive, game.number - 1)


def _without_mark(game: Standing) -> Standing:
    # the mark is the archive's, and elsewhere it is a fault
    begins = game.is_first and game.text.startswith(BYTE_ORDER_MARK) and len(game.text) > len(BYTE_ORDER_MARK)
    return game._replace(text=game.text[len(BYTE_ORDER_MARK) :]) if begins else game


def can_be_ended(game: Standing) -> bool:
    """Whether a game without an end of its own is over where a line end and `*` are put behind it: no comment and no variation is open."""
    text = _without_mark(game).text
    if b"(" not in text and b"{" not in text:
        return True
    depth = 0
    for found in QUIET.finditer(text if game.is_first else b" " + text):
        if found[0] == b"(":
            depth += 1
        elif found[0] == b")":
            depth = max(0, depth - 1)
        elif found[0].startswith(b"{") and not found[0].endswith(b"}"):
            return False
    return depth == 0


def _end_between(game: Standing, after: Standing) -> bytes | None:
    """What is to be put behind a game without an end of its own, so that another one comes after it; None where nothing helps."""
    if _follows((game.archive, game.number), after) or not game.is_last and TAG_LINE.match(after.text):
        return b""
    for between in BETWEEN:
        begins_line = (between or game.text).endswith(b"\n")
        if after.text.startswith(b"%") and begins_line != after.is_first:
            continue
        if _cut_apart(game, between, after.text):
            return between
    return None


def _cut_apart(game: Standing, between: bytes, after: bytes) -> bool:
    """Whether two games with something between them are cut into these two."""
    text = _without_mark(game).text
    # a game is asked for itself with a space before it, but where it begins an archive with a line that is passed over
    before = b"\n" if game.is_first and text.startswith(b"%") else b" "
    whole = len(text) + len(between) + len(after) + 1
    program = executable("PGNPIECES", "pgnpieces")
    with Process([STANDARD_INPUT, "1"], program=program, blocks=[before, text, between, after], err=subprocess.DEVNULL) as process:
        rows = [tuple(map(int, line.split())) for line in process.out]
        raise_for(process.finish(), "pgnpieces")
    if len(rows) != 2 or rows[0][4] != 1 or rows[1][4] != 1:
        return False
    end = rows[0][2]
    return len(text) + 1 <= end <= len(text) + 1 + len(between) and end + rows[1][2] == whole
