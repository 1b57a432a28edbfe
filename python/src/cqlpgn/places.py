"""Where each game of an archive lies, and what stands at a byte of it."""

from __future__ import annotations

import os
import subprocess
import tempfile
from collections.abc import Iterator
from contextlib import contextmanager
from typing import IO

from .archives import BLOCK, Archive
from .files import STANDARD_INPUT, shown
from .process import Process, executable, raise_for


def in_file(archive: Archive) -> IO[bytes]:
    """An archive, unpacked, as an open file that can be read anywhere. Raises what reading raises."""
    if archive.is_plain and archive.path != STANDARD_INPUT:
        file = archive.open()
        if file.seekable():
            return file
        file.close()
    room = tempfile.TemporaryFile()
    for block in archive.blocks():
        room.write(block)
    room.flush()
    return room


def blocks(file: IO[bytes], begin: int = 0) -> Iterator[bytes]:
    """A file from a byte on, with a space before it where it is not the first one, as pieces of an archive are read by themselves."""
    if begin:
        yield b" "
    while block := os.pread(file.fileno(), BLOCK, begin):
        yield block
        begin += len(block)


@contextmanager
def games(file: IO[bytes], name: str, begin: int = 0) -> Iterator[Iterator[tuple[int, int, int]]]:
    """First byte, length and number of each game of an archive from a byte on, as pgnpieces cuts it, while it is read."""
    program, space = executable("PGNPIECES", "pgnpieces"), 1 if begin else 0

    def found(asked: Process) -> Iterator[tuple[int, int, int]]:
        for line in asked.out:
            _, place, length, number, count = map(int, line.split())
            first = max(place - space, 0)
            if count:
                yield begin + first, place + length - space - first, number
        raise_for(asked.finish(), shown(name))

    with Process([STANDARD_INPUT, "1"], blocks=blocks(file, begin), err=subprocess.DEVNULL, program=program) as asked:
        yield found(asked)


class Around:
    """What stands at bytes of an archive, asked for in their order as a rule; nothing of what can be read once alone."""

    WIDTH = 200

    def __init__(self, archive: Archive) -> None:
        self._archive = archive
        self._blocks: Iterator[bytes] | None = None
        self._kept, self._at = b"", 0

    def onward(self, byte: int) -> bytes:
        """Some bytes from this one on; none where they are not to be had."""
        if self._archive.path == STANDARD_INPUT:
            return b""
        if self._archive.is_plain:
            with self._archive.open() as file:
                return os.pread(file.fileno(), self.WIDTH, byte) if file.seekable() else b""
        return self._unpacked(byte)

    def _unpacked(self, byte: int) -> bytes:
        """The archive is unpacked once more, up to the byte."""
        if self._blocks is None or byte < self._at:
            self._blocks, self._kept, self._at = self._archive.blocks(), b"", 0
        while self._at + len(self._kept) < byte + self.WIDTH and (block := next(self._blocks, b"")):
            kept = self._kept + block
            drop = max(0, min(byte - self._at, len(kept)))
            self._kept, self._at = kept[drop:], self._at + drop
        return self._kept[byte - self._at :][: self.WIDTH]
