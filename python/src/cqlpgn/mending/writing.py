"""Where a mended archive goes: a file, or the lines that differ, as `diff -u` writes them."""

from __future__ import annotations

import difflib
from typing import BinaryIO

CONTEXT = 3


class Whole:
    """Writes the whole archive; nothing where there is no file."""

    def __init__(self, to: BinaryIO | None) -> None:
        self._to = to

    def same(self, data: bytes) -> None:
        """Bytes that stay as they are."""
        if self._to is not None:
            self._to.write(data)

    def changed(self, old: bytes, new: bytes) -> None:
        """Bytes in whose place others come."""
        self.same(new)

    def end(self) -> None:
        """All has come."""


class Differences:
    """Writes the lines that differ, each with up to three lines around it, so that `patch` makes the mended archive of the other."""

    def __init__(self, to: BinaryIO, name: bytes) -> None:
        self._to, self._head = to, b"--- %s\n+++ %s\n" % (name, name)
        self._done = self._grown = 0  # lines that are done, and how many more they have become
        self._before: list[bytes] = []  # the last of them
        self._old = self._new = b""  # what is not done: a part of a line, or lines of which some differ
        self._differs, self._after = False, 0  # whether some do, and how many are whole and alike after the last of them

    def same(self, data: bytes) -> None:
        """Bytes that stay as they are."""
        for line in _lines(data):
            self._old, self._new = self._old + line, self._new + line
            if not line.endswith(b"\n"):
                continue
            self._after += 1
            if not self._differs:
                self._pass([self._old])
            elif self._after > 2 * CONTEXT:
                self._flush()

    def changed(self, old: bytes, new: bytes) -> None:
        """Bytes in whose place others come."""
        self._old, self._new = self._old + old, self._new + new
        self._differs, self._after = True, 0

    def _pass(self, lines: list[bytes]) -> None:
        """Counts lines as done."""
        self._done += len(lines)
        self._before = [*self._before, *lines][-CONTEXT:]
        self._old = self._new = b""
        self._differs, self._after = False, 0

    def _flush(self) -> None:
        """Writes the lines that differ."""
        before, first = self._before, self._done - len(self._before)
        old, new = _lines(self._old), _lines(self._new)
        for text in _unified([*before, *old], [*before, *new], first, first + self._grown):
            self._to.write(self._head + text)
            self._head = b""
        self._grown += len(new) - len(old)
        self._pass(old)

    def end(self) -> None:
        """All has come."""
        if self._differs:
            self._flush()


def _lines(data: bytes) -> list[bytes]:
    """The lines of some bytes, of which line feed alone is an end."""
    parts = data.split(b"\n")
    return [part + b"\n" for part in parts[:-1]] + ([parts[-1]] if parts[-1] else [])


def _unified(old: list[bytes], new: list[bytes], first: int, now: int) -> list[bytes]:
    """The parts of a unified diff, whose lines are numbered from so many on."""
    found = []
    for group in difflib.SequenceMatcher(None, old, new, autojunk=False).get_grouped_opcodes(CONTEXT):
        begin, end, start, stop = group[0][1], group[-1][2], group[0][3], group[-1][4]
        lines = [
            b"@@ -%d,%d +%d,%d @@\n" % (_line(first + begin, end - begin), end - begin, _line(now + start, stop - start), stop - start)
        ]
        for kind, a, b, c, d in group:
            if kind == "equal":
                lines += [_line_of(b" ", line) for line in old[a:b]]
            else:
                lines += [_line_of(b"-", line) for line in old[a:b]] + [_line_of(b"+", line) for line in new[c:d]]
        found.append(b"".join(lines))
    return found


def _line(at: int, count: int) -> int:
    return at + 1 if count else at


def _line_of(sign: bytes, line: bytes) -> bytes:
    return sign + line if line.endswith(b"\n") else sign + line + b"\n\\ No newline at end of file\n"
