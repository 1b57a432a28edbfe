"""What can go wrong, as exceptions: each says what happened and with which status a command ends."""

from __future__ import annotations

# The statuses of cqlpgn from 3 on, in words.
STATUS_WORDS = {
    3: "the words are refused",
    4: "could not be opened",
    5: "could not be read to its end",
    6: "a write failed: the disk may be full, or the reader of the games has ended",
    7: "there was not enough memory",
    8: "has more bytes than --limit allows",
}


class Error(Exception):
    """Anything that this package raises of its own. `status` is the exit status that a command has for it."""

    status = 5

    def __init__(self, reason: str, status: int | None = None) -> None:
        super().__init__(reason)
        self.reason = reason
        if status is not None:
            self.status = status


class Fault(Error):
    """A query is refused (status 2). `byte` counts from 0 at the beginning of the text that was given, `line` and `column` from 1; `column`
    counts letters. `shown` is the text of that line, and `hint` says what to write instead, where that is known."""

    status = 2

    def __init__(self, reason: str, byte: int, line: int = 1, column: int = 1, shown: str = "", hint: str | None = None) -> None:
        super().__init__(reason)
        self.byte = byte
        self.line = line
        self.column = column
        self.shown = shown
        self.hint = hint

    def __str__(self) -> str:
        return f"{self.reason} (line {self.line}, byte {self.byte})"


class Unreadable(Error):
    """An archive could not be read to its end (status 5), or has more bytes than the limit (8)."""

    status = 5


class NotFound(Error):
    """A file, or a program, is not there or may not be opened (status 4)."""

    status = 4


class Stopped(Error):
    """The work ended before its end: a write failed (status 6), memory ran out (7), or the program was ended from outside (7)."""

    status = 6
