"""How a command begins and ends: signals, streams that fail, and the status."""

from __future__ import annotations

import os
import sys
import traceback
from collections.abc import Callable, Sequence
from typing import TextIO

from ..errors import Error
from ..files import shown
from ..process import end_all
from ..signals import Ended, raised
from .begin import FAILED

Main = Callable[[Sequence[str]], int]
KEPT = "\n\t"


class Failed(BaseException):
    """Standard output or standard error took nothing: there is no more to be done than to end with status 6."""


def plain(word: object) -> str:
    """A word as a terminal may have it: of control characters it has line ends and tabs alone."""
    return "".join(letter if letter.isprintable() or letter in KEPT else shown(letter) for letter in str(word))


def tell(*words: object) -> None:
    """Writes a line to standard error; the command ends with status 6 where that fails."""
    _write(sys.stderr, *words)


def say(*words: object) -> None:
    """Writes a line to standard output; the command ends with status 6 where that fails."""
    _write(sys.stdout, *words)


def _write(stream: TextIO | None, *words: object) -> None:
    if stream is None:
        raise Failed
    try:
        print(*map(plain, words), file=stream, flush=True)
    except (OSError, ValueError) as fault:
        raise Failed from fault


def status_of(main: Main, words: Sequence[str]) -> int:
    """The status of a command, whatever it raises on its way; an error of the package is told in a line."""
    try:
        with raised():
            try:
                return main(words)
            except SystemExit as end:
                return end.code if isinstance(end.code, int) else 0
            except Error as fault:
                tell(fault)
                return fault.status
            except BrokenPipeError:
                return 6
            except OSError as fault:
                tell(fault.strerror or fault)
                return 6
            except MemoryError:
                tell("there was not enough memory")
                return 7
            except RecursionError:
                tell("the text is nested too deep")
                return 3
            except Exception as fault:
                tell(f"this is a fault of the command, please report it: {_place(fault)}")
                return FAILED
    except Ended as end:
        end_all()
        return end.status
    except (Failed, BrokenPipeError):
        return 6


def _place(fault: Exception) -> str:
    """The kind of an exception, what it says, and the line that has raised it."""
    last = traceback.extract_tb(fault.__traceback__)[-1]
    said = str(fault).encode("utf-8", "backslashreplace").decode()
    return f"{type(fault).__name__}: {shown(said)} ({os.path.basename(last.filename)}, line {last.lineno})"


def _fill(number: int) -> None:
    """Gives a standard stream that is closed a file that can't be read, or written, in its place, so that no other file gets its number."""
    try:
        os.fstat(number)
    except OSError:
        os.dup2(os.open(os.devnull, os.O_RDONLY if number else os.O_WRONLY), number)


def run(main: Main) -> None:
    """Ends the process as the command says; what is left in the streams is dropped where they fail."""
    for number in range(3):
        _fill(number)
    for stream in (sys.stdout, sys.stderr):
        if stream is not None and hasattr(stream, "reconfigure"):
            stream.reconfigure(errors="surrogateescape" if stream is sys.stdout else "backslashreplace")
    status = status_of(main, sys.argv[1:])
    for stream in (sys.stdout, sys.stderr):
        try:
            if stream is not None:
                stream.flush()
        except (OSError, ValueError):
            status = status if status > 6 else 6
    os._exit(status)
