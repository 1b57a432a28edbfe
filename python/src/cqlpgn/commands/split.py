"""cqlpgn-split: a file for each query of `cqlpgn many`."""

from __future__ import annotations

import argparse
import re
import sys
from collections.abc import Callable, Sequence
from typing import IO, BinaryIO

from ..errors import NotFound, Unreadable
from ..files import STANDARD_INPUT, Replacing, refuse_inputs
from .ends import run
from .words import Parser

LINE = re.compile(rb"query (\d{1,2}) bytes (\d{1,18})\n")
AT_ONCE = 1 << 16


def parser() -> argparse.ArgumentParser:
    """The parser of the command's words."""
    made = Parser(
        "cqlpgn-split",
        "Puts what `cqlpgn many` has written, and standard input brings, into a file for each query: the games of the first one go to "
        "PREFIX01.pgn, those of the second to PREFIX02.pgn. A query that found nothing has an empty file. The files appear together, when "
        "all was read; those of these names that were there stand until then.",
        "The exit status is 0 where each query has its file; 3 for words that are not as above, and "
        "where a file is what is read, or two are one file; 5 where what was read is not, or not to "
        "its end, what `cqlpgn many` writes; 6 where a file could not be written.",
    )
    made.add_argument(
        "prefix", metavar="PREFIX", help="the beginning of the files' names; one that ends in / is a folder, which must be there"
    )
    return made


def copied(source: IO[bytes], file: BinaryIO, size: int) -> int:
    """How many bytes of so many were there to be copied."""
    left = size
    while left:
        piece = source.read(min(left, AT_ONCE))
        if not piece:
            break
        file.write(piece)
        left -= len(piece)
    return size - left


def split(source: IO[bytes], files: Sequence[BinaryIO] | Callable[[int], BinaryIO]) -> int:
    """How many queries were read; the games of each go to its file. Raises `Unreadable` where that is not what `cqlpgn many` writes."""
    number = 0
    while line := source.readline(AT_ONCE):
        number += 1
        said = LINE.fullmatch(line)
        if not said or int(said.group(1)) != number:
            raise Unreadable(f"cqlpgn-split: a line `query {number} bytes ..` was to come, as `cqlpgn many` writes it")
        size = int(said.group(2))
        came = copied(source, files(number) if callable(files) else files[number - 1], size)
        if came < size:
            raise Unreadable(f"cqlpgn-split: query {number}: of {size} bytes only {came} came")
    return number


def main(words: Sequence[str]) -> int:
    """Splits standard input into files; the status is 0. Raises `Error`."""
    prefix: str = parser().parse_args(words).prefix
    if sys.stdin is None:
        raise NotFound("cqlpgn-split: standard input is closed")
    with Replacing() as files:

        def opened(number: int) -> BinaryIO:
            name = f"{prefix}{number:02}.pgn"
            refuse_inputs([name], [STANDARD_INPUT])
            return files.open(name)

        if not split(sys.stdin.buffer, opened):
            raise Unreadable("cqlpgn-split: nothing came: the report of cqlpgn says why")
        files.commit()
    return 0


def entry() -> None:
    """Runs the command with the words of the process, which ends with it."""
    run(main)
