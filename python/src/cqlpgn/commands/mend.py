"""cqlpgn-mend: the games of an archive that the reader refuses are mended, and nothing else is touched."""

from __future__ import annotations

import argparse
import csv
import io
import os
from collections.abc import Sequence
from typing import BinaryIO

from .. import game_hints
from ..archives import single
from ..files import STANDARD_INPUT, Replacing, refuse_inputs, shown, standard_output
from ..mending.archive import Mender, Sums, Told
from ..mending.classes import CLASSES
from ..mending.text import Change
from ..mending.writing import Differences, Whole
from ..rows import cell
from .ends import run, tell
from .words import Parser

COLUMNS = ["archive", "game", "byte", "class", "was", "now", "reason"]
EPILOG = """A change is made at the byte of a fault alone, and is kept only where the reader then comes further; a move is written
otherwise only where one legal move fits. All other bytes stay as they are. Classes: {classes}. The exit status is 0 where no fault is left;
1 where some are; 3 for words that are not as above; 4 where a file could not be opened; 5 where it could not be read; 6 where a write
failed. CQLPGN, PGNJSON and PGNPIECES name the programs, if they are not those on the path."""


def parser() -> argparse.ArgumentParser:
    """The parser of the command's words."""
    told = "; ".join(f"{name} ({said})" for name, said in CLASSES.items()).replace("%", "%%")
    made = Parser("cqlpgn-mend", "Writes an archive with the games mended that the reader refuses.", EPILOG.format(classes=told))
    made.add_argument("archive", metavar="ARCHIVE", nargs="?", default=STANDARD_INPUT, help="packed or not; `-` is standard input")
    made.add_argument("-o", dest="out", metavar="FILE", help="the archive goes to FILE, which is made at the end")
    made.add_argument("--only", metavar="CLASS,..", help="changes of these classes alone")
    made.add_argument("--not", dest="without", metavar="CLASS,..", help="no changes of these classes")
    made.add_argument("--report", metavar="FILE", help="each change, and each fault that is left, as a row of CSV: " + ", ".join(COLUMNS))
    made.add_argument("--dry-run", action="store_true", help="no archive is written: changes and faults are told alone")
    made.add_argument("--diff", action="store_true", help="what differs is written, as by `diff -u`, in place of the archive")
    made.add_argument("-q", dest="quiet", action="store_true", help="changes and faults are not told on standard error, but for the sums")
    return made


def kinds_of(made: argparse.ArgumentParser, flags: argparse.Namespace) -> set[str]:
    """The classes that are wanted; ends the process where a name is none."""
    named = [name for words in (flags.only, flags.without) if words is not None for name in words.split(",")]
    for name in named:
        if name not in CLASSES:
            made.error(f"{name!r} is none of {', '.join(CLASSES)}")
    wanted = set(CLASSES if flags.only is None else flags.only.split(","))
    return wanted - set(flags.without.split(",") if flags.without is not None else ())


def text_of(data: bytes) -> str:
    """Bytes as they are told: control characters, and what is no UTF-8, as escapes."""
    return shown(data.decode("utf-8", "surrogateescape"))


class Telling:
    """Tells changes and faults, on standard error and as rows."""

    def __init__(self, name: str, rows: BinaryIO | None, quiet: bool) -> None:
        self._name, self._rows, self._quiet = shown(name), rows, quiet
        self._row(COLUMNS)

    def __call__(self, told: Told) -> None:
        said, place = told.said, [self._name, str(told.game), str(told.byte)]
        if isinstance(said, Change):
            self._row([*place, said.kind, text_of(told.old), text_of(said.new), said.reason])
            self._line(told, f"`{text_of(told.old)}` is now `{text_of(said.new)}` ({said.kind}; {said.reason})")
        else:
            hint = game_hints.hint(said.reason, told.old)
            why = f"{said.reason}: {hint}" if hint else said.reason
            self._row([*place, "left", text_of(told.old), "", f"{why}; {said.why}"])
            self._line(told, f"{why}; it is left, since {said.why}")

    def _line(self, told: Told, said: str) -> None:
        if not self._quiet:
            tell(f"{self._name}: game {told.game} byte {told.byte}: {said}")

    def _row(self, cells: list[str]) -> None:
        if self._rows is not None:
            text = io.StringIO()
            csv.writer(text, quoting=csv.QUOTE_ALL).writerow(map(cell, cells))
            self._rows.write(text.getvalue().encode("utf-8", "surrogateescape"))


def mend(flags: argparse.Namespace, kinds: set[str]) -> Sums:
    """Mends the archive. Raises `Error`."""
    outputs = [name for name in (flags.out, flags.report) if name is not None]
    refuse_inputs(outputs, [flags.archive])
    archive = single(flags.archive)
    with Replacing() as files:
        rows = files.open(flags.report) if flags.report is not None else None
        out = files.open(flags.out) if flags.out is not None else None if flags.dry_run and not flags.diff else standard_output()
        writer: Differences | Whole = Differences(out, os.fsencode(shown(flags.archive))) if flags.diff and out is not None else Whole(out)
        sums = Mender(archive, kinds, writer, Telling(flags.archive, rows, flags.quiet)).run()
        writer.end()
        if out is not None:
            out.flush()
        files.commit()
    return sums


def main(words: Sequence[str]) -> int:
    """Mends an archive, and gives the exit status. Raises `Error`."""
    made = parser()
    flags = made.parse_args(words)
    if flags.dry_run and flags.out is not None:
        made.error("--dry-run writes no FILE")
    sums = mend(flags, kinds_of(made, flags))
    tell(f"{shown(flags.archive)}: {sums}")
    return 1 if sums.faulty > sums.mended else 0


def entry() -> None:
    """Runs the command with the words of the process, which ends with it."""
    run(main)
