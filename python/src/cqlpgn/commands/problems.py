"""cqlpgn-problems: problems with their solutions as text become games with variations."""

from __future__ import annotations

import argparse
import os
import sys
from collections import Counter
from collections.abc import Iterator, Sequence
from dataclasses import dataclass, field
from typing import BinaryIO

from ..errors import NotFound, Stopped, Unreadable
from ..files import STANDARD_INPUT, Replacing, refuse_inputs, shown, standard_output
from ..problems.convert import Converter, Game, Left
from ..problems.popeye import is_popeye, printed
from ..problems.records import Record, Unread, records
from ..problems.writing import printable
from .ends import run, tell
from .words import Parser

NAME = "cqlpgn-problems"


def parser() -> argparse.ArgumentParser:
    """The parser of the command's words."""
    made = Parser(
        NAME,
        "Makes games in PGN with variations of chess problems whose solutions are text: records of YACPDB (YAML, as in *.olv) and what the "
        "solver Popeye prints. Each problem becomes a game, and each of its twins. One that can't be written is named on standard error "
        "with its line and the reason, counted, and left out.",
        "The exit status is 0 where all files were read; 1 with --strict where something was left out; 3 for words that are not as above; "
        "4 where a file could not be opened; 5 where one could not be read; 6 where a write failed.",
    )
    made.add_argument("-o", metavar="FILE", dest="output", help="where the games go; it appears when all is written (standard output)")
    made.add_argument("--strict", action="store_true", help="end with status 1 where something was left out")
    made.add_argument("files", metavar="FILE", nargs="+", help="a file of problems; `-` is standard input")
    return made


@dataclass
class Report:
    """How many records there were, how many games were written, and the causes of what was left out."""

    records: int = 0
    games: int = 0
    causes: Counter[str] = field(default_factory=Counter)

    def left_out(self, name: str, number: int, left: Left | Unread) -> None:
        """Tells what was left out, and counts it."""
        letter = f" {left.letter}" if isinstance(left, Left) and left.letter else ""
        tell(f"{shown(name)}:{left.line}: record {number}{letter}: {printable(str(left.fault))[:200]}")
        self.causes[left.fault.reason] += 1

    def end(self) -> None:
        """The last lines: the counts, and those of each cause."""
        tell(f"records {self.records} games {self.games} left out {self.causes.total()}")
        for cause, count in self.causes.most_common():
            tell(f"{count:6} {cause}")


def content(name: str) -> bytes:
    """The bytes of a file, or of standard input."""
    try:
        if name == STANDARD_INPUT:
            if sys.stdin is None:
                raise NotFound(f"{NAME}: standard input is closed")
            return sys.stdin.buffer.read()
        file = open(name, "rb")
    except IsADirectoryError as fault:
        raise Unreadable(f"{NAME}: {shown(name)}: {fault.strerror}") from fault
    except (OSError, ValueError) as fault:
        raise NotFound(f"{NAME}: {shown(name)}: {getattr(fault, 'strerror', None) or fault}") from fault
    try:
        with file:
            return file.read()
    except OSError as fault:
        raise Unreadable(f"{NAME}: {shown(name)}: {fault.strerror}") from fault


def problems(data: bytes) -> Iterator[Record | Unread]:
    """The problems of a file, whatever its form."""
    return printed(data) if is_popeye(data) else records(data)


def convert(name: str, output: BinaryIO, report: Report) -> None:
    """Writes the games of a file, and tells what is left out."""
    told = "standard input" if name == STANDARD_INPUT else os.path.basename(name)
    for problem in problems(content(name)):
        report.records += 1
        outcomes: Iterator[Game | Left] | list[Unread] = (
            [problem] if isinstance(problem, Unread) else Converter(problem, shown(told)).games()
        )
        for outcome in outcomes:
            if isinstance(outcome, Game):
                write(output, outcome.text)
                report.games += 1
            else:
                report.left_out(name, problem.number, outcome)


def write(output: BinaryIO, text: str) -> None:
    """Writes a game; a write that fails ends the command."""
    try:
        output.write(text.encode())
    except (OSError, ValueError) as fault:
        raise Stopped(f"{NAME}: {getattr(fault, 'strerror', None) or fault}") from fault


def main(words: Sequence[str]) -> int:
    """Converts the files that the words name; the answer is the status."""
    asked = parser().parse_args(words)
    report = Report()
    if asked.output is None:
        refuse_inputs([], asked.files)
        for name in asked.files:
            convert(name, standard_output(), report)
    else:
        refuse_inputs([asked.output], asked.files)
        with Replacing() as files:
            output = files.open(asked.output)
            for name in asked.files:
                convert(name, output, report)
            files.commit()
    report.end()
    return 1 if asked.strict and report.causes else 0


def entry() -> None:
    """Ends the process as `main` says."""
    run(main)
