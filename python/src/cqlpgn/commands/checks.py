"""`cqlpgn-over --check`: faults of queries in files, each shown with line, column, caret and hint."""

from __future__ import annotations

import os
from collections.abc import Iterator, Sequence
from typing import Protocol

from .. import faults, process, query
from ..errors import Error, Fault
from ..files import shown
from ..process import Process
from .ends import say, tell


class Telling(Protocol):
    """A function that tells a line, with a name before it."""

    def __call__(self, line: str, name: str = "") -> None:
        ...


def tell_fault(text: bytes, report: str) -> None:
    """Shows what the program says of a query or a file of queries."""
    fault = faults.fault(text, report)
    for line in faults.caret(fault) if fault is not None and fault.shown else [report]:
        tell(line)


def faults_in(text: bytes) -> Iterator[Fault]:
    """The fault of each query in a text, which is a query or a file of them, with its place in the text."""
    pieces = query.pieces(text)
    for number, (_, piece) in enumerate(pieces, 1):
        status, _, report = process.asked(["check", Process.QUERY], piece)
        if status == 2:
            line = report.replace("query ", f"query {number} ", 1) if len(pieces) > 1 else report
            fault = faults.fault(text, line)
            if fault is not None:
                yield fault
        else:
            process.raise_for(status, "the query")
    if len(pieces) > 1:
        status, _, report = process.asked(["many", Process.QUERY, os.devnull], text)
        if status == 2 and faults.FILE_FAULT.fullmatch(report):
            yield Fault(report, 0)


def check_one(word: str) -> int:
    """Checks the query or queries in a file, or a query as a word; the status is that of `cqlpgn check`."""
    data = os.fsencode(word)
    is_word = query.is_query(data)
    text = data if is_word else query.read_file(word)
    name = "query" if is_word else shown(word)
    found = list(faults_in(text))
    for fault in found:
        tell(f"{name}: line {fault.line}, column {fault.column}:" if fault.shown else f"{name}: {fault.reason}")
        for line in faults.caret(fault) if fault.shown else []:
            tell(line)
    if not found:
        for fault in faults.warnings(text):
            tell(f"{name}: line {fault.line}, column {fault.column}: warning:")
            for line in faults.caret(fault):
                tell(line)
        say(f"{name}: ok")
    return 2 if found else 0


def check_all(words: Sequence[str]) -> int:
    """The greatest status of some files with queries."""
    worst = 0
    for word in words:
        try:
            worst = max(worst, check_one(word))
        except Error as fault:
            tell(fault)
            worst = max(worst, fault.status)
    return worst
