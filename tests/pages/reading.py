"""What stands in a page: its blocks of code with their commands, its tables, and files that it names."""

from __future__ import annotations

import re
from collections.abc import Iterator

from tests.cases import TOP

Table = tuple[tuple[str, ...], list[list[str]]]


def source(name: str) -> str:
    """A file of the repository, empty where it is not there."""
    path = TOP / name
    return path.read_text(encoding="utf-8") if path.is_file() else ""


def blocks_of(text: str) -> Iterator[list[str]]:
    """The indented blocks of code of a page, each as its lines without the four spaces."""
    for block in re.findall(r"(?:^    .*\n|^\n(?=\n*    ))+", text, re.M):
        yield [line[4:] for line in block.strip("\n").split("\n")]


def commands_of(block: list[str]) -> Iterator[tuple[str, str]]:
    """Each command in a block, and what it writes."""
    for part in re.split(r"^\$ ", "\n".join(block), flags=re.M)[1:]:
        lines = part.split("\n")
        number = 1
        while number < len(lines) and lines[number].startswith("> "):
            number += 1
        yield "\n".join([lines[0]] + [line[2:] for line in lines[1:number]]), "\n".join(lines[number:]).strip("\n")


def tables_of(text: str) -> Iterator[Table]:
    """The head and the rows of each table of a page."""
    for table in re.findall(r"(?:^\|.*\n)+", text, re.M):
        rows = [[cell.strip() for cell in re.split(r"(?<!\\)\|", line)[1:-1]] for line in table.splitlines()]
        yield tuple(rows[0]), rows[2:]


def codes(cell: str) -> list[str]:
    """The texts between backticks in a cell of a table."""
    return [text.replace("\\|", "|") for text in re.findall(r"`([^`]*)`", cell)]


def queries(cell: str) -> list[str]:
    return [text if text.lower().startswith("cql") else "cql() " + text for text in codes(cell)]
