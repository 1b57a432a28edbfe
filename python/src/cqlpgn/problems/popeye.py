"""What the solver Popeye prints: a board in a frame, the stipulation with the numbers of men, and the solution.

    +---a---b---c---d---e---f---g---h---+
    8   .  -K   .   .   .   .   .   .   8        and seven such rows, with lines of dashes between them or without
    +---a---b---c---d---e---f---g---h---+
      #1                          2 + 1

Lines before the frame are author and source. Lines between the stipulation and the next empty line are conditions. The solution ends before
a line `solution finished` or `partial solution`, or where the text ends.
"""

from __future__ import annotations

import re
from collections.abc import Iterator

from .board import NAMES
from .faults import BadDiagram, NotARecord, ProblemFault
from .records import Record, Unread

FRAME = "+---a---b---c---d---e---f---g---h---+"
ASKED = re.compile(r"\s*(\S+)\s+(\d{1,2}) ?\+ ?(\d{1,2})(\s*\+\s*\d+n?)?\s*")
ENDS = re.compile(r"\s*(solution finished|partial solution)", re.IGNORECASE)
PROGRAM = re.compile(r"\s*popeye\b", re.IGNORECASE)
KNOWN_OPTIONS = {"setplay", "duplex", "try", "variation", "defence", "intelligent", "whitetoplay"}


def is_popeye(data: bytes) -> bool:
    """Is it the output of Popeye?"""
    return FRAME.encode() in data


def _men(rows: list[str]) -> tuple[tuple[str, ...], tuple[str, ...]]:
    """White's and Black's men from the rows of a board, each with its square."""
    cells = [row.split() for row in rows if row.strip(" |")]
    if [row[:1] + row[9:] for row in cells] != [[rank, rank] for rank in "87654321"]:
        raise NotARecord("a board of other rows")
    sides: dict[bool, list[str]] = {True: [], False: []}
    for row, cell in enumerate(cells):
        for file, man in enumerate(cell[1:9]):
            if man != ".":
                sides[man[0] != "-"].append(man.lstrip("-") + NAMES[(7 - row) * 8 + file])
    return tuple(sides[True]), tuple(sides[False])


class _Block:
    """The lines of a problem from its frame on, and those of its head."""

    def __init__(self, number: int, line: int, head: list[str], lines: list[str]) -> None:
        self.number = number
        self.line = line
        self.head = [text.strip() for text in head if text.strip() and not PROGRAM.match(text)]
        self.lines = lines

    def record(self) -> Record:
        """The record that the lines tell."""
        lines = self.lines
        bottom = next((place for place, text in enumerate(lines) if place and text.strip() == FRAME), 0)
        asked = ASKED.fullmatch(lines[bottom + 1]) if 0 < bottom < len(lines) - 1 else None
        if not asked:
            raise NotARecord("a board without a stipulation below it")
        white, black = _men(lines[1:bottom])
        if asked[4] or (len(white), len(black)) != (int(asked[2]), int(asked[3])):
            raise BadDiagram(f"{len(white)} + {len(black)} men are read, and {lines[bottom + 1].split(None, 1)[1].strip()} are said")
        begin = bottom + 2
        while begin < len(lines) and lines[begin].strip():
            begin += 1
        end = next((place for place, text in enumerate(lines) if place >= begin and ENDS.match(text)), len(lines))
        options = [text.strip() for text in lines[bottom + 2 : begin]]
        return Record(
            self.number,
            self.line,
            white,
            black,
            stipulation=asked[1],
            solution="\n".join(lines[begin:end]),
            text_line=self.line + begin,
            authors=tuple(self.head[:1]),
            source="; ".join(self.head[1:]),
            options=tuple(option if option.lower() in KNOWN_OPTIONS else f"condition {option}" for option in options),
        )


def _blocks(lines: list[str]) -> Iterator[_Block]:
    """The problems of a text: each begins at its upper frame, and the lines after the end of the one before are its head."""
    frames = [place for place, text in enumerate(lines) if text.strip() == FRAME][::2]
    begin = 0
    for number, (frame, following) in enumerate(zip(frames, [*frames[1:], len(lines)]), 1):
        ended = next((place for place in range(frame, following) if ENDS.match(lines[place])), following - 1) + 1
        yield _Block(number, frame + 1, lines[begin:frame], lines[frame:ended])
        begin = ended


def printed(data: bytes) -> Iterator[Record | Unread]:
    """The problems of a text that Popeye has printed."""
    for block in _blocks(data.decode("utf-8", "replace").replace("\r", "").split("\n")):
        try:
            yield block.record()
        except ProblemFault as fault:
            yield Unread(block.number, block.line, fault)
