"""A record becomes games: one, or one for each of its twins."""

from __future__ import annotations

import re
from collections.abc import Iterator
from dataclasses import dataclass

from .board import SQUARES, Board
from .diagram import Men, check_men, diagram, rights, twin
from .faults import BadDiagram, BadTwin, FairyCondition, IllegalMove, NoSolution, OtherStipulation, ProblemFault
from .records import Record
from .solution import Budget, Reader
from .tokens import plain
from .tree import Node, arrange
from .writing import game, printable

MATE = re.compile(r"(?P<kind>[hsr]?)#(?P<count>\d{1,3})(?P<half>\.5)?")
NAMES = {"": "direct", "h": "help", "s": "self", "r": "reflex", "+": "study", "=": "study"}
BY_BLACK = re.compile(r" (b\)|by) Black$")
FAIRY_OPTION = re.compile("circe|maximummer|cylinder|grid|madrasi|patrol|series", re.IGNORECASE)
FAIRY_KEYWORD = re.compile("Fairy|Vertical cylinder")
OTHER_SIDE = re.compile(r"\b(?:black(?: mates)?|duplex)$", re.IGNORECASE)
OTHER_STIPULATION = re.compile(r"\bstipulation (\S+)", re.IGNORECASE)
GOES_ON = re.compile("cont|as ", re.IGNORECASE)
HEAD = re.compile(r"^[ +]*([a-z])\)(?:[ ]*(?=\d{1,3}\s*\.)|([^\n]*))", re.MULTILINE)
DATE = re.compile(r"(\d{4})(?:-(\d\d)(?!\d))?(?:-(\d\d)(?!\d))?")
FIRST_CAPTURE = re.compile(r"[a-h][1-8]?[-x*:]([a-h][1-8])")
DUPLEX = "duplex"


@dataclass(frozen=True)
class Stipulation:
    """What is to be done: `kind` is `#`, `h#`, `s#`, `r#`, `+` or `=`; of mates in how many moves, and whether half a move comes before."""

    kind: str
    count: str = ""
    half: bool = False

    @property
    def helped(self) -> bool:
        """Do both sides work together, Black first?"""
        return self.kind == "h#"

    @property
    def plies(self) -> int:
        """After how many plies the mate comes; 0 of a study."""
        return 2 * int(self.count or 0) - (self.kind == "#") + self.half

    def event(self, by_black: bool) -> str:
        """The tag Event: a point stands behind the stipulation and its genre before it, so that a part of the text tells it exactly."""
        half = ",5" if self.half else ""
        return f"{NAMES[self.kind.rstrip('#')]} {self.kind}{self.count}{half}.{' by Black' if by_black else ''}"


def stipulation(text: str) -> Stipulation:
    """The stipulation that a text says."""
    if text in ("+", "="):
        return Stipulation(text)
    said = MATE.fullmatch(text)
    if not said or not int(said["count"]):
        raise OtherStipulation(text[:40])
    return Stipulation(said["kind"] + "#", str(int(said["count"])), bool(said["half"]))


@dataclass
class Game:
    """A game that was written: its text, its tree, and the stipulation that holds in it."""

    text: str
    root: Node
    asked: Stipulation


@dataclass
class Left:
    """A problem, or a twin of one, that was left out, and the line of the file that it is about."""

    fault: ProblemFault
    line: int
    letter: str = ""


@dataclass(frozen=True)
class Part:
    """The text of a twin: its letter, what its head says, and where its text begins in that of the whole solution."""

    letter: str
    head: str
    at: int
    text: str


def parts(text: str, duplex: bool) -> list[Part]:
    """The parts of a solution; without heads it is one part, and a duplex has its last block for the other side."""
    heads = list(HEAD.finditer(text))
    if heads and heads[0][1] == "a":
        ends = [head.start() for head in heads[1:]] + [len(text)]
        return [Part(head[1], (head[2] or "").strip(), head.end(), text[head.end() : end]) for head, end in zip(heads, ends)]
    blocks = [found for found in re.finditer(r"[^\n]+(?:\n[^\n]+)*", text) if found[0].strip()]
    if duplex and len(blocks) > 1:
        at = blocks[-1].start()
        return [Part("", "", 0, text[:at]), Part(DUPLEX, "", at, text[at:])]
    return [Part("", "", 0, text)]


def _passed_square(men: Men, white: bool, fault: IllegalMove) -> int:
    """The square that a pawn must just have passed for the first move of the solution to be legal, or -1."""
    said = FIRST_CAPTURE.match(fault.detail)
    goal, back = (SQUARES[said[1]], -8 if white else 8) if said else (-1, 0)
    if goal < 0 or goal // 8 != (5 if white else 2) or men[goal] or men[goal - back]:
        return -1
    return goal if men[goal + back] == ("p" if white else "P") else -1


def tree(men: Men, white: bool, text: str, base: int, budget: Budget) -> Node:
    """The tree of a solution. Where its first move needs an en passant square, there is one."""
    check_men(men)
    board = Board(men, white, rights(men))
    if board.checked(not white):
        raise BadDiagram("the side that is not to move is in check")
    try:
        root = Reader(board, base, budget).read(text)
    except IllegalMove as fault:
        board.passed_square = _passed_square(men, white, fault)
        if board.passed_square < 0:
            raise
        try:
            root = Reader(board, base, budget).read(text)
        except ProblemFault:
            raise fault from None
    return root


class Converter:
    """Makes the games of a record; `file` is the name of the file in the tag Record."""

    def __init__(self, record: Record, file: str) -> None:
        self.record = record
        self.file = file
        self.by_black = bool(BY_BLACK.search(record.stipulation))
        self.men: Men = []
        self.twin_men: Men = []
        self.budget = Budget(len(record.solution))

    def games(self) -> Iterator[Game | Left]:
        """A game for each twin, or why it is left out."""
        record = self.record
        try:
            asked = stipulation(BY_BLACK.sub("", record.stipulation))
            self._orthodox()
            self.men = self.twin_men = diagram(record.white, record.black)
            check_men(self.men)
            text = plain(record.solution)
            if not text.strip():
                raise NoSolution()
        except ProblemFault as fault:
            yield Left(fault, record.line)
            return
        found = parts(text, DUPLEX in " ".join(record.options).lower())
        for part in found:
            try:
                yield self._game(part, asked)
            except ProblemFault as fault:
                yield Left(fault, self._line(text, part, fault), part.letter)
        for letter in sorted(set(record.twins) - {part.letter for part in found} - {"a"}):
            yield Left(NoSolution("of this twin"), record.line, printable(letter)[:20])

    def _orthodox(self) -> None:
        """Refuses what other rules than those of chess are said of."""
        odd = FAIRY_OPTION.search("; ".join(self.record.options)) or FAIRY_KEYWORD.search("; ".join(self.record.keywords))
        if odd:
            raise FairyCondition(odd[0])

    def _line(self, text: str, part: Part, fault: ProblemFault) -> int:
        """The line of the file with a fault of the solution; the record's first one where lines of its text are not lines of the file."""
        if fault.at is None or self.record.text_line is None:
            return self.record.line
        return self.record.text_line + text.count("\n", 0, part.at + fault.at)

    def _change(self, part: Part) -> str:
        """What the twin changes: what the record says of it, or its head."""
        if part.letter in ("", DUPLEX):
            return ""
        said = self.record.twins.get(part.letter, "")
        if part.letter == "b" and self.record.stipulation.endswith(" b) Black"):
            said = "Black"
        said = said or ("" if part.letter == "a" else part.head)
        if not said and part.letter != "a":
            raise BadTwin(f"{part.letter} without what it changes")
        return " ".join(said.split())

    def _game(self, part: Part, asked: Stipulation) -> Game:
        """The game of a part of the solution."""
        change = said = self._change(part)
        if other := OTHER_STIPULATION.search(change):
            asked, change = stipulation(other[1]), change.replace(other[0], "").strip()
        by_black = self.record.stipulation.endswith(" by Black") ^ (part.letter == DUPLEX or bool(OTHER_SIDE.search(change)))
        change = OTHER_SIDE.sub("", change).strip()
        if change:
            self.twin_men = twin(self.twin_men if GOES_ON.match(change) else self.men, change)
        else:
            self.twin_men = self.men
        white = by_black ^ (not asked.helped) ^ asked.half
        root = tree(self.twin_men, white, part.text, int(asked.half), self.budget)
        arrange(root, 0 if asked.helped else asked.plies)
        tags = self._tags(asked.event(by_black), root.board.fen(), " ".join([part.letter, said]))
        return Game(game(tags, root), root, asked)

    def _tags(self, event: str, fen: str, change: str) -> dict[str, str]:
        """The tags: composers as White, keywords as Black."""
        record = self.record
        date = DATE.match(record.date)
        return {
            "Event": event,
            "Site": record.source,
            "Date": f"{date[1]}.{date[2] or '??'}.{date[3] or '??'}" if date else "????.??.??",
            "White": "; ".join(record.authors),
            "Black": "; ".join(record.keywords),
            "Result": "*",
            "Award": record.award,
            "FEN": fen,
            "Record": f"{self.file} {record.number}",
            "SetUp": "1",
            "SourceId": record.source_number,
            "Twin": change,
        }
