"""What is shown of marked positions: who played, who is to move, what led there, and how the game went on."""

from __future__ import annotations

import re
from collections.abc import Callable, Iterable, Iterator
from dataclasses import dataclass
from functools import cached_property

from .games import Game, Node

SUFFIXES = {1: "!", 2: "?", 3: "!!", 4: "??", 5: "!?", 6: "?!"}
UNKNOWN = ("", "?", "????.??.??", "-")
# what cqlpgn-problems writes as the event of a problem's game
STIPULATION = re.compile(r"(?:direct|help|self|reflex|study) ([^ ]{1,20})\.( by Black)?")
SOLUTION = 6  # moves of both sides, at most, of an exercise's solution
SOLVED = 400  # words, at most, of a problem's solution
STANDARD = "rnbqkbnr/pppppppp/8/8/8/8/PPPPPPPP/RNBQKBNR w KQkq - 0 1"


class Tree:
    """A game with the children of each position, by their numbers, 0 the start."""

    def __init__(self, game: Game) -> None:
        self.game = game
        self.nodes = game.nodes()
        self.children: list[list[Node]] = [[] for _ in range(len(self.nodes) + 1)]
        for node in self.nodes:
            self.children[node.parent].append(node)
        fields = game.start.split(" ")
        self._black, self._first = fields[1] == "b", int(fields[5])

    def in_text_order(self, at: int = 0) -> Iterator[Node]:
        """The positions after one as they stand in the text of a game: a move, what was played in its place, and what came after it."""
        while children := self.children[at]:
            yield children[0]
            for other in children[1:]:
                yield other
                yield from self.in_text_order(other.number)
            at = children[0].number

    def number(self, node: Node, due: bool) -> str:
        """The number before a move, as `12.` or, if it is due, `12...`; Black's has none otherwise."""
        half = node.ply - 1 + self._black
        number = self._first + half // 2
        return f"{number}." if half % 2 == 0 else f"{number}..." if due else ""

    @cached_property
    def players(self) -> list[str]:
        """White and Black, or the event where neither is known; of a problem composers and keywords, as far as they are known."""
        both = [self.game.tags.get(side, "?") for side in ("White", "Black")]
        if self.stipulation:
            return [told for told in both if told not in UNKNOWN]
        event = self.game.tags.get("Event", "?")
        return [event] if both == ["?", "?"] and event not in UNKNOWN else both

    @cached_property
    def where(self) -> list[str]:
        """Event, site and date, as far as they are known and not told before."""
        values = [self.game.tags.get(tag, "?") for tag in ("Event", "Site", "Date")]
        if len(self.players) == 1:
            values = values[1:]
        return [value.replace(".??", "") for value in values if value not in UNKNOWN]

    @cached_property
    def stipulation(self) -> str:
        """What is to be done, as `#2`, where the game is the solution of a problem; else empty."""
        told = STIPULATION.fullmatch(self.game.tags.get("Event", ""))
        return told[1].replace(",", ".") + (told[2] or "") if told else ""

    @cached_property
    def composers(self) -> str:
        """Who composed a problem; empty where that is not known."""
        white = self.game.tags.get("White", "?")
        return "" if white in UNKNOWN else white


def moved(node: Node) -> str:
    """A move with its signs."""
    return node.san + "".join(SUFFIXES.get(glyph, "") for glyph in node.nags)


@dataclass(frozen=True)
class Match:
    """A marked position: its number among all, from 1; `node` is None for the start of its game."""

    number: int
    tree: Tree
    node: Node | None
    comments: list[str]

    @property
    def fen(self) -> str:
        """The position as FEN."""
        return self.tree.game.start if self.node is None else self.node.fen or ""

    @property
    def is_white(self) -> bool:
        """Whether White is to move."""
        return self.fen.split(" ")[1] == "w"

    @property
    def side(self) -> str:
        """Who is to move, in words."""
        return "White to move" if self.is_white else "Black to move"

    @property
    def led(self) -> str:
        """What led there."""
        return "the start" if self.node is None else f"after {self.tree.number(self.node, True)}{moved(self.node)}"

    @property
    def arrow(self) -> tuple[str, str] | None:
        """The squares from and to of the move that led there; None at the start and after a null move."""
        return None if self.node is None or self.node.is_null else (self.node.uci[:2], self.node.uci[2:4])

    @property
    def is_problem(self) -> bool:
        """Whether it is the diagram of a problem."""
        return self.node is None and bool(self.tree.stipulation)

    def solution(self, text: Callable[[str], str], comment: Callable[[str], str]) -> str:
        """How an exercise is solved: some moves, and of a problem variations too, with what is said of them. `text` and `comment` write a
        move and a comment."""
        if not self.is_problem:
            return " ".join(map(text, self.went_on(SOLUTION)))
        words = Solution(self.tree, text, comment).line(0, True)
        return " ".join(words if len(words) <= SOLVED else [*words[:SOLVED], text("…")])

    def went_on(self, most: int) -> list[str]:
        """So many of the moves that came after, at most, by first children; the last word is an ellipsis where more came, and else the
        result, if it is the end of the main line."""
        at, depth = (self.node.number, self.node.depth) if self.node else (0, 0)
        words: list[str] = []
        due = True
        while self.tree.children[at] and len(words) < most:
            node = self.tree.children[at][0]
            words.append(self.tree.number(node, due) + moved(node))
            at, due = node.number, False
        end = "…" if self.tree.children[at] else self.tree.game.result if depth == 0 else ""
        return [*words, end] if end else words


class Solution:
    """The words of a tree of moves; `text` and `comment` write a move and a comment."""

    def __init__(self, tree: Tree, text: Callable[[str], str], comment: Callable[[str], str]) -> None:
        self._tree, self._text, self._comment = tree, text, comment

    def _said(self, node: Node, due: bool) -> list[str]:
        return [self._text(self._tree.number(node, due) + moved(node)), *map(self._comment, node.comments)]

    def line(self, at: int, due: bool) -> list[str]:
        """What came after a position; the variations of a move stand after it, in parentheses."""
        words: list[str] = []
        while children := self._tree.children[at]:
            words += self._said(children[0], due)
            for other in children[1:]:
                inner = [*self._said(other, True), *self.line(other.number, bool(other.comments))]
                words += ["(" + inner[0], *inner[1:-1], inner[-1] + ")"] if len(inner) > 1 else [f"({inner[0]})"]
            due = len(children) > 1 or bool(children[0].comments)
            at = children[0].number
        return words


def has_mark(marks: Iterable[str]) -> Callable[[list[str]], bool]:
    """Whether comments have one of the marks."""
    wanted = set(marks)
    return lambda comments: not wanted.isdisjoint(comments)


def matches(tree: Tree, marks: Iterable[str], first: int) -> Iterator[Match]:
    """The marked positions of a game, numbered from `first` on, in the order of the text."""
    wanted = set(marks)
    is_marked = has_mark(wanted)
    if is_marked(tree.game.comments):
        yield Match(first, tree, None, [comment for comment in tree.game.comments if comment not in wanted])
        first += 1
    for node in tree.in_text_order():
        if is_marked(node.comments):
            yield Match(first, tree, node, [comment for comment in node.comments if comment not in wanted])
            first += 1
