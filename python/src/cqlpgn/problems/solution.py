"""The text of a solution becomes a tree.

Numbers are right where indentation is wrong, so a move's number says where it stands: after all nodes that stand for the ply before *now*.
If there is none, but for the ply before that, the side has passed: a threat after a move, and set play at the start. A move without a
number is the next ply; after `/`, `,` or `or` the same ply; after `but` one more refutation.
"""

from __future__ import annotations

import re
from collections.abc import Callable
from dataclasses import replace
from functools import partial

from .board import Board
from .faults import IllegalMove, NoMove, NoMoveBefore, NullMoveInCheck, ProblemFault, TooLarge
from .meaning import any_meant, captures_by_files, meant, meant_by_files
from .tokens import Token, Written, man_named, tokens
from .tree import SET_PLAY, THREAT, Node

GLYPHS = {"!": 1, "?": 2, "!!": 3, "??": 4, "!?": 5, "?!": 6}
THREATENS = re.compile(r"(threats?|thr|th|drohung|droht|drohungen)[.:]*$", re.IGNORECASE)
WAITS = re.compile(r"(zugzwang|zz|waiting|block)[.:]*$", re.IGNORECASE)
ELSE = re.compile(r"(else|any|beliebig|arbitrary)[.:]*$", re.IGNORECASE)
BUT = re.compile(r"(but|aber)[.:]*$", re.IGNORECASE)
MOVES = ("move", "any", "pawn", "promotion", "target")
SQUARE = re.compile("[a-h][1-8]")
# More than ten times what any solution of a collection takes; a short text may have fewer.
MOST_MOVES = 20_000
MOVES_AT_LEAST, MOVES_OF_LETTER = 2_000, 20
MOST_PLIES = 2_000
MOST_BRACKETS = 100

Make = Callable[[Node], list[Node]]


def null_move(node: Node, why: str) -> Node:
    """The null move after a node, which it has once for each reason."""
    for child in node.children:
        if child.null and why in child.comments:
            return child
    if node.board.in_check:
        raise NullMoveInCheck(why)
    child = Node(node.board.passed(), node, None, "--")
    child.comment(why)
    node.children.append(child)
    return child


def attached(node: Node) -> Node:
    """The child of its parent with the same move, or the node itself, which becomes a child."""
    assert node.parent is not None
    for child in node.parent.children:
        if child is node or child.move is not None and child.move == node.move:
            if child.loose and not node.loose:  # the text gives this one of its own
                child.loose, child.children, child.comments = False, [], {}
            return child
    node.parent.children.append(node)
    return node


class Budget:
    """How many moves may be tried for the texts of one record, by their length."""

    def __init__(self, letters: int) -> None:
        self.most = min(MOST_MOVES, MOVES_AT_LEAST + MOVES_OF_LETTER * letters)
        self.tried = 0

    def take(self, moves: int) -> None:
        """Counts moves that were tried. Raises `TooLarge`."""
        self.tried += moves
        if self.tried > self.most:
            raise TooLarge(f"more than {self.most} moves")


class Tree:
    """The tree as far as it is read: `plies[p]` has the nodes that now stand for ply p, counted from the root; `ply` is the last one."""

    def __init__(self, board: Board, budget: Budget) -> None:
        self.root = Node(board)
        self.plies: list[list[Node]] = [[self.root]]
        self.ply = 0
        self.fresh: list[Node] = []
        self.budget = budget

    def _pass(self, ply: int) -> None:
        """Lets the side pass that has no move before this ply."""
        if ply < 1 or len(self.plies) < ply - 1:
            raise NoMoveBefore()
        if len(self.plies) < ply:
            why = SET_PLAY if ply == 2 else THREAT
            self.plies.append([null_move(node, why) for node in self.plies[ply - 2]])

    def place(self, ply: int, beside: bool, make: Make) -> None:
        """A move at a ply, after each node that stands for the ply before; `beside` those that stand for it already."""
        if ply > MOST_PLIES:
            raise TooLarge(f"more than {MOST_PLIES} plies")
        self._pass(ply)
        made: list[Node] = []
        gone: set[Node] = set()
        faults: list[tuple[bool, ProblemFault]] = []
        for node in self.plies[ply - 1]:
            found: list[Node] = []
            try:
                found = make(node)
            except ProblemFault as fault:
                faults.append((node.loose, fault))
                gone |= {node} if node.loose and not node.children else set()
            made += found
            self.budget.take(len(found) or 1)
        self._refuse(faults, bool(made))
        self._drop(gone, ply - 1)
        before = self.plies[ply] if beside and len(self.plies) > ply else []
        self.fresh = [attached(node) for node in made]
        del self.plies[ply:]
        self.plies.append(before + self.fresh)
        self.ply = ply

    @staticmethod
    def _refuse(faults: list[tuple[bool, ProblemFault]], some: bool) -> None:
        """Raises the fault of a node that is not loose, or the first one where no node is left."""
        hard = next((fault for loose, fault in faults if not loose), None)
        if hard:
            hard.after_alternative = some
            raise hard
        if not some:
            raise faults[0][1] if faults else IllegalMove()

    def _drop(self, gone: set[Node], ply: int) -> None:
        """Takes away loose nodes after which the text can't be played."""
        if not gone:
            return
        for parent in {node.parent for node in gone if node.parent}:
            parent.children = [child for child in parent.children if child not in gone]
        self.plies[ply] = [node for node in self.plies[ply] if node not in gone]

    def note(self, text: str, every: bool = False) -> None:
        """A comment at the first of the moves that were read last, or at each."""
        words = " ".join(text.replace("{", "(").replace("}", ")").split())
        for node in (self.fresh or self.plies[self.ply])[: None if every else 1]:
            node.comment(words)


class Reader:
    """Reads the words of a solution. `base` plies are left out at the start: White begins in a help mate of a half move more."""

    def __init__(self, board: Board, base: int, budget: Budget) -> None:
        self.tree = Tree(board, budget)
        self.base = base
        self.wanted: int | None = None  # the ply that a number has said
        self.beside = False  # after a sign of alternatives
        self.refuting = False  # after `but`
        self.threatening = False  # after `threat:` without a number
        self.before: Written | None = None  # what a goal alone refers to
        self.words: list[str] = []
        self.open: list[tuple[list[list[Node]], int, list[Node]]] = []

    def read(self, text: str) -> Node:
        """The tree of a text that `plain` has given."""
        for token in tokens(text):
            try:
                self._take(token)
            except ProblemFault as fault:
                raise fault.placed(token.text, token.at)
        self._say()
        if not self.tree.root.children:
            raise NoMove()
        return self.tree.root

    def _say(self) -> None:
        """The words that stood between moves are a comment."""
        self.tree.note(" ".join(self.words))
        self.words = []

    def _take(self, token: Token) -> None:
        """Takes a word as what its kind means here."""
        if token.kind in ("number", "move", "any", "pawn", "close"):
            self._say()
        if token.kind in MOVES or token.kind == "word" and self.wanted is not None and ELSE.match(token.text):
            self._take_move(token)
        elif token.kind == "number":
            self.wanted, self.beside = token.ply - self.base + 1, False
            self.refuting = self.refuting and token.ply % 2 != self.base % 2
        elif token.kind == "alternative":
            self.beside = self.wanted is None
        elif token.kind == "mark":
            self._take_mark(token.text)
        elif token.kind in ("open", "close"):
            self._take_bracket(token.kind)
        elif token.kind in ("comment", "label"):
            self.tree.note(token.text[1:-1], every=token.kind == "label")
        else:
            self._take_word(token)

    def _take_mark(self, text: str) -> None:
        """A sign as `!` belongs to all moves of the last token."""
        for node in self.tree.fresh:
            if node.move:
                node.glyph(GLYPHS.get(text, 1 if text[0] == "!" else 2))

    def _take_bracket(self, kind: str) -> None:
        """What stands in brackets begins where the line is, and the line goes on from there."""
        tree = self.tree
        if kind == "open" and len(self.open) == MOST_BRACKETS:
            raise TooLarge(f"more than {MOST_BRACKETS} open brackets")
        if kind == "open":
            self.open.append((tree.plies[:], tree.ply, tree.fresh))
        elif self.open:
            tree.plies, tree.ply, tree.fresh = self.open.pop()
            self.wanted, self.beside = None, False

    def _take_word(self, token: Token) -> None:
        """A word that says how the text goes on, or one of a comment."""
        text = token.text
        if token.kind == "word" and BUT.match(text):
            self.refuting = True
        elif token.kind == "word" and WAITS.match(text):
            self.tree.note("zugzwang" if text[0] in "zZ" else text.strip(".:").lower())
        elif token.kind == "word" and THREATENS.match(text) or text == ">":
            self.threatening = True
            self.tree.note(THREAT)
        elif token.kind == "word":
            self.words.append(text)

    def _no_move(self, token: Token, ply: int) -> bool:
        """Is what looks like a move a word here, as a goal without a move before it, or two letters that no pawn can mean?"""
        if token.kind in ("target", "promotion"):
            return self.before is None or bool(self.before.castling) or self.wanted is not None
        if token.kind != "pawn" or self.wanted is not None:
            return False
        nodes = self.tree.plies[ply - 1] if 0 < ply <= len(self.tree.plies) else []
        self.tree.budget.take(len(nodes))
        return not any(captures_by_files(node.board, token.text) for node in nodes)

    def _take_move(self, token: Token) -> None:
        """A move, at the ply that its number or its place says."""
        beside = self.beside or token.kind in ("promotion", "target")
        beside = beside or self.wanted is None and self.refuting and not self.threatening
        ply = self.tree.ply if beside else self.tree.ply + (2 if self.threatening else 1)
        ply = ply if self.wanted is None else self.wanted
        if self._no_move(token, ply):
            self.words.append(token.text)
            return
        self._place(token, ply, beside)
        for node in self.tree.fresh if self.refuting else ():
            node.comments = node.comments if "but" in node.comments else {"but": None} | node.comments
        self.wanted, self.beside, self.threatening = None, False, False

    def _place(self, token: Token, ply: int, beside: bool) -> None:
        """Places what a token of moves stands for."""
        text, written = token.text, token.written
        if token.kind == "pawn":
            self.tree.place(ply, beside, partial(meant_by_files, text=text))
        elif token.kind in ("any", "word") or written.every_promotion:
            self.tree.place(ply, beside, partial(self._any, text=text, written=written))
        elif token.kind in ("target", "promotion"):
            self._place_goals(token, ply)
        else:
            self._place_move(written, ply, beside)

    @staticmethod
    def _any(node: Node, text: str, written: Written) -> list[Node]:
        """What `~`, `S~`, `d1=~` stand for; where any move will do it is a null move, but for check."""
        if not (written.man or written.file or written.goal) and not node.board.in_check:
            return [null_move(node, text)]
        return any_meant(node, text, written)

    def _place_goals(self, token: Token, ply: int) -> None:
        """The man of the move before to other goals, or a promotion to another man."""
        assert self.before is not None
        if token.kind == "promotion":
            others = [replace(self.before, promotion=man_named(token.text[1]), sign="")]
        else:
            others = [replace(self.before, goal=goal, sign="") for goal in SQUARE.findall(token.text)]
        for other in others:
            self.tree.place(ply, True, partial(meant, written=other))

    def _place_move(self, written: Written, ply: int, beside: bool) -> None:
        """Places one written move; after a comma it may be the next one of the line."""
        try:
            self.tree.place(ply, beside, partial(meant, written=written))
        except ProblemFault:
            if not beside or self.wanted is not None:
                raise
            self._place_otherwise(written, ply)
        else:
            self.before = written

    def _place_otherwise(self, written: Written, ply: int) -> None:
        """What no move of this ply fits after a sign of alternatives: another goal of the same man, or the next move of the line."""
        other = replace(self.before, goal=written.goal, sign=written.sign) if self.before and written.goal_alone else written
        try:
            self.tree.place(ply, True, partial(meant, written=other))
        except ProblemFault:
            self.tree.place(ply + 1, False, partial(meant, written=written))
            self.before = written
