"""Moves and variations: what a solution's text becomes."""

from __future__ import annotations

from collections.abc import Iterator

from .board import Board, Move

GOOD, POOR = {1, 3}, {2, 4, 6}
SET_PLAY = "set play"
THREAT = "threat"


class Node:
    """A position and the move that led to it: none at the start, and none of a null move, whose text is `--`.

    `loose` is a node that stands for one of the moves of a text like `S~`: it goes where what follows it in the text is not legal.
    """

    __slots__ = ("board", "parent", "move", "san", "children", "comments", "glyphs", "loose")

    def __init__(self, board: Board, parent: Node | None = None, move: Move | None = None, san: str = "") -> None:
        self.board = board
        self.parent = parent
        self.move = move
        self.san = san
        self.children: list[Node] = []
        self.comments: dict[str, None] = {}  # in their order; each is there once
        self.glyphs: list[int] = []
        self.loose = False

    @property
    def null(self) -> bool:
        """Is the move before it a null move?"""
        return self.parent is not None and self.move is None

    @property
    def mates(self) -> bool:
        """Does the move before it mate?"""
        return self.san.endswith("#")

    def comment(self, text: str) -> None:
        """Adds a comment that is not there yet."""
        if text:
            self.comments.setdefault(text)

    def glyph(self, number: int) -> None:
        """Adds a glyph that is not there yet."""
        if number not in self.glyphs:
            self.glyphs.append(number)


def played(parent: Node, move: Move) -> Node:
    """The node after a legal move; it is not among the children yet."""
    board = parent.board.played(move)
    sign = "" if not board.in_check else "#" if board.mated() else "+"
    return Node(board, parent, move, parent.board.san(move) + sign)


def _place_of_first(node: Node) -> int:
    """The place of a first move: keys, what has no glyph, tries, set play."""
    if node.null:
        return 3
    return 0 if GOOD & set(node.glyphs) else 2 if POOR & set(node.glyphs) else 1


def walk(root: Node) -> Iterator[Node]:
    """All nodes, the root too."""
    waiting = [root]
    while waiting:
        node = waiting.pop()
        yield node
        waiting.extend(reversed(node.children))


def _lasting(root: Node, plies: int) -> set[Node]:
    """The nodes from which a mate after so many plies from the start can be reached, and these mates."""
    found: set[Node] = set()
    waiting = [(root, 0)]
    while waiting:
        node, ply = waiting.pop()
        waiting.extend((child, ply + 1) for child in node.children)
        up: Node | None = node if node.mates and ply == plies else None
        while up is not None and up not in found:
            found.add(up)
            up = up.parent
    return found


def arrange(root: Node, plies: int = 0) -> None:
    """Puts the key first, and of the answers to a move a real defence, so that a threat is a variation.

    Where the stipulation wants a mate after so many plies against a defender, that is the first defence which lasts so long.
    """
    lasting = _lasting(root, plies) if plies else set()
    root.children.sort(key=_place_of_first)
    for node in walk(root):
        if node is root or not node.children:
            continue
        real = [child for child in node.children if not child.null]
        if node.board.white != root.board.white:
            real = [child for child in real if child in lasting] or real
        first = real[0] if real else node.children[0]
        node.children = [first] + [child for child in node.children if child is not first]


def main_line(root: Node) -> list[Node]:
    """The nodes of the main line, without the root."""
    line: list[Node] = []
    node = root
    while node.children:
        node = node.children[0]
        line.append(node)
    return line


def levels(root: Node) -> int:
    """How deep variations stand within variations."""
    deepest, waiting = 0, [(root, 0)]
    while waiting:
        node, level = waiting.pop()
        deepest = max(deepest, level)
        waiting.extend((child, level + (place > 0)) for place, child in enumerate(node.children))
    return deepest
