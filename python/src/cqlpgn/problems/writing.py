"""A tree with its tags as a game in PGN, in the form of the program's export."""

from __future__ import annotations

from collections.abc import Iterator, Mapping

from .faults import TooLarge
from .tree import Node, levels

ROSTER = ("Event", "Site", "Date", "Round", "White", "Black", "Result")
LINE_BYTES = 79
# What the program reads of a game at most.
MOST_LEVELS = 100
MOST_BYTES = 1 << 24


def printable(text: str) -> str:
    """A text without what can't be printed, and with single spaces between its words."""
    return " ".join("".join(letter if letter.isprintable() else " " for letter in text).split())


def _tag(name: str, value: str) -> str:
    text = printable(value).replace("\\", "\\\\").replace('"', '\\"')
    return f'[{name} "{text}"]'


def tag_lines(tags: Mapping[str, str]) -> Iterator[str]:
    """The seven tags first, `?` where nothing is known, then the others that have a value by their names."""
    for name in ROSTER:
        yield _tag(name, tags.get(name, "").strip() or "?")
    for name in sorted(set(tags) - set(ROSTER)):
        if tags[name].strip():
            yield _tag(name, tags[name])


def _comments(node: Node) -> list[str]:
    """A node's comments in braces, those left out that have no word."""
    return [f"{{{text}}}" for comment in node.comments if (text := printable(comment))]


def _move(node: Node, numbered: bool) -> list[str]:
    """A move with what belongs to it; `numbered` says whether Black's move needs a number, too."""
    parent = node.parent
    assert parent is not None
    number = [f"{parent.board.number}.{'' if parent.board.white else '..'}"] if parent.board.white or numbered else []
    return [*number, node.san, *(f"${glyph}" for glyph in node.glyphs), *_comments(node)]


def _words(root: Node) -> Iterator[str]:
    """The words of the moves; `(` and `)` are words of their own."""
    yield from _comments(root)
    waiting: list[tuple[Node, bool] | str] = [(root, True)]
    while waiting:
        task = waiting.pop()
        if isinstance(task, str):
            yield task
            continue
        node, numbered = task
        if not node.children:
            continue
        first, *others = node.children
        yield from _move(first, numbered)
        waiting.append((first, bool(others) or _interrupts(first)))
        for other in reversed(others):
            waiting += [")", (other, _interrupts(other)), *reversed(_move(other, True)), "("]


def _interrupts(node: Node) -> bool:
    """Does something stand behind the move, so that Black's next move needs its number?"""
    return bool(node.glyphs or _comments(node))


def _glued(root: Node) -> Iterator[str]:
    """The words with each parenthesis at the word that it belongs to, and the game's end."""
    word = ""
    for part in _words(root):
        if part == ")" or word == "(":
            word += part
        else:
            yield from word.split(" ") if word else ()
            word = part
    yield from word.split(" ")
    yield "*"


def movetext(root: Node) -> str:
    """The moves in lines of at most 79 bytes."""
    lines: list[str] = []
    length = LINE_BYTES
    for word in _glued(root):
        size = len(word.encode())
        if length + 1 + size > LINE_BYTES:
            lines.append(word)
            length = size
        else:
            lines[-1] += " " + word
            length += 1 + size
    return "\n".join(lines)


def game(tags: Mapping[str, str], root: Node) -> str:
    """The game with an empty line behind it."""
    if levels(root) > MOST_LEVELS:
        raise TooLarge(f"more than {MOST_LEVELS} levels of variations")
    text = "\n".join(tag_lines(tags)) + "\n\n" + movetext(root) + "\n\n"
    if len(text.encode()) > MOST_BYTES:
        raise TooLarge(f"more than {MOST_BYTES} bytes")
    return text
