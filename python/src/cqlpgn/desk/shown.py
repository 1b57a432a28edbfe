"""Games that were found as the page shows them: read by pgnjson, written as on the page of boards, and handed over as lists, so that no
text of an archive is ever read as HTML by the browser."""

from __future__ import annotations

import secrets
import subprocess
from collections.abc import Iterator, Sequence
from dataclasses import replace
from html.parser import HTMLParser
from itertools import islice
from typing import Any

from ..boards import Tree, matches
from ..games import Game, Node, Reader
from ..latex import Style
from ..page import Writer
from .found import Found, shortened

MOST_BOARDS = 200  # of one game
MOST_TAG, MOST_COMMENT = 300, 2000  # letters
MOST_LETTERS = 1 << 21  # of the games in one answer
NEVER = "mark-" + secrets.token_hex(8)  # what no comment is, where a query marks nothing
EMPTY = ("br",)


class Lists(HTMLParser):
    """HTML as lists: an element is its name, its attributes, and what is in it, lists and texts."""

    def __init__(self, html: str) -> None:
        super().__init__()
        self.top: list[Any] = ["", {}]
        self._open = [self.top]
        self.feed(html)
        self.close()

    def handle_starttag(self, tag: str, attrs: list[tuple[str, str | None]]) -> None:
        """An element begins."""
        made: list[Any] = [tag, dict(attrs)]
        self._open[-1].append(made)
        if tag not in EMPTY:
            self._open.append(made)

    def handle_endtag(self, tag: str) -> None:
        """An element ends."""
        self._open.pop()

    def handle_data(self, data: str) -> None:
        """A text stands in the open element."""
        self._open[-1].append(data)


class Shortened(Tree):
    """A game whose long tags and comments are cut: the page has no use for a megabyte of them."""

    def __init__(self, game: Game, mark: str) -> None:
        tags = {tag: shortened(value, MOST_TAG) for tag, value in game.tags.items()}
        super().__init__(replace(game, tags=tags, comments=[_cut(comment, mark) for comment in game.comments]))
        self.children = [[_cut_node(node, mark) for node in children] for children in self.children]


def _cut(comment: str, mark: str) -> str:
    return comment if comment == mark else shortened(comment, MOST_COMMENT)


def _cut_node(node: Node, mark: str) -> Node:
    return node._replace(comments=[_cut(comment, mark) for comment in node.comments]) if node.comments else node


class Few(Writer):
    """Writes a game with no more boards than a browser bears."""

    def boards(self) -> str:
        """The first boards of the game, and how many more there are."""
        more = len(self.matches) - MOST_BOARDS
        self.matches = dict(islice(self.matches.items(), MOST_BOARDS))
        note = f'<p class="soft">{more} more positions of this game are marked in its moves.</p>' if more > 0 else ""
        return super().boards() + note


def _article(tree: Tree, mark: str, number: int, first: int) -> str:
    return Few(tree, list(matches(tree, [mark], first)), Style()).article(number)


def articles(found: Found, numbers: Sequence[int]) -> Iterator[tuple[int, Any]]:
    """The games of these numbers as lists, each with its place among the numbers; fewer where they are long. Raises `Error`."""
    mark, letters = found.mark or NEVER, 0
    data = [game for number in numbers for game in found.bytes_of(number, 1)]
    with Reader(data, "what was found", mark, subprocess.DEVNULL) as reader:
        for game in reader:
            place = game.number - 1
            html = _article(Shortened(game, mark), mark, numbers[place] + 1, found.marks[numbers[place]] + 1)
            letters += len(html)
            yield place, Lists(html).top[2]
            if letters > MOST_LETTERS:
                return
