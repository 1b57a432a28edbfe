"""A page for the browser: games with their marked moves in colour and a board for each marked position, or exercises."""

from __future__ import annotations

import base64
import hashlib
import re
import tempfile
from collections.abc import Iterable, Iterator
from dataclasses import dataclass
from html import escape
from importlib import resources
from typing import IO

from .boards import STANDARD, SUFFIXES, UNKNOWN, Match, Tree, moved
from .games import Node
from .latex import Style

FILES = "abcdefgh"
SQUARES = "ABCDEFGHIJKLMNOPQRSTUVWXYZabcdefghijklmnopqrstuvwxyz0123456789+-"
SIGNS = {7: "□", 8: "□", 10: "=", 13: "∞", 14: "+=", 15: "=+", 16: "±", 17: "∓", 18: "+−", 19: "−+", 22: "zugzwang", 36: "initiative"}
SIGNS |= {40: "attack", 132: "counterplay", 138: "time trouble", 140: "with the idea", 146: "novelty"}
SHOWN = ("Event", "Site", "Date", "White", "Black", "Result", "FEN", "SetUp")


@dataclass(frozen=True)
class Section:
    """A file of games: its title, and its games with their matches, which are read one by one."""

    title: str
    games: Iterable[tuple[Tree, list[Match]]]


def isolated(text: str) -> str:
    """A text from an archive, which has no effect on what stands around it: neither as HTML, nor by signs that turn the direction."""
    return f"<bdi>{escape(text)}</bdi>"


def square(name: str) -> str:
    """A square as the page's script reads it."""
    return SQUARES[FILES.index(name[0]) + 8 * (int(name[1]) - 1)]


def signed(node: Node) -> str:
    """A move as the page's script reads it."""
    return "!!" if node.is_null else square(node.uci[:2]) + square(node.uci[2:4]) + node.uci[4:].upper()


def figure(match: Match, caption: str, style: Style) -> str:
    """A board with its caption, which is HTML, and in exercises its solution."""
    move = f' data-move="{signed(match.node)}"' if match.node and not style.exercises else ""
    turned = ' data-turned="1"' if style.turned and not match.is_white else ""
    return (
        f'<figure id="m{match.number}" data-fen="{escape(match.fen)}"{move}{turned}><div></div><figcaption>{caption} '
        f"<small>{match.side}</small> "
        '<button title="copies the position\'s FEN">FEN</button></figcaption>'
        f"{solution(match) if style.exercises else printed(match)}</figure>\n"
    )


def players(tree: Tree) -> str:
    """Who played, as HTML."""
    return " – ".join(map(isolated, tree.players))


def printed(match: Match) -> str:
    """What stands below a board on paper, where the games are left out."""
    where = ", ".join(map(isolated, match.tree.where))
    return f'<p class="paper">{match.number}. {players(match.tree)}<br>{where}</p>'


def solution(match: Match) -> str:
    """How an exercise is solved, as HTML, hidden until it is asked for."""
    said = "".join(f" <em>{isolated(comment)}</em>" for comment in match.comments)
    where = ", ".join(filter(None, [players(match.tree), *map(isolated, match.tree.where)]))
    moves = match.solution(escape, lambda comment: f"<em>{isolated(comment)}</em>")
    return f"<details><summary>solution</summary>{moves}{said}<br><small>{where}</small></details>"


def exercise(match: Match) -> str:
    """What stands below the board of an exercise: its number, and of a problem its stipulation and who composed it."""
    stipulation = f"<strong>{match.number}</strong>"
    if not match.is_problem:
        return stipulation
    composers = match.tree.composers
    return f"{stipulation} {isolated(match.tree.stipulation)}" + (f" · {isolated(composers)}" if composers else "")


class Writer:
    """Writes one game."""

    def __init__(self, tree: Tree, matches: list[Match], style: Style) -> None:
        self.tree, self.style = tree, style
        self.matches = {match.node.number if match.node else 0: match for match in matches}
        self.words: list[str] = []
        self.moves: list[str] = []

    def comments(self, number: int, comments: list[str]) -> bool:
        """Writes what is said of a position but for its mark; answers whether anything was."""
        said = self.matches[number].comments if number in self.matches else comments
        self.words += [f"<em>{isolated(comment)}</em>" for comment in said]
        return bool(said)

    def move(self, node: Node, due: bool) -> bool:
        """Writes a move with what is said of it; answers whether the next move of Black wants its number."""
        number, san = self.tree.number(node, due), escape(moved(node))
        if number:
            self.words.append(number)
        match = self.matches.get(node.number)
        self.words.append(f'<b data-match="m{match.number}">{san}</b>' if match else san)
        self.words += [f"<i>{SIGNS.get(glyph, f'${glyph}')}</i>" for glyph in node.nags if glyph not in SUFFIXES]
        promoted = signed(node)
        self.moves.append(promoted[:2] + "=" + promoted[2:] if len(promoted) > 2 else promoted)
        return self.comments(node.number, node.comments)

    def line(self, at: int, due: bool) -> None:
        """Writes the moves after a position; the variations of a move stand after it."""
        while children := self.tree.children[at]:
            due = self.move(children[0], due)
            for other in children[1:]:
                first = len(self.words)
                self.moves.append("(")
                self.line(other.number, self.move(other, True))
                self.moves.append(")")
                self.words[first] = "<span>(" + self.words[first]
                self.words[-1] += ")</span>"
                due = True
            at = children[0].number

    def boards(self) -> str:
        """The boards of the game's matches, as HTML."""
        captions = ("the start" if match.node is None else match.led.removeprefix("after ") for match in self.matches.values())
        return "".join(
            figure(match, f"<strong>{escape(caption)}</strong>", self.style) for match, caption in zip(self.matches.values(), captions)
        )

    def article(self, number: int) -> str:
        """The game's article."""
        if 0 in self.matches:
            self.words.append(f'<b class="start" data-match="m{self.matches[0].number}">start</b>')
        game = self.tree.game
        self.comments(0, game.comments)
        self.line(0, True)
        self.words.append(f"<i>{game.result}</i>")
        more = [isolated(f"{tag} {value}") for tag, value in game.tags.items() if tag not in SHOWN and value not in UNKNOWN]
        tags = " · ".join(filter(None, [", ".join(map(isolated, self.tree.where)), *more]))
        placement = game.start.split(" ")[0]
        start = "" if placement == STANDARD.split(" ")[0] else f' data-start="{escape(placement)}"'
        return (
            f'<article id="g{number}"{start} data-moves="{"".join(self.moves)}">\n'
            f'<h2>{players(self.tree)} <small>{game.result}</small></h2>\n<p class="tags">{tags}</p>\n'
            f'<p class="moves">{" ".join(self.words)}</p>\n<div class="boards">\n{self.boards()}</div>\n</article>\n'
        )


def _row(tree: Tree, number: int, count: int) -> str:
    where = ", ".join(map(isolated, tree.where))
    return f'<tr><td>{number}<td><a href="#g{number}">{players(tree)}</a> {where}<td>{count}\n'


class _Body:
    """The games of all files as HTML, and the table of contents. Both are written into files, so that one game is in memory at a time."""

    def __init__(self, contents: IO[str], articles: IO[str], style: Style, has_titles: bool) -> None:
        self._contents, self._articles, self._style, self._has_titles = contents, articles, style, has_titles
        self.games, self.matches = 0, 0

    def add(self, section: Section) -> None:
        """Writes the games of a file."""
        if self._has_titles:
            self._articles.write(f"<h1>{isolated(section.title)}</h1>\n")
        if self._style.exercises:
            self._articles.write('<article class="exercises">\n<div class="boards">\n')
        for tree, matches in section.games:
            self.games, self.matches = self.games + 1, self.matches + len(matches)
            self._add_game(tree, matches)
        if self._style.exercises:
            self._articles.write("</div>\n</article>\n")

    def _add_game(self, tree: Tree, matches: list[Match]) -> None:
        if self._style.exercises:
            self._articles.writelines(figure(match, exercise(match), self._style) for match in matches)
            return
        self._contents.write(_row(tree, self.games, len(matches)))
        self._articles.write(Writer(tree, matches, self._style).article(self.games))


def _counts(games: int, matches: int) -> str:
    return f"{games} {'game' if games == 1 else 'games'}, {matches} marked {'position' if matches == 1 else 'positions'}"


def _digest(text: str) -> str:
    return "'sha256-" + base64.b64encode(hashlib.sha256(text.encode()).digest()).decode() + "'"


def own_file(name: str) -> str:
    """The text of a file that lies beside this module."""
    return resources.files(__package__).joinpath(name).read_text(encoding="utf-8")


def _template() -> str:
    """The page without its games; the men, the style and the script of the boards are those of the desk too."""
    parts = {"@BOARDS_STYLE@": "boards.css", "@BOARDS_SCRIPT@": "boards.js", "@MEN@": "men.svg"}
    return re.sub("|".join(parts), lambda name: own_file(parts[name.group()]), own_file("page.html"))


def _file() -> IO[str]:
    """A file without a name, for text."""
    return tempfile.TemporaryFile("w+", encoding="utf-8", errors="replace", newline="")


def _text(file: IO[str]) -> Iterator[str]:
    """What is in such a file, in pieces."""
    file.seek(0)
    while piece := file.read(1 << 16):
        yield piece


def _policy(text: str) -> str:
    """What the page may run: its style and its script are told by their digests, so that nothing else in it can be either."""
    sheet, script = (re.findall(rf"<{tag}>(.*?)</{tag}>", text, re.S)[0] for tag in ("style", "script"))
    return f"default-src 'none'; style-src {_digest(sheet)}; script-src {_digest(script)}; base-uri 'none'; form-action 'none'"


def document(sections: Iterable[Section], style: Style) -> Iterator[str]:
    """The page, in pieces, of which none is there before all games are read."""
    listed = list(sections)
    titles = " · ".join(section.title for section in listed)
    kinds = ["exercises"] * style.exercises + ["coordinates"] * style.coordinates + [f"by{style.per_page}"]
    with _file() as contents, _file() as articles:
        body = _Body(contents, articles, style, len(listed) > 1)
        for section in listed:
            body.add(section)
        text = _template()
        parts = {
            "@POLICY@": _policy(text),
            "@TITLE@": escape(titles),
            "@HEADING@": isolated(titles),
            "@KINDS@": " ".join(kinds),
            "@COUNTS@": _counts(body.games, body.matches),
            "@MATCHES@": str(body.matches),
            "@OPEN@": "open" if body.games <= 2000 else "",
        }
        before, between, after = re.split("@CONTENTS@|@GAMES@", text)
        for piece, file in ((before, contents), (between, articles), (after, None)):
            yield re.sub("|".join(parts), lambda name: parts[name.group()], piece)
            if file is not None:
                yield from _text(file)
