"""cqlpgn-diagrams: a page with a board for each position that was found, or a text for LaTeX."""

from __future__ import annotations

import argparse
import os
import tempfile
from collections.abc import Iterator, Sequence

from .. import boards, games, latex, page
from ..archives import single
from ..files import STANDARD_INPUT, Replacing, refuse_inputs, shown, standard_output
from ..games import MARK
from ..latex import Style
from .ends import run, tell
from .words import Parser

EPILOG = """The games come from pgnjson, so that what is no game is refused and told. The exit status is 0; 1 where a game was refused; 3
for words that are not as above; 4 where a file could not be opened; 5 where one could not be read; 6 where a write failed. PGNJSON names
the reader, if it is not the pgnjson on the path."""


def parser() -> argparse.ArgumentParser:
    """The parser of the command's words."""
    made = Parser("cqlpgn-diagrams", "Makes a page for the browser, or a text for LaTeX, of the games that cqlpgn has written.", EPILOG)
    made.add_argument("files", metavar="MATCHES", nargs="*", help="games, packed or not; without one, or with `-`, standard input")
    made.add_argument("--tex", action="store_true", help="a text for LaTeX; lualatex has letters that pdflatex lacks")
    made.add_argument("--exercises", action="store_true", help="numbered boards alone, and the moves hidden, or on the last pages")
    made.add_argument("--mark", metavar="TEXT", action="append", help="the comment of a marked position (CQL); may be given several times")
    made.add_argument("--title", metavar="TEXT", action="append", help="the title (the file's name); given again, that of the next file")
    made.add_argument("--flip", choices=["never", "side-to-move"], default="never", help="boards with Black to move are turned")
    made.add_argument("--coordinates", action="store_true", help="files and ranks at the boards' edges")
    made.add_argument("--per-page", type=int, choices=[8, 12], default=8, help="how many boards a printed page has (8)")
    made.add_argument("-o", dest="out", metavar="FILE", help="the page goes to FILE, which is made at the end, with status 0 or 1")
    return made


class Source:
    """The games of the files, with their marked positions numbered throughout."""

    def __init__(self, files: Sequence[str], titles: Sequence[str], marks: Sequence[str]) -> None:
        self._files, self._titles, self._marks = files, titles, [" ".join(mark.split()) for mark in marks]
        self.count, self.games, self.status = 0, 0, 0

    def _title(self, place: int, name: str) -> str:
        if place < len(self._titles):
            return self._titles[place]
        return "matches" if name == STANDARD_INPUT else os.path.basename(shown(name))

    def _read(self, name: str) -> Iterator[tuple[boards.Tree, list[boards.Match]]]:
        # pgnjson knows one mark; of several it gives every position, and the comments tell
        mark = self._marks[0] if len(self._marks) == 1 else ""
        with tempfile.TemporaryFile() as report, games.read(single(name), mark, err=report) as reader:
            for game in reader:
                tree = boards.Tree(game)
                found = list(boards.matches(tree, self._marks, self.count + 1))
                self.count, self.games = self.count + len(found), self.games + 1
                yield tree, found
            self.status = max(self.status, reader.status)
            report.seek(0)
            for line in report:
                if not line.startswith(b"games "):
                    tell(f"{shown(name)}: {line.decode().rstrip()}")

    def sections(self) -> Iterator[page.Section]:
        """The games of each file with their matches, which are read as they are taken. Taking them raises what `games.read` does."""
        for place, name in enumerate(self._files):
            yield page.Section(self._title(place, name), self._read(name))

    def matches(self) -> Iterator[tuple[str, Iterator[boards.Match]]]:
        """The matches of each file with its title, likewise."""
        for section in self.sections():
            yield section.title, (match for _, found in section.games for match in found)

    def tell_nothing(self) -> None:
        """Says so where there is no board."""
        if not self.games:
            tell("there is no game: " + ", ".join(map(shown, self._files)))
        elif not self.count:
            said = ", ".join(f"{{{shown(mark)}}}" for mark in self._marks)
            tell(f"no position has the comment {said}; --mark names another one")


def main(words: Sequence[str]) -> int:
    """Writes the page or the text; the status is the greatest one that a file had. Raises `Error`."""
    flags = parser().parse_intermixed_args(words)
    files = flags.files or [STANDARD_INPUT]
    refuse_inputs([flags.out] if flags.out is not None else [], files)
    style = Style(flags.per_page, flags.coordinates, flags.flip == "side-to-move", flags.exercises)
    source = Source(files, flags.title or [], flags.mark or [MARK])
    with Replacing() as outputs:
        to = outputs.open(flags.out) if flags.out is not None else standard_output()
        for text in latex.document(source.matches(), style) if flags.tex else page.document(source.sections(), style):
            to.write(text.encode("utf-8", "replace"))
        to.flush()
        outputs.commit()
    source.tell_nothing()
    return source.status


def entry() -> None:
    """Runs the command with the words of the process, which ends with it."""
    run(main)
