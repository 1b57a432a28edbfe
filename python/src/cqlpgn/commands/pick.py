"""cqlpgn-pick: games of archives as they stand, by their numbers or by what is said of them."""

from __future__ import annotations

import argparse
import os
import random
import tempfile
from collections import defaultdict
from collections.abc import Iterable, Iterator, Sequence
from contextlib import ExitStack
from typing import IO, Any, NamedTuple

from .. import archives, faults, origins, picking
from ..apart import Apart, values_of
from ..archives import Archive
from ..conditions import Condition
from ..errors import Error, Fault, NotFound, Stopped, Unreadable
from ..files import STANDARD_INPUT, Replacing, refuse_inputs, shown, standard_output
from ..picking import Asking, Range, Sample
from ..pieces import Cut, Joint, Piece, Standing
from .ends import run, tell
from .words import Parser

EPILOG = """NUMBERS are numbers as 3,5,7-9, or a file with such words, with rows of `cqlpgn-rows` or with a report of cqlpgn; without it, or
with `-`, standard input has them. The games come byte for byte as they stand, faulty ones too, and in the archive's order. Where one would
run into the next, a line end, or a line end and `*`, is put between them, and told. The exit status is 0; 1 where a number has no game, a
game was left out, or faulty games could not be asked; 2 where EXPRESSION has a fault; 3 for words that are not as above; 4 where a file
could not be opened; 5 where one could not be read; 6 where a write failed; 7 where memory ran out. `man cqlpgn-pick` has the page of
EXPRESSION."""


class Option(NamedTuple):
    """An option: its name, what follows it, where anything does, and what it is for. Those that are `selecting` say which games are
    wanted, so that all words are archives."""

    name: str
    value: str
    help: str
    selecting: bool = False
    how: dict[str, Any] = {}


OPTIONS = [
    Option("--where", "EXPRESSION", "the games that meet it, as 'Opening ~ \"French\" and WhiteElo >= 2400'", True),
    Option("--variations", "", "with --where: moves of variations are asked too"),
    Option("--faulty", "", "the games that the reader refuses; the reasons are told", True),
    Option("--duplicates", "", "the games that were there before, in any of the archives; -v leaves them out", True),
    Option(
        "--by",
        "WHAT",
        "with --duplicates: what makes two games the same, "
        + "; ".join(f"{word}: {said}" for word, said in picking.BY.items())
        + " (moves)",
        how={"choices": list(picking.BY)},
    ),
    Option("--rows", "FILE", "the rows of `cqlpgn-rows`: the games that their columns `archive` and `game` name", True),
    Option("--sample", "N", "N games drawn at random from those that are wanted", True, {"type": int}),
    Option("--seed", "S", "with --sample: the same games for the same S, a whole number", how={"type": int}),
    Option("-v", "", "all others: the games that are not wanted"),
    Option("--as-given", "", "the games come in the order of the numbers, and as often as they are named"),
    Option("--split-by", "TAG", "a file PREFIXVALUE.pgn for each value of the tag, of `year`, or of `player`, who is White or Black", True),
    Option("--split", "N", "files of N games each: PREFIX0001.pgn, PREFIX0002.pgn, ..", True, {"type": int}),
    Option("-o", "FILE", "the games go to FILE, which is made at the end, with status 0 or 1; with --split-by and --split it is PREFIX"),
    Option("--workers", "N", "is handed on to pgnjson"),
    Option("--limit", "B", "is handed on to pgnjson"),
]


def parser() -> argparse.ArgumentParser:
    """The parser of the command's words."""
    made = Parser("cqlpgn-pick", "Writes games of archives as they stand there, by their numbers or by what is said of them.", EPILOG)
    made.usage = "cqlpgn-pick [OPTION..] ARCHIVE [NUMBERS]\n       cqlpgn-pick [OPTION..] --where EXPRESSION ARCHIVE.."
    made.add_argument("words", metavar="ARCHIVE", nargs="*", help="archives, packed or not, and folders with them; `-` is standard input")
    for option in OPTIONS:
        if option.value:
            made.add_argument(option.name, metavar=option.value, help=option.help.replace("%", "%%"), **option.how)
        else:
            made.add_argument(option.name, action="store_true", help=option.help)
    return made


def value_of(flags: argparse.Namespace, option: Option) -> Any:
    """What the words say of an option; None or False where it is not given."""
    return getattr(flags, option.name.lstrip("-").replace("-", "_"))


def refuse_together(made: argparse.ArgumentParser, flags: argparse.Namespace) -> None:
    """Ends the process where words don't go together."""
    ways = [flags.rows is not None, flags.faulty, flags.where is not None or flags.duplicates]
    for wrong, said in (
        (sum(ways) > 1, "--rows, --faulty and --where or --duplicates don't go together"),
        (flags.variations and flags.where is None, "--variations goes with --where"),
        (flags.by is not None and not flags.duplicates, "--by goes with --duplicates"),
        (flags.seed is not None and flags.sample is None, "--seed goes with --sample"),
        (flags.sample is not None and flags.sample < 1, "--sample takes a number from 1 on"),
        (flags.split is not None and flags.split < 1, "--split takes a number from 1 on"),
        (flags.split is not None and flags.split_by is not None, "--split and --split-by don't go together"),
        ((flags.split is not None or flags.split_by is not None) and flags.out is None, "--split and --split-by want -o PREFIX"),
        (flags.as_given and (flags.v or flags.sample is not None), "--as-given goes with neither -v nor --sample"),
        (flags.as_given and is_selecting(flags) and flags.rows is None, "--as-given goes with numbers and with --rows"),
    ):
        if wrong:
            made.error(said)


def is_selecting(flags: argparse.Namespace) -> bool:
    """Whether an option says which games are wanted, so that there are no NUMBERS."""
    return any(option.selecting and value_of(flags, option) not in (None, False) for option in OPTIONS)


class Given(NamedTuple):
    """An archive that numbers ask, with these, and the places of all numbers in the order in which they were given."""

    found: list[Archive | Error]
    ranges: dict[str, list[Range]]
    order: list[tuple[str, Range]]


class Work:
    """What is asked of which archives, and with which status that ends so far."""

    def __init__(self, flags: argparse.Namespace, condition: Condition | None) -> None:
        options = [word for name in ("workers", "limit") if getattr(flags, name) for word in (f"--{name}", getattr(flags, name))]
        self.flags, self.status = flags, 0
        self.by = (flags.by or "moves") if flags.duplicates else None
        self.asking = Asking(condition, self.by, flags.variations, options) if condition or self.by else None
        self.given: Given | None = None

    def failed(self, fault: Error) -> None:
        """An archive could not be read: the others still are. Raises it where nothing more can be done."""
        if isinstance(fault, (Fault, Stopped)):
            raise fault
        tell(fault)
        self.status = max(self.status, fault.status)

    def chosen(self, archive: Archive) -> Iterator[int]:
        """The numbers that are wanted of an archive, ascending."""
        if self.given is not None:
            return picking.numbers_of(picking.merged(self.given.ranges.get(shown(archive.name), [])))
        if self.flags.faulty:
            return picking.faulty(archive, lambda line: tell(f"{shown(archive.name)}: {line}"))
        return self.asking(archive) if self.asking is not None else picking.every(archive)

    def pieces(self, archive: Archive, cut: Cut, chosen: Iterator[int]) -> Iterator[Piece]:
        """The pieces of an archive that are wanted, or with -v the others; numbers that are left have no game."""
        wanted, count = next(chosen, None), 0
        for piece in cut:
            count = piece.number
            is_wanted = wanted == count
            if is_wanted:
                wanted = next(chosen, None)
            if is_wanted != self.flags.v:
                yield piece
        if self.given is not None and wanted is not None:
            tell(f"{shown(archive.name)}: has {count} games, and none with the number {wanted}")
            self.status = max(self.status, 1)

    def tell_end(self) -> None:
        """Says what was not asked."""
        if self.asking is None:
            return
        for tag in sorted(self.asking.unseen_tags) if self.asking.games else []:
            tell(f"no game has the tag {shown(tag)}")
        if self.asking.refused:
            tell(f"faulty games, which were not asked: {self.asking.refused}; --faulty writes them")
            self.status = max(self.status, 1)


def standing(archive: Archive, cut: Cut, piece: Piece) -> Standing:
    """A game as it stands."""
    return Standing(shown(archive.name), piece.number, cut.text(piece), piece.begin == 0, piece.is_last)


def in_order(work: Work, wanted: Iterable[Archive | Error]) -> Iterator[Standing]:
    """The games of the archives one after the other."""
    for archive in wanted:
        try:
            if isinstance(archive, Error):
                raise archive
            with ExitStack() as room:
                if archive.path == STANDARD_INPUT and work.given is None:
                    archive = origins.kept(archive, room.enter_context(tempfile.NamedTemporaryFile()))
                cut = room.enter_context(Cut(archive))
                for piece in work.pieces(archive, cut, work.chosen(archive)):
                    yield standing(archive, cut, piece)
        except Error as fault:
            work.failed(fault)


def as_given(work: Work, given: Given) -> Iterator[Standing]:
    """The games in the order of the numbers, which are kept in a file until all are read."""
    kept: dict[tuple[str, int], tuple[int, int, Standing]] = {}
    counts: dict[str, int] = defaultdict(int)
    with tempfile.TemporaryFile() as room:
        for game in in_order(work, given.found):
            kept[game.archive, game.number] = room.tell(), len(game.text), game._replace(text=b"")
            counts[game.archive] = max(counts[game.archive], game.number)
            room.write(game.text)
        for name, (first, last) in given.order:
            for number in range(first, min(last, counts[name]) + 1):
                at, size, game = kept[name, number]
                room.seek(at)
                yield game._replace(text=room.read(size))


def sampled(work: Work, wanted: Iterable[Archive | Error], room: IO[bytes]) -> Iterator[Standing]:
    """Some of the games, drawn at random: the archives are read once for their numbers, and once more for these games."""
    seed = work.flags.seed if work.flags.seed is not None else random.SystemRandom().randrange(1 << 32)
    sample, read = Sample(work.flags.sample, seed), []
    for archive in wanted:
        try:
            if isinstance(archive, Error):
                raise archive
            archive = origins.kept(archive, room)
            read.append(archive)
            with Cut(archive) as cut:
                for piece in work.pieces(archive, cut, work.chosen(archive)):
                    sample.give((len(read), piece.number))
        except Error as fault:
            work.failed(fault)
    if work.flags.seed is None:
        tell(f"the seed was {seed}")
    numbers = defaultdict(set)
    for place, number in sample.kept:
        numbers[place].add(number)
    for place, archive in enumerate(read, 1):
        if numbers[place]:
            with Cut(archive) as cut:
                for piece in cut:
                    if piece.number in numbers[place]:
                        yield standing(archive, cut, piece)


def lines_of(name: str, room: ExitStack) -> IO[str]:
    """A file with numbers, or standard input. Raises `NotFound`."""
    try:
        file: int | str = os.dup(0) if name == STANDARD_INPUT else name
        return room.enter_context(open(file, encoding="utf-8", errors="surrogateescape", newline=""))
    except (OSError, ValueError) as fault:
        raise NotFound(f"{shown(name)}: could not be opened") from fault


def given_numbers(archive: Archive, word: str) -> Given:
    """The numbers that a word is, or those in the file of that name. Rows of another archive are passed over, and told."""
    name, others = shown(archive.name), set()
    order: list[tuple[str, Range]] = []
    if picking.NUMBERS.fullmatch(word):
        try:
            order = [(name, numbers) for numbers in picking.of_word(word)]
        except ValueError as fault:
            raise Error(f"{shown(word)}: the numbers of games go up from 1", 3) from fault
    else:
        with ExitStack() as room:
            for other, first, last in picking.places(lines_of(word, room), word):
                if other in (None, name):
                    order.append((name, (first, last)))
                else:
                    others.add(other)
    for other in sorted(filter(None, others))[:3]:
        tell(f"{shown(word)}: has rows of {shown(other)}, which are passed over")
    return Given([archive], {name: [numbers for _, numbers in order]}, order)


def named_in_rows(name: str) -> Archive | Error:
    """The archive that rows name as it is told: a file, or a member of a `.zip`."""
    for end in [len(name), *(at + 4 for at in range(len(name)) if name.lower().startswith(".zip:", at))]:
        if os.path.isfile(name[:end]):
            for archive in archives.archives([name[:end]]):
                if isinstance(archive, Error) or shown(archive.name) == name:
                    return archive
    return NotFound(f"{shown(name)}: could not be opened")


def given_rows(flags: argparse.Namespace) -> Given:
    """The numbers in rows, of the archives that they name; where words name archives, of these alone."""
    order: list[tuple[str, Range]] = []
    with ExitStack() as room:
        for name, first, last in picking.places(lines_of(flags.rows, room), flags.rows):
            if name is None:
                raise Unreadable(f"{shown(flags.rows)}: has rows without the name of an archive")
            order.append((name, (first, last)))
    ranges: dict[str, list[Range]] = defaultdict(list)
    for name, numbers in order:
        ranges[name].append(numbers)
    found = list(archives.archives(flags.words)) if flags.words else [named_in_rows(name) for name in ranges]
    known = {shown(archive.name) for archive in found if isinstance(archive, Archive)}
    for name in ranges if flags.words else []:
        if name not in known:
            found.append(NotFound(f"{shown(name)}: is named by the rows, and not by the words"))
    return Given(found, ranges, order)


def compiled(text: str) -> Condition:
    """The condition; a fault is shown with line, column, caret and hint."""
    try:
        return Condition(text)
    except Fault as fault:
        show(fault)
        raise


def show(fault: Fault) -> None:
    """Shows a fault of the expression."""
    tell(f"--where: line {fault.line}, column {fault.column}:")
    for line in faults.caret(fault):
        tell(line)


def source(work: Work, made: argparse.ArgumentParser, room: ExitStack) -> tuple[Iterator[Standing], list[str]]:
    """The games that are wanted, and the names of the files that are read."""
    flags, words = work.flags, list(work.flags.words)
    numbers = STANDARD_INPUT
    if not is_selecting(flags):
        if not 1 <= len(words) <= 2:
            made.error("an archive is wanted, and numbers")
        numbers = words.pop() if len(words) > 1 else numbers
        if numbers == words[0] == STANDARD_INPUT:
            made.error("standard input has either the archive or the numbers")
        work.given = given_numbers(archives.single(words[0]), numbers)
    elif flags.rows is not None:
        work.given = given_rows(flags)
    elif not words:
        made.error("an archive is wanted")
    found = work.given.found if work.given else archives.archives(words)
    read = [archive.path for archive in found if isinstance(archive, Archive)] if work.given else list(map(str, words_read(words)))
    if flags.as_given and work.given:
        return as_given(work, work.given), read
    if flags.sample is not None:
        return sampled(work, found, room.enter_context(tempfile.NamedTemporaryFile())), read
    return in_order(work, found), read


def words_read(words: Sequence[str]) -> Iterator[str]:
    """The names of the files that words name."""
    yield from (name for name in archives.files(words) if isinstance(name, str))


def written_apart(work: Work, wanted: Iterator[Standing]) -> None:
    """The games go into a file for each value of a tag, or into files of so many games."""
    flags = work.flags
    with Apart(flags.out, tell) as files:
        for count, game in enumerate(wanted):
            for value in values_of(flags.split_by, game.text) if flags.split is None else [f"{count // flags.split + 1:04}"]:
                files.add(value, game)
        if work.status < 2:
            tell(f"files: {len(files.commit())}")
        else:
            tell(f"{shown(flags.out)}: nothing was written")
        work.status = max(work.status, int(files.left_out > 0))


def written(work: Work, wanted: Iterator[Standing]) -> None:
    """The games go to standard output or to one file, which is made with status 0 or 1."""
    with Replacing() as files:
        to = files.open(work.flags.out) if work.flags.out is not None else standard_output()
        joint = Joint(to.write, tell)
        for game in wanted:
            joint.add(game)
        joint.finish()
        to.flush()
        work.status = max(work.status, int(joint.left_out > 0))
        if work.status < 2:
            files.commit()
        elif work.flags.out is not None:
            tell(f"{shown(work.flags.out)}: was not written")


def main(words: Sequence[str]) -> int:
    """Writes the games. Raises `Error`."""
    made = parser()
    flags = made.parse_intermixed_args(words)
    flags.out = flags.o
    refuse_together(made, flags)
    try:
        work = Work(flags, compiled(flags.where) if flags.where is not None else None)
    except Fault as fault:
        return fault.status
    is_apart = flags.split is not None or flags.split_by is not None
    with ExitStack() as room:
        wanted, read = source(work, made, room)
        refuse_inputs([flags.out] if flags.out is not None and not is_apart else [], read)
        try:
            (written_apart if is_apart else written)(work, wanted)
        except Fault as fault:
            show(fault)
            return fault.status
    work.tell_end()
    return work.status


def entry() -> None:
    """Runs the command with the words of the process, which ends with it."""
    run(main)
