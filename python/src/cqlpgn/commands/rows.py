"""cqlpgn-rows: a row for each marked position."""

from __future__ import annotations

import argparse
import hashlib
import os
import tempfile
from collections.abc import Iterator, Sequence
from contextlib import ExitStack
from itertools import chain, islice

from .. import games, origins, rows
from ..archives import Archive, single
from ..errors import NotFound, Unreadable
from ..files import STANDARD_INPUT, Replacing, refuse_inputs, shown, standard_output
from ..games import MARK, Reader
from .ends import run, tell
from .words import Parser

EPILOG = """Columns: {columns}; any other name is a tag, as White. Where FILE.csv stands beside FILE, as `cqlpgn-over --number` has
written it, archive and game are of the archive that the game came from; else `archive` is FILE, and `game` is empty. The exit status is
0; 1 where a game was refused; 3 for words that are not as above; 4 where a file could not be opened; 5 where one could not be read, or
FILE.csv is of other games; 6 where a write failed. CQLPGN's reader pgnjson is named by PGNJSON, if it is not the one on the path."""


def parser() -> argparse.ArgumentParser:
    """The parser of the command's words."""
    told = ", ".join(f"{name} ({said})" for name, said in rows.COLUMNS.items())
    made = Parser("cqlpgn-rows", "Writes a row for each marked position of the games that cqlpgn has written.", EPILOG.format(columns=told))
    made.add_argument("file", metavar="FILE", nargs="?", default=STANDARD_INPUT, help="the games, packed or not; `-` is standard input")
    kinds = made.add_mutually_exclusive_group()
    for kind, said in {"csv": "CSV (what is written if nothing else is said)", "json": "a line of JSON for each row", "epd": "EPD"}.items():
        kinds.add_argument(f"--{kind}", dest="kind", action="store_const", const=kind, default="csv", help=said)
    made.add_argument("--columns", metavar="NAME,..", help="the columns, in this order; with --epd they are comments (none)")
    made.add_argument(
        "--mark", metavar="TEXT", default=MARK, help="the comment of a marked position (CQL); it is the query's `matchstring`"
    )
    made.add_argument("--index", metavar="FILE", help="another file than FILE.csv says where the games came from")
    made.add_argument("-o", dest="out", metavar="FILE", help="the rows go to FILE, which is made at the end, with status 0 or 1")
    return made


def index_name(flags: argparse.Namespace) -> str | None:
    """The name of the file that says where the games came from, if there is any."""
    beside: str = flags.file + ".csv"
    if flags.index is None and (flags.file == STANDARD_INPUT or not os.path.exists(beside)):
        return None
    return flags.index if flags.index is not None else beside


def index_of(name: str, stack: ExitStack) -> rows.Index:
    """The index of that name; its file is open as long as the stack. Raises `NotFound`."""
    try:
        # what is no UTF-8 is told as escapes, so that each row is text
        return rows.Index(stack.enter_context(open(name, encoding="utf-8", errors="backslashreplace", newline="")), name)
    except (OSError, ValueError) as fault:
        raise NotFound(f"{shown(name)}: {getattr(fault, 'strerror', None) or fault}") from fault


def digest_of(archive: Archive) -> str:
    """The digest of an archive's bytes, unpacked, as an index has it. Raises what reading raises."""
    made = hashlib.sha256()
    for block in archive.blocks():
        made.update(block)
    return f"sha256:{made.hexdigest()}"


def source_of(source: Archive, index: rows.Index, name: str, stack: ExitStack) -> Archive:
    """The games, which the index is of; standard input is copied, as it is read twice. Raises `Unreadable` where it is of other games."""
    if not index.digest:
        if not index.is_empty:
            tell(f"{shown(name)}: does not say of which file it is; taken as that of {shown(source.name)}")
        return source
    source = origins.kept(source, stack.enter_context(tempfile.NamedTemporaryFile())) if source.path == STANDARD_INPUT else source
    if digest_of(source) != index.digest:
        raise Unreadable(f"{shown(name)}: is of other games than {shown(source.name)} has now; `cqlpgn-over --number` makes it anew")
    return source


def all_rows(reader: Reader, flags: argparse.Namespace, index: rows.Index | None, unseen: set[str]) -> Iterator[rows.Position]:
    """The rows of all games; tags that a game has are taken out of `unseen`."""
    mark, unknown = " ".join(flags.mark.split()), (shown(flags.file), None)
    for game in reader:
        unseen.difference_update(game.tags)
        archive, number = index and index.origin(game.number) or unknown
        yield from rows.positions(game, mark, archive, number)


def text_of(word: str) -> str:
    """A word as text: bytes that are no UTF-8 as escapes."""
    return word.encode("utf-8", "surrogateescape").decode("utf-8", "backslashreplace")


def columns_of(made: argparse.ArgumentParser, flags: argparse.Namespace) -> list[str]:
    """The columns that are wanted; ends the process where one has no name."""
    if flags.columns is None:
        return [] if flags.kind == "epd" else rows.USUAL
    columns = [text_of(column) for column in flags.columns.split(",")]
    if not all(columns):
        made.error("each of the --columns has a name")
    return columns


def main(words: Sequence[str]) -> int:
    """Writes the rows; the status is that of pgnjson. Raises `Error`."""
    made = parser()
    flags = made.parse_args(words)
    columns = columns_of(made, flags)
    unseen = set(columns) - set(rows.COLUMNS)
    name = index_name(flags)
    refuse_inputs([flags.out] if flags.out is not None else [], [flags.file, *([] if name is None else [name])])
    source = single(flags.file)
    status = 0
    with ExitStack() as stack:
        index = index_of(name, stack) if name is not None else None
        source = source_of(source, index, name, stack) if index is not None and name is not None else source
        status = write_rows(source, flags, columns, index, unseen)
    return status


def write_rows(source: Archive, flags: argparse.Namespace, columns: list[str], index: rows.Index | None, unseen: set[str]) -> int:
    """Writes the rows of the games of an archive; the status is that of pgnjson. Raises `Error`."""
    with Replacing() as files, tempfile.TemporaryFile() as report, games.read(source, flags.mark, err=report) as reader:
        to = files.open(flags.out) if flags.out is not None else standard_output()
        found = all_rows(reader, flags, index, unseen)
        first = list(islice(found, 1))
        for text in rows.WRITERS[flags.kind](chain(first, found), columns):
            to.write(text.encode("utf-8", "surrogateescape"))
        to.flush()
        report.seek(0)
        for line in report:
            if not line.startswith(b"games "):
                tell(f"{shown(flags.file)}: {line.decode().rstrip()}")
        files.commit()
    if not first:
        tell(f"{shown(flags.file)}: no position has the comment {{{shown(flags.mark)}}}; --mark names another one")
    for tag in sorted(unseen) if first else []:
        tell(f"{shown(flags.file)}: no game has the tag {shown(tag)}")
    return reader.status


def entry() -> None:
    """Runs the command with the words of the process, which ends with it."""
    run(main)
