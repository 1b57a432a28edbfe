"""Where a game that was found came from: its number in its archive.

The games that a query finds, written without marks, are among all games of the archive, written likewise; the report of the latter
run has the numbers of those that are refused.
"""

from __future__ import annotations

import os
import subprocess
import tempfile
from collections import defaultdict
from collections.abc import Callable, Iterable, Iterator, Sequence
from hashlib import blake2b
from typing import IO, BinaryIO

from . import query as queries
from .archives import BLOCK, Archive
from .errors import Error
from .files import STANDARD_INPUT, shown
from .process import Counts, FaultyGame, Process, executable, raise_for, read_line

EVERY = b'cql(matchstring "") initial'


def start(
    archive: Archive,
    words: Sequence[str],
    query: bytes,
    out: int | IO[bytes] | None = subprocess.PIPE,
    err: int | IO[bytes] | None = subprocess.PIPE,
    progress: bool = False,
) -> Process:
    """A run of cqlpgn over an archive, which is its standard input; words are as of `Process`. Raises `NotFound`."""
    if archive.is_plain and not progress:
        with archive.open() as file:
            return Process(words, query, out=out, err=err, stdin=file)
    archive.look()
    return Process(words, query, blocks=archive.blocks(progress), out=out, err=err)


def state(archive: Archive) -> tuple[int, ...]:
    """What differs where a file was changed; empty where it can't be known."""
    try:
        found = os.stat(archive.path)
    except (OSError, ValueError):
        return ()
    return found.st_dev, found.st_ino, found.st_size, found.st_mtime_ns


def kept(archive: Archive, room: IO[bytes]) -> Archive:
    """An archive that can be read several times: standard input is copied into the open file `room`, which has a name."""
    if archive.path != STANDARD_INPUT:
        return archive
    for block in archive.blocks():
        room.write(block)
    room.flush()
    return Archive(archive.name, room.name)


def units(source: BinaryIO) -> Iterator[bytes]:
    """Games as cqlpgn writes them, and lines of its report between them: each as it stands."""
    read: Callable[[int], bytes] = source.read1 if hasattr(source, "read1") else source.read
    return units_of(iter(lambda: read(BLOCK), b""))


def units_of(blocks: Iterable[bytes]) -> Iterator[bytes]:
    """The same, from blocks of bytes; what is left at the end is no whole one."""
    rest = b""
    for block in blocks:
        rest += block
        at = 0
        while end := _end_of_unit(rest, at):
            yield rest[at:end]
            at = end
        rest = rest[at:]


def _end_of_unit(text: bytes, at: int) -> int:
    # a game has an empty line after its tags and one after its moves
    if text[at : at + 1] != b"[":
        return text.find(b"\n", at) + 1
    middle = text.find(b"\n\n", at)
    end = text.find(b"\n\n", middle + 2) if middle >= 0 else -1
    return end + 2 if end >= 0 else 0


def games(archive: Archive, query: bytes, options: Sequence[str] = ()) -> Iterator[bytes]:
    """The games that a query finds in an archive, as they are written, one by one while it is read. Raises what `Process` does, and the
    exception of a status from 2 on."""
    words = ["run", Process.QUERY, STANDARD_INPUT, *options]
    with start(archive, words, query, err=subprocess.DEVNULL) as process:
        yield from units(process.out)
        raise_for(process.finish(), shown(archive.name))


def every(archive: Archive) -> Iterator[tuple[int, bytes]]:
    """Number and text of each game of an archive that is not refused."""
    words = ["run", Process.QUERY, STANDARD_INPUT]
    with start(archive, words, EVERY, err=subprocess.STDOUT) as process:
        number = 0
        for unit in units(process.out):
            line = None if unit[:1] == b"[" else read_line(unit.decode("utf-8", "replace").rstrip("\n"))
            if isinstance(line, Counts):
                break
            number += 1
            if line is None:
                yield number, unit
            elif isinstance(line, FaultyGame) and line.game != number:
                raise Error(f"{shown(archive.name)}: the report of cqlpgn does not fit what it has written")
        raise_for(process.finish(), shown(archive.name))


def numbers(archive: Archive, query: bytes) -> Iterator[int]:
    """For each game that a query without faults finds in an archive, in the order in which it is written, its number in the archive, from
    1, faulty games counted. The archive is read twice and must be a file (`kept`). Without `sort` the first number comes while it is
    read."""
    silent = queries.without_marks(query, comments=False)
    if queries.sees_missing_tags(query):
        yield from _one_by_one(archive, silent)
    elif queries.sorts(query):
        yield from _in_any_order(archive, silent)
    else:
        yield from _in_order(archive, silent)


def changed(archive: Archive) -> Error:
    """What is to be said of an archive whose second reading does not fit the first one."""
    return Error(f"{shown(archive.name)}: was changed meanwhile")


def _in_order(archive: Archive, silent: bytes) -> Iterator[int]:
    """Equal games match alike, so the first one that is equal is the one that was found."""
    all_games = every(archive)
    for game in games(archive, silent):
        for number, other in all_games:
            if game == other:
                yield number
                break
        else:
            raise changed(archive)


def _in_any_order(archive: Archive, silent: bytes) -> Iterator[int]:
    """Equal games match alike and are sorted alike, so they stay in their order."""
    found = [_digest(game) for game in games(archive, silent)]
    places: dict[bytes, list[int]] = defaultdict(list)
    wanted = set(found)
    for number, game in every(archive):
        if (key := _digest(game)) in wanted:
            places[key].append(number)
    for rest in places.values():
        rest.reverse()
    for key in found:
        if not places[key]:
            raise changed(archive)
        yield places[key].pop()


def _digest(game: bytes) -> bytes:
    return blake2b(game, digest_size=16).digest()


def _one_by_one(archive: Archive, silent: bytes) -> Iterator[int]:
    """Two games may be written alike, one with a tag that is `?` and one without it, and match otherwise: each game is asked alone."""
    matched: dict[int, bytes] = {}
    with tempfile.TemporaryFile() as file:
        for block in archive.blocks():
            file.write(block)
        file.flush()
        for number, begin, length in _places(file):
            file.seek(begin)
            # a space before it, since some bytes mean something else at the beginning of an archive
            text = (b" " if begin else b"") + file.read(length)
            with Process(["run", Process.QUERY, STANDARD_INPUT], silent, blocks=[text], err=subprocess.DEVNULL) as process:
                if game := process.out.read():
                    matched[number] = game
                process.finish()
    for game in games(archive, silent):
        equal = [number for number, text in matched.items() if text == game]
        if not equal:
            raise changed(archive)
        del matched[equal[0]]
        yield equal[0]


def _places(file: IO[bytes]) -> Iterator[tuple[int, int, int]]:
    """Number, first byte and length of each game of an archive, as pgnpieces cuts it."""
    file.seek(0)
    with Process([STANDARD_INPUT, "1"], program=executable("PGNPIECES", "pgnpieces"), stdin=os.dup(file.fileno())) as process:
        lines = process.out.read().splitlines()
        process.finish()
    for line in lines:
        _, begin, length, first, count = map(int, line.split())
        if count:
            yield first, begin, length
