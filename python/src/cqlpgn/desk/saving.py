"""What was found as a file: the games, rows, a page of boards, a sheet of exercises. The commands of the package write them, each a process
of its own, so that the server stays awake."""

from __future__ import annotations

import asyncio
import contextlib
import csv
import os
import sys
import tempfile
from asyncio.subprocess import DEVNULL, PIPE, Process
from collections.abc import AsyncGenerator, Iterator
from dataclasses import dataclass
from typing import IO

from ..errors import Stopped
from .found import Found
from .program import begun, end, kill
from .shown import NEVER

PACKAGE = os.path.dirname(os.path.dirname(os.path.dirname(os.path.realpath(__file__))))
MOST_ON_A_PAGE = 5000  # games: a browser has them all at once, and so has the command


@dataclass(frozen=True)
class Form:
    """The name of the file, its kind, and the command with its words; without one the games are as the program wrote them. `title` is that
    of a page, which has no more than `MOST_ON_A_PAGE` games."""

    name: str
    kind: str
    command: str = ""
    words: tuple[str, ...] = ()
    title: str = ""

    def call(self, count: int, there: int) -> list[str]:
        """The command's words for so many games of those that are there."""
        left_out = f": the first {count:,} of {there:,} games" if count < there else ""
        title = [f"--title={self.title}{left_out}"] if self.title else []
        return [sys.executable, "-P", "-B", "-m", "cqlpgn.commands", self.command, *self.words, *title]


COLUMNS = ("--columns", "archive,found,ply,move,side,san,uci,fen,depth,mainline,White,Black,Event,Site,Date,Result")
FORMS = {
    "pgn": Form("found.pgn", "application/x-chess-pgn"),
    "csv": Form("found.csv", "text/csv", "rows", ("--csv", *COLUMNS)),
    "json": Form("found.jsonl", "application/jsonl", "rows", ("--json", *COLUMNS)),
    "epd": Form("found.epd", "text/plain", "rows", ("--epd",)),
    "page": Form("found.html", "application/octet-stream", "diagrams", (), "found"),
    "sheet": Form("exercises.html", "application/octet-stream", "diagrams", ("--exercises", "--coordinates"), "exercises"),
}


def environment() -> dict[str, str]:
    """The environment of a command: this package comes first on the path of modules, and nothing of the working folder is on it."""
    places = [place for place in os.environ.get("PYTHONPATH", "").split(os.pathsep) if os.path.isabs(place)]
    return os.environ | {"PYTHONPATH": os.pathsep.join([PACKAGE, *places])}


async def _feed(process: Process, blocks: Iterator[bytes]) -> None:
    assert process.stdin is not None
    try:
        for block in blocks:
            process.stdin.write(block)
            await process.stdin.drain()
    except (BrokenPipeError, ConnectionResetError):
        pass
    except Exception:
        kill(process)  # so that what has come is not taken for all
        raise
    finally:
        process.stdin.close()


def _index(found: Found, count: int) -> IO[str]:
    """Of which archive the first so many games are, as cqlpgn-rows reads it; a file without a name."""
    file = tempfile.TemporaryFile("w", encoding="utf-8", errors="surrogateescape", newline="", dir=found.folder)
    rows = csv.writer(file)
    rows.writerow(["found", "archive", "game"])
    rows.writerows((number, name, "") for number, name in found.origins(count))
    file.flush()
    return file


async def saved(found: Found, form: Form) -> AsyncGenerator[bytes, None]:
    """The file in pieces; the process ends with whoever takes them. What is found meanwhile is not in it. Raises `Stopped` where the
    command ends before the file does."""
    there = len(found)
    count = min(there, MOST_ON_A_PAGE) if form.title else there
    if not form.command:
        for block in found.blocks(count):
            yield block
        return
    call = [*form.call(count, there), f"--mark={found.mark or NEVER}", "-"]
    async with contextlib.aclosing(_written(call, found, count, form.command == "rows")) as pieces:
        async for data in pieces:
            yield data


async def _written(call: list[str], found: Found, count: int, wants_index: bool) -> AsyncGenerator[bytes, None]:
    """What a command writes of the first so many games."""
    with await asyncio.to_thread(_index, found, count) as index:
        number = index.fileno()
        call += [f"--index=/proc/self/fd/{number}"] * wants_index
        process = await begun(call, [number], stdin=PIPE, stdout=PIPE, stderr=DEVNULL, env=environment())
    feeding = asyncio.ensure_future(_feed(process, found.blocks(count)))
    assert process.stdout is not None
    try:
        while data := await process.stdout.read(1 << 16):
            yield data
        if await process.wait() or feeding.done() and feeding.exception():
            raise Stopped("the file could not be written to its end")
    finally:
        feeding.cancel()
        await end(process)
