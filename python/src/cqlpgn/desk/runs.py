"""A run: one query, or several, over archives that are fed to the program one after the other."""

from __future__ import annotations

import asyncio
import time
from asyncio.subprocess import PIPE, Process
from collections.abc import Callable, Iterator
from contextlib import suppress
from typing import Any

from .. import query as queries
from ..errors import Error
from ..files import shown
from ..process import Counts, FaultyGame, in_words, read_line
from .folder import Held
from .found import Found, Full, Parted, Room
from .program import MEND, PIECE, QUERY, end, kill, start

MOST_FAULTS, MOST_TROUBLES = 1000, 100
OVER = ("done", "stopped", "failed")


def told_of(fault: Exception) -> str:
    """What the page is told of an exception."""
    if isinstance(fault, (Error, OSError)):
        return str(fault)
    if isinstance(fault, MemoryError):
        return "there was not enough memory"
    return f"this is a fault of the desk, please report it: {type(fault).__name__}: {fault}"


def joined(blocks: Iterator[bytes]) -> Iterator[bytes]:
    """The same bytes in blocks that are not small."""
    kept = bytearray()
    for block in blocks:
        kept += block
        if len(kept) >= PIECE:
            yield bytes(kept)
            kept.clear()
    if kept:
        yield bytes(kept)


async def _closed(pipe: asyncio.StreamWriter) -> None:
    """Waits until a pipe is closed, whatever becomes of what was written into it."""
    with suppress(BrokenPipeError, ConnectionResetError):
        await pipe.wait_closed()


class Run:
    """`state` is waiting, reading, done, stopped or failed; `changed` is called when there is something to be told."""

    def __init__(
        self, number: int, program: str, text: bytes, archives: list[Held], is_first: bool, room: Room, changed: Callable[[Run], None]
    ) -> None:
        self.number, self._program, self.text, self._is_first, self._changed = number, program, text, is_first, changed
        pieces = [piece for _, piece in queries.pieces(text)]
        self.founds = [Found(queries.mark_of(piece), room) for piece in pieces]
        self._archives, self._reading = archives, archives[0]
        self.state, self.troubles = "waiting", [""] * 0
        self._sorts = any(map(queries.sorts, pieces))
        self.faults: list[dict[str, Any]] = []
        self._read = self._faulty = self._games = self._failed = self._failures = 0
        self._begun = self._ended = time.monotonic()

    @property
    def names(self) -> list[str]:
        """The files of the archives that are asked."""
        return [archive.path for archive in self._archives]

    @property
    def is_over(self) -> bool:
        """Whether nothing more is to come of it."""
        return self.state in OVER

    def words(self) -> dict[str, Any]:
        """What the page is told of it."""
        seconds = (self._ended if self.is_over else time.monotonic()) - self._begun
        return {
            "run": self.number,
            "state": self.state,
            "query": self.text.decode("utf-8", "replace"),
            "archives": len(self._archives),
            "archive": self._archives[0].name,
            "reading": self._reading.name,
            "troubles": self.troubles,
            "sorts": self._sorts,
            "read": self._read,
            "size": sum(archive.size for archive in self._archives),
            "games": self._games,
            "found": [len(found) for found in self.founds],
            "marked": [found.marks[-1] for found in self.founds],
            "faulty": self._faulty,
            "seconds": round(seconds, 2),
        }

    async def go(self, turns: asyncio.Semaphore) -> None:
        """Waits for its turn, and runs to its end."""
        try:
            async with turns:
                self._begun = time.monotonic()
                self.state = "reading"
                for archive in self._archives:
                    await self._over(archive)
                    if self._is_first and any(map(len, self.founds)):
                        break
                self.state = "failed" if self._failed == len(self._archives) else "done"
        except asyncio.CancelledError:
            self.state = "stopped"
        except Exception as fault:
            self._fail(told_of(fault), "failed")
        finally:
            self._ended = time.monotonic()
            for archive in self._archives:
                archive.raw.close()
            self._changed(self)

    def _fail(self, trouble: str, state: str = "") -> None:
        self._failures += 1
        if trouble not in self.troubles and len(self.troubles) <= MOST_TROUBLES:
            self.troubles.append(trouble if len(self.troubles) < MOST_TROUBLES else "more troubles came than are told")
        self.state = state or self.state

    async def _over(self, archive: Held) -> None:
        before, failures = self._read, self._failures
        self._reading = archive
        for found in self.founds:
            found.begin(archive.name)
        words = ["run" if len(self.founds) == 1 else "many", QUERY, "-", *["--first"] * self._is_first]
        process = await start(self._program, words, self.text, stdin=PIPE, stdout=PIPE, stderr=PIPE)
        works = (self._feed(process, archive, before), self._take(process), self._listen(process, archive.name))
        tasks = [asyncio.ensure_future(work) for work in works]
        try:
            await asyncio.gather(*tasks)
            status = await process.wait()
        finally:
            kill(process)
            for task in tasks:
                task.cancel()
            await asyncio.gather(*tasks, return_exceptions=True)
            await end(process)
        if status > 1 or status < 0 and self._failures == failures:
            said = in_words(status) or f"cqlpgn ended with status {status}"
            self._fail(f"{shown(archive.name)}: {said}. {MEND if status < 0 else ''}".strip())
        self._failed += self._failures > failures
        self._read = before + archive.size

    async def _feed(self, process: Process, archive: Held, before: int) -> None:
        """Hands the archive to the program; a pipe holds little, so what was fed is what was read."""
        pipe, blocks = process.stdin, joined(archive.blocks())
        assert pipe is not None
        try:
            while block := await asyncio.to_thread(lambda: next(blocks, b"")):
                pipe.write(block)
                await pipe.drain()
                self._read = before + archive.at
                self._changed(self)
            if archive.member is None and archive.is_plain and archive.at < archive.size:
                self._fail(f"{shown(archive.name)}: became shorter while it was read: it ended after {archive.at} bytes")
        except (BrokenPipeError, ConnectionResetError):
            pass
        except Error as fault:
            self._fail(str(fault))
        finally:
            pipe.close()
            # asyncio tells on standard error of a pipe that broke, or for whose end nobody waits any more
            await asyncio.shield(_closed(pipe))

    async def _take(self, process: Process) -> None:
        """Keeps what is found."""
        take = self.founds[0].take if len(self.founds) == 1 else Parted([found.take for found in self.founds]).take
        assert process.stdout is not None
        try:
            while data := await process.stdout.read(PIECE):
                take(data)
                self._changed(self)
        except (OSError, Full) as fault:
            self._fail(f"what was found can't be kept: {getattr(fault, 'strerror', None) or fault}")
            kill(process)

    async def _listen(self, process: Process, name: str) -> None:
        """Reads the report: a line for each faulty game, then the counts of each query."""
        assert process.stderr is not None
        counted = False
        async for line in process.stderr:
            said = read_line(line.decode("utf-8", "replace").strip())
            if isinstance(said, Counts) and not counted:
                self._games, counted = self._games + said.games, True
            elif isinstance(said, FaultyGame):
                self._faulty += 1
                if len(self.faults) < MOST_FAULTS:
                    self.faults.append({"archive": name, "game": said.game, "byte": said.byte, "reason": said.reason})
            self._changed(self)

    def close(self) -> None:
        """Drops what it has found."""
        for found in self.founds:
            found.close()
