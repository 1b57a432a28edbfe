"""The program cqlpgn as a process of the server: a query is checked, explained, and run."""

from __future__ import annotations

import asyncio
import contextlib
import os
import signal
from asyncio.subprocess import DEVNULL, PIPE, Process
from collections.abc import Sequence
from typing import Any

from .. import faults, query
from ..errors import Fault
from ..launch import Launch
from ..process import in_words
from .folder import Refused

PIECE = 1 << 18
QUERY = "/QUERY/"
MEND = "Install cqlpgn again, and start the desk anew."


async def start(program: str, words: Sequence[str], text: bytes, **pipes: Any) -> Process:
    """The program with a query, which it reads, in place of the word `QUERY`, from a file without a name: any byte may stand in it, and no
    other process sees it. Raises `Refused`."""
    file = os.memfd_create("query")
    try:
        with os.fdopen(os.dup(file), "wb") as to:
            to.write(text)
        call = [f"/proc/self/fd/{file}" if word == QUERY else word for word in words]
        return await begun([program, *call], [file], limit=PIECE, **pipes)
    except OSError as fault:
        raise Refused(f"the program {program} can't be started: {fault.strerror}. {MEND}") from fault
    finally:
        os.close(file)


async def begun(call: Sequence[str], files: Sequence[int], **how: Any) -> Process:
    """A process that inherits these files and ends with the desk, however that ends. Raises `OSError` where the program can't be begun."""
    with Launch(call, files) as launch:
        process = await asyncio.create_subprocess_exec(*launch.call, pass_fds=launch.files, **how)
        launch.release()
        try:
            await _readable(launch.report)
            launch.wait()
        except BaseException:
            await end(process)
            raise
    return process


async def _readable(file: int) -> None:
    """Waits until a file has something to be read, or is at its end."""
    if file < 0:
        return
    loop = asyncio.get_running_loop()
    came = asyncio.Event()
    loop.add_reader(file, came.set)
    try:
        await came.wait()
    finally:
        loop.remove_reader(file)


def kill(process: Process) -> None:
    """Ends a process. Its own `kill` would first ask whether it has ended, and take the answer from who waits for it."""
    if process.returncode is None:
        with contextlib.suppress(ProcessLookupError):
            os.kill(process.pid, signal.SIGKILL)


async def end(process: Process) -> None:
    """Ends a process, if it has not ended, and waits for it."""
    if process.returncode is None:
        kill(process)
        # its pipes are read to their end: asyncio does not see that a process has ended whose output waits to be read
        await process.communicate()
    if process.stdin is not None:
        process.stdin.close()


class Program:
    """The program, and how it is asked short questions: at most four at once."""

    def __init__(self, path: str) -> None:
        self.path = path
        self._asking = asyncio.Semaphore(4)

    async def _told(self, words: Sequence[str], text: bytes) -> str:
        async with self._asking:
            process = await start(self.path, words, text, stdin=DEVNULL, stdout=PIPE, stderr=PIPE)
            try:
                out, err = await process.communicate()
            finally:
                await end(process)
        status = process.returncode or 0
        if status not in (0, 2):
            raise Refused(f"{in_words(status) or f'cqlpgn ended with status {status}'}. {MEND}")
        return (out + err).decode("utf-8", "replace").strip()

    async def check(self, text: bytes) -> Fault | None:
        """The fault of a query, or of a text of several that lines `%%` part, with its place in the text; None where it has none."""
        is_one = len(query.pieces(text)) == 1
        said = await self._told(["check", QUERY] if is_one else ["many", QUERY, os.devnull], text)
        return faults.fault(text, said.split("\n")[0])

    async def explain(self, text: bytes) -> str:
        """What a query asks once its transforms are written out; of several one after the other."""
        said = [await self._told(["explain", QUERY], piece) for _, piece in query.pieces(text)]
        return "\n%%\n".join(said)
