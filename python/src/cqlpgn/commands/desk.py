"""cqlpgn-desk: a page in the browser on which queries are written, run over the archives of a folder, and seen."""

from __future__ import annotations

import argparse
import asyncio
import contextlib
import logging
import os
import signal
import socket
import tempfile
import webbrowser
from collections.abc import Sequence
from typing import TYPE_CHECKING

from ..errors import Error, NotFound
from ..files import shown
from ..process import end_all, executable
from ..signals import stop_clock
from .ends import run, say
from .words import Parser

if TYPE_CHECKING:
    from ..desk.server import Desk

EPILOG = """The page is served to this machine alone, and to whoever knows the address that is printed. Archives are *.pgn, plain or
packed (gz, bz2, xz, zst, zip). Nothing is written into FOLDER but the queries that are saved. Ctrl+C ends the desk and all that it has
started. The exit status is 0; 3 for words that are not as above; 4 where the folder, a program or a package of Debian is not there, or the
port is taken. CQLPGN and PGNJSON name the programs, if they are not those on the path."""
WAITING = 1024  # connections that may wait while the desk has much to do; the system resets what comes beyond
GRACE = 3.0  # seconds that what is under way has at the end


def parser() -> argparse.ArgumentParser:
    """The parser of the command's words."""
    made = Parser("cqlpgn-desk", "Opens a page in the browser on which queries are written and run over the archives of a folder.", EPILOG)
    made.add_argument("folder", nargs="?", default=".", metavar="FOLDER", help="where the archives are (here)")
    made.add_argument("--port", type=int, default=0, metavar="N", help="a port of this machine (a free one)")
    made.add_argument("--runs", type=int, default=max(1, (os.cpu_count() or 1) // 2), metavar="N", help="how many runs go at once")
    made.add_argument("--no-browser", action="store_true", help="the address is printed alone")
    return made


def led_on(address: str) -> str | None:
    """A file that leads the browser to the address, which on a command line every user of the machine could read. It lies where browsers
    may read that are shut into the user's own folder. None where there can't be one."""
    for folder in (os.path.expanduser("~"), tempfile.gettempdir()):
        try:
            number, path = tempfile.mkstemp(".html", "cqlpgn-desk-", folder)
        except OSError:
            continue
        with os.fdopen(number, "w", encoding="utf-8") as file:
            file.write(f'<!DOCTYPE html><meta http-equiv="refresh" content="0;url={address}">')
        webbrowser.open("file://" + path)
        return path
    return None


async def serve(flags: argparse.Namespace, program: str) -> None:
    """Serves the page until a signal ends it. Raises `NotFound` where the port can't be had."""
    from aiohttp import web

    from ..desk.door import Door
    from ..desk.server import Desk

    desk = Desk(flags.folder, program, max(1, flags.runs))
    runner = web.AppRunner(desk.app(), access_log=None)
    await runner.setup()
    over = asyncio.Event()
    for kind in (signal.SIGINT, signal.SIGTERM, signal.SIGHUP):
        asyncio.get_running_loop().add_signal_handler(kind, over.set)
    stop_clock()
    assert runner.server is not None
    with listening(flags.port) as port:
        desk.host = f"127.0.0.1:{port.getsockname()[1]}"
        door = asyncio.create_task(Door(runner.server).open(port))
        try:
            await greeted(desk, over, is_led=not flags.no_browser)
            await over.wait()
        finally:
            door.cancel()
            await runner.shutdown()
            await runner.server.shutdown(GRACE)
            await runner.cleanup()


async def greeted(desk: Desk, over: asyncio.Event, is_led: bool) -> None:
    """Tells the address, and waits until the first page has come, or the end. The file that leads the browser there goes then; somebody
    else may have taken it away."""
    address = f"http://{desk.host}/{desk.token}/"
    say(f"The desk of {shown(desk.shared.folder.path)} is at {address}\nCtrl+C ends it.")
    path = led_on(address) if is_led else None
    first = [asyncio.create_task(event.wait()) for event in (desk.seen, over)]
    try:
        await asyncio.wait(first, return_when=asyncio.FIRST_COMPLETED)
    finally:
        for task in first:
            task.cancel()
        if path is not None:
            with contextlib.suppress(OSError):
                os.unlink(path)


def listening(port: int) -> socket.socket:
    """A port of this machine. Raises `NotFound` where it can't be had."""
    try:
        made = socket.create_server(("127.0.0.1", port), backlog=WAITING)
    except (OSError, OverflowError) as fault:
        raise NotFound(f"port {port} can't be had: {getattr(fault, 'strerror', None) or fault}") from fault
    made.setblocking(False)
    return made


def served(flags: argparse.Namespace, program: str) -> None:
    """Serves the page until a signal ends it. No thread is waited for that still reads an archive: it ends with the process."""
    loop = asyncio.new_event_loop()
    try:
        loop.run_until_complete(serve(flags, program))
    finally:
        end_all()
        if left := asyncio.all_tasks(loop):
            for task in left:
                task.cancel()
            loop.run_until_complete(asyncio.wait(left, timeout=GRACE))


def main(words: Sequence[str]) -> int:
    """Runs the command with these words, and gives its exit status. Raises `NotFound` where the folder or a program is not there, and
    `Error` where aiohttp isn't."""
    flags = parser().parse_args(words)
    if not os.path.isdir(flags.folder):
        raise NotFound(f"{shown(flags.folder)}: is no folder")
    program = executable()
    executable("PGNJSON", "pgnjson")
    try:
        import aiohttp  # noqa: F401
    except ImportError as fault:
        raise Error("the desk needs aiohttp, which is in Debian's package python3-aiohttp", 4) from fault
    # it would tell a traceback of each request that is none
    logging.getLogger("aiohttp.server").setLevel(logging.CRITICAL)
    served(flags, program)
    return 0


def entry() -> None:
    """Runs the command with the words of the process."""
    run(main)
