"""A desk as a process, and a page's line to it, for the tests of the server and of the page."""

from __future__ import annotations

import os
import re
import signal
import socket
import subprocess
import sys
from pathlib import Path
from types import TracebackType
from typing import Any

from tests.conftest import BIN
from tests.processes import PATIENCE, becomes

GAME = b'[White "A"]\n\n1. f3 e5 2. g4 Qh4# 0-1\n\n'


class Served:
    """A desk that serves a folder. `changed` is Python that sets its bounds otherwise, where a test would take too long or too much."""

    def __init__(self, folder: Path, changed: str = "", **environment: str) -> None:
        self.folder = folder
        program = f"import sys; sys.path.insert(0, {str(BIN.parent / 'src')!r}); {changed}; from cqlpgn.commands.desk import entry; entry()"
        command = ["-c", program] if changed else [str(BIN / "cqlpgn-desk")]
        words = [sys.executable, *command, "--no-browser", "--runs", "2", str(folder)]
        self.process = subprocess.Popen(words, stdout=subprocess.PIPE, stderr=subprocess.PIPE, env={**os.environ, **environment})
        assert self.process.stdout is not None
        found = re.search(r"((http://127\.0\.0\.1:(\d+))/(.*)/)", self.process.stdout.readline().decode())
        assert found is not None
        self.address, self.origin, self.port, self.token = found[1], found[2], int(found[3]), found[4]

    def children(self) -> list[int]:
        """The processes that it has started and that have not ended."""
        with open(f"/proc/{self.process.pid}/task/{self.process.pid}/children", encoding="ascii") as file:
            return [int(word) for word in file.read().split()]

    def no_children(self) -> bool:
        """Whether they all end."""
        return becomes(lambda: not self.children())

    def raw(self, text: str) -> int:
        """The status of what is sent byte by byte, so that no client mends it."""
        with socket.create_connection(("127.0.0.1", self.port), timeout=PATIENCE) as line:
            line.sendall(text.encode("latin-1"))
            answer = line.recv(65536).decode("latin-1")
            return int(answer.split()[1]) if answer else 0

    def get(self, path: str, **headers: str) -> int:
        given = {"Host": f"127.0.0.1:{self.port}", "Connection": "close", **headers}
        return self.raw(f"GET {path} HTTP/1.1\r\n" + "".join(f"{name}: {value}\r\n" for name, value in given.items()) + "\r\n")

    def close(self) -> str:
        """Ends it, as a terminal does, and gives what it has said of troubles."""
        self.process.send_signal(signal.SIGTERM)
        _, said = self.process.communicate(timeout=PATIENCE)
        assert self.process.returncode == 0
        return said.decode()


class Line:
    """A page's line: asks, and keeps what it is told of its run."""

    def __init__(self, desk: Served, page: str = "") -> None:
        self.desk, self.page, self.number = desk, page, 0
        self.run: dict[str, Any] | None = None
        self.hello: dict[str, Any] = {}

    async def __aenter__(self) -> Line:
        import aiohttp

        self.http = aiohttp.ClientSession()
        address = self.desk.address.replace("http", "ws") + "socket?page=" + self.page
        self.socket = await self.http.ws_connect(address, origin=self.desk.origin)
        self.hello = await self.socket.receive_json(timeout=PATIENCE)
        self.page = self.hello["page"]
        return self

    async def __aexit__(self, _kind: type[BaseException] | None, _value: BaseException | None, _trace: TracebackType | None) -> None:
        await self.socket.close()
        await self.http.close()

    async def ask(self, do: str, **words: Any) -> Any:
        """The answer, or as a text beginning with `refused: ` why there is none."""
        self.number += 1
        await self.socket.send_json({"n": self.number, "do": do} | words)
        while (answer := await self.socket.receive_json(timeout=PATIENCE)).get("n") != self.number:
            self.run = answer["run"]
        return "refused: " + answer["refused"] if "refused" in answer else answer["is"]

    async def begin(self, query: str, *archives: str, first: bool = False) -> Any:
        """Runs a query over archives."""
        self.run = None
        return await self.ask("run", query=query, archives=list(archives), first=first)

    async def until(self, *states: str) -> dict[str, Any]:
        """Waits until the run is in one of the states, and gives what is said of it."""
        while not self.run or self.run["state"] not in states:
            self.run = (await self.socket.receive_json(timeout=PATIENCE))["run"]
        return self.run

    async def over(self, query: str, *archives: str, first: bool = False) -> dict[str, Any]:
        """What is said of a run at its end."""
        answer = await self.begin(query, *archives, first=first)
        assert "run" in answer, answer
        return await self.until("done", "failed")
