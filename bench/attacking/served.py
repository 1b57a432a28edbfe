"""The desk as a process, its requests, and a page's line to it, sent byte by byte so that no client mends them."""

from __future__ import annotations

import base64
import json
import os
import re
import signal
import socket
import struct
import subprocess
import tempfile
import time
from pathlib import Path
from types import TracebackType
from typing import Any

from .asking import USUAL, Bounds, Place, Untried, ended, has_come, peak

ADDRESS = re.compile(rb"http://127\.0\.0\.1:(\d+)/([^/\s]+)/")


class Desk:
    """A desk over a folder. At the end of the `with` nothing of it is left."""

    def __init__(self, place: Place, folder: Path, bounds: Bounds = USUAL, umask: int = 0o022, browser: str = "") -> None:
        self.mark, self.folder, self.err = place.mark(), folder, tempfile.TemporaryFile()
        call = bounds.call(place.command("desk", *([] if browser else ["--no-browser"]), "--runs", "2", str(folder)))
        self.process = subprocess.Popen(
            call,
            stdin=subprocess.DEVNULL,
            stdout=subprocess.PIPE,
            stderr=self.err,
            cwd=folder,
            env=place.environment(self.mark) | ({"BROWSER": browser} if browser else {}),
            start_new_session=True,
            umask=umask,
        )
        assert self.process.stdout is not None
        said, limit = b"", time.monotonic() + 20
        while not (found := ADDRESS.search(said)) and time.monotonic() < limit and self.process.poll() is None:
            if has_come(self.process.stdout.fileno(), 0.2):
                said += os.read(self.process.stdout.fileno(), 4096)
        if found is None:
            self.close()
            raise Untried("the desk did not begin: " + self.said()[-200:].decode("utf-8", "replace"))
        self.port, self.token = int(found[1]), found[2].decode()

    def __enter__(self) -> Desk:
        return self

    def __exit__(self, _kind: type[BaseException] | None, _value: BaseException | None, _trace: TracebackType | None) -> None:
        self.close()

    def close(self) -> None:
        """Ends it at once, and all that it has left."""
        if self.process.poll() is None:
            self.process.kill()
        self.process.wait()
        assert self.process.stdout is not None
        self.process.stdout.close()
        ended(self.mark, 0.3)

    def said(self) -> bytes:
        """The beginning of what it has said on standard error."""
        return os.pread(self.err.fileno(), 1 << 22, 0)

    def memory(self) -> float:
        """The greatest resident size so far, in MB."""
        return peak(self.process.pid)

    def ends(self, kind: int = signal.SIGINT, patience: float = 8.0) -> str:
        """What is to be said of its end after a signal: nothing, where it ends in time with status 0."""
        begin = time.monotonic()
        self.process.send_signal(kind)
        try:
            status = self.process.wait(patience)
        except subprocess.TimeoutExpired:
            return f"the desk had not ended {patience:.0f} s after signal {kind}"
        return "" if status in (0, 128 + kind) else f"the desk ended with status {status} after {time.monotonic() - begin:.1f} s"

    def raw(self, data: bytes, patience: float = 5.0) -> bytes:
        """What comes for some bytes, until the desk closes the connection or nothing comes for so long."""
        came = bytearray()
        try:
            with socket.create_connection(("127.0.0.1", self.port), timeout=patience) as line:
                line.sendall(data)
                while piece := line.recv(1 << 16):
                    came += piece
        except OSError:
            pass
        return bytes(came)

    def get(self, path: str = "", patience: float = 5.0) -> tuple[int, bytes, bool]:
        """Status, body, and whether it came to its end, of a request of the desk's own page; the status is 0 where none came."""
        head = f"GET /{self.token}/{path} HTTP/1.1\r\nHost: 127.0.0.1:{self.port}\r\nConnection: close\r\n\r\n"
        said, _, body = self.raw(head.encode(), patience).partition(b"\r\n\r\n")
        status = int(said.split()[1]) if said.startswith(b"HTTP/") else 0
        if b"chunked" in said.lower():
            return status, *_unchunked(body)
        return status, body, True

    def line(self, patience: float = 10.0) -> Line:
        """A page's line."""
        return Line(self, patience)


def _unchunked(body: bytes) -> tuple[bytes, bool]:
    found = bytearray()
    while (cut := body.find(b"\r\n")) >= 0:
        size = int(body[:cut].split(b";")[0] or b"0", 16)
        if not size:
            return bytes(found), True
        found += body[cut + 2 : cut + 2 + size]
        body = body[cut + 4 + size :]
    return bytes(found), False


class Line:
    """A page's line to the desk (RFC 6455). `count` and `size` are how many messages have come, and their bytes."""

    def __init__(self, desk: Desk, patience: float) -> None:
        self.desk, self.number, self.count, self.size = desk, 0, 0, 0
        self.run: dict[str, Any] | None = None
        self._data = b""
        try:
            self._socket = socket.create_connection(("127.0.0.1", desk.port), timeout=patience)
            key = base64.b64encode(os.urandom(16)).decode()
            own = f"127.0.0.1:{desk.port}"
            self._socket.sendall(
                f"GET /{desk.token}/socket?page= HTTP/1.1\r\nHost: {own}\r\nOrigin: http://{own}\r\nUpgrade: websocket\r\n"
                f"Connection: Upgrade\r\nSec-WebSocket-Version: 13\r\nSec-WebSocket-Key: {key}\r\n\r\n".encode()
            )
            while b"\r\n\r\n" not in self._data:
                self._more()
        except OSError as fault:
            raise Untried(f"no line to the desk: {fault}") from fault
        head, _, self._data = self._data.partition(b"\r\n\r\n")
        if b" 101 " not in head:
            raise Untried(f"no line to the desk: {head[:60]!r}")
        self.hello = self._message(patience) or {}
        self.page = str(self.hello.get("page", ""))

    def _more(self) -> None:
        piece = self._socket.recv(1 << 16)
        if not piece:
            raise ConnectionResetError("the line was closed")
        self._data += piece

    def send(self, data: bytes, kind: int = 1) -> None:
        """Sends a message of these bytes."""
        size = len(data)
        head = bytes([0x80 | kind]) + (
            bytes([0x80 | size]) if size < 126 else struct.pack("!BH", 0xFE, size) if size < 1 << 16 else struct.pack("!BQ", 0xFF, size)
        )
        self._socket.sendall(head + b"\0\0\0\0" + data)

    def _frame(self) -> tuple[int, bytes]:
        while len(self._data) < 10 and (len(self._data) < 2 or self._data[1] > 125 or len(self._data) < 2 + self._data[1]):
            self._more()
        size, at = self._data[1] & 127, 2
        if size == 126:
            size, at = int.from_bytes(self._data[2:4], "big"), 4
        elif size == 127:
            size, at = int.from_bytes(self._data[2:10], "big"), 10
        while len(self._data) < at + size:
            self._more()
        kind, body = self._data[0] & 15, self._data[at : at + size]
        self._data = self._data[at + size :]
        return kind, body

    def _message(self, patience: float) -> dict[str, Any] | None:
        """The next message; None where none comes in time, or the line is closed."""
        limit = time.monotonic() + patience
        try:
            while time.monotonic() < limit:
                self._socket.settimeout(max(0.05, limit - time.monotonic()))
                kind, body = self._frame()
                if kind == 9:
                    self.send(body, 10)
                elif kind == 8:
                    return None
                elif kind == 1:
                    self.count, self.size = self.count + 1, self.size + len(body)
                    said = json.loads(body)
                    return said if isinstance(said, dict) else None
        except (OSError, ValueError):
            pass
        return None

    def ask(self, do: str, patience: float = 5.0, **words: Any) -> dict[str, Any] | None:
        """The answer to a message, or None where none comes."""
        self.number += 1
        return self.answer(json.dumps({"n": self.number, "do": do} | words).encode(), patience)

    def answer(self, data: bytes, patience: float = 5.0) -> dict[str, Any] | None:
        """The answer to a message of these bytes, or None where none comes."""
        try:
            self.send(data)
        except OSError:
            return None
        limit = time.monotonic() + patience
        while (said := self._message(limit - time.monotonic())) is not None:
            if "is" in said or "refused" in said or "fault" in said or "error" in said:
                return said
            self.run = said.get("run", self.run)
        return None

    def over(self, query: str, *archives: str, patience: float = 20.0) -> dict[str, Any] | None:
        """What is said of a run at its end; None where it does not come to one in time."""
        limit = time.monotonic() + patience
        self.run = None
        answer = self.ask("run", patience, query=query, archives=list(archives), first=False)
        if answer is None or "refused" in answer:
            return answer
        if not isinstance(answer["is"], dict) or "run" not in answer["is"]:
            raise Untried(f"the desk has not begun a run: {str(answer)[:100]}")
        begun: dict[str, Any] = answer["is"]["run"]
        self.run = self.run if self.run and self.run.get("run") == begun.get("run") else begun
        while self.run is not None and self.run["state"] not in ("done", "failed", "stopped"):
            said = self._message(limit - time.monotonic())
            if said is None:
                return None
            self.run = {**self.run, **said.get("run", {})}
        return self.run

    def close(self) -> None:
        """Closes the line."""
        self._socket.close()
