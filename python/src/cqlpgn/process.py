"""The programs as processes: their words, their report, and their statuses."""

from __future__ import annotations

import contextlib
import fcntl
import os
import re
import shutil
import subprocess
import tempfile
import threading
from collections.abc import Iterable, Iterator, Sequence
from dataclasses import dataclass
from types import TracebackType
from typing import IO, BinaryIO

from .errors import STATUS_WORDS, Error, NotFound, Stopped, Unreadable
from .launch import Launch, lasting
from .signals import unbroken

# what a pipe holds, so that two programs seldom wait for one another
BUFFER = 1 << 20
SHORT = 1 << 16  # bytes
LINGER = 0.3  # seconds that the end of a run waits for its feeder, which may itself wait for an input without end
COUNTS = re.compile(r"games (\d+) matched (\d+) refused (\d+)")
FAULTY_GAME = re.compile(r"game (\d+) byte (\d+): (.*)")


@dataclass(frozen=True)
class Counts:
    """The last line of a report: how many games there were, how many matched, and how many were refused."""

    games: int = 0
    matched: int = 0
    refused: int = 0

    def __add__(self, other: Counts) -> Counts:
        return Counts(self.games + other.games, self.matched + other.matched, self.refused + other.refused)

    def __str__(self) -> str:
        return f"games {self.games} matched {self.matched} refused {self.refused}"


@dataclass(frozen=True)
class FaultyGame:
    """A line of a report: the number of a game that was refused, from 1, the byte of its first fault in the archive, from 0, and why."""

    game: int
    byte: int
    reason: str


def widen(stream: IO[bytes]) -> None:
    """Asks for a larger pipe; a user who has many of them does with a small one."""
    with contextlib.suppress(OSError, AttributeError):
        fcntl.fcntl(stream, fcntl.F_SETPIPE_SZ, BUFFER)


def read_line(line: str) -> Counts | FaultyGame | None:
    """What a line of a report says; None where it is none."""
    if counts := COUNTS.fullmatch(line):
        return Counts(*map(int, counts.groups()))
    if fault := FAULTY_GAME.fullmatch(line):
        return FaultyGame(int(fault[1]), int(fault[2]), fault[3])
    return None


def executable(variable: str = "CQLPGN", name: str = "cqlpgn") -> str:
    """The path of a program, which the variable names, or which is on the path. Raises `NotFound`."""
    found = shutil.which(os.environ.get(variable) or name)
    if found is None:
        raise NotFound(f"there is no program {os.environ.get(variable) or name}; {variable} may name it")
    return os.path.abspath(found)


def in_words(status: int) -> str | None:
    """A status of cqlpgn from 3 on in words, or that a signal ended it, where it is negative."""
    return f"cqlpgn was ended by signal {-status}" if status < 0 else STATUS_WORDS.get(status)


def raise_for(status: int, name: str) -> None:
    """Raises the exception that a status from 2 on stands for; the name is that of the archive."""
    said = f"{name}: {in_words(status) or f'cqlpgn ended with status {status}'}"
    if status == 4:
        raise NotFound(said)
    if status in (5, 8):
        raise Unreadable(said, status)
    if status in (6, 7) or status < 0:
        raise Stopped(said, 7 if status < 0 else status)
    if status > 1:
        raise Error(said, status)


class Process:
    """A run of cqlpgn, or of another program, whose standard input is fed from a thread where there are blocks to feed.

    `words` are those after the program's name; the word `QUERY` among them becomes the name of a file with the bytes of `query`, in
    memory alone where that can be. At the end of the `with` nothing of it is left, whatever ended it; and it ends with this process.
    """

    QUERY = "/QUERY/"

    def __init__(
        self,
        words: Sequence[str],
        query: bytes = b"",
        blocks: Iterable[bytes] | None = None,
        out: int | IO[bytes] | None = subprocess.PIPE,
        err: int | IO[bytes] | None = subprocess.PIPE,
        program: str | None = None,
        stdin: int | IO[bytes] | None = subprocess.DEVNULL,
    ) -> None:
        self._fault: BaseException | None = None
        self._thread: threading.Thread | None = None
        call = [program or executable()]
        file, name = _in_memory(query)
        self._room = None if name else tempfile.NamedTemporaryFile(suffix=".cql")
        try:
            if self._room is not None:
                self._room.write(query)
                self._room.flush()
            call += [name or self._room_name if word == self.QUERY else word for word in words]
            source = subprocess.PIPE if blocks is not None else stdin
            with unbroken(), Launch(call, (file,), _is_short(blocks)) as launch:
                self._begin(launch, blocks, source, out, err)
        except OSError as fault:
            raise NotFound(f"{call[0]}: {fault.strerror}") from fault
        finally:
            os.close(file)

    def _begin(
        self,
        launch: Launch,
        blocks: Iterable[bytes] | None,
        stdin: int | IO[bytes] | None,
        out: int | IO[bytes] | None,
        err: int | IO[bytes] | None,
    ) -> None:
        """Makes the child, feeds it, and waits until it is the program. Raises `OSError` where it can't be."""

        def begun() -> subprocess.Popen[bytes]:
            return subprocess.Popen(launch.call, stdin=stdin, stdout=out, stderr=err, pass_fds=launch.files, bufsize=BUFFER)

        with _starting:
            self._process = lasting(begun)
            _running.add(self)
        for stream in (self._process.stdin, self._process.stdout, self._process.stderr):
            if stream is not None:
                widen(stream)
        if blocks is not None:
            self._thread = threading.Thread(target=self._feed, args=(blocks,), daemon=True)
            self._thread.start()
        try:
            launch.wait()
        except OSError:
            self.__exit__(None, None, None)
            raise

    @property
    def _room_name(self) -> str:
        return "" if self._room is None else self._room.name

    def _feed(self, blocks: Iterable[bytes]) -> None:
        to = self._process.stdin
        assert to is not None
        try:
            for block in blocks:
                to.write(block)
        except BrokenPipeError:
            pass
        except Exception as fault:
            self._fault = fault
        finally:
            try:
                to.close()
            except OSError:
                pass

    @property
    def out(self) -> BinaryIO:
        """What it writes, where `out` is a pipe."""
        assert self._process.stdout is not None
        return self._process.stdout  # type: ignore[return-value]

    def report(self) -> Iterator[str]:
        """The lines of its report as they come, where `err` is a pipe."""
        assert self._process.stderr is not None
        for line in self._process.stderr:
            yield line.decode("utf-8", "replace").rstrip("\n")

    def finish(self) -> int:
        """Waits for its end and gives its status. Raises what reading the blocks has raised: the run was then of a first part."""
        status = self._process.wait()
        if self._thread is not None and status in (0, 1):
            self._thread.join()
            if self._fault is not None:
                raise self._fault
        return status

    def kill(self) -> None:
        """Ends it at once, from any thread."""
        self._process.kill()

    def clear(self) -> None:
        """Removes its file with the query, if it has one."""
        if self._room is not None:
            self._room.close()

    def __enter__(self) -> Process:
        return self

    def __exit__(self, _kind: type[BaseException] | None, _value: BaseException | None, _trace: TracebackType | None) -> None:
        self._process.kill()
        self._process.wait()
        _running.discard(self)
        self.clear()
        if self._thread is not None:
            self._thread.join(LINGER)
        for stream in (self._process.stdout, self._process.stderr):
            if stream is not None:
                stream.close()


# those that were started and have not ended; one is started at a time, so that none is between its start and its place here
_running: set[Process] = set()
_starting = threading.Lock()


def end_all() -> None:
    """Ends whatever runs, at once; from then on nothing is started."""
    _starting.acquire()
    for process in list(_running):
        process.kill()
        process.clear()


def _is_short(blocks: Iterable[bytes] | None) -> bool:
    """Whether the input of a program is a short text in memory, which comes to its end when this process does."""
    return isinstance(blocks, (list, tuple)) and sum(map(len, blocks)) <= SHORT


def _in_memory(data: bytes) -> tuple[int, str]:
    """Number and name of a file that is in memory alone and has these bytes; the name is empty where no folder has such names."""
    file = os.memfd_create("query")
    with os.fdopen(os.dup(file), "wb") as to:
        to.write(data)
    name = f"/proc/self/fd/{file}"
    return file, name if os.path.exists(name) else ""


def asked(words: Sequence[str], query: bytes = b"") -> tuple[int, bytes, str]:
    """Status, output and report of a short run over nothing."""
    with Process(words, query) as process:
        out: list[bytes] = []
        reader = threading.Thread(target=lambda: out.append(process.out.read()), daemon=True)
        reader.start()
        report = "\n".join(process.report())
        status = process.finish()
        reader.join()
    return status, b"".join(out), report
