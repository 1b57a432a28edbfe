"""What a test sees of processes, and how long it waits for them: for what comes, never for a time that should be enough."""

from __future__ import annotations

import resource
import subprocess
import time
from collections.abc import Callable, Sequence
from os import PathLike
from pathlib import Path
from typing import IO, Any, Union

from model.program import Answer

PATIENCE = 300  # seconds that a test waits at most, on a machine that has much else to do
Word = Union[str, bytes]
Stream = Union[int, IO[bytes]]


def run(program: str, *words: Word, data: bytes = b"", folder: PathLike[str] | None = None, memory: int = 0, **streams: Any) -> Answer:
    """The status of a program and what it wrote: a stream that is given is not captured and counts as empty. `memory` bounds its bytes."""
    how: dict[str, Any] = {"stdout": subprocess.PIPE, "stderr": subprocess.PIPE, "cwd": folder, "timeout": PATIENCE, **streams}
    if memory:
        how["preexec_fn"] = lambda: resource.setrlimit(resource.RLIMIT_AS, (memory, memory))
    if "stdin" not in how:
        how["input"] = data
    call: Sequence[Word] = [program, *words]
    done = subprocess.run(call, check=False, **how)
    return done.returncode, done.stdout or b"", done.stderr or b""


def becomes(told: Callable[[], object]) -> bool:
    """Whether something is so, or becomes so while a test waits."""
    end = time.monotonic() + PATIENCE
    while not (is_so := bool(told())) and time.monotonic() < end:
        time.sleep(0.05)
    return is_so


def _read(path: Path) -> str:
    """A file of a process; empty where the process has ended."""
    try:
        return path.read_text(encoding="utf-8", errors="surrogateescape")
    except (FileNotFoundError, ProcessLookupError):
        return ""


def children(number: int) -> list[int]:
    """What a process has started, from any thread."""
    threads = Path(f"/proc/{number}/task").iterdir()
    return [int(word) for thread in threads for word in _read(thread / "children").split()]


def words_of(number: int) -> list[str]:
    """The words with which a process was started."""
    return _read(Path(f"/proc/{number}/cmdline")).split("\0")


def has_ended(number: int) -> bool:
    said = _read(Path(f"/proc/{number}/stat"))
    return not said or said.rpartition(")")[2].split()[0] == "Z"


def all_end(started: list[int]) -> bool:
    """Whether processes were started and end; one that was killed does so when its turn comes."""
    return bool(started) and becomes(lambda: all(map(has_ended, started)))
