"""A command as it is attacked: begun in bounds, waited for up to a time, and seen from outside."""

from __future__ import annotations

import os
import re
import select
import signal
import subprocess
import tempfile
import threading
import time
from collections.abc import Iterator, Mapping, Sequence
from dataclasses import dataclass, field
from itertools import count
from pathlib import Path

PYTHON = "/usr/bin/python3"
MARK = "CQLPGN_ATTACK"
TRACE = re.compile(rb"Traceback \(most recent call last\)|Exception ignored|Fatal Python error")
# what a terminal obeys: all controls but the end of a line and the tab, C1 as one byte of UTF-8's two too
OBEYED = re.compile(rb"[\x00-\x08\x0b-\x0c\x0e-\x1f\x7f]|\xc2[\x80-\x9f]")
MEGABYTE = 1 << 20


class Untried(Exception):
    """An input could not be posed: this is never counted as an input that found nothing."""


@dataclass
class Seen:
    """How a run ended: `status` is negative for a signal, `work` the seconds of a processor that it and what it began took, `memory` the
    greatest resident size in MB, `left` the words of processes that it has left."""

    status: int
    out: bytes
    err: bytes
    seconds: float
    work: float
    memory: float
    is_hung: bool
    left: list[str] = field(default_factory=list)

    def is_traced(self, place: Place) -> bool:
        """Whether there is a traceback of code that is attacked. One of the interpreter's own beginning, before it has read any of that,
        does not count."""
        return b"Exception ignored" in self.err or bool(TRACE.search(self.err)) and str(place.stage).encode() in self.err

    def trouble(self, statuses: Sequence[int] = range(10)) -> str:
        """What no run may show, whatever it was asked; empty where there is nothing of it."""
        if self.is_hung:
            return f"had not ended after {self.seconds:.0f} s"
        if TRACE.search(self.err):
            return f"status {self.status} and a traceback: {last_line(self.err)}"
        if control := OBEYED.search(self.err):
            return f"a control sequence on standard error: {self.err[max(0, control.start() - 20):][:60]!r}"
        if self.left:
            return "left " + ", ".join(self.left)
        if self.status not in statuses:
            return f"status {self.status}: {last_line(self.err)}"
        return f"took {self.memory:.0f} MB" if self.memory > 300 else ""


def last_line(data: bytes) -> str:
    """The last line of what was said, in printable letters."""
    lines = data.decode("utf-8", "backslashreplace").splitlines() or [""]
    return "".join(letter if letter.isprintable() else "?" for letter in lines[-1])[:160]


@dataclass(frozen=True)
class Bounds:
    """What a process gets: files that may be open, and, where they are not 0, bytes of memory and bytes of a file."""

    files: int = 256
    memory: int = 0
    size: int = 0

    def call(self, words: Sequence[str]) -> list[str]:
        """The words in these bounds; the process keeps its number."""
        bounds = [f"--nofile={self.files}:{self.files}"]
        bounds += [f"--as={self.memory}"] if self.memory else []
        bounds += [f"--fsize={self.size}"] if self.size else []
        return ["prlimit", *bounds, "--", *words]


USUAL = Bounds()
_numbers = count(1)
_number_lock = threading.Lock()


@dataclass(frozen=True)
class Place:
    """Where the copies of what is attacked are (`stage`), and a folder of one's own (`room`)."""

    stage: Path
    room: Path
    seed: int
    is_quick: bool

    @staticmethod
    def made(stage: Path, room: Path, seed: int, is_quick: bool) -> Place:
        """A place whose room is new."""
        for name in ("home", "tmp", "work"):
            (room / name).mkdir(parents=True)
        return Place(stage, room, seed, is_quick)

    @property
    def work(self) -> Path:
        """Where the inputs lie."""
        return self.room / "work"

    @property
    def witness(self) -> Path:
        """The file that code of a folder writes when it is run."""
        return self.room / "witness"

    def folder(self) -> Path:
        """A new folder below `work`."""
        return Path(tempfile.mkdtemp(dir=self.work))

    def command(self, name: str, *words: str) -> list[str]:
        """A command of the package, or a script for many machines, with its words."""
        own = self.stage / "python" / "bin" / f"cqlpgn-{name}"
        return [PYTHON, str(own if own.exists() else self.stage / "machines" / name), *words]

    def environment(self, mark: str = "") -> dict[str, str]:
        """The environment of all that is begun; the mark finds again what is left of it."""
        programs = {name.upper(): str(self.stage / "programs" / name) for name in ("cqlpgn", "pgnjson", "pgnpieces")}
        room = {"HOME": str(self.room / "home"), "TMPDIR": str(self.room / "tmp"), "PATH": os.environ["PATH"], "LANG": "C.UTF-8"}
        return programs | room | {MARK: mark or self.mark(), "BROWSER": "true", "TERM": "xterm"}

    def mark(self) -> str:
        """A mark that no other process of this attack has."""
        with _number_lock:
            return f"{os.getpid()}-{next(_numbers)}-"

    def code_was_run(self) -> str:
        """Which files of a folder were run as code since this was asked last."""
        try:
            said = self.witness.read_text(encoding="utf-8", errors="replace")
            self.witness.unlink()
        except OSError:
            return ""
        return "ran " + ", ".join(sorted(set(said.split()))) + " of the folder"


def marked(mark: str) -> Iterator[tuple[int, str]]:
    """The processes with this mark that have not ended, each with its words."""
    wanted = f"{MARK}={mark}".encode()
    for entry in os.scandir("/proc"):
        if entry.name.isdigit():
            try:
                if wanted in Path(entry.path, "environ").read_bytes():
                    yield int(entry.name), Path(entry.path, "cmdline").read_bytes().replace(b"\0", b" ").decode("utf-8", "replace").strip()
            except OSError:
                continue


def has_come(file: int, seconds: float) -> bool:
    """Whether something can be read of a file, or comes in this time; its number may be great."""
    waiting = select.poll()
    waiting.register(file, select.POLLIN | select.POLLHUP)
    return bool(waiting.poll(seconds * 1000))


def peak(number: int) -> float:
    """The greatest resident size of a process so far, in MB. What wait4 tells has in it that of the process that began it."""
    try:
        found = re.search(r"VmHWM:\s*(\d+)", Path(f"/proc/{number}/status").read_text(encoding="utf-8", errors="replace"))
    except OSError:
        return 0.0
    return int(found[1]) / 1024 if found else 0.0


def has_ended(number: int) -> bool:
    """Whether a process has ended, and nobody has asked for its status yet, or somebody has."""
    try:
        return Path(f"/proc/{number}/stat").read_text(encoding="utf-8", errors="replace").rpartition(")")[2].split()[0] == "Z"
    except OSError:
        return True


def ended(mark: str, patience: float) -> list[str]:
    """Ends the processes with this mark that have not ended by themselves in this time, and gives their words."""
    end = time.monotonic() + patience
    while (there := list(marked(mark))) and time.monotonic() < end:
        time.sleep(0.05)
    for number, _ in there:
        try:
            os.kill(number, signal.SIGKILL)
        except OSError:
            pass
    return [words[:100] for _, words in there]


class Running:
    """A process in bounds. Its streams are files; `data` goes to standard input, which stays open where `keeps_open`."""

    def __init__(
        self,
        place: Place,
        words: Sequence[str],
        *,
        data: bytes = b"",
        cwd: Path | None = None,
        bounds: Bounds = USUAL,
        redirect: str = "",
        keeps_open: bool = False,
        more: Mapping[str, str] | None = None,
    ) -> None:
        self.mark = place.mark()
        self.out, self.err, given = (tempfile.TemporaryFile() for _ in range(3))
        call = bounds.call(["sh", "-c", f'exec "$@" {redirect}', "sh", *words] if redirect else words)
        given.write(data)
        given.seek(0)
        reading, self._writing = os.pipe() if keeps_open else (os.dup(given.fileno()), -1)
        try:
            self.process = subprocess.Popen(
                call,
                stdin=reading,
                stdout=self.out,
                stderr=self.err,
                cwd=cwd or place.work,
                env={**place.environment(self.mark), **(more or {})},
                start_new_session=True,
            )
        finally:
            os.close(reading)
            given.close()
        if keeps_open and data:
            os.write(self._writing, data)
        self.begun = time.monotonic()

    def kill(self, kind: int = signal.SIGKILL) -> None:
        """Sends a signal to the process alone."""
        try:
            os.kill(self.process.pid, kind)
        except OSError:
            pass

    def engines(self) -> list[int]:
        """What it has begun and has not ended."""
        return [number for number, words in marked(self.mark) if number != self.process.pid and "/dev/null" not in words]

    def writes_into(self, folder: Path) -> bool:
        """Whether it has a file open that lies in a folder, with a name or without."""
        try:
            numbers = os.listdir(f"/proc/{self.process.pid}/fd")
            return any(os.readlink(f"/proc/{self.process.pid}/fd/{number}").startswith(f"{folder}/") for number in numbers)
        except OSError:
            return False

    def end(self, patience: float, lingers: float = 0.5) -> Seen:
        """Waits so long for its end, and ends it and all that it has left."""
        memory, limit = 0.0, self.begun + patience
        while True:
            memory = max(memory, peak(self.process.pid))
            number, code, usage = os.wait4(self.process.pid, os.WNOHANG)
            if number or time.monotonic() > limit:
                break
            time.sleep(0.003)
        is_hung, seconds = not number, time.monotonic() - self.begun
        if is_hung:
            self.kill()
            _, code, usage = os.wait4(self.process.pid, 0)
        self.process.returncode = status = os.waitstatus_to_exitcode(code)
        if self._writing >= 0:
            os.close(self._writing)
        left = ended(self.mark, lingers)
        said = []
        for stream in (self.out, self.err):
            stream.seek(0)
            said.append(stream.read(64 * MEGABYTE))
            stream.close()
        return Seen(status, said[0], said[1], seconds, usage.ru_utime + usage.ru_stime, memory, is_hung, left)


def ask(
    place: Place,
    words: Sequence[str],
    *,
    patience: float = 15.0,
    data: bytes = b"",
    cwd: Path | None = None,
    bounds: Bounds = USUAL,
    redirect: str = "",
) -> Seen:
    """A whole run."""
    return Running(place, words, data=data, cwd=cwd, bounds=bounds, redirect=redirect).end(patience)
