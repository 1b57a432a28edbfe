"""Commands within walls: as a user without rights, with few files, little memory, and in a folder full of code."""

from __future__ import annotations

import os
import shutil
import signal
import subprocess
import sys
from collections.abc import Iterator, Sequence
from pathlib import Path

from tests.conftest import TOP, Answer, path_of
from tests.processes import PATIENCE

NOBODY = 65534
FILES = 256
PROGRAMS = ("cqlpgn", "pgnjson", "pgnpieces")
MODULES = ("argparse", "bz2", "csv", "json", "lzma", "re", "signal", "site", "tempfile", "zipfile", "zlib", "cqlpgn/__init__")


def as_nobody(words: Sequence[str]) -> list[str]:
    """The words that call a program as a user without rights, where the test has some."""
    user = ["setpriv", f"--reuid={NOBODY}", f"--regid={NOBODY}", "--clear-groups", "--"] if os.geteuid() == 0 else []
    return [*user, *words]


def bounded(words: Sequence[str], memory: int = 0) -> list[str]:
    """The words that call a program with few files, and with so many bytes of memory at most."""
    return ["prlimit", f"--nofile={FILES}:{FILES}", *([f"--as={memory}:{memory}"] if memory else []), "--", *words]


def ended(process: subprocess.Popen[bytes], data: bytes = b"", seconds: float = PATIENCE) -> Answer:
    """The answer of a process that leads a group, which is killed where it takes too long."""
    try:
        out, err = process.communicate(data, seconds)
    except subprocess.TimeoutExpired:
        os.killpg(process.pid, signal.SIGKILL)
        process.communicate()
        raise
    return Answer(process.returncode, out, err.decode("utf-8", "surrogateescape"))


class Walled:
    """A folder of a user without rights, full of code, with a copy of the package and of the programs beside it."""

    def __init__(self, room: Path) -> None:
        self.folder, self._room = room / "games", room
        room.chmod(0o755)
        for name in ("src", "bin"):
            shutil.copytree(TOP / "python" / name, room / name, ignore=shutil.ignore_patterns("__pycache__"))
        self._environment = {"PATH": os.environ["PATH"], "LC_ALL": "C.UTF-8"}
        for name in PROGRAMS:
            self._environment[name.upper()] = str(shutil.copy(path_of(name.upper(), name), room / name))
        for name in MODULES:
            file = self.folder / f"{name}.py"
            file.parent.mkdir(parents=True, exist_ok=True)
            file.write_text("open('witness', 'a').close()\nraise ImportError('code of the folder')\n")
        for path in self._all():
            path.chmod(0o755)
        self.give()

    def _all(self) -> Iterator[Path]:
        yield self._room
        yield from self._room.rglob("*")

    def give(self) -> None:
        """Gives the folder and what is in it to the user, where the test has the right."""
        if os.geteuid() == 0:
            for path in (self.folder, *self.folder.rglob("*")):
                os.chown(path, NOBODY, NOBODY, follow_symlinks=False)

    def start(self, command: str, *words: str, memory: int = 0, stdin: int = subprocess.PIPE) -> subprocess.Popen[bytes]:
        """A command that is begun, as the leader of a group."""
        call = as_nobody(bounded([sys.executable, str(self._room / "bin" / command), *words], memory))
        pipe = subprocess.PIPE
        return subprocess.Popen(call, cwd=self.folder, env=self._environment, stdin=stdin, stdout=pipe, stderr=pipe, start_new_session=True)

    def ask(self, command: str, *words: str, data: bytes = b"", memory: int = 0, seconds: float = PATIENCE) -> Answer:
        """The answer of a command, which has run no code of the folder."""
        answer = ended(self.start(command, *words, memory=memory), data, seconds)
        assert not (self.folder / "witness").exists() and "Traceback" not in answer.err, answer.err[-500:]
        return answer
