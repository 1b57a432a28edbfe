"""What completion makes of names that a shell would run: at a terminal, Tab and Enter give the command the name and run nothing."""

from __future__ import annotations

import os
import pty
import select
import shutil
import signal
import subprocess
import time
from pathlib import Path

import pytest
from tests.conftest import TOP

FOLDER = TOP / "contrib" / "completion"
NAMES = ["d$(touch x)", "d`touch x`", "d;touch x", "d x", "d&touch x", "d>x", "d'q", 'd"q', "d\ntouch x", "d$HOME", "d*", "d\\x"]
SHELLS = {
    "bash": (["bash", "--norc", "--noprofile", "-i"], f"source {FOLDER}/cqlpgn.bash; bind 'set enable-bracketed-paste off'"),
    "zsh": (["zsh", "-f", "-i"], f"fpath=({FOLDER} $fpath); autoload -U compinit; compinit -u -D; unsetopt beep"),
    "fish": (["fish", "-N", "-i"], f"source {FOLDER}/cqlpgn.fish"),
}
STUB = '#!/bin/sh\nfor word in "$@"; do printf \'%s\\0\' "$word"; done > {0}.new\nmv {0}.new {0}\n'
LONG = 40.0  # seconds that a shell has, at most


class Terminal:
    """A shell at a terminal of its own, which is killed with all that it has started."""

    def __init__(self, words: list[str], folder: Path, environment: dict[str, str]) -> None:
        self._own, other = pty.openpty()
        # setsid is the shell itself afterwards, as the first of a session of its own
        words = ["setsid", "--ctty", *words]
        self._process = subprocess.Popen(words, stdin=other, stdout=other, stderr=other, cwd=folder, env=environment)
        os.close(other)

    def type(self, text: str, seconds: float, wanted: bytes = b"", made: Path | None = None) -> bytes:
        """Types a text; what comes until this is seen, or a file is made, or the time is over."""
        os.write(self._own, text.encode())
        seen, end = b"", time.monotonic() + seconds
        while time.monotonic() < end and not (wanted and wanted in seen) and not (made and made.exists()):
            if select.select([self._own], [], [], 0.1)[0]:
                try:
                    seen += os.read(self._own, 65536)
                except OSError:
                    break
        return seen

    def end(self) -> None:
        """Kills the shell and its session."""
        try:
            os.killpg(self._process.pid, signal.SIGKILL)
        except ProcessLookupError:
            pass
        self._process.wait(LONG)
        os.close(self._own)


def typed(tmp_path: Path, shell: str, name: str, line: str) -> list[str]:
    """The words that the command gets where a folder of this name is completed. Nothing else may be made."""
    folder, tools = tmp_path / "work", tmp_path / "tools"
    folder.mkdir()
    tools.mkdir()
    (folder / name).mkdir()
    for command in ("cqlpgn-split", "cqlpgn-desk", "touch"):
        (tools / command).write_text(STUB.format(tools / ("touched" if command == "touch" else "said")))
        (tools / command).chmod(0o755)
    words, begin = SHELLS[shell]
    environment = {**os.environ, "PATH": f"{tools}:{os.environ['PATH']}", "PS1": "> ", "INPUTRC": "/dev/null", "HISTFILE": ""}
    environment |= {"HOME": str(tools), "TERM": "dumb"}
    terminal = Terminal(words, folder, environment)
    try:
        assert b"ready" in terminal.type(begin + "; echo rea''dy\r", LONG, b"ready")
        terminal.type(line + "\t", 2)
        terminal.type("\r", LONG if "\n" not in name else 5, made=tools / "said")
    finally:
        terminal.end()
    assert [one.name for one in folder.iterdir()] == [name]
    assert not (tools / "touched").exists()
    assert (tools / "said").exists()
    return [os.fsdecode(word) for word in (tools / "said").read_bytes().split(b"\0")[:-1]]


@pytest.mark.parametrize("name", NAMES)
@pytest.mark.parametrize(("shell", "command"), [("bash", "split"), ("bash", "desk"), ("zsh", "split"), ("fish", "split")])
def test_the_name_of_a_folder(tmp_path: Path, shell: str, command: str, name: str) -> None:
    if shutil.which(shell) is None:
        pytest.skip(f"{shell} is not installed")
    got = [word.rstrip("/") for word in typed(tmp_path, shell, name, f"cqlpgn-{command} d")]
    # where a name is not offered, there is what was typed
    assert got in ([name], ["d"] if "\n" in name or shell != "bash" else [name])
