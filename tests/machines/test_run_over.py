"""machines/run-over and signals: what it has started ends, and no file is left."""

from __future__ import annotations

import os
import signal
import subprocess
import sys
from pathlib import Path

import pytest
from tests.answers import ONE
from tests.conftest import TOP
from tests.processes import PATIENCE, all_end, becomes


@pytest.mark.usefixtures("pgnpieces")
@pytest.mark.parametrize("kind", [signal.SIGTERM, signal.SIGINT])
@pytest.mark.parametrize("engine", [[], ["--engine", "./engine"]])
def test_a_signal(room: Path, kind: signal.Signals, engine: list[str]) -> None:
    (room / "one.pgn").write_bytes(ONE)
    (room / "files").mkdir()
    asked = 'case "$3" in /dev/null) exit 0 ;; esac\n'
    for name, text in {"waits": asked + "echo $$ > started; exec sleep 6000\n", "engine": "sleep 6000 & echo $! > started; wait\n"}.items():
        (room / name).write_text("#!/bin/sh\n" + text)
        (room / name).chmod(0o755)
    env = {**os.environ, "CQLPGN": str(room / "waits"), "TMPDIR": str(room / "files")}
    words = [sys.executable, str(TOP / "machines" / "run-over"), *engine, "cql() check", "one.pgn"]
    with subprocess.Popen(words, env=env, stdout=subprocess.PIPE, stderr=subprocess.PIPE) as command:
        assert becomes(lambda: (room / "started").exists() and (room / "started").read_text().endswith("\n"))
        started = int((room / "started").read_text())
        command.send_signal(kind)
        try:
            out, err = command.communicate(timeout=PATIENCE)
        finally:
            command.kill()
    assert (command.returncode, out, err) == (128 + kind, b"", b"")
    assert (all_end([started]), list((room / "files").iterdir())) == (True, [])
