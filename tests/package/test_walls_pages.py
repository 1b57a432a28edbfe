"""The memory that pages of many games take: it does not grow with the games."""

from __future__ import annotations

import subprocess
import sys
from pathlib import Path

import pytest
from tests.conftest import BIN
from tests.processes import PATIENCE

pytestmark = pytest.mark.usefixtures("pgnjson", "room")
GAME = b'[White "A"]\n\n1. f3 {CQL} e5 2. g4 Qh4# {CQL} 0-1\n\n'
# a process of its own, whose child is the command alone: the memory of that is asked for
PEAK = "import resource, subprocess, sys; subprocess.run(sys.argv[1:], stdout=subprocess.DEVNULL, check=True); "
PEAK += "print(resource.getrusage(resource.RUSAGE_CHILDREN).ru_maxrss)"


def peak(words: list[str], games: int) -> int:
    """The kilobytes that the command takes for so many games, at most."""
    Path("m.pgn").write_bytes(GAME * games)
    call = [sys.executable, "-c", PEAK, sys.executable, str(BIN / "cqlpgn-diagrams"), *words, "m.pgn"]
    done = subprocess.run(call, capture_output=True, timeout=PATIENCE, check=True)
    return int(done.stdout)


@pytest.mark.parametrize("words", [[], ["--tex"], ["--exercises"], ["--tex", "--exercises"]])
def test_memory(words: list[str]) -> None:
    assert peak(words, 6000) < peak(words, 300) + 8000
