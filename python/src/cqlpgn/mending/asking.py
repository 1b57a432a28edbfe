"""What the reader says of texts: their faults, and which of several moves it takes."""

from __future__ import annotations

import re
import secrets
import subprocess
import tempfile
from collections.abc import Sequence

from ..games import game_of
from ..process import FaultyGame, Process, executable, raise_for, read_line

MARK = "mend-" + secrets.token_hex(8)
# tokens that open and close variations, comments and texts between them
NESTED = re.compile(rb'\{[^}]*(?:\}|\Z)|"(?:[^"\\\n]|\\[^\n])*"?|;[^\n]*|^%[^\n]*|(?P<open>\()|(?P<close>\))', re.M)


def _run(text: bytes, words: Sequence[str]) -> tuple[bytes, bytes]:
    with tempfile.TemporaryFile() as report, tempfile.TemporaryFile() as out:
        with Process([*words, "--workers=1", "-"], blocks=[text], out=out, err=report, program=executable("PGNJSON", "pgnjson")) as asked:
            raise_for(asked.finish(), "a game that is mended")
        report.seek(0)
        out.seek(0)
        return out.read(), report.read()


def faults(text: bytes) -> list[FaultyGame]:
    """The faults of the games of a text, whose first byte is not the first one of an archive. Bytes count from that of the text."""
    found = []
    for line in _run(b" " + text, [])[1].decode("utf-8", "replace").splitlines():
        said = read_line(line)
        if isinstance(said, FaultyGame):
            found.append(FaultyGame(said.game, said.byte - 1, said.reason))
    return found


def levels(text: bytes) -> int:
    """How many variations are open at the end of a text without a fault."""
    depth = 0
    for token in NESTED.finditer(text):
        depth += 1 if token["open"] else -1 if token["close"] else 0
    return max(depth, 0)


def taken(before: bytes, words: Sequence[str]) -> dict[int, str]:
    """Which of some words the reader takes after the first part of a game that has no fault, each with its move as squares."""
    closing = b")" * levels(before)
    probes = [b'[Probe "%d"]\n %s%s {%s} %s *\n' % (at, before, _encoded(word), MARK.encode(), closing) for at, word in enumerate(words)]
    found: dict[int, str] = {}
    for line in _run(b"\n".join(probes), [f"--mark={MARK}"])[0].decode().splitlines():
        game = game_of(line)
        node = next(game.marked(), None)
        number = game.tags.get("Probe", "")
        if node is not None and number.isdecimal() and int(number) < len(words):
            found[int(number)] = node.uci
    return found


def _encoded(text: str) -> bytes:
    return text.encode("utf-8", "surrogateescape")


def places(text: bytes) -> list[tuple[int, int]]:
    """Where each game of a text begins and ends, as pgnpieces cuts it; the text's first byte is not the first one of an archive."""
    found = []
    with Process(["-", "1"], blocks=[b" ", text], err=subprocess.DEVNULL, program=executable("PGNPIECES", "pgnpieces")) as asked:
        for line in asked.out:
            _, begin, length, _, games = map(int, line.split())
            if games:
                found.append((max(begin - 1, 0), begin + length - 1))
        raise_for(asked.finish(), "a game that is mended")
    return found
