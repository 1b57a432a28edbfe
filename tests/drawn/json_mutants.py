"""Mutated games of real archives as lines of JSON: the built pgnjson is compared with the model, and each line is read by Python's json.

    python3 -m tests.drawn.json_mutants BINARY SEED COUNT ARCHIVE..

COUNT games are drawn from the ARCHIVEs and changed as mutants.py changes them, twenty to a run, each run by 1 to 4 workers and with a mark
drawn. Both streams and the status have to be those of the model, and the object of each line that of the model's game. What differs lands
in the folder out/ beside this file. The games of a seed are drawn first, and the model keeps each move that it has read and written:
mutants of one game have most of their moves in common."""

from __future__ import annotations

import json
import os
import subprocess
import sys
from typing import Any

from model import json_lines
from model import pgn
from model.program import Answer
from tests.drawn import fuzz
from tests.drawn import mutants

HERE = os.path.dirname(os.path.abspath(__file__))
RANDOM = fuzz.RANDOM
GAMES = 20
MARKS = (b"CQL", b"CQL", b"", b"%clk")


def given(archive: bytes, mark: bytes) -> tuple[Answer, list[Any] | None]:
    """(status, out, err) of the model, and the objects of its lines"""
    want = json_lines.answer(archive, mark)
    return want, [json.loads(line) for line in want[1].splitlines()]


def got(binary: bytes, archive: bytes, mark: bytes, workers: int) -> tuple[Answer, list[Any] | None]:
    """the same of the program; no objects where a line is none"""
    words = [binary, b"--mark=" + mark, b"--workers", b"%d" % workers]
    done = subprocess.run(words, input=archive, capture_output=True, check=False, timeout=60)
    try:
        objects: list[Any] | None = [json.loads(line) for line in done.stdout.split(b"\n")[:-1]]
    except ValueError:
        objects = None
    return (done.returncode, done.stdout, done.stderr), objects


def tried(binary: bytes, seed: int, count: int, archives: list[list[bytes]]) -> tuple[int, int, int]:
    """runs over so many games of a seed; how many runs differ, and how many games were written and were faulty"""
    RANDOM.seed(seed)
    games = [game for archive in archives for game in archive if len(game) <= mutants.SMALL]
    pool = RANDOM.sample(games, min(mutants.POOL, len(games)))
    differences, written, faulty = 0, 0, 0
    for run in range(-(-count // GAMES)):
        RANDOM.seed(seed * 1000003 + run)
        archive = b"".join(mutants.mutated([game]) for game in RANDOM.choices(pool, k=GAMES))
        mark, workers = RANDOM.choice(MARKS), RANDOM.randrange(1, 5)
        want = given(archive, mark)
        answer = got(binary, archive, mark, workers)
        written += len(want[1] or [])
        faulty += want[0][2].count(b"\n") - 1
        if answer != want:
            differences += 1
            name = os.path.join(HERE, "out", "json-mutants-%d-%d" % (seed, run))
            print("DIFFERS", name, mark, "by", workers, "workers", flush=True)
            mutants.written(name, archive)
        if run % 500 == 499:
            print((run + 1) * GAMES, "games,", differences, "runs differ", flush=True)
    return differences, written, faulty


def main() -> int:
    binary, seed, count = os.fsencode(os.path.abspath(sys.argv[1])), int(sys.argv[2]), int(sys.argv[3])
    archives = [games for games in map(mutants.games_of, sys.argv[4:]) if games]
    os.makedirs(os.path.join(HERE, "out"), exist_ok=True)
    mutants.keep_answers(pgn, "read_san", "read_fen")
    mutants.keep_answers(json_lines, "san_text", "fen_text")
    differences, written, faulty = tried(binary, seed, count, archives)
    print("json mutants seed", seed, "games", count, "written", written, "faulty", faulty, "runs that differ", differences)
    return 1 if differences else 0


if __name__ == "__main__":
    sys.exit(main())
