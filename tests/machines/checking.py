"""What the long tests of many machines share: runs in one and in pieces, and what is expected of them."""

from __future__ import annotations

import filecmp
import os
import re
import shutil
import subprocess
import time
from collections.abc import Collection
from typing import Any

import runs
from tests.conftest import TOP, path_of

HERE = str(TOP / "machines")
CQLPGN, PGNPIECES = path_of("CQLPGN", "cqlpgn"), path_of("PGNPIECES", "pgnpieces")
# A status and the seconds that it took.
Ended = tuple[int, float]
SMALL = 4000000
ENVIRONMENT: dict[str, str] = {}
# What was expected and is not so.
wrong: list[str] = []


def expect(what: str, holds: object, seen: object = "") -> None:
    if not holds:
        wrong.append(f"{what} {seen}")


def tell(*words: str) -> None:
    print(*words, flush=True)


def put(data: bytes, name: str) -> str:
    with open(name, "wb") as file:
        file.write(data)
    return os.path.abspath(name)


def ended(words: list[str], name: str, **more: Any) -> Ended:
    """the status of a command and its seconds; its streams are in NAME.out and NAME.err"""
    start = time.monotonic()
    with open(name + ".out", "wb") as out, open(name + ".err", "wb") as err:
        done = subprocess.run(words, stdin=subprocess.DEVNULL, stdout=out, stderr=err, timeout=3600, check=False, **more)
    return done.returncode, time.monotonic() - start


def one_run(query: str, archive: str, *words: str) -> Ended:
    return ended([CQLPGN, "eval", query, archive, *words], "one")


def in_pieces(query: str, archive: str, *words: str, **environment: str) -> Ended:
    env = {**ENVIRONMENT, **environment}
    return ended([os.path.join(HERE, "run-over"), *words, query, archive], "many", env=env)


def equal(what: str, one: tuple[float, ...], many: tuple[float, ...]) -> None:
    """compares the streams of the last run in one, and of the last one in pieces, and their statuses"""
    same = [filecmp.cmp("one." + name, "many." + name, shallow=False) for name in ("out", "err")]
    seen = "" if all(same) else "\n%r\n%r" % (runs.read("one.err")[-300:], runs.read("many.err")[-300:])
    expect(what, all(same) and one[0] == many[0], "out %s, err %s, status %s and %s%s" % (*same, one[0], many[0], seen))


def table(archive: str, least: int, name: str) -> tuple[list[runs.Piece], float]:
    """the table of an archive, in a file, and how many pieces it has"""
    start = time.monotonic()
    with open(name, "wb") as to:
        done = subprocess.run([PGNPIECES, archive, str(least)], stdout=to, check=False, timeout=3600)
    try:
        found = runs.pieces_of(runs.read(name), os.path.getsize(archive))
    except runs.NoAnswer as fault:
        expect("the table of %s" % os.path.basename(archive), False, fault)
        return [], 0
    short = [piece for piece in found[:-1] if piece.length < least]
    expect("the table of %s, %d" % (os.path.basename(archive), least), done.returncode == 0 and not short, short[:1])
    return found, time.monotonic() - start


def program(name: str, *lines: str) -> str:
    """a program that does, once, what the lines say when it is asked for a piece, and else what cqlpgn does"""
    shutil.rmtree(name + ".used", ignore_errors=True)
    text = ["#!/bin/bash", 'if [ "$3" = - ] && mkdir "$0.used" 2> /dev/null; then', *lines, "fi", 'exec %s "$@"' % CQLPGN]
    path = put("\n".join(text).encode() + b"\n", name)
    os.chmod(path, 0o755)
    return path


def leaves(what: str, folder: str, allowed: Collection[str] = ()) -> None:
    """nothing is there of a piece but whole answers"""
    names = [name for name in os.listdir(folder) if re.match(r"\.\d|\d+\.", name)]
    half = [name for name in names if name.startswith(".") or not runs.is_done(folder, int(name.split(".")[0]))]
    expect("nothing is left of %s" % what, [name for name in half if name not in allowed] == [], half)


def piece_alone(folder: str, number: int) -> int:
    return ended([os.path.join(HERE, "piece"), folder, str(number)], "piece")[0]


# all bytes are taken and the report is right, but of the games only a part is written
HALF = '%s "$@" > "$0.all"; head -c 100 "$0.all"'
