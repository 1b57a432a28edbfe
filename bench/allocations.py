#!/usr/bin/env python3
"""Refuses each request for memory in turn, in runs of every mode and of queries of each form, and in runs of pgnjson and
pgnpieces.

    bench/allocations.py BINARY [PGNJSON [PGNPIECES]]

BINARY is cqlpgn; - leaves the runs of a program out. Each run must have the status and the bytes of a run with ample memory, or status 7
and a prefix of these bytes on each stream. refuse.c beside this file is what refuses; cc compiles it. Outside the gate."""

from __future__ import annotations

import os
import subprocess
import sys
import tempfile
from collections.abc import Iterator

HERE = os.path.dirname(os.path.abspath(__file__))
COMPOSITE = b"\xef\xbb\xbf" + b"\r\n".join(
    [b'[Event "Rated blitz game"]', b'[Site "https://lichess.org/abcd1234"]', b'[Date "2023.05.14"]', b'[Round "-"]']
    + ['[White "Müller"]'.encode(), b'[Black "anna"]', b'[Result "1-0"]', b'[WhiteElo "1850"]', b'[BlackElo "1799"]']
    + [b'[TimeControl "180+2"]', b"", b"1. e4 { [%clk 0:03:00] } 1... e5 { [%clk 0:03:00] } 2. Qh5!? { [%clk 0:02:58] } 2... Nc6"]
    + [b"{ [%clk 0:02:57] } 3. Bc4 $1 { [%clk 0:02:55] } 3... Nf6?? { [%clk 0:02:51] } 4. Qxf7# { [%clk 0:02:54] } 1-0", b""]
)
GAMES = b'[Event "a"]\n\n1. e4 (1. d4 d5 {x}) 1... e5 2. Nf3 Nc6 *\n1. f3 e5 2. g4 Qh4# 0-1\n1. e4 e5 2. Ke3 *\n'
# one query of each form
QUERIES = [
    "Ke1", "[RQ]a-h8", "check", "mate", "ply > 2", 'event "a"', "result 0-1", "elo == 1", "not check", "#A == 16", "power A - power a > 5",
    "light A", "find mate", "find <-- check", "child check", "parent wtm", "up 1 k", "A & light A", "A | a", "check or mate", "{wtm check}",
    "A attacks k", "a attackedby A", "between(K k)", "max(1 #Q) == 1", "if check then mate else wtm", "square x in [RQ] {x attacks k}",
    "line --> check", "(line --> wtm --> btm*) >= 2", "move from P capture p", "flipcolor mate", "shift {Pa2}",
    'sort "p" power A', 'comment "c"',
]  # fmt: skip


# Words of a run and its standard input; a status and both streams.
Runs = Iterator[tuple[list[str], bytes]]
Answer = tuple[int, bytes, bytes]


def runs(folder: str) -> Runs:
    """the words of each run, and its standard input"""
    with open(os.path.join(folder, "q.cql"), "w") as f:
        f.write('cql(variations) flipcolor {A attacks k} sort "p" power A\n')
    with open(os.path.join(folder, "faulty.cql"), "w") as f:
        f.write("cql() {check\n")
    with open(os.path.join(folder, "several.cql"), "w") as f:
        f.write('cql() check\n%%\ncql(variations) check sort "p" power A\n%%\ncql() flipcolor {A attacks k} sort min "p" power A check\n')
    with open(os.path.join(folder, "second.cql"), "w") as f:
        f.write("cql() check\n%%\ncql() echo\n")
    composite = 'cql(matchstring "mate") mate year == 2023 elo white > 1800'
    yield ["eval", composite], COMPOSITE
    yield ["eval", composite, "--workers", "2"], COMPOSITE
    yield ["eval", composite, "--workers", "2", "--first"], COMPOSITE
    for query in QUERIES:
        yield ["eval", "cql(variations) " + query], GAMES
    for words in (["run", "q.cql"], ["run", "q.cql", "--workers", "2"], ["run", "faulty.cql"]):
        yield words, GAMES
    for words in (["many", "several.cql"], ["many", "several.cql", "--workers", "2"], ["many", "second.cql"]):
        yield words, GAMES
    for words in (["explain", "q.cql"], ["check", "q.cql"], ["check", "faulty.cql"], ["eval"], ["run", "none.cql"]):
        yield words, b""
    yield ["selfrun", "cql() mate", "--games", "3"], b""
    yield ["selfrun", "cql() mate", "--games", "3", "--workers", "2"], b""


def json_runs() -> Runs:
    """the words of each run of pgnjson, and its standard input: games of each kind, more than are made at once, and other ends"""
    kinds: list[list[str]] = [[], ["--workers", "2"], ["--mark", "", "--workers", "1"], ["--mark", "%clk x"]]
    for words in kinds:
        yield words, GAMES
        yield words, COMPOSITE
    yield ["--workers", "2"], b"*\n1. Ke4 *\n" * 70
    yield ["--workers", "1"], b'[Event "' + b"x" * 70000 + b'"] *\n1. e4 *'
    for words in (["none.pgn"], ["--workers", "0"], ["--limit", "9"]):
        yield words, GAMES


def pieces_runs() -> Runs:
    """the words of each run of pgnpieces, and its standard input"""
    for words in (["-", "1"], ["-", "40"], ["-"], ["none.pgn", "1"]):
        yield words, GAMES


def run(words: list[str], data: bytes, folder: str, shim: str, number: int) -> tuple[Answer, bool]:
    """the status, out and err of a run whose request of this number is refused, and whether it was"""
    refused = os.path.join(folder, "refused")
    environment = {"LD_PRELOAD": shim, "REFUSED": refused, "REFUSE": str(number)}
    p = subprocess.run(words, input=data, capture_output=True, cwd=folder, env=environment, timeout=60)
    there = os.path.exists(refused)
    if there:
        os.remove(refused)
    return (p.returncode, p.stdout, p.stderr), there


def tried(binary: str, words: list[str], data: bytes, folder: str, shim: str) -> tuple[int, int, int]:
    """refuses the requests of a run in turn: how many runs were as with ample memory, ended with 7, and did something else"""
    whole, _ = run([binary] + words, data, folder, shim, 0)
    ample, starved, wrong, number, missed = 0, 0, 0, 0, 0
    # workers make their requests in any order, so a few numbers more are tried
    while missed < 5:
        number += 1
        got, refused = run([binary] + words, data, folder, shim, number)
        missed = 0 if refused else missed + 1
        if got == whole:
            ample += refused
        elif got[0] == 7 and whole[1].startswith(got[1]) and whole[2].startswith(got[2]):
            starved += 1
        else:
            wrong += 1
            print("WRONG", words, "request", number, got)
    print(words, "status", whole[0], "requests", number - 5, flush=True)
    return ample, starved, wrong


def main() -> int:
    counts = (0, 0, 0)
    with tempfile.TemporaryDirectory() as folder:
        shim = os.path.join(folder, "refuse.so")
        subprocess.run(["cc", "-O2", "-shared", "-fPIC", os.path.join(HERE, "refuse.c"), "-o", shim, "-ldl"], check=True)
        for binary, its_runs in zip(sys.argv[1:], (runs(folder), json_runs(), pieces_runs())):
            for words, data in its_runs if binary != "-" else ():
                one = tried(os.path.abspath(binary), words, data, folder, shim)
                counts = (counts[0] + one[0], counts[1] + one[1], counts[2] + one[2])
    print("requests refused %d: as with ample memory %d, status 7 with prefixes %d, wrong %d" % (sum(counts), *counts))
    return 1 if counts[2] else 0


if __name__ == "__main__":
    sys.exit(main())
