#!/usr/bin/env python3
"""Inputs that are made to hurt: archives without end, games and queries of one kind of token, and files of long and heavy queries.

    bench/hostile.py BINARY endless [GIB]     memory over an archive of GIB (4) on a pipe: it must not grow after the first quarter
    bench/hostile.py BINARY sizes             processor seconds for inputs of one size and of twice the size: at most 2.2 times as many
    bench/hostile.py BINARY steps             the same in millions of instructions, which no other work on the machine changes: valgrind
                                              counts them
    bench/hostile.py PGNJSON json             processor seconds of pgnjson, for games of up to 2^24 bytes and half of it

Nothing is kept on disk but queries. Outside the gate."""

from __future__ import annotations

import functools
import os
import re
import resource
import subprocess
import sys
import tempfile
import threading
from collections.abc import Callable, Iterator
from typing import IO

GIB = 1 << 30
# The seconds or the steps of a run, and its status.
Measured = tuple[float, int]
# of ten games one has a mate, one a fault and four a long comment
SHORT = b'[Event "%d"]\n[Result "1-0"]\n\n1. e4 e5 2. Bc4 {a plan} Nc6 (2... Nf6 3. d3) 3. Qh5 Nf6 4. Nf3 1-0\n\n'
LONG = SHORT.replace(b"a plan", b"a long plan " * 40)
GAMES = [SHORT.replace(b"Nf3", b"Qxf7#"), SHORT.replace(b"Nf3", b"Ke3"), *[SHORT] * 4, *[LONG] * 4]


def peak(pid: int) -> int:
    """the greatest resident size of a process since this was asked last"""
    with open("/proc/%d/status" % pid) as f:
        size = int(re.findall(r"VmHWM:\s*(\d+)", f.read())[0]) * 1024
    with open("/proc/%d/clear_refs" % pid, "w") as f:
        f.write("5")
    return size


def drain(stream: IO[bytes], last: list[bytes]) -> None:
    """reads a stream to its end and keeps its last bytes"""
    while piece := os.read(stream.fileno(), 1 << 20):
        last[0] = (last[0] + piece)[-100:]


def endless(binary: str, total: float) -> bool:
    """the greatest resident size over the first quarter, and over the rest; one block of games is written again and again"""
    block = b"".join(GAMES[i % len(GAMES)] % i for i in range(2000))
    command = [binary, "eval", "cql() mate", "--workers", "4", "--limit", str(1 << 40)]
    out, err = [b""], [b""]
    with subprocess.Popen(command, stdin=subprocess.PIPE, stdout=subprocess.PIPE, stderr=subprocess.PIPE) as p:
        assert p.stdin and p.stdout and p.stderr
        readers = [threading.Thread(target=drain, args=pair) for pair in ((p.stdout, out), (p.stderr, err))]
        for reader in readers:
            reader.start()
        sent = 0
        sizes: list[int] = []
        for part in (total / 4, total):
            while sent < part:
                p.stdin.write(block)
                sent += len(block)
            sizes.append(peak(p.pid))
        p.stdin.close()
        for reader in readers:
            reader.join()
    print("%d bytes, status %d, %s" % (sent, p.returncode, err[0].decode().splitlines()[-1]))
    print("resident: %.1f MB over the first quarter, %.1f MB over the rest" % tuple(size / 1e6 for size in sizes))
    return p.returncode == 1 and sizes[1] <= sizes[0] * 1.01


def seconds(words: list[str], data: bytes, folder: str | None) -> Measured:
    """the processor seconds of a run, and its status"""
    before = resource.getrusage(resource.RUSAGE_CHILDREN)
    p = subprocess.run(words, input=data, stdout=subprocess.DEVNULL, stderr=subprocess.DEVNULL, cwd=folder)
    after = resource.getrusage(resource.RUSAGE_CHILDREN)
    return after.ru_utime + after.ru_stime - before.ru_utime - before.ru_stime, p.returncode


def steps(words: list[str], data: bytes, folder: str | None) -> Measured:
    """the millions of instructions of a run by one worker, and its status"""
    valgrind = ["valgrind", "--tool=cachegrind", "--cache-sim=no", "--cachegrind-out-file=/dev/null", *words, "--workers", "1"]
    p = subprocess.run(valgrind, input=data, stdout=subprocess.DEVNULL, stderr=subprocess.PIPE, cwd=folder)
    return int(re.findall(rb"I +refs: +([0-9,]+)", p.stderr)[0].replace(b",", b"")) / 1e6, p.returncode


def repeated(token: bytes, size: int) -> bytes:
    return token * (size // len(token))


ARCHIVES = {
    "(": b"(",
    "{": b"{",
    '"': b'"',
    "1.": b"1.",
    "comments": b"{a} ",
    "tags": b'[A "b"]\n',
    "moves": b"Nf3 Nf6 Ng1 Ng8 ",
    "variations": b"e4 (d4) ",
    "spaces": b" ",
    "glyphs": b"$1 ",
    "escape lines": b"%\n",
}
# the moves of a game that has nearly as many positions as a game may have
MOVES = 65532 * 4
# questions that follow the tree of a game, each over such a game
WALKS = (
    "cql() ply > 99999",
    "cql() depth > 99",
    "cql() find mate",
    "cql() find <-- mate",
    "cql() child terminal",
    "cql() parent mate",
    "cql() square x in [Kk] {find {x attacks p}}",
    "cql() square x in A {find <-- {not x find <-- {not x}}}",
    "cql() square x in A {move to x find <-- move from x}",
    "cql() square x in A {child child x}",
    "cql() square x in A {ply + #x > 99999}",
    "cql() square x in A {depth + #(x attacks p) > 99}",
    "cql() square x in A {find {ply + #(x attacks p) > 99999}}",
    "cql() square x in A {(line --> {not x attacks p}*) > 99999}",
    "cql() square x in A {(line <-- {not x attacks p}*) > 99999}",
    "cql() move promote A",
    "cql() (line --> mainline*) > 99999",
    "cql() (line <-- .*) > 99999",
    'cql() sort "ply" ply mate',
)
# one kind of token: what stands before, what is repeated, what stands behind
QUERIES = {
    "not": (b"cql() ", b"not ", b"check"),
    "(": (b"cql() ", b"(", b""),
    "{": (b"cql() ", b"{", b""),
    "flip": (b"cql() ", b"flip ", b"A"),
    "names": (b"cql() square x in A {", b"x ", b"}"),
    "unknown names": (b"cql() ", b"x ", b""),
    "numbers": (b"cql() ", b"1 ", b""),
    "designators": (b"cql() ", b"[RQ]h1 ", b""),
    "unions": (b"cql() ", b"A|", b"A"),
    "attacks": (b"cql() ", b"A attacks ", b"a"),
    "texts": (b"cql() ", b'"a" ', b""),
    "players": (b"cql() ", b'player "a" ', b""),
    "sum": (b"cql() ", b"1+", b"1"),
    "product": (b"cql() ", b"1*", b"1"),
    "and": (b"cql() ", b"check and ", b"check"),
    "outcomes": (b"cql() ", b"result 1-0 ", b""),
    "comment": (b"cql() ", b"//\n", b"check"),
    "lines": (b"cql() ", b"line --> check ", b""),
    "check": (b"cql() ", b"check ", b""),
    "reserved": (b"cql() ", b"echo ", b""),
    "file names": (b"cql(", b"input a.pgn ", b") check"),
    "bad bytes": (b"cql() ", b"!", b""),
}


def long_query(number: int) -> bytes:
    """a query of nearly 65,536 bytes; files of such have many thousand parts, most of them in several queries"""
    return b"cql() " + b" ".join(b"#A == %d" % ((number * 7919 + place) % 5000) for place in range(6000))


def heavy_query(number: int) -> bytes:
    """a query of the greatest weight"""
    man = b"K%c%c" % (b"abcdefgh"[number % 8], b"12"[number // 8])
    return b"cql() " + (b"flip flip flip flip flip %b " % man) * 7 + man


def other_tags(size: int) -> bytes:
    """a game of tags of which each has a name of its own, in no order"""
    return b"".join(b'[A%07d "b"]\n' % (i * 7919 % 9999991) for i in range((size - 1) // 15)) + b"*"


def archives() -> Iterator[tuple[str, str, Callable[[int], bytes], int]]:
    """name, query, the bytes of a size, and the greater size"""
    for name, token in ARCHIVES.items():
        yield name, "cql() mate", functools.partial(repeated, token), 1 << 24
    yield "empty games", "cql() mate", functools.partial(repeated, b"* "), 1 << 21
    yield "other tags", "cql() mate", other_tags, 1 << 24
    yield "their export", "cql() initial", other_tags, 1 << 24
    moves = functools.partial(repeated, ARCHIVES["moves"])
    yield "65,532 moves", "cql() mate", moves, MOVES
    yield "all marked", "cql() wtm or btm", moves, MOVES
    for text in WALKS:
        yield text, text, moves, MOVES


def sizes(binary: str, measure: Callable[[list[str], bytes, str | None], Measured]) -> bool:
    """each input of one size and of half the size"""
    ok = True
    with tempfile.TemporaryDirectory() as folder:

        def line(kind: str, name: str, half: Measured, whole: Measured) -> None:
            nonlocal ok
            ratio = whole[0] / max(half[0], 0.01)
            ok = ok and ratio <= 2.2 and 0 <= whole[1] <= 8
            print("%-8s %-14s %10.3f %10.3f %6.2f  status %d" % (kind, name, half[0], whole[0], ratio, whole[1]), flush=True)

        for name, text, made, size in archives():
            line("archive", name, *(measure([binary, "eval", text], made(n), folder) for n in (size // 2, size)))
        for name, (head, token, tail) in QUERIES.items():
            runs = []
            for n in (1 << 15, 1 << 16):
                with open(os.path.join(folder, "q.cql"), "wb") as f:
                    f.write(head + repeated(token, n - len(head + tail)) + tail)
                runs.append(measure([binary, "run", "q.cql"], b"1. e4 *", folder))
            line("query", name, *runs)
        for name, made in (("long", long_query), ("heavy", heavy_query)):
            runs = []
            for n in (8, 16):
                with open(os.path.join(folder, "q.cql"), "wb") as f:
                    f.write(b"\n%%\n".join(map(made, range(n))))
                runs.append(measure([binary, "many", "q.cql"], b"1. e4 *", folder))
            line("queries", name, *runs)
    return ok


# what stands in one long comment: letters that are escaped, that become longer, or that stay
COMMENTS = {"quotes": b'"', "control": b"\x01", "Latin-1": b"\xe9", "UTF-8": "é".encode(), "no UTF-8 at its end": "é".encode()}


def commented(name: str, size: int) -> bytes:
    """a game of one comment and one move"""
    rest = b"\xe9} 1. e4 *" if name.startswith("no") else b"} 1. e4 *"
    return b"{" + repeated(COMMENTS[name], size - len(rest) - 1) + rest


def json_sizes(binary: str) -> bool:
    """each game of one size and of half the size as a line, all nodes with their positions"""
    ok = True
    games: list[tuple[str, Callable[[int], bytes], int]] = [
        (name, functools.partial(repeated, token), MOVES if name == "moves" else 1 << 24) for name, token in ARCHIVES.items()
    ]
    games += [(name, functools.partial(commented, name), 1 << 24) for name in COMMENTS]
    games += [("other tags", other_tags, 1 << 24)]
    for name, made, size in games:
        half, whole = (seconds([binary, "--mark", ""], made(n), None) for n in (size // 2, size))
        ratio = whole[0] / max(half[0], 0.01)
        ok = ok and ratio <= 2.2 and 0 <= whole[1] <= 1
        print("%-20s %10.3f %10.3f %6.2f  status %d" % (name, half[0], whole[0], ratio, whole[1]), flush=True)
    return ok


def main() -> int:
    binary, part = os.path.abspath(sys.argv[1]), sys.argv[2]
    if part == "endless":
        ok = endless(binary, int(float(sys.argv[3] if len(sys.argv) > 3 else 4) * GIB))
    elif part == "json":
        ok = json_sizes(binary)
    else:
        ok = sizes(binary, {"sizes": seconds, "steps": steps}[part])
    print("as it should be" if ok else "NOT as it should be")
    return 0 if ok else 1


if __name__ == "__main__":
    sys.exit(main())
