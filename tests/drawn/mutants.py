"""Mutants of real archives and real queries: the built program is compared with the model, or asked alone.

    python3 -m tests.drawn.mutants BINARY SEED COUNT ARCHIVE..

Each case takes some games of an ARCHIVE and a query of the pages, and changes, drops, doubles and joins bytes, tokens and whole games.
Small cases, nearly all of them, are compared with the model. Of large ones the program alone is asked: it ends with a status from 0 to 8,
by no signal and within its time, and reads what it wrote again without a fault. Its time is in every case a second of processor time a
megabyte, more for a query of more than 50 members, and one for its start. What differs lands in the folder out/ beside this file. pypy3
is faster.

The games of a seed are drawn first, and the model keeps each move that it has read: mutants of one game have most of their moves in
common. The program is started by posix_spawn over files in memory: a fork of this process, which is large, takes longer than the run."""

from __future__ import annotations

import ctypes
import functools
import os
import re
import signal
import sys
import tempfile
from types import ModuleType

from model import pgn
from model import program
from model import query
from tests.drawn import fuzz

HERE = os.path.dirname(os.path.abspath(__file__))
RANDOM = fuzz.RANDOM
PAGES = ("README.md", "docs/RECIPES.md")
# the games of a seed, the bytes of the greatest case that is compared, the same by a query of many members, the moves that are kept
POOL, SMALL, HEAVY, MOST_KEPT = 150, 4000, 200000, 40000
START_SECONDS, MOST_SECONDS, MEMBERS = 1, 120, 50


# What a case is made of.
def games_of(path: str) -> list[bytes]:
    """the texts of an archive's games, as they begin at a first tag"""
    return [g for g in re.split(rb"(?=^\[Event )", read(path), flags=re.M) if g.strip()]


def queries() -> list[str]:
    """the queries of the tables of the pages, but for those that show a fault"""
    texts = []
    for page in PAGES:
        text = read(os.path.join(HERE, "..", "..", page)).decode()
        texts += [q.replace("\\|", "|") for q in re.findall(r"`(cql\([^`]*\)[^`]*)`", text)]
    return [t for t in texts if program.run_check(t.encode())[0] == 0]


def tokens_mutated(game: bytes) -> bytes:
    """words dropped, doubled, exchanged and joined, and rows of moves doubled as their own variation"""
    words = re.split(rb"(\s+)", game)
    for _ in range(RANDOM.choice([1, 1, 2, 4])):
        i, j = RANDOM.randrange(len(words)), RANDOM.randrange(len(words))
        kind = RANDOM.random()
        if kind < 0.25:
            words[i] = b""
        elif kind < 0.4:
            words.insert(i, words[j])
        elif kind < 0.65:
            words[i], words[j] = words[j], words[i]
        elif kind < 0.8:
            words[i] = words[i] + words[j]
        else:
            words[i + 1 : i + 1] = [b" ("] + words[i : i + RANDOM.randrange(1, 20)] + [b") "]
    return b"".join(words)


def mutated(games: list[bytes]) -> bytes:
    """some games of an archive, changed"""
    games = list(games)
    for _ in range(RANDOM.choice([0, 1, 1, 2])):
        i, j = RANDOM.randrange(len(games)), RANDOM.randrange(len(games))
        kind = RANDOM.random()
        if kind < 0.5:
            games[i] = tokens_mutated(games[i])
        elif kind < 0.75:
            games[i] = fuzz.mutate(games[i], RANDOM.choice([1, 2, 5]))
        elif kind < 0.8:
            games.insert(i, games[j])
        elif kind < 0.9:
            games[i] = games[i][: RANDOM.randrange(len(games[i]) + 1)] + games[j][RANDOM.randrange(len(games[j]) + 1) :]
        elif len(games) > 1:
            del games[i]
    archive = b"".join(games)
    return archive.replace(b"\n", b"\r\n") if RANDOM.random() < 0.05 else archive


def case(archives: list[list[bytes]], pool: list[bytes], texts: list[str]) -> tuple[str, bytes]:
    """(query, archive)"""
    kind = RANDOM.random()
    if kind < 0.97:
        games = RANDOM.sample(pool, min(len(pool), 1 if kind < 0.7 else 2 if kind < 0.9 else 3))
    else:
        games = RANDOM.choice(archives)
        first = RANDOM.randrange(len(games))
        games = games[first : first + RANDOM.choice([40, 40, 200])]
    text = RANDOM.choice(texts)
    if RANDOM.random() < 0.3:
        text = text.replace("cql()", "cql(variations)")
    return fuzz.mutate_query(text) if RANDOM.random() < 0.25 else text, mutated(games)


# The program.
def read(path: str) -> bytes:
    with open(path, "rb") as f:
        return f.read()


def written(path: str, data: bytes) -> None:
    with open(path, "wb") as f:
        f.write(data)


def keep_answers(module: ModuleType, *names: str) -> None:
    """has functions that a module calls answered once for the same question"""
    for name in names:
        setattr(module, name, functools.lru_cache(MOST_KEPT)(getattr(module, name)))


class Runner:
    """starts the program over files of a folder"""

    def __init__(self, binary: str, folder: str) -> None:
        self.libc, self.binary = ctypes.CDLL(None), os.fsencode(binary)
        self.names = [os.path.join(folder, name) for name in ("in", "out", "err")]
        self.query = os.path.join(folder, "q.cql")
        self.actions, self.pid = ctypes.create_string_buffer(256), ctypes.c_int()
        self.libc.posix_spawn_file_actions_init(self.actions)
        write = os.O_WRONLY | os.O_CREAT | os.O_TRUNC
        for number, (name, flags) in enumerate(zip(self.names, (os.O_RDONLY, write, write))):
            self.libc.posix_spawn_file_actions_addopen(self.actions, number, os.fsencode(name), flags, 0o600)
        signal.signal(signal.SIGALRM, lambda *_: os.kill(self.pid.value, signal.SIGKILL))

    def run(self, text: bytes, archive: bytes) -> tuple[program.Answer, float]:
        """(status, out, err) and the seconds of processor time; the status of a signal is negative"""
        words = [b"eval", text]
        if text.startswith(b"-") or b"\x00" in text:
            # such a text can't be a word
            words = [b"run", os.fsencode(self.query)]
            written(self.query, text)
        written(self.names[0], archive)
        call = (ctypes.c_char_p * 4)(self.binary, *words, None)
        environment = (ctypes.c_char_p * 1)(None)
        fault = self.libc.posix_spawn(ctypes.byref(self.pid), self.binary, self.actions, None, call, environment)
        if fault:
            raise OSError(fault, "posix_spawn")
        signal.alarm(MOST_SECONDS)
        _, status, used = os.wait4(self.pid.value, 0)
        signal.alarm(0)
        answer = (os.waitstatus_to_exitcode(status), read(self.names[1]), read(self.names[2]))
        return answer, used.ru_utime + used.ru_stime


def heft(text: str) -> float:
    """how many times as long as a plain query one may take"""
    try:
        return max(1, sum(map(query.weight, query.read_query(text.encode())["items"])) / MEMBERS)
    except query.QueryFault:
        return 1


def failing(runner: Runner, text: str, archive: bytes, want: program.Answer | None) -> tuple[str | None, program.Answer]:
    """what is wrong with the program's answer, None if nothing is, and the answer; want is the model's, or None"""
    got, seconds = runner.run(text.encode(), archive)
    if not 0 <= got[0] <= 8:
        return "status %d" % got[0], got
    if seconds > START_SECONDS and seconds > START_SECONDS + len(archive) / 1e6 * heft(text):
        return "%.1f seconds of processor time for %d bytes" % (seconds, len(archive)), got
    if want is not None:
        return None if got == want else "the model differs", got
    again, _ = runner.run(b"cql() initial", got[1])
    if got[0] < 2 and (again[0] != 0 or b" refused 0\n" not in again[2]):
        return "its output is read with %r" % again[2], got
    return None, got


def tried(runner: Runner, seed: int, count: int, archives: list[list[bytes]], out: str) -> tuple[int, int, dict[int, int]]:
    """runs the cases of a seed; how many were compared, how many differ, and how many had each status"""
    statuses: dict[int, int] = {}
    differences = compared = 0
    texts = queries()
    RANDOM.seed(seed)
    games = [game for archive in archives for game in archive if len(game) <= SMALL]
    pool = RANDOM.sample(games, min(POOL, len(games)))
    for i in range(count):
        RANDOM.seed(seed * 1000003 + i)
        text, archive = case(archives, pool, texts)
        small = len(archive) <= SMALL and len(archive) * heft(text) <= HEAVY
        compared += small
        want = program.run_eval(text.encode(), archive) if small else None
        wrong, got = failing(runner, text, archive, want)
        statuses[got[0]] = statuses.get(got[0], 0) + 1
        if wrong:
            differences += 1
            print(wrong)
            fuzz.store(os.path.join(out, "mutants-%d-%d" % (seed, i)), text, archive, want or (-1, b"", b""), got)
        if i % 10000 == 9999:
            print(i + 1, "cases,", compared, "compared,", differences, "differences", flush=True)
    return compared, differences, statuses


def main() -> int:
    binary, seed, count = os.path.abspath(sys.argv[1]), int(sys.argv[2]), int(sys.argv[3])
    archives = [games for games in map(games_of, sys.argv[4:]) if games]
    out = os.path.join(HERE, "out")
    os.makedirs(out, exist_ok=True)
    keep_answers(pgn, "read_san", "read_fen")
    with tempfile.TemporaryDirectory(dir="/dev/shm" if os.path.isdir("/dev/shm") else None) as folder:
        compared, differences, statuses = tried(Runner(binary, folder), seed, count, archives, out)
    print("mutants seed", seed, "cases", count, "compared", compared, "differences", differences, "by status", sorted(statuses.items()))
    return 1 if differences else 0


if __name__ == "__main__":
    sys.exit(main())
