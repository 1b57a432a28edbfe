"""Inputs that are drawn by a seed: words and files for all commands, requests for the desk, signals at any moment."""

from __future__ import annotations

import json
import random
import shutil
import signal
import time
from collections.abc import Iterator
from pathlib import Path
from typing import Any

from .asking import TRACE, Place, Running, Seen, ask
from .inputs import ESCAPES, GAME, MARKED, MODULES, PROBLEM, QUERY, hostile, packed, zipped
from .on_processes import CALLS, DATA
from .served import Desk

OPTIONS: dict[str, list[str]] = {
    "over": [
        "-c",
        "-q",
        "-p",
        "--first",
        "--number",
        "--summary",
        "--keep-partial",
        "-j",
        "--workers",
        "--limit",
        "--many",
        "--check",
        "-o",
    ],
    "rows": ["--csv", "--json", "--epd", "--columns", "--mark", "--index", "-o"],
    "diagrams": ["--tex", "--exercises", "--mark", "--title", "--flip", "--coordinates", "--per-page", "-o"],
    "problems": ["-o", "--strict"],
    "split": [],
    "run-over": ["--bytes", "--table", "--jobs", "--engine", "--workers", "--first", "--in"],
    "desk": ["--port", "--runs", "--no-browser"],
    "join": [],
    "piece": [],
}
VALUED: tuple[str, ...] = (
    "-j",
    "--workers",
    "--limit",
    "--many",
    "-o",
    "--columns",
    "--mark",
    "--index",
    "--title",
    "--flip",
    "--per-page",
    "--bytes",
)
VALUED += ("--table", "--jobs", "--engine", "--in", "--port", "--runs")
KINDS = (signal.SIGINT, signal.SIGTERM, signal.SIGHUP, signal.SIGKILL)


class Drawing:
    """What is drawn, by one seed. All files lie in one folder, which is full of code and is made anew now and then."""

    def __init__(self, place: Place, seed: str) -> None:
        self.place, self.random = place, random.Random(seed)
        self.folder = place.folder()

    def anew(self) -> None:
        """A new folder with files of each kind, changed in some bytes."""
        shutil.rmtree(self.folder, ignore_errors=True)
        self.folder = self.place.folder()
        hostile(self.folder, self.place.witness, MODULES)
        for name, data in {
            "a.pgn": GAME * 5,
            "m.pgn": MARKED * 5,
            "q.cql": QUERY.encode(),
            "many.cql": b"cql() mate\n%%\ncql() check\n",
        }.items():
            (self.folder / name).write_bytes(self.changed(data))
        (self.folder / "p.olv").write_bytes(self.changed(PROBLEM * 3))
        (self.folder / "m.pgn.csv").write_bytes(self.changed(b"found,archive,game\r\n1,a.pgn,1\r\n2,=b;.pgn,2\r\n"))
        (self.folder / "table").write_bytes(self.changed(b"1 0 50 1 1\n2 50 60 2 1\n"))
        (self.folder / "job").write_bytes(
            self.changed(b'{"program": "x", "first": false, "words": [], "archive": "a.pgn", "size": 9, "changed": 1}')
        )
        packed(self.folder / "g.pgn.gz", MARKED * 20)
        zipped(self.folder / "z.zip", {"x.pgn": MARKED * 3, self.name().encode("utf-8", "replace").decode() + ".pgn": GAME})
        for name in ("g.pgn.gz", "z.zip"):
            (self.folder / name).write_bytes(self.changed((self.folder / name).read_bytes()))
        (self.folder / (self.name() + ".pgn")).write_bytes(self.changed(MARKED * 2))

    def changed(self, data: bytes) -> bytes:
        """The bytes, or the bytes with some of them others, gone, or doubled."""
        kept = bytearray(data)
        for _ in range(self.random.choice((0, 0, 1, 2, 8))):
            at = self.random.randrange(len(kept) + 1)
            piece = self.random.choice(
                (b"\0", b"\xff", b"{", b"}", b"(", b'"', b"\x1b[31m", b"9" * 5000, b"\n\n", b"[" * 200, b"\xed\xa0\x80", b"%%\n", kept[:at])
            )
            kept[at : at + self.random.choice((0, 1, 20))] = piece
        return bytes(kept)

    def name(self) -> str:
        """A name that hurts."""
        odd = (*ESCAPES, "$(touch x)", "`touch x`", "; touch x", " ", "'", '"', "-o", "\n", "\udcff", "é", "=1+1", "%s", "{0}", "~", "*")
        return "n" + "".join(self.random.choice(odd) for _ in range(self.random.randint(1, 3))).replace("/", "_")[:60]

    def word(self) -> str:
        """A word of any kind."""
        kind = self.random.randrange(5)
        if kind < 2:
            return self.random.choice(sorted(one.name for one in self.folder.iterdir() if not one.name.endswith(".py")))
        if kind == 2:
            return self.random.choice(
                ("0", "1", "2", "-1", "64", "65", "9" * 30, "9" * 5000, "", "-", "--", "²", "never", "8", "/dev/null", ".")
            )
        return self.name() if kind == 3 else self.random.choice((QUERY, "cql()", 'cql() "\x1b"', "cql(", "cql() " + "(" * 3000, "CQL"))

    def words(self) -> list[str]:
        """A command with words."""
        name = self.random.choice([*OPTIONS, "over", "rows", "diagrams", "over"])
        words: list[str] = []
        for option in self.random.sample(OPTIONS[name], min(len(OPTIONS[name]), self.random.randrange(4))):
            words += [option, self.word()] if option in VALUED else [option]
        good = {"over": [QUERY, "a.pgn", "g.pgn.gz", "z.zip"], "rows": ["m.pgn"], "diagrams": ["m.pgn", "z.zip"], "problems": ["p.olv"]}
        good |= {"split": ["s"], "desk": ["a.pgn"], "run-over": [QUERY, "a.pgn"], "join": ["."], "piece": [".", "1"]}
        rest = [word if self.random.random() < 0.7 else self.word() for word in good[name]]
        return self.place.command(name, *words, *rest)


def _judged(place: Place, folder: Path, seen: Seen, is_script: bool) -> str:
    """What a drawn run has shown that none may show; 9 is a status of the scripts for many machines alone."""
    said = place.code_was_run() or seen.trouble(range(10 if is_script else 9))
    left = [one.name for one in folder.iterdir() if one.name.endswith(".new") or one.name in ("x", "owned")]
    left += [one.name for one in (place.room / "tmp").iterdir()]
    for one in (place.room / "tmp").iterdir():
        shutil.rmtree(one, ignore_errors=True) if one.is_dir() else one.unlink()
    for name in left:
        (folder / name).unlink(missing_ok=True) if not (folder / name).is_dir() else None
    return said or (f"left {', '.join(left)}" if left else "")


def inputs(place: Place, seed: str, count: int) -> Iterator[str]:
    """So many drawn calls of all commands."""
    drawing = Drawing(place, seed)
    for number in range(count):
        if number % 40 == 0:
            drawing.anew()
        words = drawing.words()
        if any("\0" in word for word in words):
            continue
        data = drawing.changed(MARKED * 3)
        seen = ask(place, words, data=data, cwd=drawing.folder, patience=20)
        told = " ".join(word[:40] for word in words[1:]).replace(str(place.stage), "")
        said = _judged(place, drawing.folder, seen, "machines" in words[1])
        yield f"{told!r}: {said}" if said else ""


def _request(draw: random.Random, desk: Desk) -> bytes:
    """A request that may be none, with or without the token, the host's name and the origin."""
    token = draw.choice((desk.token, desk.token, "x", desk.token[:-1], ""))
    own = f"127.0.0.1:{desk.port}"
    paths = (
        "",
        "socket",
        "desk.js",
        "../desk.js",
        "%2e%2e/desk.js",
        "save/a/1/0/pgn",
        "save/a/²/0/csv",
        "save/a/" + "9" * 5000 + "/0/csv",
        "x\x1b",
        "%00",
        "%ff",
    )
    host = draw.choice((own, own, "evil.example", "", f"localhost:{desk.port}"))
    head = (
        f"{draw.choice(('GET', 'GET', 'POST', 'HEAD', 'PUT', 'OPTIONS', 'x'))} /{token}/{draw.choice(paths)} HTTP/1.{draw.randrange(2)}\r\n"
    )
    head += f"Host: {host}\r\nConnection: close\r\n"
    head += draw.choice(
        ("", "", "Origin: http://evil.example\r\n", f"Origin: http://{own}\r\n", "Range: bytes=9-1\r\n", "If-Modified-Since: x\r\n")
    )
    head += draw.choice(
        (
            "",
            "",
            "Upgrade: websocket\r\nSec-WebSocket-Key: x\r\n",
            "Content-Length: 5\r\n",
            "A: " + "a" * 9000 + "\r\n",
            ":\r\n",
            "Cookie: \xff\r\n",
        )
    )
    data = bytearray((head + "\r\n").encode("latin-1"))
    for _ in range(draw.choice((0, 0, 0, 1, 3))):
        data[draw.randrange(len(data))] = draw.randrange(256)
    return bytes(data)


def _message(draw: random.Random) -> bytes:
    """A message of a page, each word of it of any kind."""
    odd: tuple[Any, ...] = (
        "\ud800",
        "a.pgn",
        "../a.pgn",
        "a.pgn\0",
        "",
        "x" * 3000,
        -1,
        1 << 70,
        1.5,
        True,
        None,
        [],
        {},
        ["a.pgn"],
        QUERY,
        "q.cql",
        0,
        1,
    )
    does = (
        "check",
        "explain",
        "run",
        "stop",
        "games",
        "rows",
        "filter",
        "faults",
        "at",
        "queries",
        "open",
        "save",
        "archives",
        "x",
        "__init__",
    )
    good = {
        "query": QUERY,
        "archives": ["a.pgn"],
        "run": 1,
        "first": 0,
        "count": 1,
        "text": "x",
        "archive": "a.pgn",
        "byte": 3,
        "name": "q.cql",
    }
    said = {
        name: draw.choice(odd) if draw.random() < 0.4 else good.get(name, True)
        for name in ("query", "archives", "run", "first", "count", "text", "archive", "byte", "name", "over")
        if draw.random() < 0.8
    }
    return json.dumps({"n": 1, "do": draw.choice(does)} | said).encode()


def requests(place: Place, seed: str, count: int) -> Iterator[str]:
    """So many drawn requests, half of them messages of a page. Each message gets an answer, and none but the desk's own page a file."""
    draw = random.Random(seed)
    folder = hostile(place.folder(), place.witness, MODULES)
    (place.work / "a.pgn").write_bytes(GAME)
    with Desk(place, folder) as desk:
        for number in range(count):
            said = ""
            if number % 2:
                data = _request(draw, desk)
                came = desk.raw(data, 3)
                is_own = f"/{desk.token}/".encode() in data and f"Host: 127.0.0.1:{desk.port}\r\n".encode() in data and b"evil" not in data
                said = f"a stranger's request is answered: {data[:80]!r}" if came.startswith(b"HTTP/1.1 200") and not is_own else ""
            else:
                data = _message(draw)
                line = desk.line()
                said = "" if line.answer(data, 4) is not None else f"no answer to {data[:100]!r}"
                line.close()
            said = said or place.code_was_run()
            yield said or ("the desk has ended" if desk.process.poll() is not None else "")
            if desk.process.poll() is not None:
                return
        yield "" if desk.get()[0] == 200 else "the desk has no answer any more"
        yield f"a traceback on the desk's standard error: {desk.said()[-100:]!r}" if TRACE.search(desk.said()) else ""
        yield desk.ends()


def signals(place: Place, seed: str, count: int) -> Iterator[str]:
    """So many commands that get one to three signals at drawn moments: no traceback, no process, no file that nobody wanted."""
    draw = random.Random(seed)
    folder = place.folder()
    archive = place.work / "s.pgn"
    archive.write_bytes(MARKED * 2000)
    calls = {**{name: [*words[:-1], str(archive)] if words[-1] == "-" and name != "problems" else words for name, words in CALLS.items()}}
    calls["run-over"] = ["run-over", "--bytes", "30000", QUERY, str(archive)]
    for _ in range(count):
        name, stands = draw.choice(list(calls)), draw.random() < 0.5
        if stands:
            for old in ("out", "out01.pgn"):
                (folder / old).write_bytes(b"old\n")
        running = Running(place, place.command(*calls[name]), data=DATA.get(name, b""), cwd=folder)
        kinds = [draw.choice(KINDS) for _ in range(draw.choice((1, 1, 2, 3)))]
        time.sleep(draw.choice((draw.random() * 0.1, draw.random() * 0.5)))
        for kind in kinds:
            running.kill(kind)
            time.sleep(draw.random() * 0.01)
        seen = running.end(15)
        yield _after(place, folder, seen, f"{name}, signals {' '.join(str(int(kind)) for kind in kinds)}", signal.SIGKILL in kinds)


def _after(place: Place, folder: Path, seen: Seen, told: str, is_killed: bool) -> str:
    """What is left after signals; a SIGKILL may leave a file while one is replaced."""
    left = [one.name for one in folder.iterdir() if one.name not in ("out", "out01.pgn")]
    room = [one.name for one in (place.room / "tmp").iterdir()]
    for one in [*folder.iterdir(), *(place.room / "tmp").iterdir()]:
        shutil.rmtree(one, ignore_errors=True) if one.is_dir() else one.unlink()
    if seen.is_traced(place) or seen.is_hung or seen.left:
        return f"{told}: {seen.trouble()}"
    kept = left if not is_killed else []
    return f"{told}: left {', '.join(kept + room)}" if kept or room and not is_killed else ""
