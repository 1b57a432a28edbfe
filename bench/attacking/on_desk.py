"""The desk: the folder that it serves, disks, messages, other users of the machine, and its own file."""

from __future__ import annotations

import json
import os
import resource
import socket
import stat
import time
from collections.abc import Iterator
from itertools import product
from typing import Any

from .asking import TRACE, Bounds, Place, ask
from .inputs import GAME, MODULES, PACKAGE, PROBLEM, QUERY, hostile, written
from .served import Desk

FORMS = ("pgn", "csv", "json", "epd", "page", "sheet")


def folder_code(place: Place) -> Iterator[str]:
    """Point 1: a folder full of files named as modules, in which the desk and each command are begun."""
    for names in (MODULES, PACKAGE):
        folder = hostile(place.folder(), place.witness, names)
        with Desk(place, folder) as desk:
            line = desk.line()
            run = line.over(QUERY, "a.pgn")
            number = run["run"] if run else 0
            for form in FORMS:
                status, body, is_whole = desk.get(f"save/{line.page}/{number}/0/{form}", 20)
                told = f"saving as {form}"
                if said := place.code_was_run():
                    yield f"{told}: {said}"
                elif status == 200 and is_whole and not body:
                    yield f"{told}: 0 bytes with status 200"
                else:
                    yield f"{told}: status {status}, {len(body)} bytes" if status != 200 or not body else ""
        written(folder / "p.olv", PROBLEM)
        written(folder / "many", b"query 1 bytes 0\n")
        calls = [("over", QUERY, "a.pgn"), ("over", "--check", "cql()"), ("rows", "a.pgn"), ("diagrams", "a.pgn"), ("problems", "p.olv")]
        for call in [*calls, ("split", "x"), ("run-over", QUERY, "a.pgn")]:
            seen = ask(place, place.command(*call), cwd=folder, data=b"query 1 bytes 0\n")
            said = place.code_was_run() or seen.trouble()
            yield f"{call[0]} in such a folder: {said}" if said else ""


def full_disks(place: Place) -> Iterator[str]:
    """Point 2: files that take so many bytes; then what was found is saved, and the desk is ended."""
    folder = place.folder()
    written(folder / "a.pgn", GAME * 4000)
    for size, form in product((4096, 10000, 33333, 65536, 100001, 200000), ("pgn", "csv")):
        with Desk(place, folder, Bounds(size=size)) as desk:
            line = desk.line()
            run = line.over(QUERY, "a.pgn", patience=10)
            told = f"a file of {size} bytes at most, saved as {form}"
            if run is None:
                yield f"{told}: the run came to no end"
                continue
            status, _, _ = desk.get(f"save/{line.page}/{run['run']}/0/{form}", 4)
            is_awake = desk.get("", 3)[0] == 200
            end = desk.ends()
            if not is_awake or end:
                yield f"{told}: {'the desk hangs' if not is_awake else ''} {end}".replace("  ", " ")
            else:
                yield "" if status else f"{told}: no answer"


def _idle(desk: Desk, count: int, said: bytes) -> list[socket.socket]:
    """So many connections that say this and then nothing."""
    made = []
    for _ in range(count):
        one = socket.socket()
        one.settimeout(0.2)
        made.append(one)
        try:
            one.connect(("127.0.0.1", desk.port))
            one.sendall(said)
        except OSError:
            if len(made) > 200:
                break
    return made


def strangers(place: Place) -> Iterator[str]:
    """Point 9: connections without the token that say nothing, or half of something, and requests that are none."""
    soft, hard = resource.getrlimit(resource.RLIMIT_NOFILE)
    resource.setrlimit(resource.RLIMIT_NOFILE, (max(soft, min(hard, 4096)), hard))
    head = b"GET / HTTP/1.1\r\nHost: x\r\n"
    words = {"nothing": b"", "half a line": b"GET /", "half a head": head, "a stranger's request": head + b"\r\n"}
    words |= {"half a body": b"POST / HTTP/1.1\r\nHost: x\r\nContent-Length: 999\r\n\r\nx", "an upgrade": head + b"Upgrade: websocket\r\n"}
    for told, said in words.items():
        for count in (1000,) if told != "nothing" else (300, 1000):
            with Desk(place, place.work) as desk:
                idle = _idle(desk, count, said)
                begin = time.monotonic()
                while not (answers := desk.get("", 3)[0] == 200) and time.monotonic() - begin < 20:
                    time.sleep(0.2)
                for one in idle:
                    one.close()
                noise = len(desk.said())
                yield "" if answers and noise < 20000 else (
                    f"{count} connections that say {told}: {'the page has no answer for 20 s, ' if not answers else ''}"
                    f"{noise} bytes on standard error"
                )
    bad: tuple[bytes, ...] = (
        b"\0" * 100,
        b"GET / HTTP/9.9\r\n\r\n",
        b"\xff\xfe" * 50 + b"\r\n\r\n",
        b"GET " + b"/" * 20000 + b" HTTP/1.1\r\n\r\n",
    )
    bad += (
        head + b"A: " + b"a" * 20000 + b"\r\n\r\n",
        head + b"Transfer-Encoding: chunked\r\n\r\nzz\r\n",
        head + b"Content-Length: -1\r\n\r\n",
    )
    with Desk(place, place.work) as desk:
        for data in bad:
            before = len(desk.said())
            for _ in range(20):
                desk.raw(data, 0.5)
            said = desk.said()[before:]
            yield f"a bad request: a traceback, {len(said)} bytes for 20" if TRACE.search(said) or len(said) > 10000 else ""


def odd_messages(place: Place) -> Iterator[str]:
    """Point 13: messages with half a surrogate, and of other kinds, in each word; each gets an answer."""
    folder = place.folder()
    written(folder / "a.pgn", GAME)
    half = "\ud800"
    asked: list[dict[str, Any]] = [
        {"do": "open", "name": half + ".cql"},
        {"do": "save", "name": half, "query": "x"},
        {"do": "save", "name": "q", "query": half},
    ]
    asked += [
        {"do": "run", "query": "cql() mate" + half, "archives": ["a.pgn"]},
        {"do": "run", "query": QUERY, "archives": [half + ".pgn"]},
    ]
    asked += [{"do": "at", "archive": half + ".pgn", "byte": 1}, {"do": "at", "archive": half + ".zip:a", "byte": 1}, {"do": half}]
    asked += [{"do": "check", "query": half}, {"do": "explain", "query": half * 3}, {"do": "filter", "run": 1, "query": 0, "text": half}]
    asked += [{"do": "check", "query": 'cql() "' + half + '"'}, {"do": "games", "run": 1, "query": 1 << 70, "first": 0, "count": 1}]
    asked += [{"do": "rows", "run": 1, "query": -1, "first": 1 << 80, "count": 1 << 80}, {"do": "at", "archive": "a.pgn", "byte": 1 << 80}]
    asked += [
        {"do": "open", "name": "a\0.cql"},
        {"do": "at", "archive": "\0.pgn", "byte": 0},
        {"do": "save", "name": "\udfff", "query": half, "over": True},
    ]
    with Desk(place, folder) as desk:
        for message in asked:
            line = desk.line()
            said = line.answer(json.dumps({"n": 7} | message).encode(), 2.5)
            yield "" if said is not None else f"no answer to {json.dumps(message)[:90]}"
            line.close()
        yield line_of_number(desk)
        trace = TRACE.search(desk.said())
        yield f"a traceback on the desk's standard error: {desk.said()[-120:]!r}" if trace else ""


def line_of_number(desk: Desk) -> str:
    """A message that is JSON with a number of five thousand digits."""
    line = desk.line()
    said = line.answer(b'{"n":' + b"9" * 5000 + b',"do":"queries"}', 2.5)
    line.close()
    return "" if said is not None else "no answer to a message whose number has 5000 digits"


def _browser(place: Place, name: str, lines: str) -> str:
    """A program that is begun in place of a browser, with the desk's file as `$file`."""
    path = place.work / name
    path.write_text("#!/bin/sh\nfile=${1#file://}\n" + lines, encoding="ascii")
    path.chmod(0o755)
    return str(path)


def _own_file(place: Place) -> Iterator[str]:
    """The desk's file in the home folder is gone, or another, when the page comes."""
    tricks = {
        "taken away": 'rm -f "$file"',
        "a folder now": 'rm -f "$file"; mkdir "$file"',
        "in a folder that is gone": 'rm -f "$file"; mv "$HOME" "$HOME.gone"',
    }
    tricks |= {"renamed": 'mv "$file" "$file.x"', "a link to nothing": 'ln -sf /nowhere "$file"; rm "$file"'}
    home = place.room / "home"
    for told, lines in tricks.items():
        with Desk(place, place.work, browser=_browser(place, "browser", lines) + " %s") as desk:
            time.sleep(0.6)
            is_first = desk.get()[0] == 200
            try:
                desk.line(3).close()
            except Exception:  # whatever becomes of the line, what counts is whether the desk goes on
                is_first = False
            time.sleep(0.5)
            is_there = desk.process.poll() is None and desk.get()[0] == 200
            yield "" if is_first and is_there else f"its file is {told}: the desk has ended, status {desk.process.poll()}"
        if not home.exists():
            os.rename(f"{home}.gone", home)
        for left in home.iterdir():
            left.rmdir() if left.is_dir() else left.unlink()


def _far_faults(place: Place) -> Iterator[str]:
    """A byte is looked up that is far behind in a file with holes, and the desk is ended meanwhile."""
    folder = place.folder()
    for name, size in (("far.pgn", 1 << 38), ("farther.pgn", 1 << 39)):
        with open(folder / name, "wb") as file:
            file.truncate(size)
        with Desk(place, folder) as desk:
            line = desk.line()
            line.send(json.dumps({"n": 1, "do": "at", "archive": name, "byte": size - 10}).encode())
            time.sleep(0.3)
            said = desk.ends()
            yield f"a far fault is looked up: {said}" if said else ""


def own_troubles(place: Place) -> Iterator[str]:
    """Point 17: its file in the home folder, far faults, large folders, and the modes of what it saves."""
    yield from _own_file(place)
    yield from _far_faults(place)
    for mask in (0o077, 0o027, 0o002):
        folder = place.folder()
        with Desk(place, folder, umask=mask) as desk:
            desk.line().ask("save", name="q", query=QUERY, over=False)
        mode = stat.S_IMODE((folder / "q.cql").stat().st_mode) if (folder / "q.cql").exists() else 0
        yield f"saved with mode {mode:o} where the mask is {mask:o}" if mode != 0o666 & ~mask else ""
    for more in (173, 1289):
        folder = place.folder()
        for number in range(5000 + more):
            os.close(os.open(folder / f"{number}.pgn", os.O_CREAT | os.O_WRONLY))
        with Desk(place, folder) as desk:
            hello = desk.line().hello
        listed = len(hello.pop("archives", []))
        rest = json.dumps({name: value for name, value in hello.items() if not isinstance(value, (list, dict)) or len(value) < 50})
        is_told = (
            any(f"{number}" in rest or f"{number:,}" in rest for number in (more, 5000 + more, 5000 + more - listed)) or "left" in hello
        )
        yield "" if listed == 5000 + more or is_told else f"of {5000 + more} archives {listed} are listed, and nothing says so"
