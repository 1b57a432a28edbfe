"""The desk and its neighbours: other users at its port, odd messages, faults of its own, and files that others take away."""

from __future__ import annotations

import asyncio
import os
import re
import signal
import socket
import stat
import subprocess
import sys
import time
from pathlib import Path
from typing import Any

import pytest
from tests.conftest import BIN, program
from tests.desks import GAME, Line, Served
from tests.processes import PATIENCE, becomes

pytest.importorskip("aiohttp")
PROGRAMS = {"CQLPGN": "cqlpgn", "PGNJSON": "pgnjson"}
HEAD = b"GET / HTTP/1.1\r\nHost: x\r\n"
SECONDS = 30.0
HALF = "\ud800"  # of a letter, as JSON may have it


def served(folder: Path, changed: str = "pass") -> Served:
    """A desk with such bounds."""
    return Served(folder, changed, **{variable: program(variable, name) for variable, name in PROGRAMS.items()})


def idle(desk: Served, count: int, said: bytes) -> list[socket.socket]:
    """So many connections that say this and then nothing."""
    made = []
    for _ in range(count):
        one = socket.socket()
        one.settimeout(0.2)
        made.append(one)
        try:
            one.connect(("127.0.0.1", desk.port))
            one.sendall(said)
        except OSError:
            pass
    return made


@pytest.mark.parametrize(
    "said",
    [b"", b"GET /", HEAD, HEAD + b"\r\n", b"POST / HTTP/1.1\r\nHost: x\r\nContent-Length: 999\r\n\r\nx", HEAD + b"Upgrade: websocket\r\n"],
)
def test_strangers_do_not_stop_the_desk(tmp_path: Path, said: bytes) -> None:
    desk = served(tmp_path, "import resource; resource.setrlimit(resource.RLIMIT_NOFILE, (256, 256))")
    connections = idle(desk, 600, said)
    try:
        begin = time.monotonic()
        assert desk.get(f"/{desk.token}/") == 200 and time.monotonic() - begin < SECONDS
    finally:
        for one in connections:
            one.close()
    noise = desk.close()
    assert "Traceback" not in noise and len(noise) < 10_000


def test_a_stranger_that_says_nothing_is_turned_away(tmp_path: Path) -> None:
    desk = served(tmp_path, "import cqlpgn.desk.door as door; door.PATIENCE = 0.3")
    for said in (b"", b"GET /", HEAD + b"\r\n"):
        with socket.create_connection(("127.0.0.1", desk.port), timeout=SECONDS) as line:
            line.sendall(said)
            answer = b""
            try:
                while piece := line.recv(4096):
                    answer += piece
            except ConnectionResetError:
                pass
            assert answer.startswith(b"HTTP/1.1 403") if said.endswith(b"\r\n\r\n") else not answer

    async def stays() -> None:
        async with Line(desk) as line:
            await asyncio.sleep(1)
            assert await line.ask("queries") == []

    asyncio.run(stays())
    assert "Traceback" not in desk.close()


def test_a_bad_request_has_no_traceback(tmp_path: Path) -> None:
    desk = served(tmp_path)
    requests = (b"\0" * 100, b"GET / HTTP/9.9\r\n\r\n", b"\xff\xfe" * 50 + b"\r\n\r\n", b"GET " + b"/" * 20_000 + b" HTTP/1.1\r\n\r\n")
    for data in (*requests, HEAD + b"Transfer-Encoding: chunked\r\n\r\nzz\r\n", HEAD + b"Content-Length: -1\r\n\r\n"):
        for one in idle(desk, 5, data):
            one.close()
    assert desk.get(f"/{desk.token}/") == 200
    assert desk.close() == ""


def test_half_a_letter_gets_an_answer(tmp_path: Path) -> None:
    (tmp_path / "a.pgn").write_bytes(GAME)
    desk = served(tmp_path)

    async def ask() -> None:
        async with Line(desk) as line:
            asked: list[tuple[str, dict[str, Any]]] = [
                ("open", {"name": HALF + ".cql"}),
                ("at", {"archive": HALF + ".pgn", "byte": 1}),
                ("at", {"archive": HALF + ".zip:a", "byte": 1}),
                ("run", {"query": "cql() mate", "archives": [HALF + ".pgn"]}),
                ("save", {"name": HALF, "query": "x", "over": True}),
                (HALF, {}),
            ]
            for do, words in asked:
                assert str(await asyncio.wait_for(line.ask(do, **words), SECONDS)).startswith("refused: "), do
            assert (await asyncio.wait_for(line.ask("check", query="cql() " + HALF), SECONDS))["fault"]
            assert (await asyncio.wait_for(line.ask("save", name="q", query=HALF, over=True), SECONDS))["name"] == "q.cql"

    asyncio.run(ask())
    assert "Traceback" not in desk.close()


def test_any_fault_gets_an_answer(tmp_path: Path) -> None:
    desk = served(tmp_path, "import cqlpgn.desk.folder as folder; folder.Folder.query = lambda *_: 1 // 0")

    async def ask() -> None:
        async with Line(desk) as line:
            assert "ZeroDivisionError" in await asyncio.wait_for(line.ask("open", name="a.cql"), SECONDS)

    asyncio.run(ask())
    desk.close()


@pytest.mark.parametrize("fault, told", [("MemoryError", "not enough memory"), ("KeyError", "please report it: KeyError")])
@pytest.mark.parametrize("place", ["folder.Held.blocks", "found.Found.take"])
def test_any_fault_ends_a_run(tmp_path: Path, fault: str, told: str, place: str) -> None:
    """The run is failed and says why, the page can ask again, and no process is left."""
    (tmp_path / "a.pgn").write_bytes(GAME * 200)
    changed = f"from cqlpgn.desk import folder, found\ndef fails(*_):\n    raise {fault}('x')\n{place} = fails"
    desk = served(tmp_path, changed)

    async def ask() -> None:
        async with Line(desk) as line:
            for _ in range(2):
                run = await asyncio.wait_for(line.over("cql() mate", "a.pgn"), SECONDS)
                assert run["state"] == "failed" and told in run["troubles"][0]

    asyncio.run(ask())
    assert desk.no_children()
    desk.close()


def test_a_folder_that_is_large(tmp_path: Path) -> None:
    for number in range(7):
        (tmp_path / f"{number}.pgn").write_bytes(GAME)
    desk = served(tmp_path, "import cqlpgn.desk.folder as folder; folder.MOST_FILES = 4")

    async def ask() -> None:
        async with Line(desk) as line:
            for said in (line.hello, await line.ask("archives")):
                assert (len(said["archives"]), said["left"]) == (4, 3)

    asyncio.run(ask())
    desk.close()


@pytest.mark.parametrize("mask", [0o077, 0o027, 0o002])
def test_a_query_is_saved_with_the_mask_of_the_user(tmp_path: Path, mask: int) -> None:
    desk = served(tmp_path, f"import os; os.umask({mask})")

    async def ask() -> None:
        async with Line(desk) as line:
            for over in (False, True):
                await line.ask("save", name="q", query="cql() mate", over=over)
                assert stat.S_IMODE((tmp_path / "q.cql").stat().st_mode) == 0o666 & ~mask

    asyncio.run(ask())
    assert sorted(os.listdir(tmp_path)) == ["q.cql"]
    desk.close()


def test_the_desk_ends_while_a_thread_is_busy(tmp_path: Path) -> None:
    desk = served(tmp_path, "import cqlpgn.desk.folder as folder, time; folder.Folder.around = lambda *_: time.sleep(200)")

    async def ask() -> None:
        async with Line(desk) as line:
            await line.socket.send_json({"n": 1, "do": "at", "archive": "a.pgn", "byte": 5})
            assert await line.ask("queries") == []
            desk.process.send_signal(signal.SIGINT)
            assert await asyncio.to_thread(becomes, lambda: desk.process.poll() is not None)

    begin = time.monotonic()
    asyncio.run(ask())
    assert desk.process.returncode == 0 and time.monotonic() - begin < 100
    assert "Traceback" not in desk.process.communicate()[1].decode()


def test_a_far_fault_of_a_plain_archive_is_looked_up_at_once(tmp_path: Path) -> None:
    with open(tmp_path / "far.pgn", "wb") as file:
        file.write(GAME)
        file.seek(1 << 39)
        file.write(GAME)
    desk = served(tmp_path)

    async def ask() -> None:
        async with Line(desk) as line:
            before, after, _ = await asyncio.wait_for(line.ask("at", archive="far.pgn", byte=1 << 39), SECONDS)
            assert before.strip("\0") == "" and after == GAME.decode()
            assert "shorter" in await asyncio.wait_for(line.ask("at", archive="far.pgn", byte=1 << 40), SECONDS)

    asyncio.run(ask())
    desk.close()


@pytest.mark.parametrize("trick", ['rm -f "$file"', 'rm -f "$file"; mkdir "$file"', 'rm -f "$file"; mv "$HOME" "$HOME.gone"'])
def test_its_file_in_the_home_folder_is_gone(tmp_path: Path, trick: str) -> None:
    browser, home, folder = tmp_path / "browser", tmp_path / "home", tmp_path / "games"
    home.mkdir()
    folder.mkdir()
    browser.write_text(f"#!/bin/sh\nfile=${{1#file://}}\n{trick}\ntouch {tmp_path}/tricked\n")
    browser.chmod(0o755)
    programs = {variable: program(variable, name) for variable, name in PROGRAMS.items()}
    environment = {**os.environ, **programs, "HOME": str(home), "BROWSER": f"{browser} %s"}
    words = [sys.executable, str(BIN / "cqlpgn-desk"), str(folder)]
    with subprocess.Popen(words, stdout=subprocess.PIPE, stderr=subprocess.PIPE, env=environment) as process:
        try:
            assert process.stdout is not None
            found = re.search(rb"http://127\.0\.0\.1:(\d+)/(\S+)/", process.stdout.readline())
            assert found is not None and becomes((tmp_path / "tricked").exists)
            desk = Served.__new__(Served)
            desk.port, desk.token, desk.process = int(found[1]), found[2].decode(), process
            desk.origin = f"http://127.0.0.1:{desk.port}"
            desk.address = f"{desk.origin}/{desk.token}/"

            async def ask() -> None:
                for _ in range(2):
                    async with Line(desk) as line:
                        assert await line.ask("queries") == []

            asyncio.run(ask())
            process.send_signal(signal.SIGTERM)
            _, said = process.communicate(timeout=PATIENCE)
            assert process.returncode == 0 and b"Traceback" not in said
        finally:
            process.kill()
