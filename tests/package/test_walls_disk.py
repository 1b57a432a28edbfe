"""Full disks under the desk: what was found until then stands, nothing is counted that was not written, and nothing is read without end."""

from __future__ import annotations

import asyncio
import os
from pathlib import Path

import pytest
from cqlpgn.desk.found import Found, Full, Room
from cqlpgn.errors import Stopped
from tests.conftest import program
from tests.desks import GAME, Line, Served

pytest.importorskip("aiohttp")
PROGRAMS = {"CQLPGN": "cqlpgn", "PGNJSON": "pgnjson"}
LIMIT = "import resource; resource.setrlimit(resource.RLIMIT_FSIZE, ({0}, {0}))"
SECONDS = 30.0


def served(folder: Path, changed: str) -> Served:
    """A desk with such bounds."""
    return Served(folder, changed, **{variable: program(variable, name) for variable, name in PROGRAMS.items()})


async def saved(line: Line, run: int, form: str) -> tuple[int, bytes]:
    """Status and bytes of what is saved, which must come in time."""
    async with line.http.get(f"{line.desk.address}save/{line.page}/{run}/0/{form}") as answer:
        return answer.status, await asyncio.wait_for(answer.read(), SECONDS)


@pytest.mark.parametrize("size", [4096, 65536, 100_001])
def test_what_was_found_before_the_disk_was_full_is_saved(tmp_path: Path, size: int) -> None:
    (tmp_path / "games.pgn").write_bytes(GAME * 1500)
    desk = served(tmp_path, LIMIT.format(size))

    async def full() -> None:
        async with Line(desk) as line:
            run = await asyncio.wait_for(line.over("cql() mate", "games.pgn"), SECONDS)
            assert run["state"] == "failed" and "can't be kept" in run["troubles"][0]
            status, data = await saved(line, run["run"], "pgn")
            assert status == 200 and data.count(b"{CQL}") == run["found"][0] and len(data) <= size
            assert await line.ask("check", query="cql() mate") == {"fault": None, "warnings": []}

    try:
        asyncio.run(full())
    finally:
        desk.process.terminate()
    assert "Traceback" not in desk.close()


def test_a_file_that_could_not_be_written_is_no_empty_one(tmp_path: Path) -> None:
    (tmp_path / "games.pgn").write_bytes(GAME)
    desk = served(tmp_path, LIMIT.format(10))

    async def full() -> None:
        async with Line(desk) as line:
            run = await asyncio.wait_for(line.over("cql() Pa8", "games.pgn"), SECONDS)
            status, data = await saved(line, run["run"], "csv")
            assert status == 500 and b"File too large" in data

    asyncio.run(full())
    assert "Traceback" not in desk.close()


def test_what_is_not_written_is_not_counted(monkeypatch: pytest.MonkeyPatch) -> None:
    room = Room(len(GAME) * 5)
    found = Found(b"CQL", room)
    found.begin("a.pgn")
    found.take(GAME * 3)
    left = room.left
    with pytest.raises(Full):
        found.take(GAME * 3)
    assert (len(found), room.left) == (3, left)

    pwrite = os.pwrite

    def half(file: int, data: bytes, at: int) -> int:
        """A disk that takes some bytes, and then no more."""
        monkeypatch.setattr(os, "pwrite", full)
        return pwrite(file, data[:10], at)

    def full(_file: int, _data: bytes, _at: int) -> int:
        raise OSError(28, "No space left on device")

    monkeypatch.setattr(os, "pwrite", half)
    with pytest.raises(OSError):
        found.take(GAME)
    assert (len(found), room.left) == (3, left)
    monkeypatch.setattr(os, "pwrite", pwrite)
    found.take(GAME * 2)
    assert b"".join(found.blocks(5)) == GAME * 5 and found.bytes_of(0, 9) == [GAME] * 5
    found.close()
    assert room.left == len(GAME) * 5


def test_a_file_that_has_become_shorter_is_not_read_without_end() -> None:
    found = Found(b"CQL", Room())
    found.begin("a.pgn")
    found.take(GAME * 3)
    os.truncate(found._file.fileno(), len(GAME))
    with pytest.raises(Stopped):
        for _ in zip(found.blocks(3), range(9)):
            pass
    found.close()
