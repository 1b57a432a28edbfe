"""Archives of anybody: small ones of which much comes, of many members, and files of a folder that are no archives."""

from __future__ import annotations

import asyncio
import os
import tempfile
import zipfile
from collections.abc import Iterator
from pathlib import Path

import pytest
from cqlpgn import archives, zips
from cqlpgn.errors import Unreadable
from tests.answers import ONE, QUERY
from tests.conftest import program
from tests.desks import GAME, Line, Served
from tests.walls import Walled

pytestmark = pytest.mark.usefixtures("cqlpgn")
KINDS = [zipfile.ZIP_STORED, zipfile.ZIP_DEFLATED, zipfile.ZIP_BZIP2, zipfile.ZIP_LZMA]
SECONDS = 60.0
MEMORY = 160 << 20


@pytest.fixture
def walled() -> Iterator[Walled]:
    with tempfile.TemporaryDirectory() as room:
        yield Walled(Path(room))


def zipped(path: Path, members: dict[str, bytes], kind: int = zipfile.ZIP_STORED) -> Path:
    """A `.zip` with these members."""
    with zipfile.ZipFile(path, "w", kind) as file:
        for name, data in members.items():
            file.writestr(name, data)
    return path


@pytest.mark.parametrize("kind", KINDS[1:])
def test_a_small_zip_takes_no_memory(walled: Walled, kind: int) -> None:
    with zipfile.ZipFile(walled.folder / "a.zip", "w", kind) as file, file.open("a.pgn", "w") as inside:
        inside.write(ONE)
        for _ in range(200):
            inside.write(b"\n" * (1 << 20))
    walled.give()
    answer = walled.ask("cqlpgn-over", "-c", QUERY, "a.zip", memory=MEMORY, seconds=SECONDS)
    assert (answer.status, answer.err.startswith("a.zip:a.pgn: games ")) == (0, True), answer.err


@pytest.mark.parametrize("kind", KINDS)
def test_members_are_read_as_the_library_reads_them(room: Path, kind: int) -> None:
    data = {"a.pgn": os.urandom(1000) * 700, "b.pgn": b"", "c.pgn": ONE, "d.txt": b"x"}
    path = zipped(room / "a.zip", data, kind)
    path.write_bytes(b"before the first member" + path.read_bytes())
    found = list(archives.archives([str(path)]))
    read = {one.name.rpartition(":")[2]: b"".join(one.blocks()) for one in found if isinstance(one, archives.Archive)}
    assert read == {name: data[name] for name in ("a.pgn", "b.pgn", "c.pgn")}


@pytest.mark.parametrize("kind", KINDS)
def test_a_member_with_another_byte_is_told(room: Path, kind: int) -> None:
    path = zipped(room / "a.zip", {"a.pgn": b"".join(b"%d " % number for number in range(900))}, kind)
    data = path.read_bytes()
    begin, end = 50, data.index(b"PK\1\2")
    for at in range(begin, end - 20, (end - 20 - begin) // 20):
        path.write_bytes(data[:at] + bytes([data[at] ^ 255]) + data[at + 1 :])
        with pytest.raises(Unreadable):
            list(archives.single(str(path)).blocks())


def test_a_member_is_no_longer_than_its_directory_says(room: Path) -> None:
    path = zipped(room / "a.zip", {"a.pgn": b"\n" * 5000}, zipfile.ZIP_DEFLATED)
    path.write_bytes(path.read_bytes().replace((5000).to_bytes(4, "little"), (10).to_bytes(4, "little")))
    with pytest.raises(Unreadable):
        list(archives.single(str(path)).blocks())


def test_a_zip_is_read_once(room: Path, monkeypatch: pytest.MonkeyPatch) -> None:
    path = zipped(room / "a.zip", {f"{number}.pgn": ONE for number in range(50)})
    count = 0

    class Counted(zipfile.ZipFile):
        def __init__(self, *words: object) -> None:
            nonlocal count
            count += 1
            super().__init__(*words)  # type: ignore[call-overload]

    monkeypatch.setattr(zipfile, "ZipFile", Counted)
    found = [one for one in archives.archives([str(path)]) if isinstance(one, archives.Archive)]
    assert [b"".join(one.blocks()) for one in found] == [ONE] * 50 and count == 1


@pytest.mark.parametrize("name", ["{}.pgn", "{}.txt", "{}" + "n" * 400 + ".txt"], ids=["games", "others", "long"])
def test_more_members_than_are_read_are_told(walled: Walled, name: str) -> None:
    zipped(walled.folder / "a.zip", {name.format(number): b"" for number in range(zips.MOST_MEMBERS + 1)} | {"a.pgn": ONE})
    walled.give()
    answer = walled.ask("cqlpgn-over", "-c", QUERY, "a.zip", memory=MEMORY * 2, seconds=SECONDS)
    assert (answer.status, "a.zip: has more than 10000 members" in answer.err, answer.err.count("\n")) == (5, True, 1)


def test_the_page_is_told_names_once(tmp_path: Path) -> None:
    pytest.importorskip("aiohttp")
    zipped(tmp_path / "a.zip", {"n" * 200 + f"{number}.pgn": GAME for number in range(60)})
    desk = Served(tmp_path, **{variable: program(variable, variable.lower()) for variable in ("CQLPGN", "PGNJSON")})

    async def told() -> None:
        async with Line(desk) as line:
            run = await line.over("cql() mate", "a.zip")
            assert run["found"] == [60] and len(str(run)) < 2000

    try:
        asyncio.run(told())
    finally:
        desk.process.terminate()
    assert "Traceback" not in desk.close()


@pytest.mark.parametrize("ending", [".pgn", ".pgn.gz", ".zip", ".pgn.xz"])
@pytest.mark.parametrize("kind", ["pipe", "link to a pipe", "/dev/zero", "/dev/null"])
def test_files_of_a_folder_that_are_no_archives(walled: Walled, kind: str, ending: str) -> None:
    inner = walled.folder / "inner"
    inner.mkdir()
    (inner / "a.pgn").write_bytes(ONE)
    (inner / "c.pgn").symlink_to("a.pgn")
    if kind == "pipe":
        os.mkfifo(inner / f"b{ending}")
    elif kind == "link to a pipe":
        os.mkfifo(inner / "held")
        (inner / f"b{ending}").symlink_to("held")
    else:
        (inner / f"b{ending}").symlink_to(kind)
    walled.give()
    answer = walled.ask("cqlpgn-over", "-c", QUERY, "inner", seconds=SECONDS)
    told = [line.partition(":")[0] for line in answer.err.splitlines()]
    assert (answer.status, told) == (0, ["inner/a.pgn", "inner/c.pgn", "all archives"]), answer.err


def test_a_pipe_that_is_named_is_read(walled: Walled) -> None:
    os.mkfifo(walled.folder / "a.pgn")
    walled.give()
    process = walled.start("cqlpgn-over", "-c", QUERY, "a.pgn")
    with open(walled.folder / "a.pgn", "wb") as file:
        file.write(ONE)
    assert b"games " in process.communicate(timeout=SECONDS)[1]
