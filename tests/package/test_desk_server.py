"""The desk's server from outside: who is let in, what is read and written, and that no process outlives its page. It wants python3-aiohttp
and libjs-codemirror."""

from __future__ import annotations

import asyncio
import configparser
import contextlib
import csv
import gzip
import io
import os
import re
import subprocess
import time
import zipfile
from collections.abc import Iterator
from pathlib import Path

import pytest
from cqlpgn.desk.found import Found, Room, has_text, tags_of
from tests.conftest import TOP, program
from tests.desks import GAME, Line, Served
from tests.processes import PATIENCE, all_end

pytest.importorskip("aiohttp")
if not os.path.exists("/usr/share/javascript/codemirror/lib/codemirror.js"):
    pytest.skip("libjs-codemirror is not installed", allow_module_level=True)
PROGRAMS = {"CQLPGN": "cqlpgn", "PGNJSON": "pgnjson"}
OUTSIDE = [
    "../outside0/secret.pgn",
    "link.pgn",
    "linked/secret.pgn",
    "inner/../../outside0/secret.pgn",
    "/etc/passwd",
    "pipe.pgn",
    "folder.pgn",
] + ["none.pgn", "x\0.pgn", "", "a" * 5000 + ".pgn", "\udcff.pgn", "small.pgn\n.pgn", "mine.cql"]
NO_MESSAGES = [
    "",
    "5",
    "[]",
    "{}",
    '{"n": 1}',
    '{"n": 1, "do": "answer"}',
    '{"n": 1, "do": "run"}',
    '{"n": 1, "do": "check", "query": 5}',
] + ["[" * 100_000, '{"n":1,"do":"games","run":1,"query":0,"first":"a","count":1}', '{"n":true,"do":"stop"}', '{"n":1,"do":["stop"]}']
EXAMPLES = ("games.pgn", "famous.pgn", "themes.pgn")


@pytest.fixture(scope="module")
def served(tmp_path_factory: pytest.TempPathFactory) -> Iterator[Served]:
    outside, folder = tmp_path_factory.mktemp("outside"), tmp_path_factory.mktemp("games")
    (outside / "secret.pgn").write_bytes(GAME)
    (outside / "secret.cql").write_text("cql() mate")
    (folder / "inner").mkdir()
    (folder / "inner" / "large.pgn").write_bytes(GAME * 500_000)
    # so much that no program is through before it is stopped
    (folder / "inner" / "huge.pgn.gz").write_bytes(gzip.compress(GAME * 500_000) * 100)
    (folder / "small.pgn").write_bytes(GAME)
    (folder / "dashes.pgn").write_bytes(b'1. e4 *\n----\n[A "b"]\n1. d4 *\n')
    (folder / "draw.pgn").write_bytes(b"1. e4 e5 1/2\n")
    (folder / "broken.pgn.gz").write_bytes(b"\x1f\x8b\x08\x00" + b"x" * 100)
    (folder / "cut.pgn.gz").write_bytes(gzip.compress(GAME * 1000)[:-9])
    for name in EXAMPLES:
        (folder / name).write_bytes((TOP / "examples" / name).read_bytes())
    (folder / "packed.pgn.gz").write_bytes(gzip.compress(GAME * 3))
    with zipfile.ZipFile(folder / "several.zip", "w") as packed:
        packed.writestr("a.pgn", GAME)
        packed.writestr("b.pgn", GAME + b"1. e5 *\n\n")
    (folder / "link.pgn").symlink_to(outside / "secret.pgn")
    (folder / "link.cql").symlink_to(outside / "secret.cql")
    (folder / "linked").symlink_to(outside)
    (folder / "folder.pgn").mkdir()
    os.mkfifo(folder / "pipe.pgn")
    desk = Served(folder, **{variable: program(variable, name) for variable, name in PROGRAMS.items()})
    yield desk
    assert "Traceback" not in desk.close()
    assert (outside / "secret.cql").read_text() == "cql() mate"


def test_who_is_let_in(served: Served) -> None:
    page = f"/{served.token}/"
    assert served.get(page) == 200
    assert served.get(page, Origin=served.origin) == 200
    for path in ("/", "/x/", f"/{served.token[:-1]}/", f"/{served.token.swapcase()}/", "/favicon.ico", "//" + served.token):
        assert served.get(path) == 403, path
    for host in (f"evil.example:{served.port}", f"localhost:{served.port}", "127.0.0.1", "127.0.0.1.evil.example", ""):
        assert served.get(page, Host=host) == 403, host
    for origin in ("http://evil.example", "null", f"http://127.0.0.1:{served.port + 1}", f"https://127.0.0.1:{served.port}"):
        assert served.get(page, Origin=origin) == 403, origin
        assert served.get(page + "socket", Origin=origin) == 403
    assert served.get(page + "socket") == 403
    host = f"Host: 127.0.0.1:{served.port}\r\n"
    assert served.raw(f"GET {page} HTTP/1.1\r\n{host}Host: evil.example\r\n\r\n") in (400, 403)
    assert served.raw(f"POST {page} HTTP/1.1\r\n{host}Content-Length: 0\r\n\r\n") == 403
    assert served.raw(f"GET {page} HTTP/1.0\r\n\r\n") == 403
    assert served.raw("\x00\x01\r\n\r\n") == 400


def test_what_each_answer_says_to_the_browser(served: Served) -> None:
    async def headers() -> None:
        import aiohttp

        async with aiohttp.ClientSession() as http:
            for path in ("", "desk.js", "boards.js", "codemirror.js", "none"):
                async with http.get(served.address + path) as answer:
                    policy = answer.headers["Content-Security-Policy"]
                    assert "default-src 'none'" in policy and "unsafe" not in policy and "frame-ancestors 'none'" in policy
                    assert answer.headers["Cross-Origin-Resource-Policy"] == "same-origin"
                    text = await answer.text()
            async with http.get(served.address) as answer:
                text = await answer.text()
        assert " style=" not in text and " onclick=" not in text and "<script>" not in text

    asyncio.run(headers())


def test_no_script_reads_a_text_as_html() -> None:
    folder = TOP / "python" / "src" / "cqlpgn"
    for path in [folder / "boards.js", *(folder / "desk" / "static").glob("*.js")]:
        assert not [
            word for word in ("innerHTML", "outerHTML", "insertAdjacentHTML", "document.write", "eval(") if word in path.read_text()
        ]


def test_no_path_leads_out(served: Served) -> None:
    page = f"/{served.token}/"
    for path in (
        "../../etc/passwd",
        "%2e%2e/%2e%2e/etc/passwd",
        "..%2fserver.py",
        "desk.js/../server.py",
        "server.py",
        "%00",
        "desk.js%00.css",
    ):
        assert served.get(page + path) in (400, 403, 404), path

    async def names() -> None:
        async with Line(served) as line:
            listed = {archive["name"] for archive in line.hello["archives"]}
            inner = {"inner/large.pgn", "inner/huge.pgn.gz"}
            assert listed == inner | {
                "broken.pgn.gz",
                "cut.pgn.gz",
                "dashes.pgn",
                "draw.pgn",
                "small.pgn",
                "packed.pgn.gz",
                "several.zip",
                *EXAMPLES,
            }
            for name in OUTSIDE:
                assert str(await line.begin("cql() mate", name)).startswith("refused"), name
                assert str(await line.ask("at", archive=name, byte=0)).startswith("refused"), name
            for name in ("link.cql", "../outside0/secret.cql", "linked/secret.cql", "small.pgn", "none.cql"):
                assert str(await line.ask("open", name=name)).startswith("refused"), name
            assert (await line.over("cql() mate", "small.pgn", "link.pgn"))["found"] == [1]
            assert line.run and "link.pgn" in line.run["troubles"][0]

    asyncio.run(names())


def test_messages(served: Served) -> None:
    async def messages() -> None:
        async with Line(served) as line:
            for text in NO_MESSAGES:
                await line.socket.send_str(text)
                assert "refused" in await line.socket.receive_json(timeout=PATIENCE), text[:50]
            fault = (await line.ask("check", query="cql()\n// Müller\u2028\nmate echo"))["fault"]
            assert (fault["byte"], fault["reason"], fault["line"]) == (
                len("cql()\n// Müller\u2028\nmate ".encode()),
                "outside profile echo",
                3,
            )
            assert (await line.ask("check", query="cql() \0"))["fault"]["reason"] == "bad byte"
            assert (await line.ask("check", query=" " * 70_000))["fault"]["reason"] == "query too long"
            assert (await line.ask("check", query="cql() mate\n%%\ncql() echo"))["fault"]["byte"] == 20
            assert (await line.ask("explain", query="cql() flipcolor Ka1"))["text"].startswith("(union")
            assert "fault" in await line.ask("explain", query="cql() echo")
            assert str(await line.ask("games", run=99, query=0, first=0, count=1)).startswith("refused")
            with contextlib.suppress(OSError):  # the desk ends the line, maybe before the message is there to its end
                await line.socket.send_str("x" * (1 << 21))
            while (message := await line.socket.receive(timeout=PATIENCE)).type.name == "TEXT":
                pass
            assert message.type.name in ("CLOSE", "CLOSED", "ERROR")
        async with Line(served) as line:
            assert (await line.ask("check", query="cql() mate"))["fault"] is None

    asyncio.run(messages())


def test_archives_of_all_kinds(served: Served) -> None:
    async def kinds() -> None:
        async with Line(served) as line:
            run = await line.over("cql() mate", "packed.pgn.gz", "broken.pgn.gz", "small.pgn", "several.zip")
            assert (run["state"], run["found"], run["faulty"]) == ("done", [6], 1)
            assert len(run["troubles"]) == 1 and "broken.pgn.gz" in run["troubles"][0]
            rows = await line.ask("rows", run=run["run"], query=0, first=0, count=9)
            assert [row[6] for row in rows] == ["packed.pgn.gz"] * 3 + ["small.pgn", "several.zip:a.pgn", "several.zip:b.pgn"]
            (fault,) = await line.ask("faults", run=run["run"], query=0)
            assert fault["archive"] == "several.zip:b.pgn"
            before, after, hint = await line.ask("at", archive=fault["archive"], byte=fault["byte"])
            assert before.endswith("0-1\n\n1. ") and after.startswith("e5 *") and hint == ""
            assert await line.ask("doubtful", run=run["run"]) == []
            run = await line.over("cql() mate", "dashes.pgn", "several.zip")
            wanted = {"archive": "dashes.pgn", "game": 2, "byte": 8, "reason": "it has null moves alone, as a line of dashes is read"}
            assert await line.ask("doubtful", run=run["run"]) == [wanted]
            run = await line.over("cql() mate", "draw.pgn")
            (fault,) = await line.ask("faults", run=run["run"], query=0)
            assert (await line.ask("at", archive="draw.pgn", byte=fault["byte"]))[2] == "the result of a draw is written `1/2-1/2`"
            run = await line.over("cql() mate", "broken.pgn.gz")
            assert run["state"] == "failed" and (await line.ask("games", run=run["run"], query=0, first=-5, count=10**9)) == []
            assert "cut.pgn.gz" in (await line.over("cql() mate", "cut.pgn.gz"))["troubles"][0]

    asyncio.run(kinds())


def test_several_queries_and_the_first_match(served: Served) -> None:
    async def queries() -> None:
        async with Line(served) as line:
            run = await line.over('cql(matchstring "X") mate\n%%\ncql() stalemate\n%%\ncql() sort "p" ply check', *EXAMPLES)
            assert run["found"][1] == 1 and run["found"][0] >= 8 and run["sorts"]
            (game,) = await line.ask("games", run=run["run"], query=1, first=0, count=5)
            assert game[0] == 0 and game[1][0] == "article"
            assert str(await line.begin("cql() mate\n%%\ncql() check", "games.pgn", first=True)).startswith("refused")
            run = await line.over("cql() mate", "games.pgn", "famous.pgn", first=True)
            assert (run["found"], run["games"]) == ([1], 1)

    asyncio.run(queries())


def test_filter_and_what_is_saved(served: Served, tmp_path: Path) -> None:
    async def saved() -> None:
        async with Line(served) as line:
            run = await line.over("cql() check", "famous.pgn")
            which = {"run": run["run"], "query": 0}
            left = await line.ask("filter", text="MORPHY", **which)
            rows = await line.ask("rows", first=0, count=9, **which)
            assert 0 < left < run["found"][0] and len(rows) == left and all("Morphy" in row[1] + row[2] for row in rows)
            assert await line.ask("filter", text="", **which) == run["found"][0]
            for form, lines in {
                "pgn": b"{CQL}",
                "csv": b"\n",
                "json": b"\n",
                "epd": b"\n",
                "page": b"<figure",
                "sheet": b"<figure",
            }.items():
                async with line.http.get(f"{served.address}save/{line.page}/{run['run']}/0/{form}") as answer:
                    data = await answer.read()
                    assert data.count(lines) == run["marked"][0] + (form == "csv"), form
            for path in (
                f"save/{line.page}/{run['run']}/1/pgn",
                f"save/{line.page}/0/0/pgn",
                f"save/x/{run['run']}/0/pgn",
                f"save/{line.page}/{run['run']}/0/exe",
            ):
                async with line.http.get(served.address + path) as answer:
                    assert answer.status == 404, path

    asyncio.run(saved())


def test_rows_of_several_archives_name_them(served: Served) -> None:
    async def rows() -> None:
        async with Line(served) as line:
            run = await line.over("cql() mate", "small.pgn", "packed.pgn.gz", "several.zip")
            for form, first in {"csv": "small.pgn", "json": '{"archive":"small.pgn"', "epd": ""}.items():
                async with line.http.get(f"{served.address}save/{line.page}/{run['run']}/0/{form}") as answer:
                    text = await answer.text()
                    assert first in text and "several.zip:b.pgn" in text, form
                    if form == "csv":
                        names = [row[0] for row in csv.reader(io.StringIO(text, newline=""))][1:]
                        assert names == ["small.pgn"] + ["packed.pgn.gz"] * 3 + ["several.zip:a.pgn", "several.zip:b.pgn"]

    asyncio.run(rows())


def test_games_stay_while_they_are_read() -> None:
    """A file that is being saved is not cut short by the next run of its page; its place is given back afterwards."""
    room = Room()
    place, found = room.left, Found(b"CQL", room)
    found.begin("a.pgn")
    found.take(GAME * 3)
    with found.held():
        found.close()
        assert found.bytes_of(0, 9) == [GAME] * 3 and room.left < place
    assert room.left == place
    found.close()
    assert room.left == place


@pytest.mark.parametrize("text", ["morphy", "MÜLLER", "müller", 'a"b', "k", "1858", "1-0", "\udcff", "ü", "\\"])
def test_a_filter_finds_what_the_tags_say(text: str) -> None:
    values = ["Morphy, Paul", "Müller", 'a\\"b', "\u212a", "back\\\\slash", "İ"]
    games = [f'[White "{value}"]\n[Date "1858.??.??"]\n[Result "1-0"]\n\n1-0\n\n'.encode() for value in values]
    games.append('[Event "Müller"]\n\n*\n\n'.encode("latin-1"))
    wanted = text.lower()
    for game in games:
        said = [value for tag, value in tags_of(game).items() if tag != "Result"]
        assert has_text(game, wanted) == any(wanted in value.lower() for value in said)


def test_of_several_filters_the_last_counts(served: Served) -> None:
    async def filters() -> None:
        async with Line(served) as line:
            run = await line.over("cql() mate", "many.pgn")
            which = {"run": run["run"], "query": 0}
            # each game has the first text, so that this filter takes longer than the second one
            for number, text in ((91, "a"), (92, "nobody")):
                await line.socket.send_json({"n": number, "do": "filter", "text": text, **which})
            left: dict[int, int] = {}
            while len(left) < 2:
                answer = await line.socket.receive_json(timeout=PATIENCE)
                left |= {answer["n"]: answer["is"]} if "n" in answer else {}
            assert left == {91: run["found"][0], 92: 0} and run["found"] == [30_000]
            assert await line.ask("rows", first=0, count=5, **which) == []

    (served.folder / "many.pgn").write_bytes(GAME * 30_000)
    try:
        asyncio.run(filters())
    finally:
        (served.folder / "many.pgn").unlink()


def test_a_page_that_would_be_too_long(tmp_path: Path) -> None:
    (tmp_path / "games.pgn").write_bytes(GAME * 3)
    changed = "import cqlpgn.desk.saving as saving; saving.MOST_ON_A_PAGE = 2"
    desk = Served(tmp_path, changed, **{variable: program(variable, name) for variable, name in PROGRAMS.items()})

    async def long() -> None:
        async with Line(desk) as line:
            run = await line.over("cql() mate", "games.pgn")
            for form, title in (("page", "found"), ("sheet", "exercises")):
                async with line.http.get(f"{desk.address}save/{line.page}/{run['run']}/0/{form}") as answer:
                    text = await answer.text()
                    assert f"<title>{title}: the first 2 of 3 games</title>" in text and text.count("<figure") == 2

    asyncio.run(long())
    desk.close()


def test_zstandard(served: Served) -> None:
    zstandard = pytest.importorskip("zstandard")
    folder = served.folder
    (folder / "packed.pgn.zst").write_bytes(zstandard.ZstdCompressor().compress(GAME * 4))
    (folder / "cut.pgn.zst").write_bytes(zstandard.ZstdCompressor().compress(GAME * 4)[:-5])

    async def zst() -> None:
        async with Line(served) as line:
            assert (await line.over("cql() mate", "packed.pgn.zst"))["found"] == [4]
            assert "cut.pgn.zst" in (await line.over("cql() mate", "cut.pgn.zst"))["troubles"][0]

    try:
        asyncio.run(zst())
    finally:
        for name in ("packed.pgn.zst", "cut.pgn.zst"):
            (folder / name).unlink()


def test_a_full_disk(tmp_path: Path) -> None:
    """What was found until there was no more place stands, and the page is told why it is not all."""
    (tmp_path / "games.pgn").write_bytes(GAME * 100_000)
    changed = "import cqlpgn.desk.found as found; found.Room.__init__.__defaults__ = (100_000,)"
    desk = Served(tmp_path, changed, **{variable: program(variable, name) for variable, name in PROGRAMS.items()})

    async def full() -> None:
        async with Line(desk) as line:
            run = await line.over("cql() mate", "games.pgn")
            assert run["state"] == "failed" and "fills the place" in run["troubles"][0] and len(run["troubles"]) == 1
            assert len(await line.ask("rows", run=run["run"], query=0, first=0, count=9)) == min(9, run["found"][0])
            assert (await line.over("cql() Pa8", "games.pgn"))["state"] == "done"

    asyncio.run(full())
    assert "Traceback" not in desk.close()


@pytest.mark.parametrize("kept", [600.0, 0.2])
def test_what_was_found_is_kept_for_a_while(tmp_path: Path, kept: float) -> None:
    (tmp_path / "games.pgn").write_bytes(GAME)
    changed = f"import cqlpgn.desk.server as server; server.GRACE, server.KEPT = 0.1, {kept}"
    desk = Served(tmp_path, changed, **{variable: program(variable, name) for variable, name in PROGRAMS.items()})

    async def back(page: str) -> bool:
        """Whether a page that was away a second is still known."""
        await asyncio.sleep(1)
        async with Line(desk, page) as line:
            assert line.hello["run"]["found"] == [1] if line.page == page else line.hello["run"] is None
            return line.page == page

    async def away() -> None:
        async with Line(desk) as line:
            assert (await line.over("cql() mate", "games.pgn"))["found"] == [1]
            page = line.page
        if kept > 1:
            assert await back(page)
        else:
            end = time.monotonic() + PATIENCE
            while await back(page):
                assert time.monotonic() < end

    asyncio.run(away())
    assert "Traceback" not in desk.close()


def test_saved_queries(served: Served) -> None:
    async def queries() -> None:
        async with Line(served) as line:
            assert (await line.ask("save", name="mine", query="cql() mate", over=False))["name"] == "mine.cql"
            assert await line.ask("open", name="mine.cql") == "cql() mate"
            assert str(await line.ask("save", name="mine", query="cql() check")).startswith("refused: mine.cql: is there")
            assert "mine.cql" in (await line.ask("save", name="mine.cql", query="cql() check", over=True))["queries"]
            # a link of that name is replaced, and not followed: the fixture looks at what it leads to
            assert str(await line.ask("save", name="link", query="cql() check")).startswith("refused")
            assert (await line.ask("save", name="link", query="cql() check", over=True))["name"] == "link.cql"
            for name in ("", ".", "..", ".x", "a/b", "../x", "/tmp/x", "x\0", "\n", "x" * 300, "\udcff"):
                assert str(await line.ask("save", name=name, query="cql() mate", over=True)).startswith("refused"), name
            await line.over("cql() mate", "small.pgn")
        async with Line(served) as other:
            assert {"mine.cql", "link.cql"} <= set(other.hello["queries"]) and "cql() mate" in other.hello["history"]

    asyncio.run(queries())


@pytest.mark.parametrize("grace", [60.0, 0.1])
def test_processes_end_with_their_page(served: Served, grace: float) -> None:
    changed = f"import cqlpgn.desk.server as server; server.GRACE = {grace}"
    desk = Served(served.folder, changed, **{variable: program(variable, name) for variable, name in PROGRAMS.items()})

    async def ends() -> None:
        async with Line(desk) as line:
            await line.begin("cql() mate", "inner/huge.pgn.gz")
            await line.until("reading")
            assert line.run is not None
            assert str(await line.ask("stop", run=line.run["run"] - 1)).startswith("refused") and desk.children()
            await line.ask("stop", run=line.run["run"])
            assert not desk.children() and (await line.until("stopped"))["found"][0] >= 0
            await line.begin("cql() mate", "inner/huge.pgn.gz")
            await line.until("reading")
            begun = line.page
        if grace > 1:
            async with Line(desk, begun) as again:  # loaded again: the run goes on
                assert again.page == begun and again.hello["run"]["state"] == "reading"
                async with Line(desk, begun) as other:  # a page that was doubled is another one
                    assert other.page != begun and other.hello["run"] is None
        else:
            assert await asyncio.to_thread(desk.no_children)
            async with Line(desk, begun) as late:  # its process has ended, what was found is kept
                assert late.hello["run"]["state"] == "stopped" and late.hello["run"]["found"][0] >= 0

    asyncio.run(ends())
    assert "Traceback" not in desk.close()


def test_two_pages_do_not_mix(served: Served) -> None:
    async def two() -> None:
        async with Line(served) as one, Line(served) as other:
            first, second = await one.over("cql() mate", "games.pgn"), await other.over("cql() stalemate", "games.pgn")
            assert (first["found"], second["found"]) == ([8], [1])
            for run, line, count in ((first, one, 8), (second, other, 1)):
                assert len(await line.ask("rows", run=run["run"], query=0, first=0, count=20)) == count
            for do in ("games", "rows"):
                assert str(await one.ask(do, run=second["run"], query=0, first=0, count=20)).startswith("refused")
            async with one.http.get(f"{served.address}save/{one.page}/{second['run']}/0/pgn") as answer:
                assert answer.status == 404

    asyncio.run(two())


def test_twenty_runs_at_once(served: Served) -> None:
    async def twenty() -> None:
        lines = [Line(served) for _ in range(20)]
        await asyncio.gather(*(line.__aenter__() for line in lines))
        await asyncio.gather(*(line.begin("cql() mate", "inner/large.pgn") for line in lines))
        most, begun = 0, time.monotonic()
        while time.monotonic() < begun + 2:
            most = max(most, len(served.children()))
            await asyncio.sleep(0.02)
        assert most <= 2 + 4  # runs and checks
        assert (await lines[7].ask("check", query="cql() echo"))["fault"]["byte"] == 6
        await asyncio.gather(*(line.__aexit__(None, None, None) for line in lines))
        assert await asyncio.to_thread(served.no_children)

    asyncio.run(twenty())


def test_a_thousand_requests_at_once(served: Served) -> None:
    async def thousand() -> None:
        import aiohttp

        async with aiohttp.ClientSession(connector=aiohttp.TCPConnector(limit=1000)) as http:

            async def one(path: str) -> int:
                async with http.get(served.address + path) as answer:
                    await answer.read()
                    return answer.status

            statuses = await asyncio.gather(*(one(("", "desk.js", "none", "codemirror.js")[n % 4]) for n in range(1000)))
        assert sorted(set(statuses)) == [200, 404] and statuses.count(404) == 250

    asyncio.run(thousand())


def test_a_server_that_is_killed_leaves_no_program(tmp_path: Path) -> None:
    (tmp_path / "large.pgn.gz").write_bytes(gzip.compress(GAME * 500_000) * 100)
    desk = Served(tmp_path, **{variable: program(variable, name) for variable, name in PROGRAMS.items()})

    async def begin() -> list[int]:
        async with Line(desk) as line:
            await line.begin("cql() mate", "large.pgn.gz")
            await line.until("reading")
            return desk.children()

    programs = asyncio.run(begin())
    desk.process.kill()
    desk.process.communicate()
    assert all_end(programs)


def test_a_program_that_is_missing_or_killed(tmp_path: Path) -> None:
    (tmp_path / "games.pgn").write_bytes(GAME)
    fake = tmp_path / "cqlpgn"
    fake.write_text("#!/bin/sh\nkill -9 $$\n")
    fake.chmod(0o755)
    desk = Served(tmp_path, CQLPGN=str(fake), PGNJSON=program("PGNJSON", "pgnjson"))

    async def asked() -> None:
        async with Line(desk) as line:
            assert "was ended by signal 9. Install cqlpgn again" in await line.ask("check", query="cql() mate")
            fake.unlink()
            assert "can't be started" in await line.begin("cql() mate", "games.pgn")

    asyncio.run(asked())
    desk.close()


@pytest.mark.parametrize(("documents", "begun"), [("My $games", "My $games"), ("none", "home"), ("", ".")])
def test_the_desktop_entry(tmp_path: Path, documents: str, begun: str) -> None:
    """It opens the folder of documents; where that is not there the user's own, and where it is not known the one in which it begins."""
    for name in ("bin", "home", "My $games"):
        (tmp_path / name).mkdir()
    for name, does in {"cqlpgn-desk": "pwd", "xdg-user-dir": f"echo '{documents and tmp_path / documents}'"}.items():
        (tmp_path / "bin" / name).write_text(f"#!/bin/sh\n{does}\n")
        (tmp_path / "bin" / name).chmod(0o755)
    entry = configparser.ConfigParser(interpolation=None)
    entry.read(TOP / "contrib" / "cqlpgn-desk.desktop")
    shell, flag, quoted = entry["Desktop Entry"]["Exec"].replace("\\\\", "\\").split(" ", 2)
    call = [shell, flag, re.sub(r"\\(.)", r"\1", quoted[1:-1])]
    environment = {"PATH": f"{tmp_path / 'bin'}:/usr/bin:/bin", "HOME": str(tmp_path / "home")}
    out = subprocess.run(call, cwd=tmp_path, env=environment, capture_output=True, text=True, check=True).stdout
    assert out.strip() == str(tmp_path / begun)


@pytest.mark.parametrize("what", ["killed", "missing"])
def test_a_reader_of_games_that_is_missing_or_killed(tmp_path: Path, what: str) -> None:
    """The page is told so in place of boards, and no file is taken for a whole one."""
    (tmp_path / "games.pgn").write_bytes(GAME * 3)
    fake = tmp_path / "pgnjson"
    fake.write_text('#!/bin/sh\nprintf \'{"game":1,"byte"\'\nkill -9 $$\n')
    fake.chmod(0o755)
    desk = Served(tmp_path, CQLPGN=program("CQLPGN", "cqlpgn"), PGNJSON=str(fake))
    if what == "missing":
        fake.unlink()

    async def asked() -> None:
        import aiohttp

        async with Line(desk) as line:
            run = await line.over("cql() mate", "games.pgn")
            assert (await line.ask("games", run=run["run"], query=0, first=0, count=5)).startswith("refused: ")
            for form in ("csv", "page"):
                async with line.http.get(f"{desk.address}save/{line.page}/{run['run']}/0/{form}") as answer:
                    if answer.status != 500:
                        with pytest.raises(aiohttp.ClientError):
                            await answer.read()
            assert len(await line.ask("rows", run=run["run"], query=0, first=0, count=5)) == 3

    asyncio.run(asked())
    assert "Traceback" not in desk.close()
