"""Archives: packed so that little becomes much, of very many members, very many at once, and files of a folder that are no files."""

from __future__ import annotations

import gzip
import os
import socket
import time
import zipfile
from collections.abc import Iterator
from itertools import product
from pathlib import Path

from .asking import MEGABYTE, Bounds, Place, Running, Seen, ask, has_ended
from .inputs import GAME, MARKED, QUERY, pipe, written, zipped
from .served import Desk

KINDS = {"bzip2": zipfile.ZIP_BZIP2, "lzma": zipfile.ZIP_LZMA}
MOST = 100  # MB that a command may take for an archive


def bombs(place: Place) -> dict[str, Path]:
    """A zip of some hundred bytes for each way to pack, of which 80 MB come, with one game before them."""
    made = {}
    for name, kind in KINDS.items():
        made[name] = place.work / f"{name}.zip"
        block = b"\n" * MEGABYTE
        with zipfile.ZipFile(made[name], "w", kind) as to, to.open("a.pgn", "w") as inside:
            inside.write(MARKED)
            for _ in range(80):
                inside.write(block)
    return made


def small_zips(place: Place) -> Iterator[str]:
    """Point 3: zips of some hundred bytes, to each command that reads archives and to the desk."""
    made = bombs(place)
    calls = [("over", "-c", QUERY), ("over", QUERY), ("over", "-q", QUERY), ("over", "-c", "--number", QUERY), ("rows",), ("diagrams",)]
    for call, (name, path) in product(calls, made.items()):
        seen = ask(place, place.command(*call, str(path)), patience=40)
        told = f"{path.stat().st_size} bytes of {name} to cqlpgn-{' '.join(call)}"
        if seen.memory > MOST:
            yield f"{told}: {seen.memory:.0f} MB"
        else:
            yield f"{told}: {said}" if (said := seen.trouble()) else ""
    for bounds, (name, path) in product((Bounds(), Bounds(memory=700 * MEGABYTE)), made.items()):
        with Desk(place, place.work, bounds) as desk:
            line = desk.line()
            run = line.over(QUERY, path.name, patience=30)
            told = f"{path.stat().st_size} bytes of {name} to the desk"
            if run is None:
                yield f"{told}: the run never came to an end" + (", the desk has ended" if desk.process.poll() is not None else "")
            else:
                memory = desk.memory()
                yield f"{told}: {memory:.0f} MB" if memory > MOST + 60 else ""


def _is_bounded(seen: Seen) -> bool:
    """Whether a zip is refused because it has so many members, in words."""
    return seen.status == 5 and b"more than" in seen.err and not seen.trouble()


def many_members(place: Place) -> Iterator[str]:
    """Point 7: zips of many members; what one more costs, a bound, and how often the page is told their names."""
    long = "n" * 150
    shapes = {"short": "{}.pgn", "long": long + "{}.pgn", "folders": "a/b/c/{}.pgn", "capitals": "{}.PGN"}
    for (shape, name), others in product(shapes.items(), (4000, 9000)):
        work = []
        for number in (30, 230):
            members = {name.format(one): b"" for one in range(number)} | {f"{long}{one}.txt": b"" for one in range(others)}
            path = zipped(place.work / f"{shape}{others}-{number}.zip", members, zipfile.ZIP_STORED)
            seen = ask(place, place.command("over", "-q", QUERY, path), patience=60)
            work.append(seen.work)
            said = "" if _is_bounded(seen) else seen.trouble((1,))
            if said or seen.status == 5:
                break
        each = (work[-1] - work[0]) / 200 if len(work) > 1 else 0.0
        # a member takes some ms by itself, and a reading of the directory 30 to 100 ms
        yield said or (f"{each * 1000:.0f} ms of a processor for each member, beside {others} other files" if each > 0.025 else "")
    path = zipped(place.work / "very-many.zip", {f"{one}.pgn": b"" for one in range(70000)}, zipfile.ZIP_STORED)
    seen = ask(place, place.command("over", "-c", QUERY, path), patience=25)
    yield f"70,000 members: {said}" if (said := seen.trouble()) else ""
    for name in (long, "é" * 60):
        zipped(place.work / "desk.zip", {f"{name}{one}.pgn": GAME for one in range(400)}, zipfile.ZIP_STORED)
        with Desk(place, place.work) as desk:
            line = desk.line()
            line.over(QUERY, "desk.zip", patience=30)
            yield f"{line.size / 1e6:.1f} MB in {line.count} messages to the page for 400 members" if line.size > 2e6 else ""
            line.close()


def _at_once(place: Place, jobs: int, kind: str, words: list[str], bounds: Bounds) -> str:
    """Asks so many pipes at once, which come to their ends when all have an engine."""
    folder = place.folder()
    names = [pipe(folder / f"{number:02}{kind}") for number in range(jobs)]
    held = [os.open(name, os.O_RDWR) for name in names]
    try:
        for file in held:
            os.write(file, gzip.compress(GAME * 20) if kind.endswith(".gz") else GAME * 20)
        running = Running(place, place.command("over", "-j", str(jobs), *words, *names), cwd=folder, bounds=bounds)
        limit = time.monotonic() + 20
        while len(running.engines()) < jobs and time.monotonic() < limit and not has_ended(running.process.pid):
            time.sleep(0.1)
    finally:
        for file in held:
            os.close(file)
    seen = running.end(60)
    told = f"-j {jobs} {' '.join(words)}, {kind}"
    if said := seen.trouble((0,)):
        return f"{told}: {said}"
    return "" if b"games %d matched" % (jobs * 20) in seen.err else f"{told}: games are missing"


def many_at_once(place: Place) -> Iterator[str]:
    """Point 8: as many archives at once as may be, where a user has 64 MB of pipes; and where a process has 256 files."""
    usual = (["-c", QUERY], [QUERY], [QUERY, "--summary"], ["-o", "out.pgn", QUERY])
    for words, kind, jobs in product(usual, (".pgn.gz", ".pgn"), (64, 50)):
        yield _at_once(place, jobs, kind, words, Bounds(files=1024))
    for words in usual[:2]:
        yield _at_once(place, 64, ".pgn", words, Bounds())


def _no_file(folder: Path, kind: str) -> None:
    """Lays what is no archive, under the name of one, into a folder."""
    name, _, ending = kind.partition(" ")
    path = folder / f"b{ending or '.pgn'}"
    if name == "pipe":
        pipe(path)
    elif name == "link-to-pipe":
        path.symlink_to(pipe(folder / "pipe"))
    elif name == "socket":
        with socket.socket(socket.AF_UNIX) as made:
            made.bind(str(path))
    elif name == "within":
        (folder / "d").mkdir()
        pipe(folder / "d" / "b.pgn")
    else:
        path.symlink_to(name)


def no_files(place: Place) -> Iterator[str]:
    """Point 10: pipes, devices and links to them in a folder; the archive beside them is read, and a link to an archive."""
    kinds: tuple[str, ...] = (
        "pipe",
        "pipe .pgn.gz",
        "pipe .zip",
        "link-to-pipe",
        "/dev/zero",
        "/dev/zero .pgn.gz",
        "/dev/zero .zip",
        "/dev/zero .pgn.xz",
    )
    kinds += ("/dev/urandom .pgn.zst", "within", "socket", "/dev/full .pgn.bz2", "/dev/null .zip")
    for kind in kinds:
        folder = place.folder()
        written(folder / "a.pgn", GAME)
        outside = Path(written(place.work / f"outside{len(os.listdir(place.work))}.pgn", GAME))
        (folder / "c.pgn").symlink_to(outside)
        _no_file(folder, kind)
        seen = ask(place, place.command("over", "-c", QUERY, str(folder)), patience=4)
        if said := seen.trouble((0, 1)):
            yield f"{kind} in a folder: {said}"
        else:
            whole = b"games 2 matched 2 refused 0" in seen.err
            yield "" if whole else f"{kind} in a folder: the files beside it were not read: {seen.err[-200:]!r}"
