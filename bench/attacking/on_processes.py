"""Processes: engines that outlive who asked, signals, what completion runs, and the scripts for many machines."""

from __future__ import annotations

import os
import pty
import shutil
import signal
import subprocess
import time
from collections.abc import Iterator
from itertools import product
from pathlib import Path

from .asking import PYTHON, Place, Running, Seen, Untried, ask, ended, has_come, last_line
from .inputs import GAME, MARKED, PROBLEM, QUERY, pipe, written

SEARCH = "import sys; sys.path[:0] = {places!r}; import cqlpgn\nfor hit in cqlpgn.{call}({query!r}, {archive!r}): print(hit, flush=True)\n"
THREADED = """import sys; sys.path[:0] = {places!r}; import cqlpgn, threading, time
kept = []
def begin():
    kept.append(iter(cqlpgn.search({query!r}, {archive!r})))
    kept.append(next(kept[0]))
thread = threading.Thread(target=begin); thread.start(); thread.join(); time.sleep(0.3)
print(1 + sum(1 for hit in kept[0]))
"""


def _places(place: Place) -> list[str]:
    return [str(place.stage / "python" / "src"), str(place.stage / "python")]


def _killed(place: Place, words: list[str], told: str) -> str:
    """What is left of a command that is killed while its engine waits for more of an archive."""
    running = Running(place, words, data=GAME, keeps_open=True)
    limit = time.monotonic() + 5
    engines: list[int] = []
    while time.monotonic() < limit and not engines:
        before = set(running.engines())
        time.sleep(0.15)
        engines = [number for number in running.engines() if number in before]
    running.kill()
    # who killed it closes its end of the pipe last, so that an engine on standard input has not come to its end before
    time.sleep(0.6)
    left = ended(running.mark, 0)
    running.end(5, 0)
    if not engines:
        raise Untried(f"{told}: no engine was begun")
    return f"{told} was killed, and {left[0]} goes on" if left else ""


def outliving(place: Place) -> Iterator[str]:
    """Point 4: SIGKILL to each command and to a program of one's own, while the engine waits for more of a pipe."""
    archive = pipe(place.work / "endless.pgn")
    held = os.open(archive, os.O_RDWR)
    calls = [("over", QUERY), ("over", "-c", QUERY), ("over", "-q", QUERY), ("over", "-p", QUERY), ("over", "--first", QUERY)]
    calls += [
        ("over", "-o", "out.pgn", QUERY),
        ("over", "-j", "2", QUERY),
        ("over", "--summary", QUERY),
        ("rows",),
        ("rows", "--json"),
        ("rows", "-o", "r"),
    ]
    calls += [("diagrams",), ("diagrams", "--tex")]
    try:
        for call in calls:
            os.write(held, GAME)  # some commands begin an engine when they have seen how the archive begins
            yield _killed(place, place.command(*call, archive), "cqlpgn-" + " ".join(call))
        for call in (("over", QUERY), ("rows",), ("diagrams",)):
            yield _killed(place, place.command(*call, "-"), f"cqlpgn-{' '.join(call)} -")
        for name in ("search", "found"):
            os.write(held, GAME)
            code = SEARCH.format(places=_places(place), call=name, query=QUERY, archive=archive)
            yield _killed(place, [PYTHON, "-c", code], f"a program that calls {name}")
    finally:
        os.close(held)
    games = written(place.work / "threads.pgn", GAME * 20000)
    seen = ask(place, [PYTHON, "-c", THREADED.format(places=_places(place), query=QUERY, archive=games)], patience=60)
    yield "" if seen.out.strip() == b"20000" else f"a search of a thread that has ended: {seen.out[-60:]!r}, {last_line(seen.err)}"


SHELLS = {
    "bash": (
        ["bash", "--norc", "--noprofile", "-i"],
        "source {0}/cqlpgn.bash; bind 'set bell-style none'; bind 'set enable-bracketed-paste off'",
    ),
    "zsh": (["zsh", "-f", "-i"], "fpath=({0} $fpath); autoload -U compinit; compinit -u -D; unsetopt beep"),
    "fish": (["fish", "-N", "-i"], "source {0}/cqlpgn.fish"),
}
STUB = '#!/bin/sh\nfor word in "$@"; do printf \'%s\\0\' "$word"; done > {0}\n'


def _typed(place: Place, shell: str, name: str, line: str) -> str:
    """What becomes of a line with a Tab and an Enter in a folder that has one folder, of this name."""
    folder, tools = place.folder(), place.folder()
    (folder / name).mkdir()
    said = tools / "said"
    for command, wrote in (("cqlpgn-split", said), ("cqlpgn-desk", said), ("touch", tools / "touched")):
        (tools / command).write_text(STUB.format(wrote), encoding="ascii")
        (tools / command).chmod(0o755)
    words, begin = SHELLS[shell]
    environment = place.environment() | {"PATH": f"{tools}:{os.environ['PATH']}", "PS1": "> ", "INPUTRC": "/dev/null", "HISTFILE": ""}
    own, other = pty.openpty()
    process = subprocess.Popen(["setsid", "--ctty", *words], stdin=other, stdout=other, stderr=other, cwd=folder, env=environment)
    os.close(other)
    try:
        if b"ready" not in _type(own, begin.format(place.stage / "completion") + "; echo rea''dy\r", b"ready"):
            raise Untried(f"{shell} has not begun")
        _type(own, line + "\t", b"")
        _type(own, "\r", b"", said)
    finally:
        process.kill()
        process.wait()
        os.close(own)
        ended(environment["CQLPGN_ATTACK"], 0.1)
    told = f"{shell}: {line}<Tab><Enter> where a folder is named {name!r}"
    if more := sorted({one.name for one in folder.iterdir()} - {name}):
        return f"{told} made {more[0]!r}"
    if (tools / "touched").exists():
        return f"{told} ran touch"
    if not said.exists():
        return f"{told}: the command is not run"
    got = [os.fsdecode(word) for word in said.read_bytes().split(b"\0")[:-1]]
    # where nothing is offered, what was typed is all that there is
    return "" if [word.rstrip("/") for word in got] in ([name], ["d"]) else f"{told} gave the words {got!r}"


def _type(own: int, text: str, wanted: bytes, said: Path | None = None) -> bytes:
    """Types a text, and reads until what is wanted has come, or the file is there, or nothing comes for a while."""
    os.write(own, text.encode())
    came, limit = b"", time.monotonic() + (15 if wanted else 5 if said else 2)
    while time.monotonic() < limit and (not wanted or wanted not in came) and not (said and said.exists() and said.stat().st_size):
        if has_come(own, 0.35):
            try:
                came += os.read(own, 65536)
            except OSError:
                break
        elif not wanted and not said:
            break
    return came


def completed(place: Place) -> Iterator[str]:
    """Point 5: folders of such names are completed in the three shells; what is typed after them is Enter."""
    names = (
        "d$(touch x)",
        "d`touch x`",
        "d;touch x",
        "d x",
        "d&touch x",
        "d|touch x",
        "d>x",
        "d'q",
        'd"q',
        "d\ntouch x",
        "d$HOME",
        "d*",
        "d\\x",
        "d#x",
    )
    for shell, name in [*product(["bash"], names), *product(["zsh", "fish"], names[:6])]:
        if not shutil.which(shell):
            raise Untried(f"{shell} is not installed")
        yield _typed(place, shell, name, "cqlpgn-split d")
    for name in names[:4]:
        yield _typed(place, "bash", name, "cqlpgn-desk d")


def _over(seen: Seen, told: str, statuses: tuple[int, ...]) -> str:
    said = seen.trouble(statuses)
    return f"run-over {told}: {said}" if said else ""


def _folders(place: Place, archive: str) -> Iterator[str]:
    """What lies in the folder of `--in` leads elsewhere."""
    sort = 'cql() mate sort "n" count {check}'
    for name in ("query.cql.new", "ask.cql.new", "job.new", "table.new", "log", "todo.new", "found.pgn", "sorted.pgn"):
        folder, victim = place.folder(), Path(written(place.work / "victim", b"mine\n"))
        (folder / name).symlink_to(victim)
        more = ("--engine", "true") if name in ("log", "todo.new") else ()
        ask(place, place.command("run-over", "--in", str(folder), *more, sort if name.endswith(".pgn") else QUERY, archive))
        is_lost = not victim.exists() or victim.read_bytes() != b"mine\n"
        yield f"run-over --in FOLDER, where {name} is a link: the file that it leads to is another now" if is_lost else ""
    for job in (b"", b"[]", b"{", b"\xff", b"null", b'{"program": 1}', b"[" * 100000, b"9" * 5000):
        folder = place.folder()
        written(folder / "job", job)
        yield _over(ask(place, place.command("run-over", "--in", str(folder), QUERY, archive)), f"with the job {job[:20]!r}", (3, 9))
    for job in (b"[]", b"{", b"9" * 5000, b"\xff"):
        folder = place.folder()
        written(folder / "job", job)
        written(folder / "table", b"")
        seen = ask(place, place.command("join", str(folder)))
        said = seen.trouble((3, 4, 5, 9))
        yield f"join of a folder with the job {job[:20]!r}: {said}" if said else ""
    seen = ask(place, place.command("join", str(place.work / "nowhere")))
    yield f"join of no folder: {said}" if (said := seen.trouble((3, 4, 5, 9))) else ""


def many_machines(place: Place) -> Iterator[str]:
    """Point 11: words, tables, jobs, folders and streams for run-over and join."""
    archive = written(place.work / "a.pgn", GAME * 50)
    over = place.command("run-over")
    for engine in ("", " ", "'", '"x', "\\"):
        yield _over(ask(place, [*over, "--engine", engine, QUERY, archive]), f"--engine {engine!r}", (3, 4, 9))
    for row in (b"1 0 " + b"9" * 5000 + b" 1 1\n", b"9" * 5000 + b" 0 1 1 1\n", b"1 0 1 1 " + b"8" * 4400 + b"\n", b"\xff\n"):
        table = written(place.work / "table", row)
        yield _over(ask(place, [*over, "--table", table, QUERY, archive]), f"with a table {row[:20]!r}..", (3, 5, 9))
    for redirect in (">&-", "2>&-", ">&- 2>&-", "<&-", "> /dev/full", "2> /dev/full"):
        seen = ask(place, [*over, QUERY, archive], redirect=redirect)
        yield _over(seen, f"with {redirect}", (0,) if redirect == "<&-" else (6,))
    before = Path(archive).read_bytes()
    seen = ask(place, [*over, QUERY, archive], redirect=f">> {archive}")
    yield "run-over .. a.pgn >> a.pgn: the archive is another now" if Path(archive).read_bytes() != before else ""
    written(Path(archive), before)
    yield from _folders(place, archive)


CALLS = {
    "over": ["over", "-o", "out", QUERY, "-"],
    "rows": ["rows", "-o", "out", "-"],
    "diagrams": ["diagrams", "-o", "out", "-"],
    "problems": ["problems", "-o", "out", "-"],
    "split": ["split", "out"],
}
DATA = {"problems": PROBLEM * 30, "split": b"query 1 bytes 9999\nx\n"}


def _files_left(folder: Path, stands: bool) -> list[str]:
    names = {"out", "out01.pgn"} if stands else set()
    return sorted(one.name for one in folder.iterdir() if one.name not in names)


def _in_midst(place: Place, name: str, stands: bool, kinds: tuple[int, ...]) -> str:
    """A command gets signals while its input is not at an end; what was begun is not there any more, after the next run at the latest."""
    folder = place.folder()
    if stands:
        for old in ("out", "out01.pgn"):
            written(folder / old, b"old\n")
    running = Running(place, place.command(*CALLS[name]), data=DATA.get(name, MARKED * 30), cwd=folder, keeps_open=True)
    limit = time.monotonic() + 8
    while not (begun := running.writes_into(folder)) and time.monotonic() < limit:
        time.sleep(0.02)
    if not begun:
        running.end(0)
        raise Untried(f"cqlpgn-{name} has begun no file in 8 s")
    time.sleep(0.1)
    for kind in kinds:
        running.kill(kind)
        time.sleep(0.002)
    seen = running.end(6)
    told = f"cqlpgn-{name} -o {'a file that stands' if stands else 'a new file'}, signals {', '.join(map(str, kinds))}"
    if seen.is_traced(place) or seen.is_hung:
        return f"{told}: {seen.trouble()}"
    if stands:
        data = b"query 1 bytes 0\n" if name == "split" else DATA.get(name, MARKED)
        ask(place, place.command(*CALLS[name]), data=data, cwd=folder)
    left = _files_left(folder, stands)
    left += sorted(one.name for one in (place.room / "tmp").iterdir())
    for one in (place.room / "tmp").iterdir():
        shutil.rmtree(one) if one.is_dir() else one.unlink()
    return f"{told}: {', '.join(left)} is left" if left else ""


def signalled(place: Place) -> Iterator[str]:
    """Point 15: SIGKILL and two Ctrl C in the midst, and signals in the first tenth of a second."""
    twice = ((signal.SIGINT, signal.SIGINT), (signal.SIGTERM, signal.SIGINT), (signal.SIGINT,) * 3)
    for name, stands in product(CALLS, (False, True)):
        yield _in_midst(place, name, stands, (signal.SIGKILL,))
    for name, kinds in product(CALLS, twice):
        yield _in_midst(place, name, False, kinds)
    for number, (name, kind) in enumerate(product(CALLS, (signal.SIGINT, signal.SIGTERM, signal.SIGHUP, signal.SIGINT))):
        running = Running(place, place.command(*CALLS[name]), cwd=place.folder(), keeps_open=True)
        time.sleep(0.02 + 0.011 * (number % 8))
        running.kill(kind)
        seen = running.end(6)
        yield f"cqlpgn-{name}, signal {kind} at its beginning: {seen.trouble()}" if seen.is_traced(place) or seen.is_hung else ""
