"""Children of the package: what they are begun with, and that they end with who has begun them."""

from __future__ import annotations

import asyncio
import gzip
import os
import shutil
import signal
import subprocess
import sys
import tempfile
import threading
import time
from collections.abc import Iterator
from pathlib import Path

import pytest
from cqlpgn.commands.begin import FAILED
from cqlpgn.commands.ends import status_of
from cqlpgn.errors import NotFound
from cqlpgn.launch import INTERPRETED, lasting
from cqlpgn.process import Process
from cqlpgn.search import Hit, search
from tests.conftest import BIN, TOP, program
from tests.desks import GAME, Line, Served
from tests.processes import PATIENCE, all_end, becomes, children, words_of

PROGRAMS = {"CQLPGN": "cqlpgn", "PGNJSON": "pgnjson"}
MODULES: tuple[str, ...] = (
    "argparse",
    "array",
    "asyncio",
    "bz2",
    "contextlib",
    "csv",
    "ctypes",
    "dataclasses",
    "encodings",
    "fcntl",
    "gzip",
    "html",
)
MODULES += ("io", "json", "logging", "lzma", "os", "queue", "re", "secrets", "shutil", "signal", "site", "sitecustomize", "socket")
MODULES += ("subprocess", "tempfile", "threading", "types", "typing", "warnings", "yaml", "zipfile", "zstandard", "tqdm", "aiohttp", "sys")
PACKAGES = ("cqlpgn/__init__", "cqlpgn/__main__", "cqlpgn/commands/__init__", "cqlpgn/commands/__main__", "cqlpgn/commands/rows")
SEARCH = (
    "import sys; sys.path.insert(0, {path!r}); import cqlpgn\nfor hit in cqlpgn.{call}('cql() mate', sys.argv[1]): print(hit, flush=True)"
)
NOBODY = 65534


@pytest.fixture(params=[MODULES, PACKAGES], ids=["modules", "packages"])
def hostile(request: pytest.FixtureRequest, tmp_path: Path) -> Path:
    """A folder full of code that tells that it was run, in the file `witness` beside it."""
    folder = tmp_path / "games"
    for name in request.param:
        file = folder / f"{name}.py"
        file.parent.mkdir(parents=True, exist_ok=True)
        file.write_text(f"open({str(tmp_path / 'witness')!r}, 'a').write({name!r} + ' ')\nraise ImportError('code of the folder')\n")
    (folder / "a.pgn").write_bytes(GAME.replace(b"Qh4#", b"Qh4# {CQL}") * 3)
    return folder


def test_what_is_saved_runs_no_code_of_the_folder(hostile: Path, monkeypatch: pytest.MonkeyPatch) -> None:
    pytest.importorskip("aiohttp")
    monkeypatch.chdir(hostile)
    desk = Served(hostile, **{variable: program(variable, name) for variable, name in PROGRAMS.items()})

    async def save() -> None:
        async with Line(desk) as line:
            run = await line.over("cql() mate", "a.pgn")
            for form in ("pgn", "csv", "json", "epd", "page", "sheet"):
                async with line.http.get(f"{desk.address}save/{line.page}/{run['run']}/0/{form}") as answer:
                    assert answer.status == 200 and await answer.read(), form

    asyncio.run(save())
    desk.close()
    assert not (hostile.parent / "witness").exists()


def test_no_command_runs_code_of_the_folder(hostile: Path) -> None:
    environment = os.environ | {variable: program(variable, name) for variable, name in PROGRAMS.items()}
    for words in (["over", "cql() mate", "a.pgn"], ["over", "--check", "cql() mate"], ["rows", "a.pgn"], ["diagrams", "a.pgn"]):
        call = [sys.executable, str(BIN / f"cqlpgn-{words[0]}"), *words[1:]]
        done = subprocess.run(call, cwd=hostile, env=environment, capture_output=True, timeout=PATIENCE)
        assert done.returncode == 0 and b"Traceback" not in done.stderr, (words, done.stderr)
        call = [sys.executable, "-P", "-m", "cqlpgn.commands", *words]
        environment["PYTHONPATH"] = str(TOP / "python" / "src")
        assert subprocess.run(call, cwd=hostile, env=environment, capture_output=True, timeout=PATIENCE).returncode == 0
    assert not (hostile.parent / "witness").exists()


def test_a_fault_of_a_command_has_a_status_of_its_own(capsys: pytest.CaptureFixture[str]) -> None:
    def fails(_words: object) -> int:
        raise KeyError("\x1b[31m")

    assert status_of(fails, []) == FAILED > 9
    said = capsys.readouterr().err
    assert "KeyError" in said and "\x1b" not in said and said.count("\n") == 1


def test_a_signal_that_does_not_break_a_wait_is_seen() -> None:
    """The first thread waits, and another one takes the signal."""
    code = f"import os, signal, sys, threading, time; sys.path.insert(0, {str(TOP / 'python' / 'src')!r})\n"
    code += "from cqlpgn.commands.ends import status_of\n"
    code += "def ask():\n    time.sleep(0.5)\n    os.kill(os.getpid(), signal.SIGTERM)\n"
    code += "def waits(_words):\n    threading.Thread(target=ask, daemon=True).start()\n"
    code += "    signal.pthread_sigmask(signal.SIG_BLOCK, [signal.SIGTERM])\n    threading.Event().wait()\n"
    code += "os._exit(status_of(waits, []))"
    assert subprocess.run([sys.executable, "-c", code], timeout=PATIENCE).returncode == 128 + signal.SIGTERM


def test_a_command_that_cannot_be_imported_has_a_status_of_its_own(tmp_path: Path) -> None:
    shutil.copytree(TOP / "python" / "src" / "cqlpgn", tmp_path / "src" / "cqlpgn")
    shutil.copytree(BIN, tmp_path / "bin")
    (tmp_path / "src" / "cqlpgn" / "rows.py").write_text("raise RuntimeError('not whole')\n")
    done = subprocess.run([sys.executable, str(tmp_path / "bin" / "cqlpgn-rows"), "-"], stdin=subprocess.DEVNULL, capture_output=True)
    assert done.returncode == FAILED and b"not whole" in done.stderr and b"Traceback" not in done.stderr


@pytest.fixture
def endless(tmp_path: Path) -> Iterator[Path]:
    """A pipe of which more may always come."""
    path = tmp_path / "endless.pgn"
    os.mkfifo(path)
    file = os.open(path, os.O_RDWR)
    yield path
    os.close(file)


def begun(process: subprocess.Popen[bytes]) -> list[int]:
    """The programs that it has begun over an archive."""
    found: list[int] = []

    def has_begun() -> bool:
        found[:] = [number for number in children(process.pid) if {"run", "-"} <= set(words_of(number))]
        return bool(found)

    assert becomes(has_begun)
    return found


@pytest.mark.parametrize("words", [["cql() mate"], ["-c", "cql() mate"], ["-j", "2", "cql() mate"], ["--first", "cql() mate"]])
def test_programs_end_with_a_command_that_is_killed(endless: Path, words: list[str]) -> None:
    environment = os.environ | {"CQLPGN": program("CQLPGN", "cqlpgn")}
    call = [sys.executable, str(BIN / "cqlpgn-over"), *words, str(endless)]
    with subprocess.Popen(call, stdout=subprocess.DEVNULL, stderr=subprocess.DEVNULL, env=environment) as process:
        started = begun(process)
        process.kill()
    assert all_end(started)


@pytest.mark.parametrize("call", ["search", "found"])
def test_programs_end_with_a_program_that_is_killed(endless: Path, call: str) -> None:
    code = SEARCH.format(path=str(TOP / "python" / "src"), call=call)
    environment = os.environ | {variable: program(variable, name) for variable, name in PROGRAMS.items()}
    with subprocess.Popen([sys.executable, "-c", code, str(endless)], stdout=subprocess.DEVNULL, env=environment) as process:
        started = begun(process)
        process.kill()
    assert all_end(started)


def test_a_search_goes_on_when_the_thread_that_has_begun_it_ends(cqlpgn: str, pgnjson: str, tmp_path: Path) -> None:
    archive = tmp_path / "a.pgn"
    archive.write_bytes(GAME * 200)
    kept: list[Iterator[Hit]] = []

    def begin() -> None:
        kept.append(search("cql() mate", archive))
        assert next(kept[0]).game_number == 1

    thread = threading.Thread(target=begin)
    thread.start()
    thread.join()
    time.sleep(0.3)
    assert sum(1 for _ in kept[0]) == 199


def test_a_child_whose_parent_has_ended_begins_nothing(tmp_path: Path) -> None:
    call = [sys.executable, "-I", "-S", "-c", INTERPRETED, "1", "2", shutil.which("touch") or "touch", str(tmp_path / "begun")]
    assert subprocess.run(call, timeout=PATIENCE).returncode == 1 and not (tmp_path / "begun").exists()


def test_a_program_that_is_none_is_told() -> None:
    for name in ("/nowhere/cqlpgn", str(BIN), __file__):
        with pytest.raises(NotFound, match=name):
            Process(["run"], program=name)
        with pytest.raises(NotFound, match=name):
            lasting(lambda: Process(["run"], program=name))


def test_a_program_has_the_usual_signals() -> None:
    with Process(["SigIgn", "/proc/self/status"], program=shutil.which("grep")) as process:
        ignored = int(process.out.read().split()[1], 16)
        process.finish()
    assert not ignored & (1 << 12 | 1 << 24)  # SIGPIPE and SIGXFSZ


def test_a_fork_begins_programs_of_its_own() -> None:
    """A thread that begins programs is not there in a child that was forked from a process that has one."""
    code = f"import sys, os, threading; sys.path.insert(0, {str(TOP / 'python' / 'src')!r}); from cqlpgn.launch import lasting\n"
    code += "def twice():\n    lasting(lambda: 1)\n    number = os.fork()\n    if not number:\n        "
    code += "thread = threading.Thread(target=lambda: os._exit(lasting(lambda: 7))); thread.start(); thread.join()\n"
    code += "    ended.append(os.waitstatus_to_exitcode(os.waitpid(number, 0)[1]))\n"
    code += "ended = []; one = threading.Thread(target=twice); one.start(); one.join(); sys.exit(ended != [7])"
    assert subprocess.run([sys.executable, "-W", "ignore", "-c", code], timeout=60).returncode == 0


def test_many_archives_at_once_as_any_user() -> None:
    """A user who has no more than 64 MB of pipes asks 64 archives at once."""
    with tempfile.TemporaryDirectory() as folder:
        room = Path(folder)
        room.chmod(0o755)
        for name in ("src", "bin"):
            shutil.copytree(TOP / "python" / name, room / name, ignore=shutil.ignore_patterns("__pycache__"))
        shutil.copy(program("CQLPGN", "cqlpgn"), room / "cqlpgn")
        names = [str(room / f"{number}.pgn.gz") for number in range(64)]
        for name in names:
            Path(name).write_bytes(gzip.compress(GAME * 20))
        user = ["setpriv", f"--reuid={NOBODY}", f"--regid={NOBODY}", "--clear-groups", "--"] if os.geteuid() == 0 else []
        call = [*user, "prlimit", "--nofile=1024:1024", "--", "/usr/bin/python3", str(room / "bin" / "cqlpgn-over"), "-j", "64", "-c"]
        subprocess.run(["chmod", "-R", "a+rX", folder], check=True)
        environment = {"CQLPGN": str(room / "cqlpgn"), "PATH": os.environ["PATH"]}
        done = subprocess.run([*call, "cql() mate", *names], env=environment, capture_output=True, timeout=PATIENCE, cwd="/")
        assert done.returncode == 0 and b"games 1280 matched 1280 refused 0" in done.stderr, done.stderr[-300:]
