"""How commands end: what is read is not written, nothing is lost, streams that fail, and signals."""

from __future__ import annotations

import os
import resource
import signal
import subprocess
import sys
import time
from pathlib import Path

import pytest
from tests.answers import ONE, QUERY, TWO, found
from tests.conftest import BIN, Answer, Asking
from tests.processes import PATIENCE, all_end, becomes, children, words_of

pytestmark = pytest.mark.usefixtures("cqlpgn", "archives")
OVER = [sys.executable, str(BIN / "cqlpgn-over")]
OLD = b"yesterday's games\n"


def left(room: Path) -> list[str]:
    """What is in the room beside the archives."""
    return sorted(path.name for path in room.iterdir() if path.name not in ("one.pgn", "two.pgn", "-odd.pgn", "q.cql"))


def test_a_file_appears_at_the_end(asked: Asking, room: Path) -> None:
    (room / "out.pgn").write_bytes(OLD)
    os.chmod("out.pgn", 0o640)
    os.symlink("out.pgn", "link.pgn")
    assert asked("cqlpgn-over", "-o", "link.pgn", QUERY, "one.pgn", "two.pgn").status == 1
    assert (room / "out.pgn").read_bytes() == found(ONE, TWO)
    assert (os.stat("out.pgn").st_mode & 0o777, os.path.islink("link.pgn"), left(room)) == (0o640, True, ["link.pgn", "out.pgn"])


@pytest.mark.parametrize(
    ("words", "status"),
    [
        ([QUERY, "none.pgn", "one.pgn"], 4),
        ([QUERY, "one.pgn", "cut.gz"], 5),
        ([QUERY, "--limit", "20", "one.pgn"], 8),
        (["cql() echo", "one.pgn"], 2),
        (["none.cql", "one.pgn"], 4),
    ],
)
@pytest.mark.parametrize("jobs", ["1", "2"])
def test_the_old_file_stands(asked: Asking, room: Path, words: list[str], status: int, jobs: str) -> None:
    (room / "cut.gz").write_bytes(b"\x1f\x8b\x08")
    (room / "out.pgn").write_bytes(OLD)
    answer = asked("cqlpgn-over", "-j", jobs, "-o", "out.pgn", *words)
    assert (answer.status, (room / "out.pgn").read_bytes(), left(room)) == (status, OLD, ["cut.gz", "out.pgn"])
    if not status == 2 and "none.cql" not in words:
        assert answer.lines[-1].startswith("out.pgn: was not written")
        partial = asked("cqlpgn-over", "-j", jobs, "--keep-partial", "-o", "out.pgn", *words)
        assert (partial.status, (room / "out.pgn").read_bytes()) == (status, found(ONE) if status != 8 else b"")


def test_a_full_disk(room: Path) -> None:
    (room / "out.pgn").write_bytes(OLD)

    def small() -> None:
        signal.signal(signal.SIGXFSZ, signal.SIG_IGN)
        resource.setrlimit(resource.RLIMIT_FSIZE, (100, 100))

    done = subprocess.run([*OVER, "-o", "out.pgn", QUERY, "one.pgn"], preexec_fn=small, capture_output=True, check=False)
    assert (done.returncode in (6, 7), (room / "out.pgn").read_bytes(), left(room)) == (True, OLD, ["out.pgn"])


def test_a_program_that_is_killed(asked: Asking, room: Path) -> None:
    (room / "out.pgn").write_bytes(OLD)
    program = room / "killed"
    program.write_text('#!/bin/sh\ncase "$3" in /dev/null) exit 0 ;; esac\nkill -9 $$\n')
    program.chmod(0o755)
    answer = asked("cqlpgn-over", "-o", "out.pgn", QUERY, "one.pgn", CQLPGN=str(program))
    assert (answer.status, answer.lines[0]) == (7, "one.pgn: cqlpgn was ended by signal 9")
    assert (room / "out.pgn").read_bytes() == OLD


def refused(answer: Answer, name: str) -> bool:
    return answer.status == 3 and answer.out == b"" and "is the same file as" in answer.err and name in answer.err


def test_what_is_read_is_not_written(asked: Asking, room: Path) -> None:
    os.link("one.pgn", "same.pgn")
    os.symlink("one.pgn", "link.pgn")
    (room / "folder").mkdir()
    os.link("two.pgn", "folder/two.pgn")
    for name in ("one.pgn", "same.pgn", "link.pgn", "./one.pgn"):
        assert refused(asked("cqlpgn-over", "-o", name, QUERY, "one.pgn"), name)
    assert refused(asked("cqlpgn-over", "-o", "two.pgn", QUERY, "one.pgn", "folder"), "folder/two.pgn")
    assert refused(asked("cqlpgn-over", "-o", "q.cql", "q.cql", "one.pgn"), "q.cql")
    os.link("one.pgn", "x02.pgn")
    (room / "many.cql").write_bytes(b"cql() check\n%%\ncql() mate\n")
    assert refused(asked("cqlpgn-over", "--many", "many.cql", "-o", "x", "one.pgn"), "x02.pgn")
    with open("one.pgn", "rb") as file:
        done = subprocess.run([*OVER, "-o", "one.pgn", QUERY], stdin=file, capture_output=True, check=False)
    assert (done.returncode, b"is the same file as -" in done.stderr) == (3, True)
    with open("one.pgn", "ab") as file:
        done = subprocess.run([*OVER, QUERY, "one.pgn"], stdout=file, stderr=subprocess.PIPE, check=False)
    assert (done.returncode, b"standard output" in done.stderr) == (3, True)
    assert ((room / "one.pgn").read_bytes(), (room / "two.pgn").read_bytes(), (room / "q.cql").read_bytes()) == (ONE, TWO, QUERY.encode())


@pytest.mark.parametrize("command", ["cqlpgn-over", "cqlpgn-split", "cqlpgn-rows", "cqlpgn-diagrams"])
@pytest.mark.parametrize(("words", "stream"), [(["--help"], "stdout"), (["--unknown"], "stderr"), (["a", "b", "c", "-x"], "stderr")])
@pytest.mark.parametrize("kind", ["full", "closed"])
def test_streams_that_take_nothing(command: str, words: list[str], stream: str, kind: str) -> None:
    """A command that has something to say to a stream that takes nothing ends with 6."""
    redirect = {"stdout": ">", "stderr": "2>"}[stream] + ("/dev/full" if kind == "full" else "&-")
    call = f"exec {sys.executable} {BIN / command} {' '.join(words)} {redirect}"
    done = subprocess.run(["bash", "-c", call], stdin=subprocess.DEVNULL, capture_output=True, check=False)
    assert (done.returncode, done.stdout, done.stderr) == (6, b"", b"")


@pytest.mark.parametrize("redirect", [">/dev/full", ">&-", "2>/dev/full", "2>&-", ">&- 2>&-"])
@pytest.mark.parametrize("options", ["", "-j 2", "-c --number"])
def test_games_and_reports_that_are_not_taken(redirect: str, options: str) -> None:
    call = f"exec {sys.executable} {BIN / 'cqlpgn-over'} {options} '{QUERY}' one.pgn {redirect}"
    done = subprocess.run(["bash", "-c", call], stdin=subprocess.DEVNULL, capture_output=True, check=False)
    assert (done.returncode, b"Traceback" in done.stderr) == (6, False)


def test_a_reader_that_ends(room: Path) -> None:
    (room / "long.pgn").write_bytes(ONE * 20000)
    call = f"{sys.executable} {BIN / 'cqlpgn-over'} 'cql() initial' long.pgn | head -c 100 > begin; echo ${{PIPESTATUS[0]}}"
    done = subprocess.run(["bash", "-c", call], capture_output=True, check=False)
    assert (done.stdout, b"Traceback" in done.stderr) == (b"6\n", False)


@pytest.mark.parametrize("options", ["", "-o out.pgn", "-j 2", "-c", "--number -o out.pgn"])
def test_closed_standard_input(room: Path, options: str) -> None:
    call = f"exec {sys.executable} {BIN / 'cqlpgn-over'} {options} '{QUERY}' <&-"
    done = subprocess.run(["bash", "-c", call], capture_output=True, check=False)
    assert (done.returncode, done.stdout, b"Traceback" in done.stderr, left(room)) == (5, b"", False, [])
    assert b"could not be read to its end" in done.stderr
    call = f"exec {sys.executable} {BIN / 'cqlpgn-split'} x <&-"
    done = subprocess.run(["bash", "-c", call], capture_output=True, check=False)
    assert (done.returncode in (4, 5), b"Traceback" in done.stderr, left(room)) == (True, False, [])


def ended_by(process: subprocess.Popen[bytes], kind: signal.Signals) -> int:
    """The status with which a signal ends a process, which is killed where it does not end."""
    process.send_signal(kind)
    try:
        return process.wait(PATIENCE)
    finally:
        process.kill()


@pytest.mark.parametrize("kind", [signal.SIGTERM, signal.SIGINT, signal.SIGHUP])
@pytest.mark.parametrize("options", [["-o", "out.pgn"], ["-j", "2", "-o", "out.pgn"], ["--number", "-o", "out.pgn"], []])
def test_signals_end_what_was_started(room: Path, kind: signal.Signals, options: list[str]) -> None:
    """The program waits for an archive that never comes; a signal to the command ends both, and leaves no file."""
    (room / "out.pgn").write_bytes(OLD)
    os.mkfifo("waits.pgn")
    held = os.open("waits.pgn", os.O_RDWR)
    with subprocess.Popen([*OVER, *options, QUERY, "waits.pgn"], stdout=subprocess.DEVNULL, stderr=subprocess.PIPE) as command:
        assert becomes(lambda: any({"run", "-"} <= set(words_of(child)) for child in children(command.pid)))
        started = children(command.pid)
        assert ended_by(command, kind) == 128 + kind
        assert command.stderr is not None and command.stderr.read() == b""
    assert all_end(started)
    os.close(held)
    assert ((room / "out.pgn").read_bytes(), left(room)) == (OLD, ["out.pgn", "waits.pgn"])


@pytest.mark.usefixtures("pgnjson")
@pytest.mark.parametrize("command", ["cqlpgn-rows", "cqlpgn-diagrams"])
def test_rows_and_boards_that_are_not_taken(room: Path, command: str) -> None:
    (room / "long.pgn").write_bytes(b"1. e4 {CQL} e5 {CQL} *\n" * 5000)
    for redirect in (">/dev/full", ">&-", "| head -c 10 > begin; exit ${PIPESTATUS[0]}"):
        call = f"{sys.executable} {BIN / command} long.pgn {redirect}"
        done = subprocess.run(["bash", "-c", call], stdin=subprocess.DEVNULL, capture_output=True, check=False)
        assert (done.returncode, b"Traceback" in done.stderr) == (6, False)
    done = subprocess.run(["bash", "-c", f"exec {sys.executable} {BIN / command} <&-"], capture_output=True, check=False)
    assert (done.returncode, b"Traceback" in done.stderr, b"could not be read to its end" in done.stderr) == (5, False, True)


@pytest.mark.usefixtures("pgnjson")
@pytest.mark.parametrize("kind", [signal.SIGTERM, signal.SIGINT])
@pytest.mark.parametrize("command", ["cqlpgn-rows", "cqlpgn-diagrams"])
def test_signals_end_rows_and_boards(room: Path, command: str, kind: signal.Signals) -> None:
    (room / "out").write_bytes(OLD)
    os.mkfifo("waits.pgn")
    held = os.open("waits.pgn", os.O_RDWR)
    os.write(held, b"1. e4 {CQL} *\n")
    with subprocess.Popen([sys.executable, str(BIN / command), "-o", "out", "waits.pgn"], stderr=subprocess.PIPE) as run:
        assert becomes(lambda: any("--mark" in word for child in children(run.pid) for word in words_of(child)))
        started = children(run.pid)
        sent = time.monotonic()
        assert ended_by(run, kind) == 128 + kind
        # who reads an archive without end is not waited for
        assert time.monotonic() - sent < 5
    assert all_end(started)
    os.close(held)
    assert ((room / "out").read_bytes(), left(room)) == (OLD, ["out", "waits.pgn"])
