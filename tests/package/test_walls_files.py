"""Files that are written: what they replace, whose links are followed, and that nothing is left of a run that was killed."""

from __future__ import annotations

import fcntl
import os
import shutil
import signal
import subprocess
import sys
import tempfile
import time
from collections.abc import Iterator
from pathlib import Path

import pytest
from cqlpgn import files
from cqlpgn.errors import Error, Stopped
from cqlpgn.files import Replacing
from tests.answers import ONE, QUERY
from tests.conftest import BIN, Asking
from tests.processes import PATIENCE, becomes, children, words_of
from tests.walls import NOBODY, Walled

MANY = b"query 1 bytes 4\none\nquery 2 bytes 4\ntwo\n"
OLD = b"yesterday's games\n"
LEFT = ".cqlpgn-{}-0123456789abcdef.new"
KILLED = """
import os, signal, sys
sys.path.insert(0, sys.argv[1])
from cqlpgn.files import Replacing
setattr(os, sys.argv[3], lambda *_words, **_named: os.kill(os.getpid(), signal.SIGKILL))
with Replacing() as files:
    files.open(sys.argv[2]).write(b"new")
    files.commit()
"""


@pytest.fixture
def walled() -> Iterator[Walled]:
    with tempfile.TemporaryDirectory() as room:
        yield Walled(Path(room))


def names(folder: Path) -> list[str]:
    return sorted(path.name for path in folder.iterdir())


@pytest.mark.parametrize("name", ["s01.pgn", "s02.pgn", "link", "hard"])
def test_the_input_of_split_is_not_replaced(room: Path, name: str) -> None:
    (room / "s01.pgn").write_bytes(MANY)
    (room / "s02.pgn").write_bytes(MANY)
    (room / "link").symlink_to("s01.pgn")
    os.link("s02.pgn", "hard")
    with open(name, "rb") as stdin:
        done = subprocess.run([sys.executable, str(BIN / "cqlpgn-split"), "s"], stdin=stdin, capture_output=True, timeout=PATIENCE)
    assert (done.returncode, b"is the same file as -" in done.stderr) == (3, True)
    assert (room / "s01.pgn").read_bytes() == (room / "s02.pgn").read_bytes() == MANY


@pytest.mark.parametrize("how", ["link", "hard", "dangling"])
def test_two_names_of_one_file(asked: Asking, room: Path, how: str) -> None:
    if how != "dangling":
        (room / "s01.pgn").write_bytes(OLD)
    if how == "hard":
        os.link("s01.pgn", "s02.pgn")
    else:
        (room / "s02.pgn").symlink_to("s01.pgn")
    answer = asked("cqlpgn-split", "s", data=MANY)
    assert (answer.status, answer.err) == (3, "s02.pgn: is the same file as s01.pgn, and both are to be written; nothing was written\n")
    assert how == "dangling" or (room / "s01.pgn").read_bytes() == OLD


def test_two_names_of_a_device(room: Path) -> None:
    with Replacing() as made:
        made.open("/dev/null").write(b"x")
        made.open("/dev/null").write(b"x")
        made.commit()


def test_a_second_file_that_cannot_be_replaced(room: Path) -> None:
    (room / "s01.pgn").write_bytes(OLD)
    with Replacing() as made:
        made.open("s01.pgn").write(b"new")
        made.open("s02.pgn").write(b"new")
        (room / "s02.pgn").mkdir()
        with pytest.raises(Stopped, match="s02.pgn: Is a directory"):
            made.commit()
    assert ((room / "s01.pgn").read_bytes(), names(room)) == (OLD, ["s01.pgn", "s02.pgn"])


def sticky(walled: Walled) -> Path:
    """A folder as /tmp, of which the test has the rights."""
    if os.geteuid():
        pytest.skip("files of two users are made by root alone")
    os.chown(walled.folder, 0, 0)
    walled.folder.chmod(0o1777)
    return walled.folder


@pytest.mark.parametrize("name", ["s01.pgn", "s02.pgn"])
def test_the_file_of_another_user_in_a_sticky_folder(walled: Walled, name: str) -> None:
    folder = sticky(walled)
    for one in ("s01.pgn", "s02.pgn"):
        (folder / one).write_bytes(OLD)
        os.chown(folder / one, 0 if one == name else NOBODY, 0)
        (folder / one).chmod(0o666)
    answer = walled.ask("cqlpgn-split", "s", data=MANY)
    assert (answer.status, answer.err) == (6, f"{name}: Operation not permitted\n")
    assert (folder / "s01.pgn").read_bytes() == (folder / "s02.pgn").read_bytes() == OLD


@pytest.mark.parametrize("name", ["out", "inner/out"])
def test_a_link_of_another_user_in_a_sticky_folder(walled: Walled, name: str) -> None:
    folder = sticky(walled)
    victim = folder.parent / "victim"
    (victim / "inner").mkdir(parents=True)
    (victim / "out").write_bytes(OLD)
    link = folder / name.partition("/")[0]
    link.symlink_to(victim / "out" if name == "out" else victim)
    os.chown(link, NOBODY, NOBODY, follow_symlinks=False)
    with Replacing() as made, pytest.raises(Stopped, match="link of another user"):
        made.open(str(folder / name))
    assert (victim / "out").read_bytes() == OLD
    os.chown(link, 0, 0, follow_symlinks=False)
    with Replacing() as made:
        made.open(str(folder / name)).write(b"new")
        made.commit()
    assert (victim / "out").read_bytes() == b"new"


@pytest.mark.parametrize("mode", [0o6755, 0o4711, 0o2755, 0o1644, 0o640])
def test_who_a_file_runs_as_is_not_kept(room: Path, mode: int) -> None:
    out = room / "out"
    out.write_bytes(OLD)
    out.chmod(mode)
    with Replacing() as made:
        made.open("out").write(b"new")
        made.commit()
    assert (out.stat().st_mode & 0o7777, out.read_bytes()) == (mode & 0o777, b"new")


@pytest.mark.parametrize("has_names", [False, True])
@pytest.mark.parametrize("is_there", [False, True])
def test_nothing_has_a_name_before_its_end(room: Path, monkeypatch: pytest.MonkeyPatch, is_there: bool, has_names: bool) -> None:
    if has_names:
        monkeypatch.setattr(files, "OWN_FILES", "/nowhere/")
    if is_there:
        (room / "out").write_bytes(OLD)
    before = names(room)
    with Replacing() as made:
        made.open("out").write(b"new")
        assert len(names(room)) == len(before) + has_names
    assert names(room) == before
    with Replacing() as made:
        made.open("out").write(b"new")
        made.commit()
    assert (names(room), (room / "out").read_bytes()) == (["out"], b"new")


def test_a_file_that_appears_meanwhile_is_replaced(room: Path, monkeypatch: pytest.MonkeyPatch) -> None:
    lexists = os.path.lexists
    with Replacing() as made:
        made.open("out").write(b"new")
        (room / "out").write_bytes(OLD)
        monkeypatch.setattr(os.path, "lexists", lambda _name: False)
        made.commit()
    monkeypatch.setattr(os.path, "lexists", lexists)
    assert (names(room), (room / "out").read_bytes()) == (["out"], b"new")


def test_the_next_run_removes_what_a_killed_one_has_left(asked: Asking, room: Path) -> None:
    (room / "out").write_bytes(OLD)
    source = str(Path(files.__file__).parent.parent)
    done = subprocess.run([sys.executable, "-c", KILLED, source, "out", "rename"], timeout=PATIENCE)
    assert done.returncode == -signal.SIGKILL
    left = [name for name in names(room) if name != "out"]
    assert len(left) == 1 and files.LEFT.fullmatch(left[0]) and (room / "out").read_bytes() == OLD
    held, strange = room / LEFT.format(os.geteuid()), room / ".cqlpgn-of-mine.new"
    strange.write_bytes(b"")
    link = room / LEFT.format(7)
    link.symlink_to("out")
    with open(held, "wb") as file:
        fcntl.flock(file, fcntl.LOCK_EX)
        assert asked("cqlpgn-split", "s", data=MANY).status == 0
        assert names(room) == sorted([held.name, strange.name, link.name, "out", "s01.pgn", "s02.pgn"])
    assert asked("cqlpgn-split", "s", data=MANY).status == 0
    assert names(room) == sorted([strange.name, link.name, "out", "s01.pgn", "s02.pgn"])


def test_a_new_file_leaves_nothing_when_it_is_killed(room: Path) -> None:
    source = str(Path(files.__file__).parent.parent)
    done = subprocess.run([sys.executable, "-c", KILLED, source, "out", "link"], timeout=PATIENCE)
    assert (done.returncode, names(room)) == (-signal.SIGKILL, [])


@pytest.mark.usefixtures("cqlpgn")
@pytest.mark.parametrize("is_there", [False, True])
def test_two_signals_leave_nothing(walled: Walled, is_there: bool) -> None:
    if is_there:
        (walled.folder / "out.pgn").write_bytes(OLD)
    os.mkfifo(walled.folder / "waits.pgn")
    walled.give()
    before = names(walled.folder)
    held = os.open(walled.folder / "waits.pgn", os.O_RDWR)
    process = walled.start("cqlpgn-over", "-o", "out.pgn", QUERY, "waits.pgn", stdin=subprocess.DEVNULL)
    assert becomes(lambda: any({"run", "-"} <= set(words_of(child)) for child in children(process.pid)))
    for _ in range(2):
        process.send_signal(signal.SIGINT)
    assert process.wait(PATIENCE) in (130, -signal.SIGINT)
    os.close(held)
    assert process.stderr is not None and process.stderr.read() == b"" and names(walled.folder) == before


@pytest.mark.usefixtures("cqlpgn")
@pytest.mark.parametrize("kind", [signal.SIGINT, signal.SIGTERM])
def test_a_signal_at_the_beginning_ends_without_a_traceback(room: Path, kind: signal.Signals) -> None:
    """Signals at drawn moments after the script has begun, which is seen by the file that tells of it."""
    (room / "one.pgn").write_bytes(ONE)
    scripts = shutil.copytree(BIN.parent, room / "python", ignore=shutil.ignore_patterns("__pycache__")) / "bin"
    script = scripts / "cqlpgn-over"
    text = script.read_text()
    script.write_text(text.replace("sys.dont_write_bytecode = True\n", "sys.dont_write_bytecode = True\nopen('begun', 'w').close()\n", 1))
    assert "begun" in script.read_text()
    for turn in range(12):
        (room / "begun").unlink(missing_ok=True)
        call = [sys.executable, str(script), "-o", "out.pgn", QUERY, "one.pgn"]
        with subprocess.Popen(call, stderr=subprocess.PIPE, stdout=subprocess.PIPE) as process:
            assert becomes(lambda: (room / "begun").exists())
            time.sleep(turn * 0.01)
            process.send_signal(kind)
            err = process.communicate(timeout=PATIENCE)[1]
        assert process.returncode in (0, -kind, 128 + kind) and b"Traceback" not in err and b"no query" not in err, err
        assert not [name for name in names(room) if name.startswith(".cqlpgn")]


def test_names_that_are_none(room: Path) -> None:
    for name in ("a\0b", "none/out", "x" * 300, "/"):
        with Replacing() as made, pytest.raises(Error):
            made.open(name)
    (room / "loop").symlink_to("loop")
    with Replacing() as made, pytest.raises(Stopped, match="loop"):
        made.open("loop")
