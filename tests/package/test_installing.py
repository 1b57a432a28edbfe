"""The package and its commands: where they run without being installed, by pip without a network, and by `make install`."""

from __future__ import annotations

import importlib.util
import os
import shutil
import subprocess
import sys
from pathlib import Path

import pytest
from tests.conftest import BIN, TOP
from tests.processes import PATIENCE

COMMANDS = [
    *("cqlpgn-desk", "cqlpgn-diagrams", "cqlpgn-mend", "cqlpgn-over", "cqlpgn-pick", "cqlpgn-problems", "cqlpgn-rows", "cqlpgn-split"),
]
# What a command is run with: no variable that names a place of the package.
ENVIRONMENT = {name: value for name, value in os.environ.items() if name != "PYTHONPATH"}


def done(*words: str | Path, folder: Path = TOP, **environment: str) -> str:
    """What a command writes, which must end with status 0."""
    env = {**ENVIRONMENT, **environment}
    ran = subprocess.run(
        [*map(str, words)], cwd=folder, env=env, stdin=subprocess.DEVNULL, capture_output=True, text=True, timeout=PATIENCE
    )
    assert ran.returncode == 0, ran.stdout + ran.stderr
    return ran.stdout


def test_one_text_of_all_commands() -> None:
    """The proof kit takes no links in a repository, so each command is a file with the same text."""
    assert sorted(path.name for path in BIN.iterdir()) == COMMANDS
    assert len({path.read_bytes() for path in BIN.iterdir()}) == 1
    assert not [path for path in BIN.iterdir() if path.is_symlink() or not path.stat().st_mode & 0o111]


@pytest.mark.parametrize("command", COMMANDS)
def test_without_installing(tmp_path: Path, command: str) -> None:
    """From any folder, and by a link from another one."""
    (tmp_path / command).symlink_to(BIN / command)
    for path in (BIN / command, tmp_path / command):
        assert f"usage: {command} " in done(sys.executable, path, "--help", folder=tmp_path)


@pytest.fixture(scope="module", name="installed")
def installed_by_pip(tmp_path_factory: pytest.TempPathFactory) -> Path:
    """Where pip has put the package, of a copy of the repository's files for it."""
    missing = [module for module in ("pip", "setuptools", "wheel") if importlib.util.find_spec(module) is None]
    if missing:
        pytest.skip(f"there is no {missing[0]}")
    room = tmp_path_factory.mktemp("pip")
    for name in ("pyproject.toml", "LICENSE-APACHE", "LICENSE-MIT"):
        (room / name).write_bytes((TOP / name).read_bytes())
    shutil.copytree(TOP / "python", room / "python")
    words = ["install", "--quiet", "--no-build-isolation", "--no-index", "--disable-pip-version-check", "--target", "there", "."]
    done(sys.executable, "-m", "pip", *words, folder=room)
    return room / "there"


@pytest.mark.parametrize("command", COMMANDS)
def test_an_entry_point(installed: Path, command: str) -> None:
    path = installed / "bin" / command
    assert f"usage: {command} " in done(sys.executable, path, "--help", folder=installed.parent, PYTHONPATH=str(installed))


def test_each_file_of_the_package_is_installed(installed: Path) -> None:
    here = TOP / "python" / "src"
    files = {path.relative_to(here) for path in here.glob("cqlpgn/**/*") if path.is_file() and path.parent.name != "__pycache__"}
    assert [path for path in sorted(files) if not (installed / path).is_file()] == []


def make(*words: str, cqlpgn: str, pgnpieces: str, pgnjson: str) -> None:
    done("make", "--silent", *words, f"PROGRAM={cqlpgn}", f"PIECES={pgnpieces}", f"JSON={pgnjson}")


def test_make_install_and_uninstall(cqlpgn: str, pgnpieces: str, pgnjson: str, tmp_path: Path) -> None:
    """Below a folder in which no interpreter looks: the commands run, the old folder of the scripts is a link, and nothing is left."""
    programs = {"cqlpgn": cqlpgn, "pgnpieces": pgnpieces, "pgnjson": pgnjson}
    place = f"PREFIX={tmp_path}/there"
    (tmp_path / "there" / "share" / "cqlpgn" / "many").mkdir(parents=True)
    make("install", place, **programs)
    there = tmp_path / "there"
    for command in COMMANDS:
        assert f"usage: {command} " in done(there / "bin" / command, "--help", folder=tmp_path)
    assert os.readlink(there / "share" / "cqlpgn" / "many") == "machines"
    assert "run-over" in done(there / "share" / "cqlpgn" / "many" / "run-over", "--help", folder=tmp_path)
    make("install", place, **programs)
    make("uninstall", place, **programs)
    assert [path for path in there.rglob("*") if path.is_file() or path.is_symlink()] == []
