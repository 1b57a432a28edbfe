"""cqlpgn-problems as a command: the sample, statuses, hostile files, and what the program says of the games."""

from __future__ import annotations

import re
import subprocess
from pathlib import Path

import pytest

from tests.conftest import Asking
from tests.processes import PATIENCE

SAMPLES = Path(__file__).resolve().parent / "data" / "problems"
MATE = b'algebraic: {white: [Kb6, Rh1], black: [Kb8]}\nstipulation: "#1"\n'


def sample(name: str) -> bytes:
    return (SAMPLES / name).read_bytes()


def answered(program: str, query: str, archive: str) -> tuple[bytes, str]:
    """What the program finds, and the last line of its report."""
    done = subprocess.run([program, "eval", query, archive], capture_output=True, check=False, timeout=PATIENCE)
    return done.stdout, done.stderr.decode().splitlines()[-1]


def mates(games: bytes) -> int:
    """How many moves have the sign of mate."""
    moves = re.sub(rb"\{[^}]*\}", b"", b"\n".join(line for line in games.splitlines() if not line.startswith(b"[")))
    return moves.count(b"#")


def test_the_sample_becomes_these_games(asked: Asking) -> None:
    done = asked("cqlpgn-problems", str(SAMPLES / "sample.olv"))
    told = done.err.replace(str(SAMPLES) + "/", "")
    assert (done.status, done.out, told) == (0, sample("sample.pgn"), sample("sample.err").decode())


def test_standard_input_and_several_files(asked: Asking) -> None:
    done = asked("cqlpgn-problems", "-", str(SAMPLES / "sample.olv"), data=MATE + b"solution: 1.Rh8#")
    assert done.out.startswith(b'[Event "direct #1."]') and b'[Record "standard input 1"]' in done.out
    assert done.lines[7] == "records 17 games 13 left out 7"


def test_what_popeye_prints(asked: Asking) -> None:
    done = asked("cqlpgn-problems", str(SAMPLES / "popeye.txt"))
    assert (done.status, done.out) == (0, sample("popeye.pgn"))
    assert done.lines[-1] == "records 2 games 3 left out 0"


def test_strict_ends_with_one_where_something_is_left_out(asked: Asking, room: Path) -> None:
    (room / "whole.olv").write_bytes(MATE + b"solution: 1.Rh8#")
    assert asked("cqlpgn-problems", "--strict", str(SAMPLES / "sample.olv")).status == 1
    assert asked("cqlpgn-problems", "--strict", "whole.olv").status == 0


def test_the_file_appears_when_all_is_written(asked: Asking, room: Path) -> None:
    (room / "games.pgn").write_text("old")
    assert asked("cqlpgn-problems", "-o", "games.pgn", str(SAMPLES / "sample.olv")).status == 0
    assert (room / "games.pgn").read_bytes() == sample("sample.pgn")
    done = asked("cqlpgn-problems", "-o", "games.pgn", str(SAMPLES / "sample.olv"), "missing.olv")
    assert (done.status, done.lines[-1]) == (4, "cqlpgn-problems: missing.olv: No such file or directory")
    assert (room / "games.pgn").read_bytes() == sample("sample.pgn") and [file.name for file in room.iterdir()] == ["games.pgn"]


@pytest.mark.parametrize(
    "words, status",
    [
        ([], 3),
        (["--other", "file"], 3),
        (["-o"], 3),
        (["missing.olv"], 4),
        (["."], 5),
        (["a\nb.olv"], 4),
        (["-o", "here.olv", "here.olv"], 3),
        (["-o", "none/games.pgn", "here.olv"], 6),
        (["--help"], 0),
    ],
)
def test_statuses(asked: Asking, room: Path, words: list[str], status: int) -> None:
    (room / "here.olv").write_bytes(MATE + b"solution: 1.Rh8#")
    done = asked("cqlpgn-problems", *words)
    assert done.status == status and "Traceback" not in done.err
    assert (room / "here.olv").read_bytes().startswith(b"algebraic")


HOSTILE = {
    "tags": b"authors: !!python/object/apply:os.system [x]\n",
    "aliases": b"a: &a [x]\nauthors: [*a, *a]\n",
    "deep": b"authors: " + b"[" * 100_000,
    "deep-maps": b"{a: " * 100_000,
    "numbers": MATE + b"solution: 1.Rh8# " + b"9" * 5_000 + b".Rh7",
    "stipulation": b'algebraic: {white: [Kb6], black: [Kb8]}\nstipulation: "#' + b"9" * 5_000 + b'"\nsolution: 1.Ka1',
    "zero": MATE + b"solution: 0.Rh8",
    "promotion-first": MATE + b"solution: /Q 1.Rh9 (b4) =Q",
    "bytes": bytes(range(256)),
    "surrogate": MATE + b'source: "\\ud800"\nsolution: 1.Rh8#',
    "brackets": MATE + b'solution: "' + b"(" * 20_000 + b'"',
    "closed-brackets": MATE + b'solution: "' + b")]" * 20_000 + b'"',
    "twins": MATE + b"twins: [b, c]\nsolution: |\n  a) 1.Rh8#\n  b) 1.Rh8#\n  z) 1.Rh8#\n  a) 1.Rh8#\n",
    "records": b"---\n" * 50_000 + b"x",
    "frames": b"+---a---b---c---d---e---f---g---h---+\n" * 3_000,
    "nothing": b"",
    "men": b"algebraic: {white: [" + b"Kb6, " * 20_000 + b'], black: [Kb8]}\nstipulation: "#1"\nsolution: 1.Rh8#',
}


@pytest.mark.parametrize("name", HOSTILE)
def test_hostile_files_get_a_line_and_a_status(asked: Asking, room: Path, name: str) -> None:
    (room / "hostile.olv").write_bytes(HOSTILE[name])
    done = asked("cqlpgn-problems", "hostile.olv")
    assert done.status == 0 and "Traceback" not in done.err and re.search(r"records \d+ games \d+ left out \d+", done.err)
    assert all(len(line) < 400 for line in done.lines)


def test_names_of_any_letters_are_tags_that_can_be_read(asked: Asking, room: Path, cqlpgn: str) -> None:
    name = r'"A \"B\" \\ C \x01\n\x7f \u202e [D] {E} ] é"'
    (room / "names.olv").write_bytes(f"authors: {name}\nkeywords: [{name}]\n".encode() + MATE + b'solution: "1.Rh8# {a \\x01 } ] } word"\n')
    done = asked("cqlpgn-problems", "-o", "names.pgn", "names.olv")
    assert done.status == 0
    game = (room / "names.pgn").read_bytes()
    assert '[White "A \\"B\\" \\\\ C [D] {E} ] é"]'.encode() in game
    assert answered(cqlpgn, 'cql(variations matchstring "") initial', "names.pgn") == (game, "games 1 matched 1 refused 0")


@pytest.mark.parametrize("name", ["sample.pgn", "popeye.pgn"])
def test_the_program_reads_the_games_and_writes_the_same_bytes(cqlpgn: str, name: str) -> None:
    games = sample(name)
    count = games.count(b"[Event ")
    found, report = answered(cqlpgn, 'cql(variations matchstring "") initial', str(SAMPLES / name))
    assert (found, report) == (games, f"games {count} matched {count} refused 0")


def test_the_program_finds_the_mates_that_are_marked(cqlpgn: str) -> None:
    path, games = str(SAMPLES / "sample.pgn"), sample("sample.pgn")
    assert answered(cqlpgn, "cql(variations) mate", path)[0].count(b"{CQL}") == mates(games) == 35
    assert answered(cqlpgn, "cql(variations) mate not terminal", path) == (b"", "games 12 matched 0 refused 0")
    assert answered(cqlpgn, 'cql() event "direct #2." mate ply == 3', path)[1] == "games 12 matched 3 refused 0"
