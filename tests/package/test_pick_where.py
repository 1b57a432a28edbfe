"""cqlpgn-pick: conditions on tags, moves, comments and clocks; faulty games, duplicates, samples."""

from __future__ import annotations

import json
import os
import subprocess
from collections.abc import Callable
from pathlib import Path
from typing import Any

import pytest
from cqlpgn.conditions import Condition
from cqlpgn.errors import Fault
from tests.conftest import TOP, Answer, Asking

pytestmark = pytest.mark.usefixtures("cqlpgn", "pgnpieces", "pgnjson")
HEADS = [
    '[White "user12"][Black "Müller"][WhiteElo "2400"][Date "1989.??.??"][Opening "French Defence"][ECO "C05"]',
    '[White "user123"][Black "x"][WhiteElo "?"][Date "1990.05.31"][my-tag "a \\"quoted\\" one"][ECO "B20"]',
    '[White "?"][WhiteElo "2399.5"][Date "????.??.??"][Result "1-0"][Opening "(a)"]',
    '[White "user12"][FEN "4k3/8/8/8/8/8/8/4K2R b - - 0 1"][Date "1990.06.??"]',
]
MOVES = [
    "1. e4 {[%clk 0:00:12.5] [%eval 0.3]} e5 $4 {[%clk 0:00:09] [%eval -2.5,12]} 2. Nf3 (2. d4 $2 {a time trouble [%eval #-3]}) 1-0",
    "{before [%clk 1:00:00]} 1. d4 {Time \\\\d} d5 {[%eval #4]} 1/2-1/2",
    '1. e4 {[%clk 0:00:05]} e5 {[%clk 0:99:99] "parent":1,"ply":7} 0-1',
    "1... Kd7 {[%clk 0:00:03]} 2. Rh7+ $1 $18 {[%eval #-1]} *",
]
ARCHIVE = "\n".join(f"{head}\n\n{moves}\n" for head, moves in zip(HEADS, MOVES)) + "\n1. e5 *\n1. e4 *\n"


@pytest.fixture(autouse=True)
def _archive(room: Path) -> None:
    (room / "a.pgn").write_text(ARCHIVE, encoding="utf-8")


def numbers(asked: Asking, *words: str) -> list[int]:
    """Which games of the archive are written."""
    whole = subprocess.run([os.environ["PGNPIECES"], "a.pgn", "1"], capture_output=True, check=True).stdout
    rows = [tuple(map(int, line.split())) for line in whole.splitlines()]
    data = ARCHIVE.encode()
    texts = {data[begin : begin + length]: first for _, begin, length, first, count in rows if count}
    answer = asked("cqlpgn-pick", *words, "a.pgn")
    assert answer.status in (0, 1), answer.err
    cut = subprocess.run([os.environ["PGNPIECES"], "-", "1"], input=answer.out, capture_output=True, check=True).stdout
    places = [tuple(map(int, line.split())) for line in cut.splitlines()]
    return [texts[answer.out[begin : begin + length]] for _, begin, length, _, count in places if count]


CONDITIONS = [
    ('White = "user12"', [1, 4]),
    ('White != "user12"', [2, 3]),
    ('not White = "user12"', [2, 3, 6]),
    ('White ~ "user12"', [1, 2, 4]),
    ('White !~ "^user12$"', [2, 3]),
    ('Black ~ "^Müll"', [1]),
    ('Opening ~ "(?i)french"', [1]),
    ('Opening ~ "\\(a\\)"', [3]),
    ('Opening ~ "(a)"', [3]),
    ("WhiteElo >= 2400", [1]),
    ("WhiteElo < 2400", [3]),
    ("WhiteElo != 2400", [3]),
    ("WhiteElo", [1, 2, 3]),
    ("Date < 1990", [1]),
    ("Date >= 1990", [2, 4]),
    ("Date > 1990", []),
    ("Date = 1990.05", [2]),
    ("Date > 1990.05", [4]),
    ("Date = 1990.05.31", [2]),
    ('Date < "1990.06"', [2]),
    ('ECO >= "B00" and ECO < "C00"', [2]),
    ('tag "my-tag" = "a \\"quoted\\" one"', [2]),
    ("result = 1-0", [1]),
    ('result != "*"', [1, 2, 3]),
    ("Result = 1-0", [3]),
    ("plies = 3", [1]),
    ("plies < 2", [6]),
    ("glyph = 4", [1]),
    ('glyph = "??"', [1]),
    ("glyph > 17", [4]),
    ("glyph = 2", []),
    ("white glyph = 4", []),
    ("black glyph = 4", [1]),
    ("white glyph = 1", [4]),
    ('comment ~ "time"', []),
    ('comment ~ "Time \\\\\\\\d"', [2]),
    ('comment ~ "^before"', [2]),
    ('white comment ~ "^before"', []),
    ("clock < 10", [1, 3, 4]),
    ("white clock < 10", [3]),
    ("black clock < 10", [1, 4]),
    ("clock = 6039", [3]),
    ("clock = 12.5", [1]),
    ("eval < -2", [1, 4]),
    ("eval > 100000", [2]),
    ("eval < -100000", [4]),
    ("clock < 10 and eval < -2 or plies = 2 and not result = 0-1", [1, 2, 4]),
    ("(clock < 10 or plies = 2) and (result = 0-1)", [3]),
    ("not not plies > 0", [1, 2, 3, 4, 6]),
]


@pytest.mark.parametrize(("expression", "wanted"), CONDITIONS)
def test_conditions(asked: Asking, expression: str, wanted: list[int]) -> None:
    assert numbers(asked, "--where", expression) == wanted


def test_variations(asked: Asking) -> None:
    for expression, wanted in (
        ("glyph = 2", [1]),
        ('comment ~ "time"', [1]),
        ("eval < -100000", [1, 4]),
        ("plies = 3", [1]),
        ("white glyph = 2", [1]),
        ("black glyph = 2", []),
    ):
        assert numbers(asked, "--variations", "--where", expression) == wanted


def test_all_others_have_the_faulty_ones_too(asked: Asking) -> None:
    assert numbers(asked, "-v", "--where", "WhiteElo >= 2400") == [2, 3, 4, 5, 6]


def test_what_is_told(asked: Asking) -> None:
    answer = asked("cqlpgn-pick", "--where", 'Openning ~ "x" or White = "y"', "a.pgn")
    told = ["no game has the tag Openning", "faulty games, which were not asked: 1; --faulty writes them"]
    assert (answer.status, answer.out, answer.lines) == (1, b"", told)


FAULTS = [
    ("", 1, "unexpected end"),
    ("White = ", 8, "unexpected end"),
    ("White == 3", 7, "`=` compares"),
    ('White = "x', 9, "ends with a double quote"),
    ("White = 'x'", 9, "double quotes"),
    ("White = user12", 9, '`"user12"`'),
    ("plies > 3 && result = *", 11, "`and`"),
    ("plies > 3 || result = *", 11, "`or`"),
    ("!(plies > 3)", 1, "`not`"),
    ("plies > 3 result = *", 11, "`and` or `or`"),
    ("glyf = 4", 1, "`glyph`?"),
    ("opening = 4", 1, 'tag "opening"'),
    ("(plies > 3", 11, "`)`"),
    ("plies > 3)", 10, "unexpected `)`"),
    ("plies ~ 3", 7, "sign"),
    ("clock < 0:10", 9, "seconds"),
    ("result = 1", 10, "1-0, 0-1"),
    ("white plies > 3", 7, "glyph, comment"),
    ('White ~ "("', 9, "bad pattern"),
    ('White ~ "' + "(" * 3000 + '"', 9, "bad pattern"),
    ("Date < 1990.1.1.1", 8, "1990.05.31"),
    ("WhiteElo < 1990.05.31", 12, "end in Date"),
    ("(" * 200 + "plies > 1", 101, "nested too deep"),
    ('é = "x"', 1, "unexpected text"),
    ('White = "é" or é', 16, "unexpected text"),
    ("__import__('os')", 1, "unexpected text"),
]


@pytest.mark.parametrize(("expression", "column", "said"), FAULTS)
def test_faults(asked: Asking, expression: str, column: int, said: str) -> None:
    """Each is shown with its place and what to write instead, and no archive is looked at."""
    answer = asked("cqlpgn-pick", "--where", expression, "none.pgn")
    assert (answer.status, answer.out, "Traceback" in answer.err) == (2, b"", False)
    place = answer.lines[0].removeprefix("--where: line 1, column ").rstrip(":")
    assert place == str(column) and said in answer.err
    with pytest.raises(Fault):
        Condition(expression)


def test_a_pattern_that_takes_too_long(asked: Asking, room: Path) -> None:
    (room / "long.pgn").write_text('[White "%s"]\n*\n' % ("a" * 3000), encoding="utf-8")
    answer = asked("cqlpgn-pick", "--where", 'White ~ "^(a|a)*[^a]"', "long.pgn")
    assert (answer.status, answer.out) == (2, b"")
    assert "takes too long at game 1 of long.pgn" in answer.err and "repetition" in answer.err


def test_the_report_and_the_faulty_games(asked: Asking, room: Path) -> None:
    report = subprocess.run([os.environ["CQLPGN"], "eval", "cql() mate", "a.pgn"], capture_output=True, text=True, check=False).stderr
    faulty = asked("cqlpgn-pick", "--faulty", "a.pgn")
    assert (faulty.status, faulty.out, faulty.lines) == (0, b"\n\n1. e5 *", ["a.pgn: " + report.splitlines()[0]])
    over = asked("cqlpgn-over", "-c", "cql() mate", "a.pgn").err
    for text in (report, over):
        assert asked("cqlpgn-pick", "a.pgn", data=text.encode()) == Answer(0, b"\n\n1. e5 *", "")
    assert 5 not in numbers(asked, "-v", "--faulty") and len(numbers(asked, "-v", "--faulty")) == 5


def test_faulty_games_without_a_tag_event(asked: Asking, room: Path) -> None:
    """Each as it stands, whichever tag comes first."""
    (room / "b.pgn").write_bytes(b'[Site "a"]\n1. e4 *\n[White "b"]\n\n1. e5 *\n% [Event "c"]\n[White "d"]\n1. Ke2 *\n1. d4 *')
    assert asked("cqlpgn-pick", "--faulty", "b.pgn").out == b'\n[White "b"]\n\n1. e5 *\n% [Event "c"]\n[White "d"]\n1. Ke2 *'


DOUBLES = [
    b'[White "A"]\n1. e4 e5 *',
    b'\n[White "B"]\n1. e4 {x} (1. d4) e5 1-0',
    b"\n1. d4 *",
    b'\n[White "A"]\n1. e2-e4 e7e5 0-1',
    b'\n[FEN "4k3/8/8/8/8/8/8/4K3 w - - 0 1"]\n*',
    b'\n[White "A"]\n*',
    b'\n[White "B"]\n*',
    b'\n[FEN "4k3/8/8/8/8/8/8/4K3 w - - 0 1"]\n1-0',
    b"\n1. e5 *",
    b"\n1. e5 *",
]


def test_duplicates(asked: Asking, room: Path) -> None:
    (room / "d.pgn").write_bytes(b"".join(DOUBLES))

    def these(*places: int) -> bytes:
        return b"".join(DOUBLES[place - 1] for place in places)

    assert asked("cqlpgn-pick", "--duplicates", "d.pgn").out == these(2, 4, 8)
    assert asked("cqlpgn-pick", "-v", "--duplicates", "d.pgn").out == these(1, 3, 5, 6, 7, 9, 10)
    assert asked("cqlpgn-pick", "--duplicates", "--by", "players", "d.pgn").out == these(4, 8)
    (room / "e.pgn").write_bytes(b"1. d4 0-1\n1. Nf3 *")
    assert asked("cqlpgn-pick", "--duplicates", "d.pgn", "e.pgn").out == these(2, 4, 8) + b"\n1. d4 0-1"


def test_samples(asked: Asking, room: Path) -> None:
    (room / "many.pgn").write_bytes(b"".join(b"1. e4 {%d} *\n" % number for number in range(200)))
    first = asked("cqlpgn-pick", "--sample", "10", "--seed", "7", "many.pgn")
    again = asked("cqlpgn-pick", "--sample", "10", "--seed", "7", "-", data=(room / "many.pgn").read_bytes())
    other = asked("cqlpgn-pick", "--sample", "10", "--seed", "8", "many.pgn")
    assert first == again and first.status == 0 and first.out.count(b"*") == 10 and first.out != other.out
    found = [int(text.split(b"}")[0]) for text in first.out.split(b"{")[1:]]
    assert found == sorted(found) and found[0] > 0
    drawn = asked("cqlpgn-pick", "--sample", "10", "many.pgn")
    assert drawn.lines[0].startswith("the seed was ")
    assert asked("cqlpgn-pick", "--sample", "10", "--seed", drawn.lines[0].split()[-1], "many.pgn").out == drawn.out
    assert asked("cqlpgn-pick", "--sample", "999", "--seed", "1", "many.pgn").out.count(b"*") == 200
    assert asked("cqlpgn-pick", "--sample", "5", "--seed", "1", "--where", 'comment ~ "^1..$"', "many.pgn").out.count(b"{1") == 5


Plain = Callable[[dict[str, Any]], bool]
AGAINST: list[tuple[str, Plain]] = [
    ("plies > 20", lambda game: bool(len(game["nodes"]) > 20)),
    ("result = 1-0", lambda game: bool(game["result"] == "1-0")),
    ('White ~ "e"', lambda game: "e" in dict(game["tags"]).get("White", "")),
    ('Date ~ "^18"', lambda game: bool(dict(game["tags"]).get("Date", "").startswith("18"))),
]


@pytest.mark.parametrize(("expression", "plain"), AGAINST)
def test_beside_the_lines_of_pgnjson(asked: Asking, expression: str, plain: Plain) -> None:
    path = str(TOP / "examples" / "famous.pgn")
    lines = subprocess.run([os.environ["PGNJSON"], path], capture_output=True, check=True).stdout.splitlines()
    wanted = [game["game"] for game in map(json.loads, lines) if plain(game)]
    words = ",".join(map(str, wanted))
    assert asked("cqlpgn-pick", "--where", expression, path).out == asked("cqlpgn-pick", path, words).out
    assert 0 < len(wanted) < len(lines) or expression.startswith("plies")
