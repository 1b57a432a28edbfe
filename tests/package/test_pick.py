"""cqlpgn-pick: games by their numbers, as they stand, one after the other or in files apart."""

from __future__ import annotations

import bz2
import gzip
import json
import os
import random
import subprocess
import zipfile
from pathlib import Path

import pytest
from cqlpgn.apart import safe
from cqlpgn.archives import Archive
from cqlpgn.commands.pick import OPTIONS
from cqlpgn.pieces import Cut, Joint, Standing
from tests.conftest import TOP, Answer, Asking

pytestmark = pytest.mark.usefixtures("cqlpgn", "pgnpieces", "pgnjson")
# the fifth game is faulty, and the last one has no result
GAMES = [
    b'\xef\xbb\xbf[White "A"]\n[Black "B"]\n[Date "1990.01.01"]\n\n1. e4 1-0',
    b'\n\n[White "B"]\n[Black "A"]\n[Date "1991.??.??"]\n\n1. d4 {a} *',
    b" 1. c4 0-1",
    b'\n; 2\n[White "../up"]\n[Black "A"]\n[Date "x"]\n\n1. Nf3\n\n',
    b'[Black "A"]\n\n1. e5 *',
    b'\n\n[White "-rf"]\n\n1. e4 e5',
]
ARCHIVE = b"".join(GAMES)


@pytest.fixture(autouse=True)
def _archive(room: Path) -> None:
    (room / "a.pgn").write_bytes(ARCHIVE)


def cut(text: bytes) -> list[bytes]:
    """The games of an archive, as pgnpieces tells them."""
    done = subprocess.run([os.environ["PGNPIECES"], "-", "1"], input=text, capture_output=True, check=True)
    rows = [tuple(map(int, line.split())) for line in done.stdout.splitlines()]
    return [text[begin : begin + length] for _, begin, length, _, count in rows if count]


def picked(*numbers: int) -> bytes:
    """Games one after the other; one that would begin within a line has a line end before it."""
    out, before = b"", 0
    for number in numbers:
        text = GAMES[number - 1]
        out += b"\n" if out and number != before + 1 and text.startswith(b"[") else b""
        out, before = out + text, number
    return out


def is_told(answer: Answer, status: int, out: bytes) -> bool:
    """Whether nothing but what is put between games is told."""
    return (answer.status, answer.out) == (status, out) and all(": an LF is put before it" in line for line in answer.lines)


def test_the_archive_is_cut_so() -> None:
    assert cut(ARCHIVE) == GAMES


@pytest.mark.parametrize(
    ("words", "data", "wanted"),
    [
        (["1,3,5-6"], b"", picked(1, 3, 5, 6)),
        (["-v", "1,3,5-6"], b"", picked(2, 4)),
        ([], b"5 2\n3,", picked(2, 3, 5)),
        (["-"], b"2-4 3\n1", picked(1, 2, 3, 4)),
        ([], b"game 5 byte 189: illegal move\ngames 6 matched 5 refused 1\n", GAMES[4]),
        ([], b"x/a.pgn: game 5 byte 189: illegal move\nx/a.pgn: games 6 matched 5 refused 1\n", GAMES[4]),
        ([], b"", b""),
        (["-v"], b"", ARCHIVE),
        (["--as-given", "3,2,2"], b"", GAMES[2] + GAMES[1] + GAMES[1]),
    ],
)
def test_numbers(asked: Asking, words: list[str], data: bytes, wanted: bytes) -> None:
    options = [word for word in words if word.startswith("-") and len(word) > 1]
    assert is_told(asked("cqlpgn-pick", *options, "a.pgn", *(word for word in words if word not in options), data=data), 0, wanted)


def test_numbers_in_a_file_and_games_that_are_not_there(asked: Asking, room: Path) -> None:
    (room / "3").write_text("2\n", encoding="utf-8")
    assert asked("cqlpgn-pick", "a.pgn", "./3") == Answer(0, GAMES[1], "")
    assert asked("cqlpgn-pick", "a.pgn", "3") == Answer(0, GAMES[2], "")
    for many in ("2,7", "2,7-999999999999999"):
        for words in ([many], ["--as-given", many]):
            answer = asked("cqlpgn-pick", words[0], "a.pgn", *words[1:]) if len(words) > 1 else asked("cqlpgn-pick", "a.pgn", many)
            assert answer == Answer(1, GAMES[1], "a.pgn: has 6 games, and none with the number 7\n")


@pytest.mark.parametrize(
    "data", [b"x", b"0", b"3-2", b"1;2", b"{", b"{}", b'{"game":[1]}', b"archive,game\na.pgn,x\n", b"\xff\xfe1", b"9" * 5000]
)
def test_what_is_no_number(asked: Asking, data: bytes) -> None:
    answer = asked("cqlpgn-pick", "a.pgn", data=data)
    assert (answer.status, answer.out, "Traceback" in answer.err, "line" in answer.err) == (5, b"", False, True)


@pytest.mark.parametrize("name", ["a.pgn.gz", "a.pgn.bz2", "a.zip", "-"])
@pytest.mark.parametrize("options", [[], ["--as-given"]])
def test_packed_archives(asked: Asking, room: Path, name: str, options: list[str]) -> None:
    (room / "a.pgn.gz").write_bytes(gzip.compress(ARCHIVE))
    (room / "a.pgn.bz2").write_bytes(bz2.compress(ARCHIVE))
    with zipfile.ZipFile(room / "a.zip", "w") as packed:
        packed.writestr("a.pgn", ARCHIVE)
    assert is_told(asked("cqlpgn-pick", *options, name, "2-3,5", data=ARCHIVE if name == "-" else b""), 0, picked(2, 3, 5))


def test_an_archive_that_is_cut_off(asked: Asking, room: Path) -> None:
    """The game in which it ends is not written."""
    (room / "a.pgn.gz").write_bytes(gzip.compress(os.urandom(400_000).hex().encode() + ARCHIVE)[:-40])
    answer = asked("cqlpgn-pick", "-v", "-o", "out.pgn", "a.pgn.gz", "99")
    assert (answer.status, answer.out, (room / "out.pgn").exists()) == (5, b"", False)
    assert "could not be unpacked to its end" in answer.err


def test_rows_of_several_archives(asked: Asking, room: Path) -> None:
    (room / "b.pgn").write_bytes(ARCHIVE)
    with zipfile.ZipFile(room / "c.zip", "w") as packed:
        packed.writestr("in/x.pgn", ARCHIVE)
    rows = "found,archive,game\r\n1,b.pgn,3\r\n2,c.zip:in/x.pgn,2\r\n3,a.pgn,2\r\n4,b.pgn,\r\n"
    (room / "rows.csv").write_text(rows, encoding="utf-8")
    assert asked("cqlpgn-pick", "--rows", "rows.csv") == Answer(0, GAMES[2] + GAMES[1] + GAMES[1], "")
    assert asked("cqlpgn-pick", "a.pgn", "rows.csv").out == GAMES[1]
    lines = "".join(json.dumps({"archive": name, "game": game}) + "\n" for name, game in (("b.pgn", 3), ("a.pgn", 2), ("b.pgn", 2)))
    (room / "rows.json").write_text(lines, encoding="utf-8")
    assert asked("cqlpgn-pick", "--rows", "rows.json").out == GAMES[1] + GAMES[2] + GAMES[1]
    assert asked("cqlpgn-pick", "--rows", "rows.json", "--as-given").out == GAMES[2] + GAMES[1] + GAMES[1]
    answer = asked("cqlpgn-pick", "--rows", "rows.json", "a.pgn")
    assert (answer.status, answer.out) == (4, GAMES[1])


def test_rows_as_cqlpgn_over_and_cqlpgn_rows_write_them(asked: Asking, room: Path) -> None:
    assert asked("cqlpgn-over", "--number", "-o", "found.pgn", "cql() ply == 1 Pd4", "a.pgn", "a.pgn").status == 1
    rows = asked("cqlpgn-rows", "found.pgn")
    (room / "rows.csv").write_bytes(rows.out)
    assert asked("cqlpgn-pick", "--rows", "rows.csv").out == GAMES[1]
    assert asked("cqlpgn-pick", "--rows", "found.pgn.csv").out == GAMES[1]


FRAGMENTS = [
    b'[White "x"]\n',
    b'[White "y"]',
    b"1. e4 e5 ",
    b"*",
    b" 1-0",
    b"0-1",
    b"\n",
    b"\n\n",
    b" ",
    b"(",
    b")",
    b"{c}",
    b"; c\n",
    b"e5",
    b"1/2",
]
RARE = [b"{", b";", b"%x 1-0\n", b"%", b"[", b"]", b'"', b"\xef\xbb\xbf", b"\xff", b"1-", b"; 1-0", b"[White"]


def drawn(dice: random.Random) -> bytes:
    return b"".join(dice.choice(FRAGMENTS if dice.random() < 0.9 else RARE) for _ in range(dice.randrange(1, 12)))


@pytest.mark.parametrize("seed", range(24))
def test_games_that_would_run_into_the_next(room: Path, seed: int) -> None:
    """Games of drawn archives, in any order, are cut as they stand once more; nothing is added but what is told."""
    dice = random.Random(seed)
    games: list[Standing] = []
    for number in range(4):
        (room / f"{number}.pgn").write_bytes(drawn(dice))
        with Cut(Archive(str(number), f"{number}.pgn")) as place:
            for piece in place:
                games.append(Standing(str(number), piece.number, place.text(piece), piece.begin == 0, piece.is_last))
    dice.shuffle(games)
    written, told = bytearray(), list[str]()
    joint = Joint(written.extend, told.append)
    for game in games:
        joint.add(game)
    joint.finish()
    gone = {line.split(": is left out")[0] for line in told if "is left out" in line}
    assert joint.left_out == len(gone)
    left = [game for game in games if str(game) not in gone]
    found = cut(bytes(written))
    assert len(found) == len(left)
    for place_, (text, game) in enumerate(zip(found, left)):
        wanted = game.text.removeprefix(b"\xef\xbb\xbf") if game.is_first and place_ else game.text
        begin, middle, end = text.partition(wanted)
        assert (begin in (b"", b"\n", b" "), middle, end in (b"", b"\n", b"\n*", b"\n*\n")) == (True, wanted, True)
        assert not begin + end or ": an LF" in "".join(told) or ": a space" in "".join(told)


def test_what_is_put_between_is_told(asked: Asking, room: Path) -> None:
    (room / "b.pgn").write_bytes(b"1. d4 *")
    (room / "tags.pgn").write_bytes(b'[White "A"]\n')
    (room / "open.pgn").write_bytes(b"1. e4 {no end")
    rows = "archive,game\ntags.pgn,1\nb.pgn,1\na.pgn,6\nopen.pgn,1\na.pgn,1\n"
    answer = asked("cqlpgn-pick", "--rows", "-", "--as-given", data=rows.encode())
    assert (answer.status, answer.out) == (1, b'[White "A"]\n\n*1. d4 *' + GAMES[5] + b"\n" + GAMES[0][3:])
    assert answer.lines == [
        "b.pgn: game 1: an LF and `*` are put before it, so that it begins there",
        "open.pgn: game 1: is left out: it has no end, and would take the game after it",
        "a.pgn: game 1: an LF is put before it, so that it begins there",
    ]
    assert [game.strip() for game in cut(answer.out)][0] == b'[White "A"]\n\n*'
    assert len(cut(answer.out)) == 4


def files_in(folder: Path) -> dict[str, bytes]:
    return {path.name: path.read_bytes() for path in folder.iterdir()}


def test_a_file_for_each_value(asked: Asking, room: Path) -> None:
    (room / "to").mkdir()
    answer = asked("cqlpgn-pick", "--split-by", "White", "-o", "to", "a.pgn")
    assert (answer.status, answer.out, answer.lines[-1]) == (0, b"", "files: 5")
    wanted = {"A.pgn": GAMES[0], "B.pgn": GAMES[1], "_._up.pgn": GAMES[3], "_rf.pgn": GAMES[5], "unknown.pgn": GAMES[2] + b"\n" + GAMES[4]}
    assert files_in(room / "to") == wanted
    assert sorted(path.name for path in room.iterdir()) == ["a.pgn", "to"]


def test_a_file_for_each_year_and_player(asked: Asking, room: Path) -> None:
    (room / "to").mkdir()
    assert asked("cqlpgn-pick", "--split-by", "year", "-o", "to/y-", "a.pgn").status == 0
    assert sorted(files_in(room / "to")) == ["y-1990.pgn", "y-1991.pgn", "y-unknown.pgn"]
    assert asked("cqlpgn-pick", "--split-by", "player", "-o", "to/p-", "a.pgn").status == 0
    names = files_in(room / "to")
    assert cut(names["p-A.pgn"])[0] == GAMES[0] and cut(names["p-B.pgn"]) == [GAMES[0], GAMES[1]]


def test_files_of_so_many_games(asked: Asking, room: Path) -> None:
    assert asked("cqlpgn-pick", "--split", "2", "-o", "part", "a.pgn").lines == ["files: 3"]
    assert [b"".join(GAMES[at : at + 2]) for at in (0, 2, 4)] == [(room / f"part000{number}.pgn").read_bytes() for number in (1, 2, 3)]


def test_no_file_that_is_there_is_lost(asked: Asking, room: Path) -> None:
    (room / "to").mkdir()
    (room / "to" / "B.pgn").write_bytes(b"old")
    answer = asked("cqlpgn-pick", "--split-by", "White", "-o", "to/", "a.pgn")
    assert (answer.status, answer.lines[-1]) == (6, "to/B.pgn: is there already; nothing was written")
    assert files_in(room / "to") == {"B.pgn": b"old"}
    os.symlink(room / "elsewhere", room / "to" / "A.pgn")
    (room / "to" / "B.pgn").unlink()
    assert asked("cqlpgn-pick", "--split-by", "White", "-o", "to/", "a.pgn").status == 6
    assert not (room / "elsewhere").exists()
    assert asked("cqlpgn-pick", "--split", "2", "-o", "none/", "a.pgn").status == 4


def test_more_files_than_are_open_at_once(asked: Asking, room: Path) -> None:
    many = b"".join(b'[White "%d"]\n\n1. e4 *\n' % (number % 300) for number in range(900))
    (room / "many.pgn").write_bytes(many)
    (room / "to").mkdir()
    assert asked("cqlpgn-pick", "--split-by", "White", "-o", "to", "many.pgn").lines == ["files: 300"]
    assert {len(cut(text)) for text in files_in(room / "to").values()} == {3}


HOSTILE = [
    "../x",
    "/etc/passwd",
    "..",
    ".",
    "",
    "a/b",
    "-rf",
    "$(x)",
    "`x`",
    "a\x00b",
    "a\nb",
    "CON",
    "é" * 300,
    "x" * 300,
    "\u202ea",
    "|x",
    "~",
    "a ",
]


@pytest.mark.parametrize("value", HOSTILE)
def test_names_of_files_are_safe(value: str) -> None:
    name = safe(value)
    assert name and os.path.basename(name) == name and name[0] not in "-.~" and len(os.fsencode(name)) < 200
    assert not set(name) & set('/\\\0\n$`|:*?"<>\u202e') and name.isprintable()


def test_values_that_have_one_name(asked: Asking, room: Path) -> None:
    (room / "b.pgn").write_bytes(b'[White "a/b"]\n*\n[White "a\\\\b"]\n*\n[White "A_B"]\n*\n[White "a/b"]\n*\n')
    (room / "to").mkdir()
    assert asked("cqlpgn-pick", "--split-by", "White", "-o", "to", "b.pgn").status == 0
    assert {name: len(cut(text)) for name, text in files_in(room / "to").items()} == {"a_b.pgn": 2, "a_b-2.pgn": 1, "A_B-3.pgn": 1}


@pytest.mark.parametrize(
    "words",
    [
        [],
        ["-", "-"],
        ["a.pgn", "1", "2"],
        ["--where", "plies > 1"],
        ["--where", "plies > 1", "--faulty", "a.pgn"],
        ["--by", "moves", "a.pgn"],
        ["--sample", "0", "a.pgn"],
        ["--seed", "1", "a.pgn"],
        ["--split", "2", "a.pgn"],
        ["--split", "0", "-o", "x", "a.pgn"],
        ["--as-given", "-v", "a.pgn"],
        ["--as-given", "--faulty", "a.pgn"],
        ["-o", "a.pgn", "a.pgn", "1"],
        ["a.pgn", "0"],
    ],
)
def test_refused_words(asked: Asking, room: Path, words: list[str]) -> None:
    answer = asked("cqlpgn-pick", *words)
    assert (answer.status, answer.out, "Traceback" in answer.err) == (3, b"", False)
    assert (room / "a.pgn").read_bytes() == ARCHIVE


def test_options_are_those_of_the_table() -> None:
    """The manual page and the completions name each option."""
    page = (TOP / "docs" / "cqlpgn-pick.1").read_text(encoding="utf-8").replace("\\-", "-")
    shells = [(TOP / "contrib" / "completion" / name).read_text(encoding="utf-8") for name in ("cqlpgn.bash", "_cqlpgn")]
    fish = (TOP / "contrib" / "completion" / "cqlpgn.fish").read_text(encoding="utf-8")
    bash, zsh = shells[0].partition("_cqlpgn_pick()")[2].partition("\n}\n")[0], shells[1].partition("cqlpgn-pick)")[2].partition(";;")[0]
    for option in OPTIONS:
        bare = option.name.lstrip("-")
        assert f"\n.B {option.name}\n" in page or f'{option.name} " {option.value}"' in page
        assert f"{option.name} " in bash and f"'{option.name}[" in zsh
        assert f"complete -c cqlpgn-pick -{'l' if len(bare) > 1 else 's'} {bare} " in fish


@pytest.mark.parametrize("redirect", [">/dev/full", ">&-", "| head -c 10 > begin; exit ${PIPESTATUS[0]}"])
def test_games_that_are_not_taken(room: Path, redirect: str) -> None:
    (room / "long.pgn").write_bytes(b"1. e4 *\n" * 50000)
    call = f"{TOP / 'python' / 'bin' / 'cqlpgn-pick'} -v long.pgn 2 {redirect}"
    done = subprocess.run(["bash", "-c", call], stdin=subprocess.DEVNULL, capture_output=True, check=False)
    assert (done.returncode, b"Traceback" in done.stderr) == (6, False)
