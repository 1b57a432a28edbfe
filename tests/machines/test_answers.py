"""What pieces answer beside what one run does: games, report and status, byte for byte. These tests are long:

    pytest tests/machines -m long --archive ARCHIVE [-k PART]

ARCHIVE is a large one, as the book of Debian's gnuchess-book. The parts:

  seams     tiny archives and an archive of seams (broken games, byte order marks, line ends of Windows, Latin-1), each game a piece
  answers   ten queries, three of them sorted, in 7 and in 64 pieces, over ARCHIVE and over the archive of seams
  steps     queries that sort, among them all that answer wrong in two simpler steps
  first     --first: the report of one run, and the pieces after the first match are left
  failures  reads that end too soon, programs and scripts that are killed, wrong tables, half an answer: never is there half a piece
  parallel, ssh, slurm, dask    an engine over the first bytes of ARCHIVE; a program, a script, a worker, a machine are killed

An engine that is not installed is skipped; `ssh` and `slurm` want root, since they make machines: network namespaces, and nodes with
processes of their own. All is made in a folder of its own, and its daemons are ended by their process numbers. With -s they tell seconds.
"""

from __future__ import annotations

import os
import random
import re
import shutil
import signal
import subprocess
import time
from collections.abc import Callable, Iterator
from pathlib import Path

import pytest
import runs
from tests.conftest import TOP
from tests.machines import checking
from tests.machines.checking import CQLPGN, ENVIRONMENT, HALF, HERE, SMALL
from tests.machines.checking import ended, equal, expect, in_pieces, leaves, one_run, piece_alone, program, put, table, tell
from tests.machines.engines import try_dask, try_parallel, try_slurm, try_ssh

EXAMPLES = str(TOP / "examples")
NEEDS = {"parallel": "parallel", "ssh": "parallel", "slurm": "sbatch", "dask": "dask-scheduler"}
TEN = [
    "cql() mate",
    'cql(variations matchstring "fork") N attacks k N attacks q sort "men" #(A|a)',
    "cql() initial",
    "cql() flipcolor move promote [RBN]",
    'cql() mate comment "the end" sort min "moves" movenumber',
    "cql() stalemate",
    'cql(variations) hascomment comment "seen"',
    'cql() player "Fischer" terminal',
    "cql() flipcolor line --> { btm check } --> wtm --> { btm check } --> wtm --> { btm check }",
    'cql() power A - power a >= 9 sort "lead" power A - power a sort min "year" year',
]


# The archives.


def seams() -> bytes:
    """games of the examples, some of them broken, with what may stand between two games"""
    dice = random.Random(32)
    games = [b"1. e4 *", b"1. f3 e5 2. g4 Qh4# 0-1", b"1. e4 {an open\ncomment", b'[White "M\xfcller"]\n\n1. d4 d5 1/2-1/2']
    for name in ("games.pgn", "themes.pgn", "famous.pgn"):
        games += [game for game in re.split(rb"(?=^\[Event )", runs.read(EXAMPLES, name), flags=re.M) if game.strip()]
    between = [b"\n", b"\n\n", b"", b" ", b"\r\n", b"\xef\xbb\xbf", b"\n\xef\xbb\xbf", b"%", b"%no escape\n", b"\n%an escape\n", b"}"]
    between += [b'; a line [Event "x"] 1. e4 *\n', b"{ a note }", b"{ two\n% lines }", b"[Event", b"\n[x"]
    between += [b"[", b"]", b"(", b")", b'"', b"$", b"!"]
    out = bytearray(b"\xef\xbb\xbf")
    for _ in range(400):
        game = bytearray(dice.choice(games).strip() if dice.random() < 0.7 else dice.choice(games))
        if dice.random() < 0.2:
            game = game.replace(b"\n", b"\r\n")
        if dice.random() < 0.15:
            game[dice.randrange(len(game))] = dice.choice(b"\x80\xe4\xfc(){}[]*%;1a \n")
        if dice.random() < 0.1:
            del game[dice.randrange(len(game)) :]
        out += game + dice.choice(between) + (b"\n" if dice.random() < 0.5 else b"")
    return bytes(out)


TINY = [
    b"",
    b"\n",
    b"\xef\xbb\xbf",
    b"*%",
    b"1. e4 *%x\n1. d4 *\xef\xbb\xbf1. c4 *",
    b'1. e4 *\n%x\n1. d4 *\n\xef\xbb\xbf[Event "x"]\n\n1. c4 *\n',
    b"1. e4 *;x\n1. d4 * ;y",
    b"1. e4 *{x}1. d4 *{y",
    b"1. e4 * {the end}",
    b'1. e4 *[Event "x"]\n1. d4 *[Event',
    b'1. e4\n[Event "x"]\n1. d4\n[Event "y"]\n1. Ke3',
    b"1-0 1/2-1/2 0-1 1-0",
    b"1. e4 1-01. d4 0-1-0 * 1/2-1/2/",
    b"1. e4 (*) ) * (1. d4 * ) 1-0",
    b"1. e4 *\r\n\r\n1. d4 e9 *\r\n% x\r\n1. c4 *\r\n",
]


def tiny() -> Iterator[bytes]:
    """small texts at random of what may stand at a seam"""
    dice = random.Random(7)
    parts = [b"1. e4 ", b"e5", b"Ke3", b"*", b"1-0", b"0-1", b"\n", b" ", b"\xef\xbb\xbf", b'[Event "x"]']
    parts += [b"%", b"{", b"}", b";", b"[", b"]", b'"', b"(", b")"]
    for _ in range(200):
        yield b"".join(dice.choice(parts) for _ in range(dice.randrange(2, 14)))


def try_seams(_archive: str) -> None:
    for text in [*TINY, *tiny()]:
        name = put(text, "tiny.pgn")
        query = "cql() initial"
        equal("each game a piece of %r" % text, one_run(query, name), in_pieces(query, name, "--bytes", "1"))
    name = put(seams(), "seams.pgn")
    found = table(name, 1, "table")
    for query in ("cql(variations) check", "cql() initial", 'cql() mate comment "seen" sort min "moves" ply'):
        many = in_pieces(query, name, "--bytes", "1")
        equal("each game a piece of the archive of seams: %s" % query, one_run(query, name), many)
        tell("seams: %d pieces in %.1f s: %s" % (len(found[0]), many[1], query))


def try_answers(archive: str) -> None:
    for name in (put(seams(), "seams.pgn"), archive):
        size = os.path.getsize(name)
        tables = {}
        for count in (7, 64):
            least = size // count + 1
            found, seconds = table(name, least, "table%d" % count)
            while 0 < len(found) < count and least > 1:
                least -= least // 50 + 1
                found, seconds = table(name, least, "table%d" % count)
            tables[count] = len(found)
            tell("answers: %s, %d bytes, cut into %d pieces in %.1f s" % (os.path.basename(name), size, len(found), seconds))
        for query in TEN:
            one = one_run(query, name)
            times = []
            for count, number in tables.items():
                shutil.rmtree("kept", ignore_errors=True)
                many = in_pieces(query, name, "--table", "table%d" % count, "--in", "kept")
                equal("%s in %d pieces: %s" % (os.path.basename(name), number, query), one, many)
                times.append("%.1f s in %d pieces" % (many[1], number))
                if query in TEN[0:3:2]:
                    many = ended([os.path.join(HERE, "join"), "kept"], "many")
                    equal("join alone, %s in %d pieces: %s" % (os.path.basename(name), number, query), one, many)
                    times[-1] += " (%.1f s the join)" % many[1]
            last = runs.read("one.err").splitlines()[-1].decode()
            tell("answers: %s, %.1f s in one run, %s: %s" % (last, one[1], ", ".join(times), query))
        shutil.rmtree("kept", ignore_errors=True)


# Queries that sort.

STEPS = [
    # what is sorted by is a filter, too
    'cql() sort "e" elo',
    # without it nothing would be asked
    'cql() sort "p" power A',
    # a comment that the first step writes would come twice, and be seen
    'cql(variations matchstring "hit") hascomment comment "seen" sort "p" ply',
    'cql(matchstring "a" matchstring "b c") mate sort "e" ply comment "matchstring" comment "" comment "z"',
    # faults keep their bytes and reasons
    'cql() mate sort "x" check',
    'cql(variations) terminal comment "}" sort "p" ply',
    'cql() mate sort "x" ply )',
    # a tag that is missing is written as `?`
    'cql() {event "?" or mate} sort "p" ply',
    'cql() {player black "?" or mate} sort "p" ply',
    'cql() {site "?" or mate} sort min "p" ply',
    'cql() {player "?" or mate} sort min "p" ply',
    'cql() {player "" or mate} sort "p" ply',
    'cql() not event "" sort "p" ply',
    # words and texts that look like others
    'cql(input matchstring"x" output y.pgn matchstring "hit") mate sort "p" ply',
    'cql(input matchstring output sort matchstring "hit") mate sort "p" ply',
    'cql(input http://x.pgn matchstring "hit") mate sort "p" ply',
    "cql(input sort) mate",
    'cql() player "sort" mate or check comment "player" sort "event" ply',
    '// cql(matchstring "x")\ncql // (\n( // matchstring "y"\nmatchstring // z\n"hit") mate sort // "q"\n "p" ply',
    'cql() sort "a" ply .comment "x"sort "p" ply a-h2comment"z"Kcomment "y"',
    'cql() a-h2sort"p"ply mate',
    'cql() result 1-0comment "x" terminal sort "p" ply',
    # ties, and several keys
    'cql() check sort "n" #A sort min "m" #a sort "o" year',
    'cql() flipcolor mate sort min "x" 1',
]


def try_steps(_archive: str) -> None:
    examples = b"".join(runs.read(EXAMPLES, name) for name in ("games.pgn", "themes.pgn", "famous.pgn"))
    games = put(examples + b"1. e4 *\n1. f3 e5 2. g4 Qh4# 0-1\n1. d4 {d} d5 *\n", "steps.pgn")
    for query in STEPS:
        for least in ("300", "3000"):
            equal("two steps: %s" % query, one_run(query, games), in_pieces(query, games, "--bytes", least))
    # a game that is short enough to be read, and whose export is not
    long = put(b"1. e4 *\n1.Nf3" + b"{" + b"a" * 20 + b"}" + b"{aaaaaaaaaaaaaaaaaaaa}" * 750000 + b"*\n1. d4 d5 2. c4 *\n", "long.pgn")
    query = 'cql() terminal sort "p" ply'
    equal("a game whose export is too long", one_run(query, long), in_pieces(query, long, "--bytes", "1"))
    # a query without room for a matchstring
    query = put(b'cql() mate sort "p" ply' + b" " * 65510, "long.cql")
    one = ended([CQLPGN, "run", query, games], "one")
    equal("a query of 65,533 bytes", one, in_pieces(query, games, "--bytes", "300"))
    one = ended([CQLPGN, "eval", "cql() mate", games, "--workers", "99"], "one")
    equal("options that are refused", one, in_pieces("cql() mate", games, "--workers", "99"))
    expect("which have status 3", one[0] == 3, one)


def try_first(archive: str) -> None:
    name = put(seams(), "seams.pgn")
    for archive_, least in ((name, 1), (name, 3000), (archive, os.path.getsize(archive) // 64 + 1)):
        found, _ = table(archive_, least, "table")
        for query in (*TEN, "cql() not check and mate"):
            shutil.rmtree("first", ignore_errors=True)
            words = ["--first", "--in", "first", "--table", "table", "--jobs", "1"]
            equal("--first in %d pieces: %s" % (len(found), query), one_run(query, archive_, "--first"), in_pieces(query, archive_, *words))
            done = sum(1 for file in os.listdir("first") if file.endswith(".status"))
            games, matched, _ = map(int, re.findall(rb"\d+", runs.read("one.err").splitlines()[-1]))
            wanted = len([piece for piece in found if not matched or piece.first <= games])
            expect("--first ends with the first piece that matches", done == wanted, "%d pieces of %d: %s" % (done, wanted, query))
            last = runs.read_pieces("first")[wanted - 1].number
            os.remove("first/%d.status" % last)
            equal("--first goes on: %s" % query, one_run(query, archive_, "--first"), in_pieces(query, archive_, *words))
            many = in_pieces(query, archive_, "--first", "--table", "table", "--jobs", "4")
            equal("--first by four in %d pieces: %s" % (len(found), query), (many[0],), many)
    shutil.rmtree("first", ignore_errors=True)


# Failures.


def try_failures(archive: str) -> None:
    with open(archive, "rb") as large:
        name = put(large.read(SMALL // 4), "failures.pgn")
    query = "cql() check"
    one = one_run(query, name)
    half = HALF % CQLPGN

    def fresh(*words: str, **environment: str) -> tuple[int, float]:
        shutil.rmtree("run", ignore_errors=True)
        return in_pieces(query, name, "--in", "run", "--bytes", "100000", "--jobs", "2", *words, **environment)

    equal("no failure", one, fresh())
    pieces = runs.read_pieces("run")
    last, times = pieces[-1].number, {number: os.stat("run/%d.status" % number).st_mtime_ns for number in range(1, len(pieces) + 1)}
    equal("the same again", one, in_pieces(query, name, "--in", "run", "--bytes", "100000"))
    again = {number: os.stat("run/%d.status" % number).st_mtime_ns for number in times}
    expect("what is done is not done again", again == times)
    expect("another query in the folder", in_pieces("cql() mate", name, "--in", "run", "--bytes", "100000")[0] == 3)
    expect("join alone", ended([os.path.join(HERE, "join"), "run"], "many")[0] == one[0])
    equal("join alone", one, one)

    # half an answer
    for file, keep in (("2.out", 100), ("3.err", 5), ("4.out", 0)):
        with open("run/" + file, "r+b") as half_file:
            half_file.truncate(keep)
        expect("join refuses half of %s" % file, ended([os.path.join(HERE, "join"), "run"], "many")[0] == 9)
        expect("and writes no game", os.path.getsize("many.out") == 0)
        equal("it is answered again", one, in_pieces(query, name, "--in", "run", "--bytes", "100000"))
    games = b"games 1 matched 0 refused 0\n"
    put(b"", "run/2.out")
    put(games, "run/2.err")
    put(b"0 0 %d\n" % len(games), "run/2.status")
    expect("join refuses a piece with too few games", ended([os.path.join(HERE, "join"), "run"], "many")[0] == 9)
    os.remove("run/2.status")

    # reads that end too soon
    whole = runs.read(name)
    for ending in ("status", "out", "err"):
        os.remove("run/%d.%s" % (last, ending))
    for what, keep in (("the last byte", len(whole) - 1), ("half of it", pieces[-1].offset + pieces[-1].length // 2), ("all of it", 0)):
        put(whole[:keep], name)
        expect("a piece without %s is no answer" % what, piece_alone("run", last) == 5 and not runs.is_done("run", last))
        expect("there are no files of it", not os.path.exists("run/%d.out" % last))
    os.remove(name)
    expect("no archive, no answer", piece_alone("run", last) == 4 and not runs.is_done("run", last))
    put(whole, name)
    expect("a piece is answered alone", piece_alone("run", last) == 0 and runs.is_whole("run", last))
    before = os.stat("run/%d.out" % last).st_ino
    expect("a piece that is done is left", piece_alone("run", last) == 0 and os.stat("run/%d.out" % last).st_ino == before)
    leaves("reads that ended too soon", "run", {"2.out", "2.err"})
    expect("an archive that was changed", in_pieces(query, name, "--in", "run", "--bytes", "100000")[0] == 3)
    # with --first a match before the end of a short read is none
    game = b"1. f3 e5 2. g4 Qh4# 0-1\n"
    put(b"1. e4 *\n" * 200 + game + b"1. d4 *\n" * 200, "short.pgn")
    shutil.rmtree("run", ignore_errors=True)
    in_pieces("cql() mate", "short.pgn", "--first", "--in", "run", "--bytes", "1000000")
    for file in ("1.status", "1.out", "1.err", "1.match"):
        os.remove("run/" + file)
    put(b"1. e4 *\n" * 200 + game[:-4], "short.pgn")
    expect("--first: a piece cut within its match is no answer", piece_alone("run", 1) == 5 and not runs.is_done("run", 1))

    # programs and scripts that are killed
    killed = program("killed", half, "kill -9 $$")
    equal("a program is killed", one, fresh(CQLPGN=killed))
    expect("and was", os.path.isdir("killed.used"))
    leaves("a program that was killed", "run")
    stops = program("stops", "head -c 30000 > /dev/null; cat %s/one.err >&2; exit %d" % (os.getcwd(), one[0]))
    equal("a program ends before it has read all", one, fresh("--bytes", "10000000", CQLPGN=stops))
    expect("and did", os.path.isdir("stops.used"))
    always = program("always", "true")
    put(b'#!/bin/bash\n[ "$3" = - ] && kill -9 $$\nexec %s "$@"\n' % os.fsencode(CQLPGN), always)
    many = fresh(CQLPGN=always)
    expect("a program that is always killed", many[0] == 9 and os.path.getsize("many.out") == 0, many)
    leaves("a program that is always killed", "run")
    many = fresh(CQLPGN=program("touches", "touch " + name))
    expect("an archive that changes meanwhile", many[0] == 9 and os.path.getsize("many.out") == 0, many)
    broken = program("broken", half, "kill -9 $PPID", "exit 0")
    expect("the script is killed", fresh(CQLPGN=broken)[0] == -signal.SIGKILL)
    done = sum(1 for file in os.listdir("run") if file.endswith(".status"))
    equal("and goes on", one, in_pieces(query, name, "--in", "run", "--bytes", "100000", CQLPGN=broken))
    leaves("a script that was killed after %d pieces" % done, "run")

    # wrong tables
    right = [[piece.number, *piece[1:]] for piece in pieces]

    def wrong(what: str, change: Callable[[list[list[int]]], object], statuses: tuple[int, ...] = (9,)) -> None:
        rows = [list(row) for row in right]
        change(rows)
        put(b"".join(b"%d %d %d %d %d\n" % tuple(row) for row in rows), "wrong")
        many = fresh("--table", "wrong")
        expect("a table in which %s" % what, many[0] in statuses and os.path.getsize("many.out") == 0, many)

    def shift(rows: list[list[int]], at: int, by: int) -> None:
        rows[at][2] += by
        rows[at + 1][1] += by
        rows[at + 1][2] -= by

    wrong("numbers begin at 0", lambda rows: [row.__setitem__(0, row[0] - 1) for row in rows])
    wrong("games begin at 0", lambda rows: [row.__setitem__(3, row[3] - 1) for row in rows])
    wrong("two pieces have a game", lambda rows: rows[1].__setitem__(2, rows[1][2] + 600))
    wrong("the last piece is shorter", lambda rows: rows[-1].__setitem__(2, rows[-1][2] - 1))
    wrong("a piece is missing", lambda rows: rows.pop(3))
    wrong("a piece has a game more", lambda rows: (rows[2].__setitem__(4, rows[2][4] + 1), rows[3].__setitem__(3, rows[3][3] + 1)))
    wrong("a piece ends within a game", lambda rows: shift(rows, 2, -40))
    many = fresh(PGNPIECES="/bin/false")
    expect("pgnpieces fails", many[0] == 1 and os.path.getsize("many.out") == 0, many)
    with open("/dev/full", "wb") as full:
        words = [os.path.join(HERE, "run-over"), query, name]
        expect("a full device", subprocess.run(words, stdout=full, stderr=subprocess.DEVNULL, env=ENVIRONMENT, check=False).returncode == 6)
    expect("nothing is left among temporary files", not os.listdir(ENVIRONMENT["TMPDIR"]))
    expect("no archive", in_pieces(query, "none.pgn")[0] == 4)
    equal("a faulty query and no archive", one_run("cql() )", "none.pgn"), in_pieces("cql() )", "none.pgn"))
    expect("a folder", in_pieces(query, ".")[0] == 5)


PARTS: dict[str, Callable[[str], None]] = {
    "seams": try_seams,
    "answers": try_answers,
    "steps": try_steps,
    "first": try_first,
    "failures": try_failures,
}
PARTS.update({"parallel": try_parallel, "ssh": try_ssh, "slurm": try_slurm, "dask": try_dask})


@pytest.fixture(name="room")
def a_folder(cqlpgn: str, pgnpieces: str, tmp_path: Path, monkeypatch: pytest.MonkeyPatch) -> Path:
    """A folder in which a part runs, with one for temporary files."""
    (tmp_path / "temporary").mkdir()
    monkeypatch.chdir(tmp_path)
    ENVIRONMENT.clear()
    ENVIRONMENT.update(os.environ, CQLPGN=cqlpgn, PGNPIECES=pgnpieces, TMPDIR=str(tmp_path / "temporary"))
    checking.wrong.clear()
    return tmp_path


@pytest.mark.long
@pytest.mark.usefixtures("room")
@pytest.mark.parametrize("part", PARTS)
def test_part(request: pytest.FixtureRequest, part: str) -> None:
    archive = request.config.getoption("--archive")
    if archive is None:
        pytest.skip("--archive names no archive")
    if part in NEEDS and not shutil.which(NEEDS[part]):
        pytest.skip(f"without {NEEDS[part]}: {part}")
    start = time.monotonic()
    PARTS[part](str(request.config.invocation_params.dir / archive))
    tell("%s: %.0f s" % (part, time.monotonic() - start))
    assert checking.wrong == []
