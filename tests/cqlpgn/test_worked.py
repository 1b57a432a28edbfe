"""Worked examples with the answers that a reader expects: what the model's own functions give, and archives beyond the rows."""

from __future__ import annotations

from pathlib import Path
from typing import NamedTuple

import pytest
from model import chess, meaning, pgn, program, query
from model.pgn import Game
from tests.cqlpgn.rows import exported
from tests.processes import run


class Example(NamedTuple):
    """A query over an archive, and what is wanted; the report and the status are compared where they are given."""

    name: str
    text: str
    archive: str
    out: str
    err: str | None = None
    status: int | None = None


class Several(NamedTuple):
    """A file of queries over an archive, and what is wanted."""

    name: str
    text: str
    archive: str
    out: str
    err: str
    status: int


def game(movetext: str, fen: str | None = None) -> str:
    return ('[FEN "%s"]\n' % fen if fen else "") + movetext + "\n"


SHORT_GAME = game("1. e4 e5 2. Nf3 *")
SERVER_GAME = (
    '\ufeff[Event "Rated blitz game"]\r\n[Site "https://lichess.org/abcd1234"]\r\n[Date "2023.05.14"]\r\n'
    '[Round "-"]\r\n[White "Müller"]\r\n[Black "anna"]\r\n[Result "1-0"]\r\n[WhiteElo "1850"]\r\n[BlackElo "1799"]\r\n'
    '[TimeControl "180+2"]\r\n\r\n'
    "1. e4 { [%clk 0:03:00] } 1... e5 { [%clk 0:03:00] } 2. Qh5!? { [%clk 0:02:58] } 2... Nc6 { [%clk 0:02:57] } "
    "3. Bc4 $1 { [%clk 0:02:55] } 3... Nf6?? { [%clk 0:02:51] } 4. Qxf7# { [%clk 0:02:54] } 1-0\r\n"
)
SERVER_EXPORT = (
    '[Event "Rated blitz game"]\n[Site "https://lichess.org/abcd1234"]\n[Date "2023.05.14"]\n[Round "-"]\n'
    '[White "Müller"]\n[Black "anna"]\n[Result "1-0"]\n[BlackElo "1799"]\n[TimeControl "180+2"]\n[WhiteElo "1850"]\n\n'
    "1. e4 {[%clk 0:03:00]} 1... e5 {[%clk 0:03:00]} 2. Qh5 $5 {[%clk 0:02:58]} 2...\n"
    "Nc6 {[%clk 0:02:57]} 3. Bc4 $1 {[%clk 0:02:55]} 3... Nf6 $4 {[%clk 0:02:51]} 4.\n"
    "Qxf7# {[%clk 0:02:54]} {mate} 1-0\n\n"
)
EXAMPLES = [
    Example("an archive without games", "cql() check", "", "", "games 0 matched 0 refused 0\n", 0),
    Example(
        "a faulty game among others",
        "cql() initial",
        "1. e4 *\n1. e4 e5 2. Ke3 *\n1. d4 *\n",
        exported("{CQL} 1. e4 *") + exported("{CQL} 1. d4 *"),
        "game 2 byte 20: illegal move\ngames 3 matched 2 refused 1\n",
        1,
    ),
    Example(
        "an ambiguous move",
        "cql() initial",
        "1. d4 d5 2. Nf3 Nf6 3. Nd2 *\n",
        "",
        "game 1 byte 23: ambiguous move\ngames 1 matched 0 refused 1\n",
        1,
    ),
    Example(
        "an archive as a server writes it",
        'cql(matchstring "mate") mate year == 2023 elo white > 1800',
        SERVER_GAME,
        SERVER_EXPORT,
    ),
    Example(
        "a null move in check",
        "cql() initial",
        "1. e4 e5 2. Qh5 Nc6 3. Qxf7+ -- *\n",
        "",
        "game 1 byte 29: illegal move\ngames 1 matched 0 refused 1\n",
    ),
    Example(
        "an unclosed comment takes the rest",
        "cql() check",
        '1. e4 {never closed\n[Event "x"]\n1. d4 *\n',
        "",
        "game 1 byte 6: unclosed comment\ngames 1 matched 0 refused 1\n",
    ),
    Example(
        "the side not to move in check",
        "cql() initial",
        '[FEN "4k3/8/8/8/8/8/8/4RK2 w - - 0 1"]\n*\n',
        "",
        "game 1 byte 5: bad FEN\ngames 1 matched 0 refused 1\n",
    ),
    Example(
        "a result with a letter after it",
        "cql() initial",
        "1. e4 1-0x *\n",
        "",
        "game 1 byte 6: not a move\ngames 1 matched 0 refused 1\n",
    ),
    Example(
        "an unclosed string",
        "cql() initial",
        '[Event "x',
        "",
        "game 1 byte 7: unclosed string\ngames 1 matched 0 refused 1\n",
    ),
    Example(
        "a FEN without kings",
        "cql() Ka1",
        '[FEN "8/8/8/8/8/8/8/8 w - - 0 1"]\n*\n',
        "",
        "game 1 byte 5: bad FEN\ngames 1 matched 0 refused 1\n",
        1,
    ),
    Example(
        "a variation before any move",
        "cql() Ka1",
        "1. e4 ((\n",
        "",
        "game 1 byte 7: variation without move\ngames 1 matched 0 refused 1\n",
    ),
    Example(
        "a man that is not there",
        "cql() not Qa8",
        game("*", "4k3/8/8/8/8/8/8/4K3 w - - 0 1"),
        exported("{CQL} *", "4k3/8/8/8/8/8/8/4K3 w - - 0 1"),
    ),
    Example(
        "several games",
        "cql() Pd4",
        "1. e4 *\n1. e4 e5 2. Ke3 *\n1. d4 *\n1. d4 d5 *\n",
        exported("1. d4 {CQL} *") + exported("1. d4 {CQL} 1... d5 {CQL} *"),
        "game 2 byte 20: illegal move\ngames 4 matched 2 refused 1\n",
    ),
    Example(
        "a tag after a glyph",
        "cql() initial",
        '$1 [a "b"]',
        "",
        "game 1 byte 3: bad tag\ngames 1 matched 0 refused 1\n",
        1,
    ),
]
NO_MATE = "games 1 matched 1 refused 0\ngames 1 matched 0 refused 0\n"
ONE_OF_TWO = "query 1 bytes 118\n" + exported("1. e4 e5 2. Nf3 {CQL} *") + "query 2 bytes 0\n"
FIRST_OF_TWO = "query 1 bytes 230\n" + exported("1. d4 {CQL} *") + exported("1. d4 {CQL} 1... d5 {CQL} *")
SECOND_OF_TWO = "query 2 bytes 325\n" + exported("{X} 1. d4 d5 {X} *") + exported("{X} 1. d4 *") + exported("{X} 1. e4 *")
SEVERAL = [
    Several("two queries", "cql() Nf3\n%%\ncql() mate\n", SHORT_GAME, ONE_OF_TWO, NO_MATE, 0),
    Several(
        "a mark and a sort item of one query alone",
        'cql() Pd4\n%%\ncql(matchstring "X") wtm sort "p" ply',
        "1. d4 *\n1. e5 *\n1. e4 *\n1. d4 d5 *\n",
        FIRST_OF_TWO + SECOND_OF_TWO,
        "game 2 byte 11: illegal move\ngames 4 matched 2 refused 1\ngames 4 matched 3 refused 1\n",
        1,
    ),
    Several("a fault of the second query", "cql() check\n%%\ncql() echo", SHORT_GAME, "", "query 2 byte 6: outside profile echo\n", 2),
    Several("seventeen queries", "cql() check\n%%\n" * 16 + "cql() check", SHORT_GAME, "", "queries too many\n", 2),
    Several("nothing between two separators", "cql() check\n%%\n%%\ncql() mate", "", "", "query 2 byte 0: unexpected end\n", 2),
    Several("a separator alone", "%%", "", "", "query 1 byte 0: unexpected end\n", 2),
    Several("one query and no separator", "cql() mate", "", "query 1 bytes 0\n", "games 0 matched 0 refused 0\n", 0),
    Several("a separator with CR is none", "cql() mate\r\n%%\r\ncql() check", "", "", "query 1 byte 12: bad byte\n", 2),
    Several("lines that are cut before tokens are read", 'cql() comment "a\n%%\nb"', "", "", "query 1 byte 14: unclosed text\n", 2),
]
PROMOTED = "7k/P7/8/8/8/8/8/K7 w - - 0 1"
# Queries that share parts, and how each writes the game in which a pawn promotes, where it finds it.
SHARED: list[tuple[list[str], list[str | None]]] = [
    (["cql() wtm check", "cql() check wtm"], [None, None]),
    (["cql() wtm", "cql(variations) wtm"], ["{CQL} 1. a8=Q+ Kh7 {CQL} *"] * 2),
    (["cql() {btm check}", "cql() (check and btm)  Qa8"], ["1. a8=Q+ {CQL} 1... Kh7 *"] * 2),
    (
        ['cql() sort "p" ply sort min "p" ply', "cql() Qa8"],
        ["{CQL} 1. a8=Q+ {CQL} 1... Kh7 {CQL} *", "1. a8=Q+ {CQL} 1... Kh7 {CQL} *"],
    ),
    (['cql() mate sort "p" ply', 'cql() wtm sort "p" ply Qa8'], [None, "1. a8=Q+ Kh7 {CQL} *"]),
    (['cql() comment "a" comment "b"'], ["{CQL} {a} {b} 1. a8=Q+ {CQL} {a} {b} 1... Kh7 {CQL} {a} {b} *"]),
    (["cql() wtm"] * 16, ["{CQL} 1. a8=Q+ Kh7 {CQL} *"] * 16),
]
QUERY_FILES = [
    b"cql() line --> check{64}",
    b"cql() line --> check{65}",
    b"cql()" + b" flip flip flip flip flip check" * 7 + b" check",
    b"cql()" + b" flip flip flip flip flip check" * 7 + b" check check",
    b"cql() flipcolor Ka1",
    b"",
    b" " * 65537,
    b" " * 65536,
    b" " * 65535,
    b" " * 65530 + b"cql() ",
    b" " * 65525 + b"cql() check",
    b" " * 65526 + b"cql() check",
    b"cql() " + b"(" * 65,
    b"cql() " + b"(" * 64 + b"A" + b")" * 64,
    b"cql() \xff",
    b'cql(input \xff\xfe) "\xff" A',
    b'cql() player "\xff" A\x00',
    b'cql() "',
]
WORDS: list[list[str]] = [["eval"], ["check"], [], ["foo", "cql() A"], ["eval", "cql() A", "x", "y"]]


def sharing(queries: list[str], movetexts: list[str | None]) -> Several:
    """The example of some queries that share parts."""
    outs = ["" if movetext is None else exported(movetext, PROMOTED) for movetext in movetexts]
    out = "".join("query %d bytes %d\n" % (number, len(text)) + text for number, text in enumerate(outs, 1))
    err = "".join("games 1 matched %d refused 0\n" % (text != "") for text in outs)
    return Several(", ".join(queries[:2]), "\n%%\n".join(queries), game("1. a8=Q Kh7 *", PROMOTED), out, err, 0)


ALL_SEVERAL = SEVERAL + [sharing(queries, movetexts) for queries, movetexts in SHARED]


@pytest.mark.parametrize("example", EXAMPLES, ids=[example.name for example in EXAMPLES])
def test_model(example: Example) -> None:
    status, out, err = program.run_eval(example.text.encode(), example.archive.encode())
    assert out.decode() == example.out
    assert example.err is None or err.decode() == example.err
    assert example.status is None or status == example.status


@pytest.mark.parametrize("example", EXAMPLES, ids=[example.name for example in EXAMPLES])
def test_program(cqlpgn: str, example: Example) -> None:
    archive = example.archive.encode()
    assert run(cqlpgn, "eval", example.text, data=archive) == program.run_eval(example.text.encode(), archive)


@pytest.mark.parametrize("several", ALL_SEVERAL, ids=[several.name for several in ALL_SEVERAL])
def test_model_of_several(several: Several) -> None:
    answer = program.run_many(several.text.encode(), several.archive.encode())
    assert answer == (several.status, several.out.encode(), several.err.encode())


@pytest.mark.parametrize("several", ALL_SEVERAL, ids=[several.name for several in ALL_SEVERAL])
def test_program_of_several(cqlpgn: str, tmp_path: Path, several: Several) -> None:
    (tmp_path / "queries.cql").write_bytes(several.text.encode("ascii"))
    answer = run(cqlpgn, "many", "queries.cql", data=several.archive.encode(), folder=tmp_path)
    assert answer == (several.status, several.out.encode(), several.err.encode())


@pytest.mark.parametrize("number", range(len(QUERY_FILES)))
@pytest.mark.parametrize("mode", ["check", "explain"])
def test_query_files(cqlpgn: str, tmp_path: Path, mode: str, number: int) -> None:
    text = QUERY_FILES[number]
    (tmp_path / "q.cql").write_bytes(text)
    wanted = (program.run_check if mode == "check" else program.run_explain)(text)
    assert run(cqlpgn, mode, "q.cql", folder=tmp_path) == wanted


def test_a_query_file_that_is_not_there(cqlpgn: str, tmp_path: Path) -> None:
    assert run(cqlpgn, "check", "none.cql", folder=tmp_path) == (4, b"", b"")


@pytest.mark.parametrize("words", WORDS, ids=" ".join)
def test_words_that_are_refused(cqlpgn: str, words: list[str]) -> None:
    assert run(cqlpgn, *words) == (3, b"", program.USAGE)


@pytest.mark.parametrize(("seed", "games"), [(1, 0), (1, 100), (7, 20)])
def test_an_archive_that_is_made(cqlpgn: str, seed: int, games: int) -> None:
    answer = run(cqlpgn, "selfrun", "cql() check", "--seed", str(seed), "--games", str(games))
    assert answer == program.run_selfrun(b"cql() check", seed, games)


# What the model's own functions give.


def test_the_values_of_a_line_at_each_node() -> None:
    read = program.games_of(SHORT_GAME.encode())[0]
    assert isinstance(read, Game)
    search = meaning.Search(read, False)
    line = query.read_query(b"cql() (line --> Pe4* --> Pe4) >= 2")["items"][0].args[0]
    assert [search.number(line, (), node, ()) for node in search.nodes] == [None, 3, 2, 1]


def test_many_small_games() -> None:
    assert len(program.run_eval(b"cql() initial", b"*\n" * 2048)[1]) == 208896


def test_the_start_as_fen() -> None:
    assert chess.fen_text(chess.START) == "rnbqkbnr/pppppppp/8/8/8/8/PPPPPPPP/RNBQKBNR w KQkq - 0 1"


def test_the_legal_moves_at_the_start() -> None:
    moves = chess.legal_moves(chess.START)
    assert (len(moves), chess.square_name(moves[0][0]), chess.square_name(moves[0][1])) == (20, "b1", "a3")


def perft(position: chess.Position, depth: int) -> int:
    """How many sequences of so many moves there are."""
    return 1 if depth == 0 else sum(perft(chess.play(position, move), depth - 1) for move in chess.legal_moves(position))


@pytest.mark.parametrize(
    ("fen", "depth", "count"),
    [
        (b"rnbqkbnr/pppppppp/8/8/8/8/PPPPPPPP/RNBQKBNR w KQkq - 0 1", 3, 8902),
        (b"r3k2r/p1ppqpb1/bn2pnp1/3PN3/1p2P3/2N2Q1p/PPPBBPPP/R3K2R w KQkq - 0 1", 1, 48),
        (b"r3k2r/p1ppqpb1/bn2pnp1/3PN3/1p2P3/2N2Q1p/PPPBBPPP/R3K2R w KQkq - 0 1", 2, 2039),
        (b"8/2p5/3p4/KP5r/1R3p1k/8/4P1P1/8 w - - 0 1", 4, 43238),
        (b"r3k2r/Pppp1ppp/1b3nbN/nP6/BBP1P3/q4N2/Pp1P2PP/R2Q1RK1 w kq - 0 1", 3, 9467),
        (b"rnbq1k1r/pp1Pbppp/2p5/8/2B5/8/PPP1NnPP/RNBQK2R w KQ - 1 8", 3, 62379),
    ],
)
def test_perft(fen: bytes, depth: int, count: int) -> None:
    assert perft(chess.position_of(fen), depth) == count


@pytest.mark.parametrize(("text", "move"), [(b"e2e4", (12, 28, None)), (b"Ng1-f3", (6, 21, None))])
def test_a_move_as_it_is_written(text: bytes, move: chess.Move) -> None:
    answer = chess.read_san(chess.START, text)
    assert not isinstance(answer, str) and answer[0] == move


@pytest.mark.parametrize(("text", "reason"), [(b"0-0", "illegal move"), (b"x", "not a move")])
def test_a_move_that_is_refused(text: bytes, reason: str) -> None:
    assert chess.read_san(chess.START, text) == reason


def cut_at(archive: bytes) -> list[tuple[int, int]]:
    return [(start, end) for start, end, _ in pgn.cut(archive)]


def test_a_result_inside_a_tag_ends_the_game() -> None:
    archive = b'[1-0 "x"]'
    assert cut_at(archive) == [(0, 4), (5, 9)]
    assert program.games_of(archive) == [("fault", 4, "bad tag"), ("fault", 5, "bad tag")]


def test_a_tag_before_any_movetext_ends_no_game() -> None:
    assert cut_at(b']\n[Event "x"]\n*') == [(0, 15)]


def test_the_longest_designator() -> None:
    tokens = [token[1:] for token in query.query_tokens(b"c3-6-7")][:3]
    assert tokens == [("Squares", query.designator(None, b"c3-6")), ("Mark", "-"), ("Number", 7)]
