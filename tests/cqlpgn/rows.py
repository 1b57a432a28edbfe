"""Worked rows: what the program answers to words over files, and each byte that it writes.

A row has the status and both streams that are wanted, as a reader of the language knows them.
"""

from __future__ import annotations

from collections.abc import Callable, Iterator, Mapping
from typing import NamedTuple, Union

from model.program import Answer
from tests.cqlpgn import query_rows

USAGE = "usage: cqlpgn MODE QUERY [ARCHIVE] [--workers N] [--seed S] [--games G] [--limit B] [--first]\n"
MOST = 1099511627776
ITALIAN = "1. e4 e5 2. Bc4 Nc6 3. Qh5 Nf6 4. Qxf7 1-0"
OPENED = "1. e4 e5 2. Nf3 *"

# ---- the rows

# A query, an archive of one game that it finds, and how this is written: its movetext, and its FEN text where it has one.
FOUND: list[tuple[str, ...]] = [
    ("cql() Ka1", '[FEN "8/8/8/8/8/8/8/K1k5 w - - 0 1"]\n*\n', "{CQL} *", "8/8/8/8/8/8/8/K1k5 w - - 0 1"),
    ("cql() Nf3", OPENED, "1. e4 e5 2. Nf3 {CQL} *"),
    ("cql() Pe4 pe7", "1. e4 e5 *", "1. e4 {CQL} 1... e5 *"),
    ('cql() Pe4 pe7 sort "p" power A', "1. e4 e5 *", "1. e4 {CQL} 1... e5 *"),
    ("cql() Qf7", ITALIAN, "1. e4 e5 2. Bc4 Nc6 3. Qh5 Nf6 4. Qxf7# {CQL} 1-0"),
    ("cql() Qa8", '[FEN "7k/P7/8/8/8/8/8/K7 w - - 0 1"]\n1. a8Q *', "1. a8=Q+ {CQL} *", "7k/P7/8/8/8/8/8/K7 w - - 0 1"),
    ("cql(variations) Pd4", "1. e4 (1. d4) e5 *", "1. e4 (1. d4 {CQL}) 1... e5 *"),
    ('cql(matchstring "mate") Qf7 ke8', ITALIAN, "1. e4 e5 2. Bc4 Nc6 3. Qh5 Nf6 4. Qxf7# {mate} 1-0"),
    (
        "cql() Pe4",
        "{A} 1. e4 $1 {B} (1. d4 d5 (1... Nf6)) (1. --) 1... e5 *",
        "{A} 1. e4 $1 {B} {CQL} (1. d4 d5 (1... Nf6)) (1. --) 1... e5 {CQL} *",
    ),
    ("cql() mate", ITALIAN, "1. e4 e5 2. Bc4 Nc6 3. Qh5 Nf6 4. Qxf7# {CQL} 1-0"),
    ("cql() (line --> Pe4* --> Pe4) >= 2", OPENED, "1. e4 {CQL} 1... e5 {CQL} 2. Nf3 *"),
    ("cql() flipcolor Qh5", "1. f3 e5 2. g4 Qh4# 0-1", "1. f3 e5 2. g4 Qh4# {CQL} 0-1"),
    # transforms within transforms, of which some images are equal: of four corners, of squares beside one another, of sets that are counted
    ("cql() rotate90 flip Ka1", '[FEN "K7/8/8/8/8/8/8/2k5 w - - 0 1"]\n*\n', "{CQL} *", "K7/8/8/8/8/8/8/2k5 w - - 0 1"),
    ("cql() initial find shift flip { Pa2 Pb3 }", "1. b3 *", "{CQL} 1. b3 *"),
    ("cql() #(flipcolor shift Ka1) == 2", OPENED, "{CQL} 1. e4 {CQL} 1... e5 {CQL} 2. Nf3 {CQL} *"),
    ("cql() initial", '[FEN "4r2k/8/8/8/4N3/8/8/1N2K3 w - - 0 1"]\n1. Nd2 *\n', "{CQL} 1. Nd2 *", "4r2k/8/8/8/4N3/8/8/1N2K3 w - - 0 1"),
    ("cql() initial", "1. e4 (1. --) e5 *", "{CQL} 1. e4 (1. --) 1... e5 *"),
    ("cql() R attacks k #between(R k) == 3", '[FEN "R3k3/8/8/8/8/8/8/4K3 b - - 0 1"]\n*\n', "{CQL} *", "R3k3/8/8/8/8/8/8/4K3 b - - 0 1"),
    ("cql() initial find mate", ITALIAN, "{CQL} 1. e4 e5 2. Bc4 Nc6 3. Qh5 Nf6 4. Qxf7# 1-0"),
    (
        'cql() square all x in K { x attacks _a2 } comment "corner"',
        '[FEN "8/8/8/8/8/8/8/K1k5 w - - 0 1"]\n*\n',
        "{CQL} {corner} *",
        "8/8/8/8/8/8/8/K1k5 w - - 0 1",
    ),
    ("cql() (line <-- Nf3 <-- Pe4+) == 3", OPENED, "1. e4 e5 2. Nf3 {CQL} *"),
    ("cql() (line --> wtm --> btm --> wtm) == 3", OPENED, "{CQL} 1. e4 e5 2. Nf3 *"),
    ("cql() (line 2 2 --> Pe4*) == 2", OPENED, "1. e4 {CQL} 1... e5 {CQL} 2. Nf3 *"),
    ("cql() move from N to f3", OPENED, "1. e4 e5 2. Nf3 {CQL} *"),
    ("cql() move capture pd5", "1. e4 a6 2. e5 d5 3. exd6 *", "1. e4 a6 2. e5 d5 3. exd6 {CQL} *"),
    (
        "cql() flipcolor move promote q",
        '[FEN "7k/P7/8/8/8/8/8/K7 w - - 0 1"]\n1. a8Q *',
        "1. a8=Q+ {CQL} *",
        "7k/P7/8/8/8/8/8/K7 w - - 0 1",
    ),
    ("cql() parent initial child child Nf3", OPENED, "1. e4 {CQL} 1... e5 2. Nf3 *"),
    ("cql(variations) depth == 1 variation terminal", "1. e4 (1. d4) e5 *", "1. e4 (1. d4 {CQL}) 1... e5 *"),
    ("cql() ply == 2 movenumber == 2 wtm", OPENED, "1. e4 e5 {CQL} 2. Nf3 *"),
    ("cql() hascomment mainline", "1. e4 {book} e5 *", "1. e4 {book} {CQL} 1... e5 *"),
    ("cql() rotate90 Ka1", '[FEN "k6K/8/8/8/8/8/8/8 w - - 0 1"]\n*\n', "{CQL} *", "k6K/8/8/8/8/8/8/8 w - - 0 1"),
    (
        "cql() if check then mate else power A - power a == 1",
        '[FEN "4k3/8/8/8/8/8/P7/4K3 w - - 0 1"]\n*\n',
        "{CQL} *",
        "4k3/8/8/8/8/8/P7/4K3 w - - 0 1",
    ),
    ("cql() up 2 P & n or K attackedby r", '[FEN "4k3/8/8/8/n7/8/P7/4K3 w - - 0 1"]\n*\n', "{CQL} *", "4k3/8/8/8/n7/8/P7/4K3 w - - 0 1"),
    ("cql() result 1-0 terminal", ITALIAN, "1. e4 e5 2. Bc4 Nc6 3. Qh5 Nf6 4. Qxf7# {CQL} 1-0"),
    ('cql(matchstring " ") mate', ITALIAN, "1. e4 e5 2. Bc4 Nc6 3. Qh5 Nf6 4. Qxf7# 1-0"),
    # what a rook, a knight, a pawn, a king and an empty square attack, and which men attack squares
    (
        "cql() #(. attackedby Ra1) == 7 #([b-e1,a2-4] attackedby Ra1) == 7 #(. attackedby Nc2) == 6"
        " #([a1,a3,b4,d-e1-3] attackedby Nc2) == 5 #([a1,a3,b4,d4,e1,e3] attackedby Nc2) == 6"
        " #(. attackedby Pa4) == 1 b5 attackedby Pa4 #(. attackedby ke8) == 5 #([d8,f8,d-f7] attackedby ke8) == 5 #(. attackedby _b1) == 0",
        '[FEN "4k3/8/8/8/P7/8/2N5/R3K3 b - - 0 1"]\n*\n',
        "{CQL} *",
        "4k3/8/8/8/P7/8/2N5/R3K3 b - - 0 1",
    ),
    (
        "cql() #(. attacks e5) == 2 Pd4 attacks e5 Qe2 attacks e5 #(. attacks [d-e5]) == 3 Nc3 attacks d5 #(. attacks h8) == 0",
        '[FEN "4k3/8/8/8/3P4/2N5/4Q3/4R1K1 b - - 0 1"]\n*\n',
        "{CQL} *",
        "4k3/8/8/8/3P4/2N5/4Q3/4R1K1 b - - 0 1",
    ),
    ("cql() check", '[FEN "4k3/8/8/8/8/8/8/4RK2 b - - 0 1"]\n*\n', "{CQL} *", "4k3/8/8/8/8/8/8/4RK2 b - - 0 1"),
    # squares between others, on files, ranks and diagonals, and where there is none
    (
        "cql() #between(a1 h8) == 6 #between(h1 a8) == 6 #between(e1 e8) == 6 #between(e8 e1) == 6"
        " #between(b1 c3) == 0 #between(b2 b2) == 0"
        " #between([a1,h1] [a8,c1]) == 17",
        OPENED,
        "{CQL} 1. e4 {CQL} 1... e5 {CQL} 2. Nf3 {CQL} *",
    ),
    # steps in a direction, and off the board; light squares and dark ones
    (
        "cql() #(e8 & up 4 e4) == 1 #up 5 e4 == 0 #(h8 & northeast 7 a1) == 1 #(a8 & left 7 h8) == 1 #(e4 & down 0 e4) == 1",
        OPENED,
        "{CQL} 1. e4 {CQL} 1... e5 {CQL} 2. Nf3 {CQL} *",
    ),
    # a man that only a variation has, and one that only an image has
    (
        "cql(variations) Qa8",
        '[FEN "4k3/P7/8/8/8/8/8/4K3 w - - 0 1"]\n1. Kd2 (1. a8Q) *',
        "1. Kd2 (1. a8=Q+ {CQL}) *",
        "4k3/P7/8/8/8/8/8/4K3 w - - 0 1",
    ),
    ("cql() flip { wtm Kh1 }", '[FEN "7k/P7/8/8/8/8/8/K7 w - - 0 1"]\n1. a8=Q *', "{CQL} 1. a8=Q+ *", "7k/P7/8/8/8/8/8/K7 w - - 0 1"),
    ("cql() #light [a1,h1,d1,e1,h8] == 2 light h1 light d1", OPENED, "{CQL} 1. e4 {CQL} 1... e5 {CQL} 2. Nf3 {CQL} *"),
]

# Positions, and whether they are a mate and a stalemate: check without mate, the shortest mate, a smothered mate, a stalemate in a corner,
# and one with a pinned man.
ENDS = [
    ("4k3/8/8/8/8/8/8/4R1K1 b - - 0 1", False, False),
    ("rnb1kbnr/pppp1ppp/8/4p3/6Pq/5P2/PPPPP2P/RNBQKBNR w KQkq - 1 3", True, False),
    ("6rk/5Npp/8/8/8/8/8/6K1 b - - 0 1", True, False),
    ("7k/5Q2/6K1/8/8/8/8/8 b - - 0 1", False, True),
    ("kb5R/8/1K6/8/8/8/8/8 b - - 0 1", False, True),
]

# A game, its tags but the roster, of which each has its default, and its movetext, as they are written.
EXPORTS = [
    (
        "1. e4 (1. d4 d5 (1... Nf6 2. c4 (2. Nf3)) 2. c4) (1. c4) e5 2. Nf3 *",
        "",
        "1. e4 (1. d4 d5 (1... Nf6 2. c4 (2. Nf3)) 2. c4) (1. c4) 1... e5 2. Nf3 *",
    ),
    ("1. e4 e5 (1... c5) 1/2-1/2", "", "1. e4 e5 (1... c5) 1/2-1/2"),
    (
        "{of the\n game} 1. e4 ({before} 1. d4 {own}) {after} e5 *",
        "",
        "{of the game} 1. e4 {after} (1. d4 {before} {own}) 1... e5 *",
    ),
    (
        "1. e4! e5? 2. Nf3!! Nc6?? 3. Bb5!? a6?! 0-1",
        "",
        "1. e4 $1 1... e5 $2 2. Nf3 $3 2... Nc6 $4 3. Bb5 $5 3... a6 $6 0-1",
    ),
    ("1. e4 ; a } b\ne5 *", "", "1. e4 {a ) b} 1... e5 *"),
    ("1. e4 (1. --) e5 2. Z0 *", "", "1. e4 (1. --) 1... e5 2. -- *"),
    (
        '[FEN "4k3/8/8/8/8/8/8/4K3 b - - 0 7"]\nKd8 8. Kd1 *',
        '[FEN "4k3/8/8/8/8/8/8/4K3 b - - 0 7"]\n[SetUp "1"]\n',
        "7... Kd8 8. Kd1 *",
    ),
    (
        r'[SetUp "0"][Annotator "a \"b\" \\ c \d"] *',
        '[Annotator "a \\"b\\" \\\\ c \\\\d"]\n[SetUp "0"]\n',
        "*",
    ),
    ("1. e4 {" + "1234567890" * 20 + "} e5 *", "", "1. e4\n{" + "1234567890" * 20 + "}\n1... e5 *"),
    ("{ } $3 1. f3 e5 2. g4 Qh4 0-1", "", "1. f3 e5 2. g4 Qh4# 0-1"),
    ('[Event "?"] [Event "b"] {one  two\t} {\r\n} $14 *', "", "{one two} *"),
]

# A composite game with usual tags and clock comments, and how it is written.
CLOCKS = (
    '[Event "Rated blitz game"]\r\n[Site "https://lichess.org/abcd1234"]\r\n[Date "2023.05.14"]\r\n'
    '[Round "-"]\r\n[White "M\u00fcller"]\r\n[Black "anna"]\r\n[Result "1-0"]\r\n[WhiteElo "1850"]\r\n'
    '[BlackElo "1799"]\r\n[TimeControl "180+2"]\r\n\r\n'
    "1. e4 { [%clk 0:03:00] } 1... e5 { [%clk 0:03:00] } 2. Qh5!? { [%clk 0:02:58] } 2... Nc6 "
    "{ [%clk 0:02:57] } 3. Bc4 $1 { [%clk 0:02:55] } 3... Nf6?? { [%clk 0:02:51] } 4. Qxf7# "
    "{ [%clk 0:02:54] } 1-0",
    '[Event "Rated blitz game"]\n[Site "https://lichess.org/abcd1234"]\n[Date "2023.05.14"]\n'
    '[Round "-"]\n[White "M\u00fcller"]\n[Black "anna"]\n[Result "1-0"]\n[BlackElo "1799"]\n'
    '[TimeControl "180+2"]\n[WhiteElo "1850"]\n\n'
    "1. e4 {[%clk 0:03:00]} 1... e5 {[%clk 0:03:00]} 2. Qh5 $5 {[%clk 0:02:58]} 2...\n"
    "Nc6 {[%clk 0:02:57]} 3. Bc4 $1 {[%clk 0:02:55]} 3... Nf6 $4 {[%clk 0:02:51]} 4.\n"
    "Qxf7# {[%clk 0:02:54]} 1-0\n\n",
)

# Positions with texts, and how the moves that these mean are written, or why they are refused: at the start, one piece of several, a pinned
# man, castling, pawns, and a side in check, which can't pass.
ILLEGAL, AMBIGUOUS, NO_MOVE = "illegal move", "ambiguous move", "not a move"
START = "rnbqkbnr/pppppppp/8/8/8/8/PPPPPPPP/RNBQKBNR w KQkq - 0 1"
MOVES = [
    (
        START,
        [("e4", "e4"), ("Pe4", "e4"), ("e2e4", "e4"), ("Pe2xe4", "e4"), ("e4+#++", "e4"), ("b3", "b3"), ("Nf3", "Nf3"), ("Nxf3", "Nf3")]
        + [("Ng1-f3", "Nf3"), ("--", "--"), ("Z0", "--"), ("0-0", ILLEGAL), ("1e4", ILLEGAL), ("Bb3", ILLEGAL), ("e4=Q", ILLEGAL)]
        + [("x", NO_MOVE), ("e9", NO_MOVE), ("nf3", NO_MOVE), ("Z0#", NO_MOVE), ("O-O-O-O", NO_MOVE), ("O-0", NO_MOVE), ("ex4", NO_MOVE)],
    ),
    ("rnbqkb1r/ppp1pppp/5n2/3p4/3P4/5N2/PPP1PPPP/RNBQKB1R w KQkq - 2 3", [("Nd2", AMBIGUOUS), ("Nbd2", "Nbd2"), ("N3d2", "Nfd2")]),
    ("4r2k/8/8/8/4N3/8/8/1N2K3 w - - 0 1", [("Nd2", "Nd2"), ("Nf2", ILLEGAL)]),
    (
        "6k1/8/8/8/Q6Q/8/8/Q3K3 w - - 0 1",
        [("Qd4", AMBIGUOUS), ("Qad4", AMBIGUOUS), ("Q4d4", AMBIGUOUS), ("Qhd4", "Qhd4"), ("Q1d4", "Q1d4"), ("Qa4d4", "Qa4d4")],
    ),
    (
        "r3k2r/8/8/8/8/8/8/R3K2R w KQkq - 0 1",
        [("O-O", "O-O"), ("0-0+", "O-O"), ("O-O-O", "O-O-O"), ("0-0-0#", "O-O-O"), ("Kg1", ILLEGAL), ("Kf1", "Kf1")],
    ),
    ("r3k2r/8/8/8/8/8/8/R3K2R b KQkq - 0 1", [("0-0", "O-O"), ("O-O-O", "O-O-O")]),
    (
        "1r5k/P7/8/8/8/8/8/4K3 w - - 0 1",
        [("a8=Q", "a8=Q"), ("a8N", "a8=N"), ("axb8=R+", "axb8=R+"), ("b8B", "axb8=B"), ("a8", ILLEGAL), ("a8=", NO_MOVE)]
        + [("a8q", NO_MOVE), ("a8=K", NO_MOVE)],
    ),
    ("7k/P7/8/8/8/8/8/K7 w - - 0 1", [("a8Q", "a8=Q+")]),
    ("4k3/8/8/2ppP3/8/8/8/4K3 w - d6 0 2", [("exd6", "exd6"), ("d6", "exd6"), ("exc6", ILLEGAL)]),
    ("4k3/8/8/8/8/8/8/4R1K1 b - - 0 1", [("--", ILLEGAL), ("Z0", ILLEGAL), ("Kd7", "Kd7")]),
    (
        "r3k2r/8/8/3pP3/8/8/8/R3K2R w KQkq d6 0 1",
        [("0-0", "O-O"), ("0-0-0", "O-O-O"), ("ed6", "exd6"), ("e6", "e6"), ("Rh1xh8", "Rxh8+"), ("Rf1", "Rf1")],
    ),
]

# The same with an archive of two games.
FOUND_OF_TWO: list[tuple[str, ...]] = [
    (
        "cql() shift { Pa2 not Pb3 }",
        '[FEN "4k3/8/8/8/7P/8/8/4K3 w - - 0 1"]\n*\n[FEN "4k3/8/8/8/2P5/8/8/4K3 w - - 0 1"]\n*\n',
        "{CQL} *",
        "4k3/8/8/8/2P5/8/8/4K3 w - - 0 1",
    ),
    (
        "cql() fliphorizontal { light Ka1-8 }",
        '[FEN "4k3/8/8/8/8/8/7K/8 w - - 0 1"]\n*\n[FEN "4k3/8/8/8/8/8/8/7K w - - 0 1"]\n*\n',
        "{CQL} *",
        "4k3/8/8/8/8/8/7K/8 w - - 0 1",
    ),
]

# A query, and an archive of one game that it doesn't find.
MISSED = [
    ("cql() Ka1 Kb1", '[FEN "8/8/8/8/8/8/8/K1k5 w - - 0 1"]\n*\n'),
    ("cql() Pd4", '[FEN "8/8/8/8/8/8/8/K1k5 w - - 0 1"]\n*\n'),
    ("cql() Pd4", "1. e4 (1. d4) e5 *"),
    ("cql() Qa8", '[FEN "4k3/P7/8/8/8/8/8/4K3 w - - 0 1"]\n1. Kd2 (1. a8Q) *'),
    ("cql() Qa8", '[FEN "4k3/8/8/8/8/8/8/4K3 w - - 0 1"]\n*\n'),
    ("cql() 999999999 * 999999999 * 999999999", "*"),
    ("cql() line --> check{0}", OPENED),
    ("cql() line 3 2 --> wtm", OPENED),
    ("cql() move promote q", '[FEN "7k/P7/8/8/8/8/8/K7 w - - 0 1"]\n1. a8Q *'),
    # each of 64 parts may stand any number of times, and each position needs the next one: the longest row from the start has 64
    ("cql() initial not (line" + " --> wtm* --> btm*" * 32 + ") == 64", "Nf3 Nf6 Ng1 Ng8 " * 60 + "*"),
    ("cql() stalemate", ITALIAN),
    ("cql() result 1/2-1/2", ITALIAN),
    ("cql() initial parent initial", OPENED),
]

# An archive, and the status and the report of `cql() Kb4` over it, which it doesn't find.
REPORTS = [
    ("", 0, "games 0 matched 0 refused 0\n"),
    ("1. e4 (1. d4) e5 *", 0, "games 1 matched 0 refused 0\n"),
    ("1. e4 *\n1. e4 e5 2. Ke3 *\n1. d4 *\n", 1, "game 2 byte 20: illegal move\ngames 3 matched 0 refused 1\n"),
    ("1. d4 d5 2. Nf3 Nf6 3. Nd2 *", 1, "game 1 byte 23: ambiguous move\ngames 1 matched 0 refused 1\n"),
    ("1. e4 e5 2. Qh5 Nc6 3. Qxf7+ -- *", 1, "game 1 byte 29: illegal move\ngames 1 matched 0 refused 1\n"),
    ('1. e4 {never closed\n[Event "x"]\n1. d4 *\n', 1, "game 1 byte 6: unclosed comment\ngames 1 matched 0 refused 1\n"),
    ('[FEN "4k3/8/8/8/8/8/8/4RK2 w - - 0 1"]\n*', 1, "game 1 byte 5: bad FEN\ngames 1 matched 0 refused 1\n"),
    ("1. e4 1-0x *", 1, "game 1 byte 6: not a move\ngames 1 matched 0 refused 1\n"),
    ('[Event "x', 1, "game 1 byte 7: unclosed string\ngames 1 matched 0 refused 1\n"),
    ("1. e4 ((", 1, "game 1 byte 7: variation without move\ngames 1 matched 0 refused 1\n"),
    ("1. e4 ()", 1, "game 1 byte 7: empty variation\ngames 1 matched 0 refused 1\n"),
    ("1. e4 )", 1, "game 1 byte 6: unopened variation\ngames 1 matched 0 refused 1\n"),
    ("1. e4 (1. d4", 1, "game 1 byte 12: unclosed variation\ngames 1 matched 0 refused 1\n"),
    ("1. e4 (1. d4\n", 1, "game 1 byte 13: unclosed variation\ngames 1 matched 0 refused 1\n"),
    ("1. e4 $256 *", 1, "game 1 byte 6: NAG out of range\ngames 1 matched 0 refused 1\n"),
    ('[Event "x"\n*', 1, "game 1 byte 11: bad tag\ngames 1 matched 0 refused 1\n"),
    ("]", 1, "game 1 byte 0: bad tag\ngames 1 matched 0 refused 1\n"),
    ('$1 [a "b"] *', 1, "game 1 byte 3: bad tag\ngames 1 matched 0 refused 1\n"),
    ("1. e4 \x01 *", 1, "game 1 byte 6: bad byte\ngames 1 matched 0 refused 1\n"),
    ("*\n*\n", 0, "games 2 matched 0 refused 0\n"),
    ("{only a comment}", 0, "games 0 matched 0 refused 0\n"),
    ('[Event "x"]\n', 0, "games 1 matched 0 refused 0\n"),
    ("1. e4 Z0 2. d4 1/2-1/2", 0, "games 1 matched 0 refused 0\n"),
    ("\ufeff*", 0, "games 1 matched 0 refused 0\n"),
    ('[FEN "8/8/8/8/8/8/8/K1k5 w - - 0 1"][FEN "x"] *', 0, "games 1 matched 0 refused 0\n"),
    ("1. e4 -- 2. e5", 0, "games 1 matched 0 refused 0\n"),
    ("[1-0", 1, "game 1 byte 4: bad tag\ngames 1 matched 0 refused 1\n"),
    ('[a "b" $300', 1, "game 1 byte 7: bad tag\ngames 1 matched 0 refused 1\n"),
    ("1. e4 e5 2. Bc5 zz (((", 1, "game 1 byte 12: illegal move\ngames 1 matched 0 refused 1\n"),
    ("1. xyz", 1, "game 1 byte 3: not a move\ngames 1 matched 0 refused 1\n"),
    ('[FEN "x"] *', 1, "game 1 byte 5: bad FEN\ngames 1 matched 0 refused 1\n"),
    ("1. e4 ~", 1, "game 1 byte 6: bad byte\ngames 1 matched 0 refused 1\n"),
    ('[FEN "4k3/8/8/8/8/8/4K3/R6R w - - 0 1"] 1. Rd1 *', 1, "game 1 byte 43: ambiguous move\ngames 1 matched 0 refused 1\n"),
    # 100 levels of variations and one more, 65,536 positions and one more, 2^24 bytes and one more
    ("1. e4 " + "(1. d4 " * 100 + ") " * 100 + "*", 0, "games 1 matched 0 refused 0\n"),
    ("1. e4 " + "(1. d4 " * 101 + ") " * 101 + "*", 1, "game 1 byte 706: too deep\ngames 1 matched 0 refused 1\n"),
    ("Nf3 Nf6 Ng1 Ng8 " * 16383 + "Nf3 Nf6 Ng1 *", 0, "games 1 matched 0 refused 0\n"),
    ("Nf3 Nf6 Ng1 Ng8 " * 16384 + "*", 1, "game 1 byte 262140: too many positions\ngames 1 matched 0 refused 1\n"),
    ("1. e4 {" + "x" * 16777206 + "} *", 0, "games 1 matched 0 refused 0\n"),
    ("1. e4 {" + "x" * 16777207 + "} *", 1, "game 1 byte 16777216: game too long\ngames 1 matched 0 refused 1\n"),
]

# A mode and a query over the archive `*`, and the status and the line that turn them away.
TURNED_AWAY = [
    ("eval", "cql() echo", 2, "query byte 6: outside profile echo\n"),
    ("selfrun", "cql() echo", 2, "query byte 6: outside profile echo\n"),
    ("explain", "-", 2, "query byte 0: unexpected token\n"),
    ("play", "cql() Ka1", 3, USAGE),
]

# The greatest numbers that words may have, which are read before the query.
GREATEST = ["--seed", "4294967295", "--games", "100000", "--workers", "64"]

# Words that ask for a made archive, and the line that is written.
MADE: list[tuple[list[str], str]] = [
    (["selfrun", "cql() mate", "--games", "0"], "bytes 0 games 0 matched 0 refused 0 written 0\n"),
    (["selfrun", "cql() mate", "--games", "5", "--workers", "1"], "bytes 1774 games 5 matched 0 refused 0 written 0\n"),
    (["selfrun", "cql() mate", "--games", "5", "--workers", "64"], "bytes 1774 games 5 matched 0 refused 0 written 0\n"),
    (["selfrun", "cql() mate", "--games", "20"], "bytes 7518 games 20 matched 0 refused 0 written 0\n"),
    (["selfrun", 'cql() check sort "p" power A', "--games", "5"], "bytes 1774 games 5 matched 2 refused 0 written 684\n"),
    (["selfrun", "cql() check", "--games", "5", "--seed", "7"], "bytes 2211 games 5 matched 3 refused 0 written 1352\n"),
    (["selfrun", "cql(variations) variation check", "--games", "20"], "bytes 7518 games 20 matched 1 refused 0 written 314\n"),
    (["selfrun", "cql() mate"], "bytes 39477 games 100 matched 1 refused 0 written 545\n"),
    (["selfrun", "cql() check", "--seed", "4294967295", "--games", "5"], "bytes 2799 games 5 matched 3 refused 0 written 1805\n"),
]

# Words that are refused.
REFUSED: list[list[str]] = [
    [],
    ["eval"],
    ["eval", "cql() check", "--workers", "0"],
    ["eval", "cql() check", "--workers", "65"],
    ["eval", "cql() check", "--limit", "0"],
    ["eval", "cql() check", "--limit", "1099511627777"],
    ["eval", "cql() check", "--last"],
    ["eval", "cql() check", "--first", "--first"],
    ["check", "q.cql", "--first"],
    ["explain", "q.cql", "--first"],
    ["selfrun", "cql() check", "--first"],
    ["eval", "cql() check", "--seed", "1"],
    ["--help"],
    ["check", "q.cql", "-"],
    ["check", "q.cql", "r.cql"],
    ["eval", "cql() mate", "cql() check", "-"],
    ["explain", "q.cql", "--workers", "2"],
    ["selfrun", "cql() mate", "--seed", "4294967296"],
    ["selfrun", "cql() mate", "--games", "100001"],
    ["selfrun", "cql() mate", "-"],
    ["-h"],
    ["--version"],
    ["many"],
    ["many", "q", "a.pgn", "b"],
    ["many", "q", "--first"],
    ["many", "q", "--seed", "1"],
    ["many", "q", "--games", "1"],
    ["many", "q", "--workers", "65"],
    ["eval", "q", "--workers"],
    ["eval", "q", "--workers", "1", "--workers", "1"],
    ["eval", "q", "--first=true"],
    ["check", "q", "--limit", "2"],
    ["run", "q", "--games", "1"],
    ["selfrun", "q", "--limit", "3"],
]

# Words in other orders and forms, over the game `1. e4 *` as a.pgn and as standard input; of files q.cql and two.cql.
ORDERED = [
    ["run", "q.cql"],
    ["run", "q.cql", "a.pgn"],
    ["run", "q.cql", "--workers", "64", "a.pgn", "--limit", "8"],
    ["run", "q.cql", "--limit", "8"],
    ["--workers=1", "run", "q.cql", "--limit=1099511627776"],
    ["run", "q.cql", "--first"],
    ["--first", "run", "q.cql", "--workers", "2", "a.pgn", "--limit", "9"],
    ["eval", "cql() initial"],
]

# Three places, of a pawn, a rook and a pawn; and ten places of white men, of which some have as many of each man.
SORTED = ["4k3/8/8/8/8/8/P7/4K3 w - - 0 1", "4k3/8/8/8/8/8/8/R3K3 w - - 0 1", "4k3/8/8/8/8/7P/8/4K3 w - - 0 1"]
TEN = [
    "4k3/8/8/8/8/8/8/Q3K3 b - - 0 1",
    "4k3/8/8/8/8/8/8/RNB1K3 b - - 0 1",
    "4k3/8/8/8/8/8/8/QNB1K3 b - - 0 1",
    "4k3/8/8/8/8/8/8/4K3 b - - 0 1",
    "4k3/8/8/8/8/8/8/QN2K3 b - - 0 1",
    "4k3/8/8/8/8/8/8/RN2K3 b - - 0 1",
    "4k3/8/8/8/8/8/8/1QNBK3 b - - 0 1",
    "4k3/8/8/8/8/8/8/QRNNK3 b - - 0 1",
    "4k3/8/8/8/8/8/8/1RNBK3 b - - 0 1",
    "4k3/8/8/8/8/8/8/1Q2K3 b - - 0 1",
]

# Queries with sort items, some places, and the order of these.
ORDERS = [
    ('cql() sort "p" power A', SORTED, [1, 0, 2]),
    ('cql() sort min "p" power A', SORTED, [0, 2, 1]),
    ('cql() sort "p" power A sort "h" #Ph3', SORTED, [1, 2, 0]),
    ('cql() sort "a" 1 sort min "b" power A sort "c" ply sort "d" #Ph3', SORTED, [2, 0, 1]),
    ('cql() sort "q" #Q sort min "r" #R sort "n" #N sort min "b" #B', TEN, [4, 2, 6, 0, 9, 7, 3, 5, 1, 8]),
]

# A mode, a query and an archive, and the status and the report, by any number of workers.
MALICIOUS = [
    ("run", "", "*", 2, "query byte 0: unexpected end\n"),
    ("eval", "cql() initial", "1. e4 ()", 1, "game 1 byte 7: empty variation\ngames 1 matched 0 refused 1\n"),
    ("eval", "cql() initial", "1. e4 )", 1, "game 1 byte 6: unopened variation\ngames 1 matched 0 refused 1\n"),
    ("eval", "cql() initial", "1. e4 (1. d4", 1, "game 1 byte 12: unclosed variation\ngames 1 matched 0 refused 1\n"),
    ("eval", "cql() initial", "1. e4 $256 *", 1, "game 1 byte 6: NAG out of range\ngames 1 matched 0 refused 1\n"),
    ("eval", "cql() initial", '[Event "x"\n*', 1, "game 1 byte 11: bad tag\ngames 1 matched 0 refused 1\n"),
    ("eval", "cql() initial", "]", 1, "game 1 byte 0: bad tag\ngames 1 matched 0 refused 1\n"),
    ("eval", "cql() initial", "1. e4 \x01 *", 1, "game 1 byte 6: bad byte\ngames 1 matched 0 refused 1\n"),
    ("eval", "cql() initial", "1. e4 " + "(1. d4 " * 101, 1, "game 1 byte 706: too deep\ngames 1 matched 0 refused 1\n"),
    ("eval", "cql() initial", "{" + "x" * 16777216, 1, "game 1 byte 16777216: game too long\ngames 1 matched 0 refused 1\n"),
    ("eval", " " * 65537, "*", 2, "query byte 65536: query too long\n"),
    ("eval", "cql() " + "(" * 65, "*", 2, "query byte 70: too deep\n"),
]

# Up to the first match: how many games there are and which matches, counted from 1, and the limit; then the status, whether a game is
# written, and the last line of the report or nothing.
FIRST = [
    (4, 3, MOST, 1, True, "games 3 matched 1 refused 1\n"),
    (4, 1, MOST, 0, True, "games 1 matched 1 refused 0\n"),
    (4, 0, MOST, 1, False, "games 4 matched 0 refused 1\n"),
    (2048, 1025, MOST, 1, True, "games 1025 matched 1 refused 1\n"),
    (2048, 3, 8192, 1, True, "games 3 matched 1 refused 1\n"),
    (2048, 3, 8191, 1, True, "games 3 matched 1 refused 1\n"),
    (2048, 2000, 8192, 8, False, ""),
]


class Row(NamedTuple):
    """Words, files by their names (`-` is standard input), and the status and both streams that are wanted."""

    words: list[str]
    files: dict[str, bytes]
    want: Answer


Text = Union[str, bytes]
Rows = Iterator[Row]


def as_bytes(text: Text) -> bytes:
    return text.encode() if isinstance(text, str) else text


def row(words: list[str], files: Mapping[str, Text], status: int, out: Text, err: Text) -> Row:
    return Row(words, {name: as_bytes(text) for name, text in files.items()}, (status, as_bytes(out), as_bytes(err)))


def written(tags: str, movetext: str) -> str:
    """The export text of a game whose roster has its defaults, with the lines of its other tags."""
    roster = ['Event "?"', 'Site "?"', 'Date "????.??.??"', 'Round "?"', 'White "?"', 'Black "?"']
    roster.append('Result "%s"' % movetext.split()[-1])
    return "".join("[%s]\n" % tag for tag in roster) + tags + "\n" + movetext + "\n\n"


def exported(movetext: str, fen: str | None = None) -> str:
    """The export text of a game with no tags but its FEN."""
    return written('[FEN "%s"]\n[SetUp "1"]\n' % fen if fen else "", movetext)


def found() -> Rows:
    """Games that are found."""
    for games, table in ((1, FOUND), (2, FOUND_OF_TWO)):
        for query, archive, movetext, *fen in table:
            report = "games %d matched 1 refused 0\n" % games
            yield row(["eval", query], {"-": archive}, 0, exported(movetext, *fen), report)


def missed() -> Rows:
    """Games that are missed."""
    for query, archive in MISSED:
        yield row(["eval", query], {"-": archive}, 0, "", "games 1 matched 0 refused 0\n")


def ends() -> Rows:
    """Positions that are a mate, a stalemate or neither."""
    for fen, *truths in ENDS:
        for query, is_so in zip(("cql() mate", "cql() stalemate"), truths):
            report = "games 1 matched %d refused 0\n" % is_so
            yield row(["eval", query], {"-": '[FEN "%s"]\n*\n' % fen}, 0, exported("{CQL} *", fen) if is_so else "", report)


def reports() -> Rows:
    """Faulty archives, and games at each limit and above it."""
    for archive, status, report in REPORTS:
        yield row(["eval", "cql() Kb4"], {"-": archive}, status, "", report)


def orders() -> Rows:
    """Places that are sorted."""
    for query, fens, order in ORDERS:
        archive = "".join('[FEN "%s"]\n*\n' % fen for fen in fens)
        report = "games %d matched %d refused 0\n" % (len(fens), len(fens))
        yield row(["eval", query], {"-": archive}, 0, "".join(exported("{CQL} *", fens[k]) for k in order), report)


def exports() -> Rows:
    """Games as they are written without a mark, and what is written once more."""
    texts = [(archive, written(tags, movetext)) for archive, tags, movetext in EXPORTS]
    for archive, text in [*texts, CLOCKS]:
        for given in (archive, text):
            yield row(["eval", 'cql(matchstring " ") initial'], {"-": given}, 0, text, "games 1 matched 1 refused 0\n")


def moves() -> Rows:
    """A move by its text at a position."""
    for fen, texts in MOVES:
        _, side, _, _, _, number = fen.split()
        begin = '[FEN "%s"]\n' % fen
        for text, move in texts:
            words, files = ["eval", 'cql(matchstring " ") initial'], {"-": begin + text + " *"}
            if move in (ILLEGAL, AMBIGUOUS, NO_MOVE):
                yield row(words, files, 1, "", "game 1 byte %d: %s\ngames 1 matched 0 refused 1\n" % (len(begin), move))
            else:
                movetext = "%s%s %s *" % (number, "." if side == "w" else "...", move)
                yield row(words, files, 0, exported(movetext, fen), "games 1 matched 1 refused 0\n")


def words_that_are_refused() -> Rows:
    """Words that the program turns away, and queries that it does."""
    for mode, query, status, line in TURNED_AWAY:
        yield row([mode, query], {"-": "*"}, status, "", line)
    yield row(["selfrun", "cql() echo", *GREATEST], {}, 2, "", "query byte 6: outside profile echo\n")
    for words in REFUSED:
        yield row(words, {"-": "*"}, 3, "", USAGE)


def made() -> Rows:
    """Archives that are made."""
    for words, line in MADE:
        yield row(words, {"-": "*"}, 0, line, "")


def words_and_files() -> Rows:
    """Limits that are met and not met, files by their names, and words in other orders."""
    initial = ["eval", "cql() initial", "--limit", "8"]
    yield row(initial, {"-": "1. e4 *\n"}, 0, exported("{CQL} 1. e4 *"), "games 1 matched 1 refused 0\n")
    yield row(initial, {"-": "1. e4 *\n\n"}, 8, "", "")
    files = {"q.cql": "// A knight.\r\ncql() Nf3\r\n", "echo.cql": "cql() echo", "a.pgn": "1. e4 e5 2. Nf3 *\n"}
    for words in (["run", "q.cql", "a.pgn"], ["eval", "cql() Nf3", "a.pgn"]):
        yield row(words, files, 0, exported("1. e4 e5 2. Nf3 {CQL} *"), "games 1 matched 1 refused 0\n")
    yield row(["run", "echo.cql", "a.pgn"], files, 2, "", "query byte 6: outside profile echo\n")
    files = {"q.cql": "cql() initial", "a.pgn": "1. e4 *\n", "-": "1. e4 *\n"}
    for words in ORDERED:
        yield row(words, files, 0, exported("{CQL} 1. e4 *"), "games 1 matched 1 refused 0\n")


def malicious() -> Rows:
    """Input that means harm, and a game that is found beside it."""
    for workers in ("1", "4"):
        query, archive, movetext, fen = FOUND[0]
        words = ["eval", query, "-", "--workers", workers]
        yield row(words, {"-": archive}, 0, exported(movetext, fen), "games 1 matched 1 refused 0\n")
        for mode, query, archive, status, report in MALICIOUS:
            asked, files = ("q.cql", {"q.cql": query, "-": archive}) if mode == "run" else (query, {"-": archive})
            yield row([mode, asked, "-", "--workers", workers], files, status, "", report)


def first_matches() -> Rows:
    """Answers up to the first match; the second of the games is faulty."""
    for workers in ("1", "4"):
        for games, first, limit, status, is_written, last in FIRST:
            archive = ["1. e4 *\n"] * games
            if first:
                archive[first - 1] = "1. d4 *\n"
            archive[1] = "1. e5 *\n"
            words = ["eval", "cql() Pd4", "--first", "--workers", workers, "--limit", str(limit)]
            report = last if first == 1 else "game 2 byte 11: illegal move\n" + last
            yield row(words, {"-": "".join(archive)}, status, exported("1. d4 {CQL} *") if is_written else "", report)


def queries() -> Rows:
    """Queries and what is said of their faults."""
    for text, fault in [*query_rows.said(), *query_rows.weighed()]:
        words, files = ["check", "q.cql"], {"q.cql": text}
        yield row(words, files, 2, "", b"query byte %s\n" % fault) if fault else row(words, files, 0, "ok\n", "")


def flat_forms() -> Rows:
    """Queries and their flat forms."""
    for text, lines in query_rows.flat():
        yield row(["explain", "q.cql"], {"q.cql": text}, 0, lines, "")


KINDS: list[Callable[[], Rows]] = [found, missed, ends, reports, orders, exports, moves, words_that_are_refused, made, words_and_files]
KINDS += [malicious, first_matches, queries, flat_forms]


def rows() -> Iterator[tuple[str, Row]]:
    """Each row with its name: what it shows, and its number among those."""
    for kind in KINDS:
        for number, one in enumerate(kind(), 1):
            yield f"{kind.__name__}-{number}", one
