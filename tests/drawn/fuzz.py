"""Random archives, queries and query texts: the built program is compared with the model.

    python3 -m tests.drawn.fuzz BINARY MODE SEED COUNT

MODE is `archives` (random and mutated archives), `queries` (random queries over small games), `squares` (queries with one to three
`square`, as players write them, with `find`, `child`, `parent` and families around them, five over each archive), `explained` (the same
queries as `queries` by `explain`), `many` (files of such queries, which have parts in common) or `texts` (mutated query texts and texts
near the limits, by `check`). Differences land in the folder out/ beside this file. pypy3 is several times faster than python3 here."""

from __future__ import annotations


import os
import random
import re
import subprocess
import sys
import tempfile
from typing import Callable

from model import chess, meaning, program, query
from model.pgn import Fault, Game

RANDOM = random.Random()


def chance(p: float) -> bool:
    return RANDOM.random() < p


# Archives.
def san(p: chess.Position, mv: chess.Move | None) -> str:
    if mv is None:
        return RANDOM.choice(["--", "Z0", "--"])
    t = chess.san_text(p, mv)
    c = RANDOM.random()
    if c < 0.6:
        return t
    if t.startswith("O"):
        t = RANDOM.choice([t.rstrip("+#"), t.replace("O", "0"), t])
        return t
    fr, to, pr = mv
    man = "KQRBNP"[p.board[fr] % 6]
    s = "" if man == "P" and chance(0.8) else man
    k = RANDOM.random()
    if k < 0.5:
        s += chess.square_name(fr)
    elif k < 0.7:
        s += chess.square_name(fr)[0]
    elif k < 0.8:
        s += chess.square_name(fr)[1]
    s += RANDOM.choice(["", "", "x", "-"]) + chess.square_name(to)
    if pr is not None:
        s += RANDOM.choice(["=", ""]) + "KQRBN"[pr]
    return s + RANDOM.choice(["", "", "+", "#", "++", "#+"])


COMMENT_WORDS = [
    "a",
    "good",
    "move",
    "[%clk",
    "0:03:00]",
    "x" * 30,
    "e4",
    "(",
    ")",
    '"',
    "\\",
    ";",
    "%",
    "$3",
    "1-0",
    "*",
    "Müller",
    "{",
    "--",
    "verylongword" * 8,
]


def comment() -> str:
    if chance(0.25):
        return ";" + " ".join(RANDOM.choice(COMMENT_WORDS + ["}"]) for _ in range(RANDOM.randint(0, 5))) + "\n"
    sep = RANDOM.choice([" ", " ", "\n", "  ", "\t", "\r\n"])
    return (
        "{"
        + RANDOM.choice(["", " "])
        + sep.join(RANDOM.choice(COMMENT_WORDS) for _ in range(RANDOM.choice([0, 1, 2, 3, 5, 12])))
        + RANDOM.choice(["", " "])
        + "}"
    )


def nag() -> str:
    return RANDOM.choice("! ? !! ?? !? ?! $1 $0 $14 $255 $007 $139".split())


def gen_line(p: chess.Position, depth: int, n: int, cfg: dict[str, float], first: bool = True) -> list[str]:
    out = []

    def extras() -> None:
        while chance(cfg["extra"]):
            out.append(comment() if chance(0.5) else nag())

    if depth:
        extras()
    for _ in range(n):
        ms = chess.legal_moves(p)
        mv = None
        if ms and not chance(cfg["null"]):
            caps = [x for x in ms if p.board[x[1]] != chess.EMPTY or x[2] is not None]
            mv = RANDOM.choice(caps) if caps and chance(0.3) else RANDOM.choice(ms)
        if mv is None:
            q = chess.play_null(p)
            if q is None:
                if not ms:
                    break
                mv = RANDOM.choice(ms)
                q = chess.play(p, mv)
        else:
            q = chess.play(p, mv)
        if chance(0.5):
            out.append("%d." % p.number if p.side == 0 else "%d..." % p.number)
        elif chance(0.1):
            out.append(RANDOM.choice(["1", "...", ".", "999", "12."]))
        if mv is not None and chance(0.05) and not chess.san_text(p, mv).startswith("O"):
            t = chess.san_text(p, mv)
        else:
            t = san(p, mv)
        out.append(t)
        extras()
        while depth < 4 and chance(cfg["var"]):
            out.append("(")
            out += gen_line(p, depth + 1, RANDOM.choice([1, 1, 2, 3]), cfg)
            out.append(")")
            extras()
        p = q
    if depth and chance(0.1):
        out.append(RANDOM.choice(["*", "1-0", "1/2-1/2"]))
    return out


FENS = [
    b"7k/P7/8/8/8/8/8/K7 w - - 0 1",
    b"r3k2r/8/8/8/8/8/8/R3K2R w KQkq - 0 1",
    b"r3k2r/p1ppqpb1/bn2pnp1/3PN3/1p2P3/2N2Q1p/PPPBBPPP/R3K2R w KQkq - 0 1",
    b"8/2p5/3p4/KP5r/1R3p1k/8/4P1P1/8 w - - 0 1",
    b"r3k2r/Pppp1ppp/1b3nbN/nP6/BBP1P3/q4N2/Pp1P2PP/R2Q1RK1 w kq - 0 1",
    b"4r2k/8/8/8/4N3/8/8/1N2K3 w - - 0 1",
    b"8/8/8/8/8/8/8/K1k5 w - - 0 1",
    b"rnbqkbnr/ppp1pppp/8/8/3pP3/8/PPPP1PPP/RNBQKBNR b KQkq e3 0 3",
    b"4k3/8/8/8/8/8/8/N1N1KN1N w - - 0 1",
    b"2q1k2q/8/8/8/8/8/8/Q2QK2Q b - - 5 77",
    b"8/k1P1P1p1/8/8/8/8/1p1p1P1K/8 b - - 0 40",
    b"k7/8/1K6/8/8/8/8/7R w - - 0 1",
    b"7k/5Q2/6K1/8/8/8/8/8 b - - 0 1",
    b"8/8/8/3pP3/8/8/8/k1K5 w - d6",
    b"8/8/8/8/1pP5/8/8/k1K5 b - c3 0 9",
]


def random_fen() -> str:
    c = RANDOM.random()
    if c < 0.4:
        return RANDOM.choice(FENS).decode()
    if c < 0.8:
        p = chess.START if chance(0.5) else chess.position_of(RANDOM.choice(FENS))
        for _ in range(RANDOM.randint(0, 30)):
            ms = chess.legal_moves(p)
            if not ms:
                break
            p = chess.play(p, RANDOM.choice(ms))
        t = chess.fen_text(p)
    else:
        board = [chess.EMPTY] * 64
        for man in [chess.KING, chess.KING + 6] + [
            RANDOM.randrange(12) if chance(0.15) else RANDOM.choice([1, 2, 3, 4, 5, 7, 8, 9, 10, 11]) for _ in range(RANDOM.randint(0, 12))
        ]:
            board[RANDOM.randrange(64)] = man
        t = chess.fen_text(
            chess.Position(
                board,
                RANDOM.randrange(2),
                RANDOM.choice(["", "KQkq", "Kq", "Q"]),
                RANDOM.choice([None, None, RANDOM.randrange(64)]),
                RANDOM.choice([0, 1, 5, 999999999]),
            )
        )
    if chance(0.2):
        b = list(t)
        for _ in range(RANDOM.choice([1, 1, 2])):
            i = RANDOM.randrange(len(b) + 1)
            k = RANDOM.random()
            if k < 0.4 and i < len(b):
                del b[i]
            elif k < 0.7:
                b.insert(i, RANDOM.choice(" /18KQkqwb-a36x0"))
            elif i < len(b):
                b[i] = RANDOM.choice(" /12345678KQRBNPkqrbnpwb-a36x09")
        t = "".join(b)
    if chance(0.1):
        t = " " + t.replace(" ", "  ") + " "
    if chance(0.1):
        t = " ".join(t.split()[:4])
    return t


def escaped(v: str) -> str:
    return v.replace("\\", "\\\\").replace('"', '\\"')


def gen_game() -> str:
    tags = []
    p = chess.START
    if chance(0.5):
        for n in RANDOM.sample(
            "Event Site Date Round White Black Result WhiteElo BlackElo SetUp ECO aa Z_1 9x Event".split(),
            RANDOM.randint(0, 7),
        ):
            values = {
                "Date": ["2023.05.14", "1999", "??", "", "12", "abcd"],
                "Result": ["1-0", "0-1", "1/2-1/2", "*", "?", ""],
                "WhiteElo": ["1850", "?", "", "0", "999999999", "1000000000", "12a"],
                "BlackElo": ["1799", "2100", "-", ""],
            }.get(n, ["x", 'a "quoted" b', "back\\slash", "\\\\", "", "Müller", "x" * 90, "]", "{a}", "tab\tx"])
            v = RANDOM.choice(values)
            tags.append(
                '[%s%s"%s"%s]'
                % (
                    n,
                    RANDOM.choice([" ", " ", "", "  ", "\n"]),
                    escaped(v) if chance(0.9) else v.replace('"', ""),
                    RANDOM.choice(["", "", " "]),
                )
            )
    if chance(0.35):
        f = random_fen()
        tags.insert(RANDOM.randint(0, len(tags)), '[FEN "%s"]' % f)
        x = chess.read_fen(f.encode("latin1"))
        if not isinstance(x, str):
            p = x
        if chance(0.1):
            tags.append('[FEN "%s"]' % random_fen())
    for i in range(len(tags), -1, -1):
        if chance(0.04):
            tags.insert(i, comment())
    cfg = {
        "extra": RANDOM.choice([0, 0.05, 0.15, 0.3]),
        "var": RANDOM.choice([0, 0.05, 0.15, 0.3]),
        "null": RANDOM.choice([0, 0, 0.05]),
    }
    body = gen_line(p, 0, RANDOM.choice([0, 1, 2, 4, 8, 16, 30]), cfg)
    if chance(0.3):
        body.insert(0, comment() if chance(0.7) else nag())
    if chance(0.85):
        body.append(RANDOM.choice(["*", "1-0", "0-1", "1/2-1/2"]))
    tokens = tags + body
    out = ""
    for i, t in enumerate(tokens):
        if i < len(tags):
            out += t + RANDOM.choice(["\n", "\n", " ", "\r\n", ""])
        else:
            sep = RANDOM.choice([" ", " ", " ", " ", "\n", "\r\n", "  "]) if not (t in "()" and chance(0.5)) else ""
            if out and tokens[i - 1][-1:] in ")}.!?" and chance(0.3):
                sep = ""
            out += (sep if i > len(tags) else RANDOM.choice(["\n", "", "\r\n\n"])) + t
        if chance(0.01):
            out += "\n%escape [line (\n"
    return out + RANDOM.choice(["\n", "\n\n", "", " ", "\r\n"])


SOUP = [
    "[",
    "]",
    "(",
    ")",
    "{",
    "}",
    '"',
    ";",
    "\n",
    " ",
    "*",
    "1-0",
    "0-1",
    "1/2-1/2",
    ".",
    "$",
    "$5",
    "$256",
    "--",
    "-",
    "!",
    "?",
    "%",
    "\\",
    "e4",
    "e5",
    "Nf3",
    "Nc6",
    "1.",
    "1",
    "FEN",
    "Event",
    '[Event "x"]',
    '[FEN "8/8/8/8/8/8/8/K1k5 w - - 0 1"]',
    "\n[",
    "\n%",
    "\r",
    "\t",
    "Z0",
    "O-O",
    "x",
    "\x00",
    "\xe9",
    "<",
    "#",
    "+",
    "/",
    "$1",
    "d4",
    "(d4)",
    "\ufeff",
    "{a}",
    ";b\n",
    '"c"',
]


def random_bytes() -> bytes:
    return "".join(RANDOM.choice(SOUP) + RANDOM.choice(["", " ", ""]) for _ in range(RANDOM.randint(1, 25))).encode("utf-8")


def mutate(b: bytes, n: int) -> bytes:
    b = bytearray(b)
    for _ in range(n):
        if not b:
            break
        i = RANDOM.randrange(len(b))
        k = RANDOM.random()
        if k < 0.25:
            del b[i : i + RANDOM.choice([1, 1, 1, 2, 5])]
        elif k < 0.6:
            b[i:i] = RANDOM.choice(SOUP).encode("utf-8")
        elif k < 0.75:
            b[i] = RANDOM.choice(b'[](){}";\n *1.$-!?%\\eN/0')
        elif k < 0.82:
            b[i] = RANDOM.randrange(256)
        elif k < 0.9:
            j = RANDOM.randrange(len(b))
            b[i:i] = b[j : j + RANDOM.randint(1, 20)]
        elif k < 0.95:
            del b[i:]
        else:
            b[i:i] = bytes([10])
    return bytes(b)


def random_archive() -> bytes:
    k = RANDOM.random()
    if k < 0.12:
        return random_bytes()
    gs = [gen_game() for _ in range(RANDOM.choice([1, 1, 1, 2, 3, 5]))]
    if chance(0.1):
        gs.insert(RANDOM.randint(0, len(gs)), RANDOM.choice(["{only a comment}", "*", "*\n*\n", ";x\n", "%y\n", "\n\n"]))
    b = "".join(gs).encode("utf-8")
    if chance(0.05):
        b = b"\xef\xbb\xbf" + b
    if chance(0.1):
        b = b.replace(b"\n", b"\r\n")
    if chance(0.55):
        b = mutate(b, RANDOM.choice([1, 1, 1, 2, 3, 8]))
    return b


def small_archive() -> bytes:
    if chance(0.04):
        return random_archive()[:1500]
    for _ in range(50):
        b = "".join(gen_game() for _ in range(RANDOM.choice([1, 1, 2, 3]))).encode("utf-8")
        gs = program.games_of(b)
        sound = [g for g in gs if not isinstance(g, tuple)]
        if len(b) <= 2500 and len(sound) == len(gs) and sum(len(g.nodes) for g in sound) >= 4:
            break
    return b


def answers_at(q: query.Query, games: list[Game | Fault]) -> set[bool]:
    """what a query says of the nodes of games, up to the first of which it says another thing than before"""
    found: set[bool] = set()
    for g in games:
        if not isinstance(g, tuple):
            s = meaning.Search(g, q["variations"])
            for n in s.nodes:
                found.add(s.is_hit(q, n))
                if len(found) == 2:
                    return found
    return found


def good_query(arch: bytes, draw: Callable[[], str] | None = None) -> str:
    """a query that tells nodes apart, where one is found soon"""
    draw = draw or random_query
    if chance(0.12):
        return draw()
    best = ""
    for _ in range(8):
        t = draw()
        found = answers_at(query.read_query(t.encode("utf-8")), program.games_of(arch))
        if len(found) == 2:
            return t
        if not best or True in found:
            best = t
    return best


# Queries.
def one_of(*xs: str) -> str:
    return RANDOM.choice(xs)


def random_squares() -> str:
    def spec() -> str:
        files = RANDOM.choice("abcdefgh") + ("-" + RANDOM.choice("abcdefgh") if chance(0.3) else "")
        return files + RANDOM.choice("12345678") + ("-" + RANDOM.choice("12345678") if chance(0.3) else "")

    return "[" + ",".join(spec() for _ in range(RANDOM.randint(1, 3))) + "]" if chance(0.15) else spec()


def random_designator() -> str:
    if chance(0.03):
        return "a-h" + RANDOM.choice("1234567") + RANDOM.choice(["", "-8"])
    if chance(0.03):
        return RANDOM.choice("abcdefgh") + "1-8"
    men = RANDOM.choice("KQRBNPkqrbnpAa_.AaPpKk")
    if chance(0.2):
        men = "[" + "".join(RANDOM.choice("KQRBNPkqrbnpAa_.") for _ in range(RANDOM.randint(1, 3))) + "]"
    k = RANDOM.random()
    return random_squares() if k < 0.12 else men if k < 0.5 else men + random_squares()


NAMES = ["x", "y", "sq", "x1", "zz"]
NUMBER_TEXTS = [
    "ply",
    "movenumber",
    "depth",
    "#P",
    "#p",
    "power A",
    "power a",
    "#[Nn]",
    "#(A attacks a)",
    "#(a attackedby A)",
    "(ply + 1)",
    "(#P - #p)",
    "(ply * 2)",
    "(movenumber + depth - 1)",
    "max(ply 2)",
    "min(ply 3 #P)",
    "year",
    "elo",
    "elo white",
    "elo black",
    "(line --> wtm*)",
    "(line --> .*)",
    "(line <-- .*)",
    "(line primary <-- .+)",
    "#up 1 P",
    "(power A - power a + ply)",
    "(0 - ply)",
    "(1 - ply - depth)",
    "(ply - 3 * 2)",
    "(9 * 999999999 * 999999999 + ply * 999999999 * 999999999)",
    "(0 - 9 * 999999999 * 999999999 - ply * 99999999 * 999999999)",
    "max(elo white ply)",
    "(year + ply)",
    "#between(K k)",
    "#(A & light .)",
    "#(~A)",
    "(rotate90 #P)",
    "(flipcolor #(A attacks k))",
    "(flip power [QR]a1-4)",
    "(shift #Pa1-2)",
    "#anydirection 1 k",
    "power diagonal K",
    "(fliphorizontal #light A)",
    "(flipcolor elo white)",
    "#dark A",
    "(line --> wtm --> btm{0,2})",
    "0",
    "1",
    "2",
    "3",
    "8",
    "39",
    "(max(#N #n) * #B)",
    "#square",
][:-1]


class FilterGenerator:
    """text of a filter; budget keeps it small; names bound"""

    def __init__(self) -> None:
        self.weight = 1

    def set(self, d: int, names: list[str]) -> str:
        if d <= 0 or chance(0.35):
            if names and chance(0.4):
                return RANDOM.choice(names)
            return random_designator()
        k = RANDOM.randrange(11)
        D = d - 1
        if k == 0:
            return "~" + self.set(D, names)
        if k == 1:
            return "(%s | %s)" % (self.set(D, names), self.set(D, names))
        if k == 2:
            return "(%s & %s)" % (self.set(D, names), self.set(D, names))
        if k in (3, 4):
            return "(%s %s %s)" % (self.set(D, names), one_of("attacks", "attackedby"), self.set(D, names))
        if k == 5:
            return "between(%s %s)" % (self.set(D, names), self.set(D, names))
        if k == 6:
            return "%s %s" % (one_of("light", "dark"), self.set(D, names))
        if k in (7, 8):
            return "%s %s%s" % (
                RANDOM.choice(query.DIRECTIONS),
                one_of("", "", "1 ", "2 ", "1 2 ", "3 1 ", "0 ", "0 1 ", "2 9 "),
                self.set(D, names),
            )
        if k == 9 and self.weight < 60:
            return self.fam(lambda: self.set(D, names))
        return random_designator()

    def fam(self, part: Callable[[], str]) -> str:
        f = RANDOM.choice(query.FAMILIES)
        z = query.size(f)
        if self.weight * z > 400:
            return part()
        self.weight *= z
        t = "(%s %s)" % (f, part())
        self.weight //= z
        return t

    def number(self, d: int, names: list[str]) -> str:
        k = RANDOM.randrange(13)
        D = d - 1
        if d <= 0 or k < 2:
            return one_of(
                str(RANDOM.randint(0, 3)),
                str(RANDOM.randint(0, 9)),
                "ply",
                "movenumber",
                "depth",
                "ply",
                "year",
                "elo",
                "elo white",
                "elo black",
                "999999999",
                "1800",
            )
        if k in (2, 3):
            return "#" + self.set(D, names)
        if k == 4:
            return "power " + self.set(D, names)
        if k in (5, 6):
            return "(%s %s %s)" % (self.number(D, names), one_of("+", "-", "*"), self.number(D, names))
        if k == 7:
            return "(%s %s %s %s %s)" % (
                self.number(D, names),
                one_of("+", "-"),
                self.number(D, names),
                one_of("+", "-", "*"),
                self.number(D, names),
            )
        if k == 8:
            return "%s(%s %s%s)" % (
                one_of("max", "min"),
                self.number(D, names),
                self.number(D, names),
                one_of("", " " + self.number(D, names)),
            )
        if k == 9 and self.weight < 60:
            return self.fam(lambda: self.number(D, names))
        if k in (10, 11):
            return "(%s)" % self.line(D, names)
        return "#" + random_designator()

    def line(self, d: int, names: list[str]) -> str:
        ar = one_of("-->", "-->", "<--")
        t = "line " + one_of("", "", "primary ") + one_of("", "", "", "%d %d " % (RANDOM.randint(1, 5), RANDOM.randint(1, 8)))
        return t + " ".join(ar + " " + self.constituent(d, names, ar) for _ in range(RANDOM.choice([1, 2, 2, 3])))

    def constituent(self, d: int, names: list[str], ar: str, g: int = 0) -> str:
        if g < 2 and chance(0.2):
            t = "(" + (" " + ar + " ").join(self.constituent(d, names, ar, g + 1) for _ in range(RANDOM.randint(1, 3))) + ")"
        elif chance(0.3):
            t = "{" + self.pos(d - 1, names) + "}"
        else:
            t = one_of(
                "wtm",
                "btm",
                "check",
                "mainline",
                "variation",
                ".",
                "terminal",
                "initial",
                random_designator(),
                "Pe4",
                "hascomment",
            )
        return t + one_of("", "", "", "*", "+", "?", "{2}", "{1,2}", "{0}", "{0,3}", "{3,1}", "{1}")

    def pos(self, d: int, names: list[str]) -> str:
        k = RANDOM.randrange(26)
        D = d - 1
        if d <= 0 or k < 4:
            return RANDOM.choice(
                [
                    "check",
                    "mate",
                    "stalemate",
                    "wtm",
                    "btm",
                    "initial",
                    "terminal",
                    "mainline",
                    "variation",
                    "hascomment",
                    random_designator(),
                    random_designator(),
                    random_designator(),
                    "result " + one_of("1-0", "0-1", "*", "1/2-1/2"),
                    "player " + one_of("", "white ", "black ") + '"%s"' % one_of("x", "", "M", "a", '"[:0]), '[:0]),
                    'event "x"',
                    'site "b"',
                    "elo",
                    "year",
                ]
            )
        if k == 4:
            return "not " + self.pos(D, names)
        if k in (5, 6):
            return "(%s %s %s)" % (self.pos(D, names), one_of("and", "or"), self.pos(D, names))
        if k == 7:
            return "{%s}" % " ".join(self.pos(D, names) for _ in range(RANDOM.randint(1, 3)))
        if k == 8:
            return "(if %s then %s else %s)" % (self.pos(D, names), self.pos(D, names), self.pos(D, names))
        if k in (9, 10):
            return one_of("find ", "find <-- ", "child ", "parent ") + self.pos(D, names)
        if k in (11, 12) and len(names) < 3:
            nm = RANDOM.choice(NAMES)
            return "square %s%s in %s %s" % (one_of("", "all "), nm, self.set(D, names), self.pos(D, names + [nm]))
        if k == 15:
            return "(%s %s %s)" % (
                RANDOM.choice(NUMBER_TEXTS),
                one_of("<", "<=", "==", ">=", ">"),
                RANDOM.choice(NUMBER_TEXTS),
            )
        if k in (13, 14):
            return "(%s %s %s)" % (self.number(D, names), one_of("<", "<=", "==", ">=", ">"), self.number(D, names))
        if k in (16, 17):
            return "(%s)" % self.line(D, names)
        if k in (18, 19):
            return self.move(D, names)
        if k in (20, 21, 22) and self.weight < 60:
            return self.fam(lambda: self.pos(D, names))
        if k == 23:
            return "(%s)" % self.number(D, names)
        return self.set(D, names)

    def move(self, d: int, names: list[str]) -> str:
        return "(move%s)" % "".join(" %s %s" % (w, self.set(min(d, 1), names)) for w in ("from", "to", "capture", "promote") if chance(0.4))


def random_query() -> str:
    g = FilterGenerator()
    d = RANDOM.choice([0, 1, 2, 2, 3, 4])
    head = (
        "cql("
        + " ".join(
            RANDOM.sample(
                ["variations", 'matchstring "%s"' % one_of("m", "", "two words", " "), "input foo.pgn", 'output "x"'],
                RANDOM.choice([0, 0, 1, 1, 2]),
            )
        )
        + ")"
    )
    if chance(0.4) and "variations" not in head:
        head = head.replace("(", "(variations ")
    items = [g.pos(d, []) for _ in range(RANDOM.choice([1, 1, 1, 2, 3]))]
    if chance(0.15):
        items.insert(RANDOM.randint(0, len(items)), 'comment "%s"' % one_of("c", "a b", "", "x  y"))
    return head + " " + " ".join(items)


def square_of(names: list[str]) -> str:
    """a set in which names stand, or a designator"""
    name = RANDOM.choice(names)
    return one_of(
        name, name, name, "(%s & %s)" % (name, random_designator()), "(%s | %s)" % (name, random_designator()), random_designator()
    )


def square_part(names: list[str], depth: int) -> str:
    """what is asked of squares, in the words of a player"""

    def f() -> str:
        return square_of(names)

    def g() -> str:
        return RANDOM.choice(names)

    k = RANDOM.randrange(17)
    if k < 4:
        return "move %s" % one_of(
            "from %s to %s" % (g(), g()), "from " + g(), "to " + g(), "to %s capture ." % g(), "from %s to %s" % (f(), f())
        )
    if k < 7:
        return "(%s %s %s)" % (f(), one_of("attacks", "attackedby"), f())
    if k == 7:
        return "(%s & between(%s %s))" % (f(), f(), f())
    if k == 8:
        return "#(%s) %s %d" % (f(), one_of(">", "==", "<", ">="), RANDOM.randint(0, 2))
    if k == 9:
        return "not " + square_part(names, depth)
    if k == 10:
        return random_designator()
    if k == 11:
        return "(%s)" % f()
    if k == 12:
        return "(%s or %s)" % (square_part(names, depth), square_part(names, depth))
    if k == 13:
        return "if %s then %s else %s" % (square_part(names, 0), square_part(names, 0), square_part(names, 0))
    if k == 14 and depth > 0:
        return "(line --> {%s} --> {%s})" % (square_part(names, depth - 1), square_part(names, depth - 1))
    words = " ".join(one_of("find", "find <--", "child", "parent") for _ in range(RANDOM.choice([1, 1, 2])))
    parts = [square_part(names, depth - 1) for _ in range(RANDOM.choice([1, 1, 2]))] if depth > 0 else []
    if not parts:
        return square_part(names, 0)
    # a move by itself is sought along the nodes above, and one in braces is not
    if len(parts) == 1 and parts[0].startswith("move "):
        return "%s %s" % (words, parts[0])
    return "%s { %s }" % (words, " ".join(parts))


def squares_query() -> str:
    """one to three `square` in one another, with words of the tree and families around them"""
    names: list[str] = []
    text = ""
    for _ in range(RANDOM.choice([1, 2, 2, 2, 3])):
        name = RANDOM.choice(NAMES)
        within = random_designator() if not names or chance(0.8) else square_of(names)
        text += "square %s%s in %s " % (one_of("", "", "", "", "all "), name, within)
        if chance(0.2):
            text += one_of("find ", "child ", "parent ", "find <-- ", "flipcolor ", "not ")
        names.append(name)
    text += "{ %s }" % " ".join(square_part(names, 2) for _ in range(RANDOM.choice([1, 2, 3])))
    for _ in range(RANDOM.choice([0, 0, 1, 1, 2])):
        text = (
            one_of("find ", "child ", "parent ", "find <-- ", "flipcolor ", "flip ", "flipcolor flip ", "shifthorizontal ")
            + "{ %s }" % text
        )
    return one_of("cql() ", "cql(variations) ") + text


QUERY_SOUP = (
    sorted(query.WORDS)
    + sorted(query.RESERVED)[:6]
    + query.MARKS
    + [
        "x",
        "y",
        '"t"',
        '"a}b"',
        '"',
        "5",
        "0",
        "127",
        "128",
        "1000000000",
        "65",
        "64",
        "Ka1",
        "[KQ]a-h1-2",
        "A",
        "[",
        "]",
        ":",
        "//c\n",
        "//",
        "\n",
        "1-0",
        "*",
        "check",
        "{2}",
        "{1,2}",
        "(",
        ")",
        "{",
        "}",
        "foo.pgn",
        "e4",
        "c3-6-7",
        "_x",
        ".a",
        "not " * 10,
        "(" * 8,
        "flip " * 5,
        "square x in A " * 2,
        'sort "s" 1 ',
    ]
)


def mutate_query(t: str) -> str:
    tokens = re.findall(r'"[^"]*"?|\w+|-->|<--|<=|>=|==|\s+|.', t, re.S)
    for _ in range(RANDOM.choice([1, 1, 1, 2, 4])):
        if not tokens:
            break
        i = RANDOM.randrange(len(tokens))
        k = RANDOM.random()
        if k < 0.3:
            del tokens[i]
        elif k < 0.6:
            tokens.insert(i, " " * chance(0.7) + RANDOM.choice(QUERY_SOUP) + " " * chance(0.7))
        elif k < 0.85:
            tokens[i] = RANDOM.choice(QUERY_SOUP)
        elif k < 0.9:
            del tokens[i:]
        else:
            j = RANDOM.randrange(len(tokens))
            tokens[i], tokens[j] = tokens[j], tokens[i]
    return "".join(tokens)


def deep_query() -> str:
    """near the limits: depth, places, weight, squares, sorts"""
    k = RANDOM.randrange(9)
    n = RANDOM.randint(55, 68)
    pre = [
        "not ",
        "find ",
        "child ",
        "parent ",
        "flip ",
        "if check then check else ",
        "find <-- ",
        "(",
        "{",
        "line --> {",
        "between(A ",
        "~",
        "#",
        "light ",
        "up ",
        "power ",
        "max(1 ",
        "square x in A ",
        'sort "a" ',
        "move to ",
        "if ",
        "line --> (",
        "up 1 2 ",
        'sort min "b" ',
    ]
    if k == 0:
        return (
            "cql() "
            + "".join(RANDOM.choice(pre) for _ in range(n))
            + RANDOM.choice(["A", "check", "(A)", "{A}", "A attacks ~B", "1", "A (B)", ""])
        )
    if k == 1:
        return "cql() " + RANDOM.choice(pre) * n + RANDOM.choice(["A", "(A)", ") A", "~A", "{", "", "echo"])
    if k == 2:

        def constituent(d: int) -> str:
            t = (
                "(" + " --> ".join(constituent(d - 1) for _ in range(RANDOM.randint(1, 3))) + ")"
                if d > 0 and chance(0.6)
                else RANDOM.choice(["check", "A", "{wtm}", "{line --> A{%d}}" % RANDOM.randint(60, 70)])
            )
            return t + RANDOM.choice(
                [
                    "",
                    "*",
                    "{%d}" % RANDOM.choice([0, 1, 2, 3, 4, 5, 8, 64, 65]),
                    "{%d,%d}" % (RANDOM.randint(0, 9), RANDOM.choice([0, 1, 2, 4, 8, 16, 32, 33])),
                ]
            )

        return (
            "cql() "
            + RANDOM.choice(["", "not ", "A ", "find {"])
            + "line --> "
            + " --> ".join(constituent(3) for _ in range(RANDOM.randint(1, 3)))
        )
    if k == 3:

        def fs() -> str:
            families = "flip shift rotate90 flipcolor shifthorizontal fliphorizontal".split()
            return " ".join(RANDOM.choice(families) for _ in range(RANDOM.randint(0, 6)))

        return "cql() " + " ".join(
            fs() + " " + RANDOM.choice(["check", "A", "{A B}", "(A or B)", "#A", "(#A + #B)"]) for _ in range(RANDOM.randint(1, 9))
        )
    if k == 4:
        return (
            "cql() "
            + "".join(
                "square %s%s in %s %s"
                % (
                    one_of("", "all "),
                    RANDOM.choice("xyzvw") + RANDOM.choice("xyz"),
                    one_of("A", "xx", "yz", "A | xy"),
                    one_of("", "", "not ", "{", "("),
                )
                for _ in range(RANDOM.randint(1, 7))
            )
            + "xx"
        )
    if k == 5:
        return "cql() " + " ".join(
            one_of("", "", "", "", "not ", "(", "{")
            + one_of('sort "a" ', 'sort min "b" ', 'comment "c" ', 'comment "}" ')
            + one_of("1", "#A", "A", "check", "ply", "")
            for _ in range(RANDOM.randint(3, 8))
        )
    if k == 7:
        return (
            "cql() "
            + "".join(
                "square %s in %s " % (one_of("xx", "yz"), one_of("A", "k", "xx")) + one_of("", "", "(", "{", "not ")
                for _ in range(RANDOM.randint(4, 6))
            )
            + "xx"
        )
    if k == 8:
        return "cql() " + " ".join(
            one_of(
                'sort "a" 1',
                'sort "b" ply',
                'sort min "c" #A',
                'sort "d" #A',
                '(sort "e" 2)',
                "check",
                '((sort "e" (ply)))',
            )
            for _ in range(RANDOM.randint(4, 8))
        )
    return (
        "cql("
        + " ".join(
            one_of(
                'matchstring "a"',
                'matchstring "}"',
                "variations",
                "input x",
                'output "y"',
                "input //c\n z",
                "output (",
                "matchstring",
            )
            for _ in range(RANDOM.randint(1, 4))
        )
        + ") "
        + one_of("check", 'comment "}"', "x")
    )


def designators() -> str:
    head = (
        "cql("
        + " ".join(
            RANDOM.sample(
                [
                    "variations",
                    'matchstring "%s"' % one_of("m", "", "two words", " ", "x" * 90),
                    "input foo.pgn",
                    'output "x"',
                ],
                RANDOM.choice([0, 0, 1, 1, 2]),
            )
        )
        + ")"
    )
    if chance(0.4) and "variations" not in head:
        head = head.replace("(", "(variations ")
    return (
        head
        + " "
        + " ".join(one_of("%s", "%s", "(%s)", "((%s))", "//c\n%s") % random_designator() for _ in range(RANDOM.choice([1, 1, 1, 2, 3])))
    )


def typo_query() -> str:
    """wrong kinds and names in well-formed texts"""
    t = random_query()
    for _ in range(RANDOM.choice([1, 1, 2])):
        a = RANDOM.choice(
            [
                "A",
                "check",
                "1",
                "x",
                "ply",
                "wtm",
                "Ka1",
                "#A",
                "not A",
                'sort "s" 1',
                'comment "c"',
                "{A}",
                "(A)",
                "((1))",
                "flip A",
                "flip 1",
            ]
        )
        spots = [x.span() for x in re.finditer(r'(?<![\w"])(check|mate|wtm|btm|ply|[AaKkPp]|x|y|sq|\d)(?![\w"])', t)]
        if spots:
            i, j = RANDOM.choice(spots)
            t = t[:i] + a + t[j:]
    return t


# Running the program beside the model.
def run(binary: str, words: list[str], data: bytes, folder: str) -> program.Answer:
    """the program's status, out and err for the words and the bytes on its standard input"""
    try:
        p = subprocess.run([binary] + words, input=data, capture_output=True, timeout=120, cwd=folder)
    except subprocess.TimeoutExpired:
        return (-999, b"", b"timeout")
    return (p.returncode, p.stdout, p.stderr)


def random_man_query() -> str:
    common = "Ke1 Ke1 ke8 Pe4 pe5 Pa2 Ka1 Nf3 Qh5 pd5".split()
    any_man = one_of(*chess.MEN) + one_of(*"abcdefgh") + one_of(*"12345678")
    return "cql() " + RANDOM.choice(common + [any_man])


def mixed(text: str, other: str) -> str:
    """a query with parts of two: one of them with the other's items, or but for the parameter `variations`"""
    if chance(0.3):
        return text.replace("variations", "") if "variations" in text else text.replace("(", "(variations ", 1)
    items = other.split(")", 1)[1]
    return text + " " + items if chance(0.7) else text.split(")", 1)[0] + ")" + items


def queries_file(archive: bytes) -> str:
    """a file of queries, at times of too many or with a fault"""
    texts = [good_query(archive)]
    while len(texts) < 18 and chance(0.7):
        other = RANDOM.choice(texts)
        texts.append(mixed(good_query(archive), other) if chance(0.6) else mixed(other, RANDOM.choice(texts)) if chance(0.8) else other)
    if chance(0.05):
        texts.insert(RANDOM.randint(0, len(texts)), RANDOM.choice(["", "// none", mutate_query(texts[0])]))
    texts = [text + RANDOM.choice(["", "\n", "\n// %%", "\r\n", " // %%\n\n"]) for text in texts]
    between = RANDOM.choice(["\n%%\n"] * 40 + ["\n%%\r\n", "\n%% \n", "\n %%\n", "\n%%\n%%\n"])
    return between.join(texts) + RANDOM.choice([""] * 40 + ["\n%%", "\n%%\n"])


# so many queries of `squares` are asked of one archive, which takes as long to make and to read as several of them to answer
TOGETHER = 5


def random_case(mode: str, asked: bytes | None = None) -> tuple[str, bytes]:
    """(query, archive), of `squares` over the archive that was asked before, if any"""
    if mode == "many":
        archive = small_archive()
        return queries_file(archive), archive
    if mode == "archives":
        return random_man_query(), random_archive()
    if mode == "squares":
        archive = asked or small_archive()
        return good_query(archive, squares_query), archive
    if mode in ("queries", "explained"):
        archive = small_archive()
        return designators() if chance(0.05) else good_query(archive), archive
    k = RANDOM.random()
    text = mutate_query(random_query()) if k < 0.55 else deep_query() if k < 0.8 else typo_query()
    return mutate_query(text) if chance(0.1) else text, b""


def answers(binary: str, mode: str, text: str, archive: bytes, folder: str) -> tuple[program.Answer, program.Answer]:
    """the model's answer and the program's"""
    if mode in ("texts", "explained", "many"):
        with open(os.path.join(folder, "q.cql"), "wb") as f:
            f.write(text.encode())
    if mode == "texts":
        return program.run_check(text.encode()), run(binary, ["check", "q.cql"], b"", folder)
    if mode == "explained":
        return program.run_explain(text.encode()), run(binary, ["explain", "q.cql"], b"", folder)
    if mode == "many":
        return program.run_many(text.encode(), archive), run(binary, ["many", "q.cql"], archive, folder)
    return program.run_eval(text.encode(), archive), run(binary, ["eval", text], archive, folder)


def store(path: str, text: str, archive: bytes, want: program.Answer, got: program.Answer) -> None:
    with open(path + ".pgn", "wb") as f:
        f.write(archive)
    with open(path + ".cql", "wb") as f:
        f.write(text.encode())
    with open(path + ".txt", "w") as f:
        f.write("query %r\nmodel %r\nprogram %r\n" % (text, want, got))
    print("DIFFERS", path, repr(text)[:200])
    print("  model  ", want[0], want[2][:200])
    print("  program", got[0], got[2][:200], "" if want[1] == got[1] else "(out differs)")


def main() -> int:
    binary, mode, seed, count = os.path.abspath(sys.argv[1]), sys.argv[2], int(sys.argv[3]), int(sys.argv[4])
    out = os.path.join(os.path.dirname(os.path.abspath(__file__)), "out")
    os.makedirs(out, exist_ok=True)
    statuses: dict[int, int] = {}
    differences = 0
    archive: bytes | None = None
    with tempfile.TemporaryDirectory() as folder:
        for i in range(count):
            RANDOM.seed(seed * 1000003 + i)
            text, given = random_case(mode, archive if i % TOGETHER else None)
            archive = given
            if "\x00" in text:
                continue
            want, got = answers(binary, mode, text, given, folder)
            statuses[want[0]] = statuses.get(want[0], 0) + 1
            if got != want:
                differences += 1
                store(os.path.join(out, "%s-%d-%d" % (mode, seed, i)), text, given, want, got)
            if i % 500 == 499:
                print(i + 1, "cases,", differences, "differences", flush=True)
    print(mode, "seed", seed, "cases", count, "differences", differences, "by status", sorted(statuses.items()))
    return 1 if differences else 0


if __name__ == "__main__":
    sys.exit(main())
