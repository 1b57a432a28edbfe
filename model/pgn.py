"""An archive of games: its tokens, its cut into games, a game's first fault or its tree, and the export text."""

from __future__ import annotations

import re
from typing import List, Mapping, Optional, Sequence, Tuple

from .chess import START, Move, Position, read_fen, read_san, san_text

# A token: where it begins and ends, its kind, and the number of a glyph. A game's place: where it begins and ends, and its tokens.
Token = Tuple[int, int, str, Optional[int]]
Span = Tuple[int, int, List[Token]]
Fault = Tuple[str, int, str]

WHITE_SPACE = frozenset([9, 10, 11, 12, 13, 32])
DIGITS = frozenset(b"0123456789")
ASCII_LETTERS = frozenset(b"ABCDEFGHIJKLMNOPQRSTUVWXYZabcdefghijklmnopqrstuvwxyz")
SYMBOL_BYTES = ASCII_LETTERS | DIGITS | frozenset(b"_+#=:-/")
MARKERS = {b"1-0": "White", b"0-1": "Black", b"1/2-1/2": "Draw", b"*": "Open"}
RESULT_TEXTS = {"White": b"1-0", "Black": b"0-1", "Draw": b"1/2-1/2", "Open": b"*"}


# Tokens, and the cut of an archive into games.
GLYPHS = {b"!": 1, b"?": 2, b"!!": 3, b"??": 4, b"!?": 5, b"?!": 6}
SINGLE_BYTES = {91: "Open", 93: "Close", 40: "Left", 41: "Right", 46: "Period", 42: "Star"}


def lex(b: bytes, at: int, first: bool) -> list[Token]:
    """lexemes from byte `at`: (start, end, kind, number)"""
    out: list[Token] = []
    i = at
    n = len(b)
    while i < n:
        c = b[i]
        if c in WHITE_SPACE:
            i += 1
            continue
        col = first if i == at else b[i - 1] == 10
        k, j = "BadByte", i + 1
        num: int | None = None
        if c == 37 and col:
            k = "Escape"
            j = b.find(b"\n", i)
            j = n if j < 0 else j
        elif c == 123:
            j = b.find(b"}", i)
            if j < 0:
                k, j = "UnclosedComment", n
            else:
                k, j = "Comment", j + 1
        elif c == 59:
            k = "LineComment"
            j = b.find(b"\n", i)
            j = n if j < 0 else j
        elif c == 34:
            j = i + 1
            k = "UnclosedText"
            while j < n and b[j] != 10:
                if b[j] == 34:
                    k = "Text"
                    j += 1
                    break
                if b[j] == 92 and j + 1 < n and b[j + 1] != 10:
                    j += 2
                else:
                    j += 1
        elif c in ASCII_LETTERS or c in DIGITS:
            k = "Symbol"
            while j < n and b[j] in SYMBOL_BYTES:
                j += 1
        elif b[i : i + 2] == b"--":
            k, j = "Null", i + 2
        elif c == 36:
            while j < n and b[j] in DIGITS:
                j += 1
            if j > i + 1:
                d = bytes(b[i + 1 : j]).lstrip(b"0") or b"0"
                k, num = "Nag", 256 if len(d) > 3 else min(256, int(d))
        elif c in (33, 63):
            k = "Nag"
            if bytes(b[i : i + 2]) in GLYPHS and i + 1 < n:
                j = i + 2
            num = GLYPHS[bytes(b[i:j])]
        elif c in SINGLE_BYTES:
            k = SINGLE_BYTES[c]
        out.append((i, j, k, num))
        i = j
    return out


MOVETEXT_KINDS = frozenset(["Symbol", "Period", "Star", "Left", "Right", "Nag", "Null", "BadByte"])


def is_marker(b: bytes, t: Token) -> bool:
    return t[2] == "Star" or (t[2] == "Symbol" and bytes(b[t[0] : t[1]]) in MARKERS)


def cut(b: bytes) -> list[Span]:
    """list of (start, end, tokens)"""
    at = 3 if b[:3] == b"\xef\xbb\xbf" else 0
    games: list[Span] = []
    start: int | None = None
    tokens: list[Token] = []
    depth = 0
    tag = False
    seen = False
    for t in lex(b, at, True):
        k = t[2]
        if start is not None and k == "Open" and seen and (t[0] == at or b[t[0] - 1] == 10):
            games.append((start, t[0], tokens))
            start = None
            tokens = []
            depth = 0
            tag = False
            seen = False
        if start is None:
            start = t[0]
        tokens.append(t)
        if not tag and k in MOVETEXT_KINDS:
            seen = True
        if k == "Open":
            tag = True
        elif k == "Close":
            tag = False
        elif k == "Left":
            depth += 1
        elif k == "Right":
            depth = max(0, depth - 1)
        if depth == 0 and is_marker(b, t):
            games.append((start, t[1], tokens))
            start = None
            tokens = []
            depth = 0
            tag = False
            seen = False
    if start is not None and any(t[2] not in ("Comment", "LineComment", "Escape") for t in tokens):
        games.append((start, len(b), tokens))
    return games


# Reading a game.
MOST_BYTES, MOST_POSITIONS, MOST_LEVELS = 1 << 24, 65536, 100
TOKEN_FAULTS = {"BadByte": "bad byte", "UnclosedComment": "unclosed comment", "UnclosedText": "unclosed string"}


class Node:
    __slots__ = ("parent", "move", "pos", "nags", "comments", "children", "no", "main")

    def __init__(self, parent: Node | None, move: Move | None, pos: Position) -> None:
        self.parent, self.move, self.pos = parent, move, pos
        self.nags: list[int] = []
        self.comments: list[bytes] = []
        self.children: list[Node] = []
        # its number in the game, once this is whole
        self.no, self.main = -1, False


class Game:
    """a game that is read: its nodes are numbered in the order in which they are written"""

    def __init__(self, tags: dict[bytes, bytes], result: str, root: Node) -> None:
        self.tags, self.result, self.root = tags, result, root
        self.nodes: list[Node] = []


class Level:
    """an open line: its last node, its last move's node, and the notes that wait for its first move"""

    def __init__(self, at: Node) -> None:
        self.here = at
        self.last: Node | None = None
        self.comments: list[bytes] = []
        self.nags: list[int] = []


def unescape(s: bytes) -> bytes:
    out = bytearray()
    i = 0
    while i < len(s):
        if s[i] == 92 and i + 1 < len(s) and s[i + 1] in (34, 92):
            out.append(s[i + 1])
            i += 2
        else:
            out.append(s[i])
            i += 1
    return bytes(out)


def words(t: bytes) -> list[bytes]:
    return [w for w in re.split(rb"[\x09-\x0d\x20]+", bytes(t)) if w]


class GameFault(Exception):
    def __init__(self, byte: int, reason: str) -> None:
        self.byte, self.reason = byte, reason


class Reader:
    """reads a game's tokens in order; a fault is raised at the first token that no game continues with"""

    def __init__(self, archive: bytes) -> None:
        self.archive = archive
        self.tags: dict[bytes, bytes] = {}
        self.root = Node(None, None, START)
        self.part_of_tag: str | None = None
        self.name = b""
        self.levels: list[Level] = []
        self.count = 1
        self.result: str | None = None

    def text(self, token: Token) -> bytes:
        return bytes(self.archive[token[0] : token[1]])

    def token(self, token: Token) -> None:
        at, _, kind, _ = token
        if kind == "Escape":
            return
        if kind in TOKEN_FAULTS:
            raise GameFault(at, TOKEN_FAULTS[kind])
        if self.part_of_tag is not None:
            self.inside_tag(token)
        elif kind in ("Close", "Text") or (kind == "Open" and self.levels):
            raise GameFault(at, "bad tag")
        elif kind == "Open":
            self.part_of_tag = "name"
        elif kind in ("Comment", "LineComment"):
            self.comment(self.text(token), kind)
        else:
            self.movetext(token)

    def inside_tag(self, token: Token) -> None:
        at, _, kind, _ = token
        if self.part_of_tag == "name" and kind == "Symbol":
            self.name = self.text(token)
            self.part_of_tag = "value"
        elif self.part_of_tag == "value" and kind == "Text":
            if self.name not in self.tags:
                self.tag(at, unescape(self.text(token)[1:-1]))
            self.part_of_tag = "close"
        elif self.part_of_tag == "close" and kind == "Close":
            self.part_of_tag = None
            self.root.comments = []
        else:
            raise GameFault(at, "bad tag")

    def tag(self, at: int, value: bytes) -> None:
        if self.name == b"FEN":
            position = read_fen(value)
            if isinstance(position, str):
                raise GameFault(at, "bad FEN")
            self.root.pos = position
        self.tags[self.name] = value

    def comment(self, text: bytes, kind: str) -> None:
        text = b" ".join(words(text[1:-1] if kind == "Comment" else text[1:].replace(b"}", b")")))
        if text and self.levels and self.levels[-1].last is not None:
            self.levels[-1].last.comments.append(text)
        elif text and len(self.levels) > 1:
            self.levels[-1].comments.append(text)
        elif text:
            self.root.comments.append(text)

    def movetext(self, token: Token) -> None:
        at, _, kind, number = token
        if not self.levels:
            self.levels = [Level(self.root)]
        if number is not None:
            self.nag(at, number)
        elif kind == "Left":
            self.open_variation(at)
        elif kind == "Right":
            self.close_variation(at)
        elif is_marker(self.archive, token):
            if len(self.levels) == 1:
                self.result = MARKERS[self.text(token)]
        elif kind != "Period" and not all(c in DIGITS for c in self.text(token)):
            self.move(at, self.text(token))

    def nag(self, at: int, number: int) -> None:
        if number > 255:
            raise GameFault(at, "NAG out of range")
        level = self.levels[-1]
        if level.last is not None:
            level.last.nags.append(number)
        elif len(self.levels) > 1:
            level.nags.append(number)

    def open_variation(self, at: int) -> None:
        last = self.levels[-1].last
        if last is None or last.parent is None:
            raise GameFault(at, "variation without move")
        if len(self.levels) > MOST_LEVELS:
            raise GameFault(at, "too deep")
        self.levels.append(Level(last.parent))

    def close_variation(self, at: int) -> None:
        if len(self.levels) == 1:
            raise GameFault(at, "unopened variation")
        if self.levels[-1].last is None:
            raise GameFault(at, "empty variation")
        self.levels.pop()

    def move(self, at: int, text: bytes) -> None:
        level = self.levels[-1]
        answer = read_san(level.here.pos, text)
        if isinstance(answer, str):
            raise GameFault(at, answer)
        if self.count == MOST_POSITIONS:
            raise GameFault(at, "too many positions")
        self.count += 1
        node = Node(level.here, *answer)
        level.here.children.append(node)
        node.comments, node.nags = level.comments, level.nags
        level.comments, level.nags = [], []
        level.here = level.last = node

    def end(self, at: int) -> Game:
        if self.part_of_tag is not None:
            raise GameFault(at, "bad tag")
        if len(self.levels) > 1:
            raise GameFault(at, "unclosed variation")
        said = MARKERS.get(self.tags.get(b"Result", b""), "Open")
        return make_game(self.tags, said if self.result is None else self.result, self.root)


def read_game(archive: bytes, span: Span) -> Game | Fault:
    """('fault', byte, reason) or a Game"""
    start, end, tokens = span
    if end - start > MOST_BYTES:
        return ("fault", start + MOST_BYTES, "game too long")
    reader = Reader(archive)
    try:
        for token in tokens:
            reader.token(token)
        return reader.end(end)
    except GameFault as fault:
        return ("fault", fault.byte, fault.reason)


def make_game(tags: dict[bytes, bytes], result: str, root: Node) -> Game:
    g = Game(tags, result, root)
    st = [root]
    while st:
        x = st.pop()
        x.no = len(g.nodes)
        g.nodes.append(x)
        st.extend(reversed(x.children))
    for x in g.nodes:
        x.main = False
    x = root
    while True:
        x.main = True
        if not x.children:
            break
        x = x.children[0]
    return g


# Export.
SEVEN_TAGS = [b"Event", b"Site", b"Date", b"Round", b"White", b"Black", b"Result"]


def export(g: Game, extra: Mapping[int, Sequence[bytes]] | None = None) -> bytes:
    """extra: node number -> list of texts added after its comments"""
    added = extra or {}

    def comments(node: Node) -> list[bytes]:
        return node.comments + [b" ".join(words(x)) for x in added.get(node.no, []) if words(x)]

    out = bytearray()

    def tagline(n: bytes, v: bytes) -> None:
        out.extend(b"[" + n + b' "' + v.replace(b"\\", b"\\\\").replace(b'"', b'\\"') + b'"]\n')

    for n in SEVEN_TAGS:
        if n == b"Result":
            tagline(n, RESULT_TEXTS[g.result])
        else:
            tagline(n, g.tags.get(n, b"????.??.??" if n == b"Date" else b"?"))
    rest = {n: v for n, v in g.tags.items() if n not in SEVEN_TAGS}
    if b"FEN" in rest:
        rest[b"SetUp"] = b"1"
    for n in sorted(rest):
        tagline(n, rest[n])
    out.extend(b"\n")
    ws: list[bytes] = []

    def put_comment(c: bytes) -> None:
        w = c.split(b" ")
        w[0] = b"{" + w[0]
        w[-1] += b"}"
        ws.extend(w)

    def put_move(node: Node, before: Node, due: bool) -> bool:
        p = before.pos
        if p.side == 0:
            ws.append(b"%d." % p.number)
        elif due:
            ws.append(b"%d..." % p.number)
        ws.append(san_text(p, node.move).encode())
        for x in node.nags:
            ws.append(b"$%d" % x)
        cs = comments(node)
        for c in cs:
            put_comment(c)
        return bool(node.nags or cs)

    def line(node: Node, due: bool) -> None:
        while node.children:
            c = node.children[0]
            due = put_move(c, node, due)
            for v in node.children[1:]:
                i = len(ws)
                d = put_move(v, node, True)
                line(v, d)
                ws[i] = b"(" + ws[i]
                ws[-1] += b")"
                due = True
            node = c

    for c in comments(g.root):
        put_comment(c)
    line(g.root, True)
    ws.append(RESULT_TEXTS[g.result])
    col = 0
    for w in ws:
        if col == 0:
            out.extend(w)
            col = len(w)
        elif col + 1 + len(w) <= 79:
            out.extend(b" " + w)
            col += 1 + len(w)
        else:
            out.extend(b"\n" + w)
            col = len(w)
    out.extend(b"\n\n")
    return bytes(out)
