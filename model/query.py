"""The query language: tokens, grammar, kinds, names and limits, each with its first fault."""

from __future__ import annotations

import re
import sys
from typing import Any, Callable, FrozenSet, Iterable, Iterator, NoReturn, Optional, Tuple, TypedDict, Union

from .chess import MEN
from .pgn import ASCII_LETTERS, DIGITS, MARKERS, WHITE_SPACE

# The parser enters a dozen functions for each open construct.
sys.setrecursionlimit(20000)

# A token: where it begins, its kind and its value. A designator: men, squares, whether its rows and its columns are whole.
Token = Tuple[int, str, Any]
Designator = Tuple[int, int, bool, bool]
# A part of a line: a filter or parts in brackets, and how often it may stand.
Constituent = Tuple[Tuple[str, Any], Tuple[Any, ...]]

# Tokens.
ROWS = [
    "cql input output matchstring variations",
    "check mate stalemate wtm btm initial terminal mainline variation hascomment",
    "ply movenumber depth year",
    "result player event site elo white black",
    "not and or if then else square all in",
    "find child parent line primary",
    "attacks attackedby between light dark",
    "up down left right northeast northwest southeast southwest diagonal orthogonal anydirection",
    "power max min",
    "flip rotate90 flipvertical fliphorizontal flipcolor shift shifthorizontal shiftvertical",
    "sort comment",
    "move from to capture promote",
]
WORDS = set(" ".join(ROWS).split())
PLAIN_WORDS = set((ROWS[1] + " " + ROWS[2]).split())
NUMBER_WORDS = set(ROWS[2].split())
DIRECTIONS = ROWS[7].split()
FAMILIES = ROWS[9].split()
RESERVED = set(
    """echo loop while function persistent dictionary string message ray pin xray rotate45 virtualmainline
 makesquare colortype type piece distance legal pseudolegal passedpawns isolatedpawns silent quiet gamenumber nestban
 singlecolor lastposition firstmatch""".split()
)
MARKS = ["-->", "<--", "<=", ">=", "==", "<", ">", "+", "-", "*", "?", "#", "|", "&", "~", "(", ")", "{", "}", ","]
MAN_LETTERS = b"KQRBNPkqrbnpAa_."


class QueryFault(Exception):
    def __init__(self, byte: int, reason: str, *names: Union[bytes, str, None]) -> None:
        self.byte, self.reason, self.names = byte, reason, names


def fault_line(f: QueryFault) -> bytes:
    r = f.reason.encode()
    for n in f.names:
        r = r.replace(b"%s", n if isinstance(n, bytes) else str(n).encode(), 1)
    return b"query byte %d: %s\n" % (f.byte, r)


def mask_of(ms: Iterable[int]) -> int:
    return sum(1 << m for m in set(ms))


def men_of(t: bytes) -> int:
    out: set[int] = set()
    for c in t:
        letter = chr(c)
        if letter in MEN:
            out.add(MEN.index(letter))
        elif letter == "A":
            out |= set(range(6))
        elif letter == "a":
            out |= set(range(6, 12))
        elif letter == "_":
            out.add(12)
        elif letter == ".":
            out |= set(range(13))
    return mask_of(out)


def squares_mask(t: bytes) -> int:
    m = 0
    for spec in t.strip(b"[]").split(b","):
        x = re.fullmatch(rb"([a-h])(?:-([a-h]))?([1-8])(?:-([1-8]))?", spec)
        assert x is not None
        f1, f2 = x.group(1)[0] - 97, (x.group(2) or x.group(1))[0] - 97
        r1, r2 = x.group(3)[0] - 49, (x.group(4) or x.group(3))[0] - 49
        for f in range(min(f1, f2), max(f1, f2) + 1):
            for r in range(min(r1, r2), max(r1, r2) + 1):
                m |= 1 << (r * 8 + f)
    return m


def longest_squares(b: bytes, i: int) -> int | None:
    if i < len(b) and b[i] == 91:
        j = i + 1
        # a list: every item is one whole specification, so try all ends of each (a set of places)
        ends = set(spec_ends(b, j))
        close: int | None = None
        while ends:
            nxt: set[int] = set()
            for e in ends:
                if b[e : e + 1] == b"]":
                    close = max(close or 0, e + 1)
                elif b[e : e + 1] == b",":
                    nxt |= set(spec_ends(b, e + 1))
            ends = nxt
        return close
    return max(spec_ends(b, i), default=None)


def spec_ends(b: bytes, i: int) -> list[int]:
    return [
        x.end()
        for x in (
            re.compile(p).match(b, i) for p in (rb"[a-h][1-8]", rb"[a-h]-[a-h][1-8]", rb"[a-h][1-8]-[1-8]", rb"[a-h]-[a-h][1-8]-[1-8]")
        )
        if x
    ]


def longest_designator(b: bytes, i: int) -> tuple[int, bytes | None, bytes | None] | None:
    """(end, men text or None, squares text or None) of the longest designator at i, or None"""
    cands: list[tuple[int, bytes | None, bytes | None]] = []
    e = longest_squares(b, i)
    if e is not None:
        cands.append((e, None, bytes(b[i:e])))
    mends = []
    if b[i] in MAN_LETTERS:
        mends.append(i + 1)
    x = re.compile(rb"\[[KQRBNPkqrbnpAa_.]+\]").match(b, i)
    if x:
        mends.append(x.end())
    for m in mends:
        cands.append((m, bytes(b[i:m]), None))
        e = longest_squares(b, m)
        if e is not None:
            cands.append((e, bytes(b[i:m]), bytes(b[m:e])))
    return max(cands, key=lambda c: c[0]) if cands else None


def designator(men: bytes | None, sqs: bytes | None) -> Designator:
    mm = men_of(b".") if men is None else men_of(men.strip(b"[]"))
    sm = (1 << 64) - 1 if sqs is None else squares_mask(sqs)
    rows = [(sm >> (8 * r)) & 255 for r in range(8)]
    cols = [sum(1 for r in range(8) if sm >> (8 * r + f) & 1) for f in range(8)]
    return (mm, sm, all(r in (0, 255) for r in rows), all(c in (0, 8) for c in cols))


def query_tokens(b: bytes) -> list[Token]:
    """list of (at, kind, value)"""
    if len(b) > 65536:
        raise QueryFault(65536, "query too long")
    out: list[Token] = []
    i = 0
    n = len(b)
    prev: Any = None
    while i < n:
        c = b[i]
        if c in WHITE_SPACE:
            i += 1
            continue
        if b[i : i + 2] == b"//":
            j = b.find(b"\n", i)
            i = n if j < 0 else j
            continue
        tok: tuple[str, Any] | None = None
        if prev in ("input", "output") and 0x21 <= c and c not in b'()"':
            j = i
            while j < n and b[j] >= 0x21 and b[j] not in b'()"':
                j += 1
            tok = ("FileName", bytes(b[i:j]))
        elif prev == "result" and any(b.startswith(x, i) for x in (b"1/2-1/2", b"1-0", b"0-1", b"*")):
            marker = [x for x in (b"1/2-1/2", b"1-0", b"0-1", b"*") if b.startswith(x, i)][0]
            j = i + len(marker)
            tok = ("Outcome", MARKERS[marker])
        elif c == 34:
            j = b.find(b'"', i + 1)
            if j < 0:
                raise QueryFault(i, "unclosed text")
            tok = ("Text", bytes(b[i + 1 : j]))
            j += 1
        elif c in DIGITS:
            j = i
            while j < n and b[j] in DIGITS:
                j += 1
            digits = bytes(b[i:j]).lstrip(b"0") or b"0"
            if len(digits) > 9:
                raise QueryFault(i, "number too large")
            tok = ("Number", int(digits))
        elif c in ASCII_LETTERS or c in b"_.[":
            j = i
            while j < n and (b[j] in ASCII_LETTERS or b[j] in DIGITS or b[j] == 95):
                j += 1
            d = longest_designator(b, i)
            if d is not None and d[0] >= j:
                j = d[0]
                tok = ("Squares", designator(d[1], d[2]))
            elif j > i:
                w = bytes(b[i:j]).decode()
                tok = ("Word", w) if w in WORDS else ("Reserved", w) if w in RESERVED else ("Name", w)
        if tok is None:
            for m in sorted(MARKS, key=len, reverse=True):
                if b.startswith(m.encode(), i):
                    tok = ("Mark", m)
                    j = i + len(m)
                    break
        if tok is None:
            raise QueryFault(i, "bad byte")
        out.append((i, tok[0], tok[1]))
        prev = tok[1] if tok[0] == "Word" else None
        i = j
    out.append((n, "End", None))
    return out


# The grammar.
class Filter:
    """a filter: place, form, arguments"""

    def __init__(self, at: int, form: str, *a: Any) -> None:
        self.at, self.form = at, form
        self.args: list[Any] = list(a)
        self.names: set[str] | None = None


class Query(TypedDict):
    """a query: whether variations are searched, where the text of a match begins and what it is, and the items"""

    variations: bool
    match_at: int
    match_text: bytes
    items: list[Filter]


class Parser:
    def __init__(self, tokens: list[Token], limit: int = 64) -> None:
        self.tokens, self.index, self.depth, self.limit = tokens, 0, 0, limit

    def kind(self) -> str:
        return self.tokens[self.index][1]

    def is_(self, kind: str, *vals: Any) -> bool:
        return self.kind() == kind and (not vals or self.tokens[self.index][2] in vals)

    def word(self, *v: str) -> bool:
        return self.is_("Word", *v)

    def mark(self, *v: str) -> bool:
        return self.is_("Mark", *v)

    def bad(self) -> NoReturn:
        at, k, v = self.tokens[self.index]
        if k == "End":
            raise QueryFault(at, "unexpected end")
        if k == "Reserved":
            raise QueryFault(at, "outside profile %s", v)
        raise QueryFault(at, "unexpected token")

    def take(self, kind: str, *vals: str) -> Any:
        if not self.is_(kind, *vals):
            self.bad()
        self.index += 1
        return self.tokens[self.index - 1][2]

    def open(self, kind: str, *vals: str) -> Any:
        if not self.is_(kind, *vals):
            self.bad()
        if self.depth == self.limit:
            raise QueryFault(self.tokens[self.index][0], "too deep")
        self.depth += 1
        self.index += 1
        return self.tokens[self.index - 1][2]

    def close(self) -> None:
        self.depth -= 1

    def query(self) -> Query:
        q: Query = {"variations": False, "match_at": 0, "match_text": b"CQL", "items": []}
        self.take("Word", "cql")
        self.take("Mark", "(")
        while True:
            at = self.tokens[self.index][0]
            if self.word("input", "output"):
                self.index += 1
                if not self.is_("FileName"):
                    self.take("Text")
                else:
                    self.index += 1
            elif self.word("matchstring"):
                self.index += 1
                q["match_text"] = self.take("Text")
                q["match_at"] = at
            elif self.word("variations"):
                self.index += 1
                q["variations"] = True
            else:
                break
        self.take("Mark", ")")
        q["items"] = [self.or_()]
        while self.begins():
            q["items"].append(self.or_())
        self.take("End")
        return q

    def begins(self) -> bool:
        return (
            self.kind() in ("Squares", "Number", "Name")
            or self.mark("~", "#", "(", "{")
            or self.word(
                "result",
                "player",
                "event",
                "site",
                "elo",
                "comment",
                "between",
                "max",
                "min",
                "not",
                "find",
                "child",
                "parent",
                "if",
                "square",
                "line",
                "move",
                "sort",
                "light",
                "dark",
                "power",
                *FAMILIES,
                *DIRECTIONS,
                *PLAIN_WORDS,
            )
        )

    def chain(self, form: str, part: Callable[[], Filter], istok: Callable[[], bool]) -> Filter:
        at = self.tokens[self.index][0]
        xs = [part()]
        while istok():
            self.index += 1
            xs.append(part())
        return xs[0] if len(xs) == 1 else Filter(at, form, xs)

    def or_(self) -> Filter:
        return self.chain("or", self.and_, lambda: self.word("or"))

    def and_(self) -> Filter:
        return self.chain("and", self.pre, lambda: self.word("and"))

    def pre(self) -> Filter:
        at = self.tokens[self.index][0]
        if self.word("not", "find", "child", "parent"):
            w = self.open("Word")
            if w == "find" and self.mark("<--"):
                self.index += 1
                w = "find <--"
            f = Filter(at, w, self.pre())
            self.close()
            return f
        if self.word(*FAMILIES):
            w = self.open("Word")
            f = Filter(at, "family", w, self.pre())
            self.close()
            return f
        if self.word("if"):
            self.open("Word")
            a = self.or_()
            self.take("Word", "then")
            b = self.or_()
            self.take("Word", "else")
            c = self.pre()
            self.close()
            return Filter(at, "if", a, b, c)
        if self.word("square"):
            self.open("Word")
            al = False
            if self.word("all"):
                self.index += 1
                al = True
            nm = self.take("Name")
            self.take("Word", "in")
            x = self.union()
            f = self.pre()
            self.close()
            return Filter(at, "square", al, nm, x, f)
        if self.word("line"):
            self.open("Word")
            primary = False
            ext: list[int] | None = None
            if self.word("primary"):
                self.index += 1
                primary = True
            if self.is_("Number"):
                ext = []
                for _ in (0, 1):
                    if not (self.is_("Number") and 1 <= self.tokens[self.index][2] <= 127):
                        self.bad()
                    ext.append(self.take("Number"))
            arrow = self.take("Mark", "-->", "<--")
            parts = [self.constituent(arrow)]
            while self.mark(arrow):
                self.index += 1
                parts.append(self.constituent(arrow))
            self.close()
            return Filter(at, "line", arrow == "<--", primary, ext, parts)
        if self.word("move"):
            self.open("Word")
            ps: list[Filter | None] = []
            for w in ("from", "to", "capture", "promote"):
                if self.word(w):
                    self.index += 1
                    ps.append(self.unary())
                else:
                    ps.append(None)
            self.close()
            return Filter(at, "move", *ps)
        if self.word("sort"):
            self.open("Word")
            mn = False
            if self.word("min"):
                self.index += 1
                mn = True
            t = self.take("Text")
            f = self.pre()
            self.close()
            return Filter(at, "sort", mn, t, f)
        return self.comparison()

    def constituent(self, arrow: str) -> Constituent:
        if self.mark("("):
            self.open("Mark")
            ps = [self.constituent(arrow)]
            while self.mark(arrow):
                self.index += 1
                ps.append(self.constituent(arrow))
            self.take("Mark", ")")
            self.close()
            body: tuple[str, Any] = ("group", ps)
        else:
            body = ("atom", self.primary())
        m: tuple[Any, ...] = ("once",)
        if self.mark("*", "+", "?"):
            m = (self.take("Mark"),)
        elif self.mark("{"):
            self.index += 1
            a = b = self.take("Number")
            if self.mark(","):
                self.index += 1
                b = self.take("Number")
            self.take("Mark", "}")
            m = ("times", a, b)
        return (body, m)

    def comparison(self) -> Filter:
        at = self.tokens[self.index][0]
        a = self.sum()
        if self.mark("<", "<=", "==", ">=", ">"):
            o = self.take("Mark")
            return Filter(at, o, a, self.sum())
        return a

    def sum(self) -> Filter:
        at = self.tokens[self.index][0]
        xs = [(False, self.product())]
        while self.mark("+", "-"):
            m = self.take("Mark")
            xs.append((m == "-", self.product()))
        return xs[0][1] if len(xs) == 1 else Filter(at, "sum", xs)

    def product(self) -> Filter:
        return self.chain("product", self.union, lambda: self.mark("*"))

    def union(self) -> Filter:
        return self.chain("union", self.inter, lambda: self.mark("|"))

    def inter(self) -> Filter:
        return self.chain("intersection", self.pair, lambda: self.mark("&"))

    def pair(self) -> Filter:
        at = self.tokens[self.index][0]
        a = self.unary()
        if self.word("attacks", "attackedby"):
            w = self.take("Word")
            return Filter(at, w, a, self.unary())
        return a

    def unary(self) -> Filter:
        at = self.tokens[self.index][0]
        if self.mark("~", "#") or self.word("power", "light", "dark"):
            w = self.open(self.kind())
            f = Filter(at, w, self.unary())
            self.close()
            return f
        if self.word(*DIRECTIONS):
            w = self.open("Word")
            m, n = 1, 7
            if self.is_("Number"):
                m = n = self.take("Number")
                if self.is_("Number"):
                    n = self.take("Number")
                if self.is_("Number"):
                    self.bad()
            f = Filter(at, "direction", w, m, n, self.unary())
            self.close()
            return f
        return self.primary()

    def primary(self) -> Filter:
        at, k, v = self.tokens[self.index]
        if k in ("Squares", "Number", "Name"):
            self.index += 1
            return Filter(at, k.lower() if k != "Squares" else "designator", v)
        if k == "Word":
            if v in PLAIN_WORDS:
                self.index += 1
                return Filter(at, "plain", v)
            if v == "result":
                self.index += 1
                return Filter(at, "result", self.take("Outcome"))
            if v in ("player", "elo"):
                self.index += 1
                of = None
                if self.word("white", "black"):
                    of = self.take("Word")
                return Filter(at, "player", of, self.take("Text")) if v == "player" else Filter(at, "elo", of)
            if v in ("event", "site", "comment"):
                self.index += 1
                return Filter(at, v, self.take("Text"))
            if v == "between":
                self.open("Word")
                self.take("Mark", "(")
                a = self.or_()
                b = self.or_()
                self.take("Mark", ")")
                self.close()
                return Filter(at, "between", a, b)
            if v in ("max", "min"):
                self.open("Word")
                self.take("Mark", "(")
                xs = [self.or_(), self.or_()]
                while self.begins():
                    xs.append(self.or_())
                self.take("Mark", ")")
                self.close()
                return Filter(at, v, xs)
        if k == "Mark" and v == "(":
            self.open("Mark")
            f = self.or_()
            self.take("Mark", ")")
            self.close()
            f.at = at
            return f
        if k == "Mark" and v == "{":
            self.open("Mark")
            xs = [self.or_()]
            while self.begins():
                xs.append(self.or_())
            self.take("Mark", "}")
            self.close()
            return Filter(at, "all", xs)
        self.bad()


def parse(tokens: list[Token]) -> Query:
    return Parser(tokens).query()


# Kinds, names and limits.
SET_FORMS = {
    "designator",
    "name",
    "~",
    "union",
    "intersection",
    "attacks",
    "attackedby",
    "between",
    "light",
    "dark",
    "direction",
}
NUMBER_FORMS = {"number", "elo", "#", "power", "sum", "product", "max", "min", "line"}


def kind_of(f: Filter) -> str:
    if f.form == "family":
        return kind_of(f.args[1])
    if f.form in SET_FORMS:
        return "set"
    if f.form in NUMBER_FORMS or (f.form == "plain" and f.args[0] in NUMBER_WORDS):
        return "number"
    return "position"


def atoms_of(parts: list[Constituent]) -> Iterator[Filter]:
    for body, m in parts:
        if body[0] == "atom":
            yield body[1]
        else:
            yield from atoms_of(body[1])


def parts_of(f: Filter) -> list[tuple[Filter, str | None, str | None]]:
    """(part, wanted kind or None, name bound there or None)"""
    k, a = f.form, f.args
    if k in ("~", "light", "dark", "#", "power"):
        return [(a[0], "set", None)]
    if k in ("union", "intersection"):
        return [(x, "set", None) for x in a[0]]
    if k in ("attacks", "attackedby", "between"):
        return [(x, "set", None) for x in a]
    if k == "direction":
        return [(a[3], "set", None)]
    if k == "sum":
        return [(x, "number", None) for _, x in a[0]]
    if k in ("product", "max", "min"):
        return [(x, "number", None) for x in a[0]]
    if k in ("<", "<=", "==", ">=", ">"):
        return [(x, "number", None) for x in a]
    if k == "sort":
        return [(a[2], "number", None)]
    if k == "square":
        return [(a[2], "set", None), (a[3], "position", a[1])]
    if k in ("or", "and", "all"):
        return [(x, "position", None) for x in a[0]]
    if k in ("not", "find", "find <--", "child", "parent"):
        return [(a[0], "position", None)]
    if k == "if":
        return [(x, "position", None) for x in a]
    if k == "line":
        return [(x, "position", None) for x in atoms_of(a[3])]
    if k == "move":
        return [(x, "set", None) for x in a if x is not None]
    if k == "family":
        return [(a[1], None, None)]
    return []


def names_in(f: Filter) -> set[str]:
    """the names in a filter that stand for a square of a filter around it"""
    if f.names is None:
        f.names = {f.args[0]} if f.form == "name" else set()
        for part, _, bound in parts_of(f):
            f.names |= {name for name in names_in(part) if name != bound}
    return f.names


# What is met on the way through a query: a filter, the kind that is wanted, names bound, squares around, whether it is at the top, and the
# number of the sort item.
Met = Tuple[Filter, Optional[str], FrozenSet[str], int, bool, int]


def preorder(q: Query) -> list[Met]:
    """(filter, wanted kind, names bound, squares around, top, number of the sort item)"""
    out: list[Met] = []

    def walk(f: Filter, want: str | None, names: FrozenSet[str], sq: int, top: bool, nsort: int) -> None:
        out.append((f, want, names, sq, top, nsort))
        for p, w, nm in parts_of(f):
            walk(p, w, names | {nm} if nm is not None else names, sq + (f.form == "square"), False, 0)

    n = 0
    for f in q["items"]:
        if f.form == "sort":
            n += 1
        walk(f, "position", frozenset(), 0, True, n)
    return out


def places(parts: list[Constituent]) -> int:
    t = 0
    for body, m in parts:
        p: int = 1 if body[0] == "atom" else places(body[1])
        if m[0] == "times":
            p = p * m[2] if m[2] else p
        t += p
    return t


def size(fam: str) -> int:
    return {"flip": 8, "rotate90": 4, "shift": 225, "shifthorizontal": 15, "shiftvertical": 15}.get(fam, 2)


def weight(f: Filter) -> int:
    w = sum(weight(p) for p, _, _ in parts_of(f))
    return 1 + (size(f.args[0]) * w if f.form == "family" else w)


def check(q: Query) -> Query:
    if b"}" in q["match_text"]:
        raise QueryFault(q["match_at"], "text holds brace")
    pre = preorder(q)
    for f, want, names, sq, top, nsort in pre:
        k = kind_of(f)
        if want in ("set", "number") and k != want:
            raise QueryFault(f.at, "kind mismatch, wanted %s, found %s", want, k)
        if f.form in ("sort", "comment") and not top:
            raise QueryFault(f.at, "not at top")
        if f.form == "sort" and nsort > 4:
            raise QueryFault(f.at, "too many sorts")
        if f.form == "name" and f.args[0] not in names:
            raise QueryFault(f.at, "unknown name %s", f.args[0])
        if f.form == "comment" and b"}" in f.args[0]:
            raise QueryFault(f.at, "text holds brace")
    for x in pre:
        if x[0].form == "line" and places(x[0].args[3]) > 64:
            raise QueryFault(x[0].at, "line too long")
    for x in pre:
        if x[0].form == "square" and x[3] == 4:
            raise QueryFault(x[0].at, "too many squares")
    if sum(weight(f) for f in q["items"]) > 1 << 18:
        for x in pre:
            if x[0].form == "family":
                raise QueryFault(x[0].at, "too many members")
        raise QueryFault(0, "too many members")
    return q


def read_query(b: bytes) -> Query:
    return check(parse(query_tokens(b)))
