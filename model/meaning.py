"""What a filter means at a node of a game's tree: a set of squares, a number, or a truth value.

A filter is asked under a tuple of mappings (the innermost family first) and an environment of named squares."""

from __future__ import annotations

import functools
import re
from typing import Any, Callable, Dict, Iterable, List, Optional, Sequence, Set, Tuple, TypeVar, cast

from .chess import EMPTY, PAWN, attacks_list, between, in_check, is_mate, is_stalemate, on_board
from .pgn import DIGITS, Game, Node
from .query import FAMILIES, Constituent, Designator, Filter, Query, kind_of, names_in, parts_of

# A mapping: a symmetry, whether the colours are exchanged, and the shift to the east and to the north. Names, each with its square.
Mapping = Tuple[int, bool, int, int]
Mappings = Tuple[Mapping, ...]
Names = Tuple[Tuple[str, int], ...]
Step = Tuple[int, int]
Places = Set[int]

SYMMETRIES: Dict[int, Callable[[int, int], Step]] = {
    1: lambda f, r: (f, r),
    2: lambda f, r: (7 - f, r),
    3: lambda f, r: (f, 7 - r),
    4: lambda f, r: (7 - f, 7 - r),
    5: lambda f, r: (r, f),
    6: lambda f, r: (7 - r, f),
    7: lambda f, r: (r, 7 - f),
    8: lambda f, r: (7 - r, 7 - f),
}


def members(fam: str) -> list[Mapping]:
    """mappings (symmetry, exchange, east, north)"""
    if fam == "flip":
        return [(i, False, 0, 0) for i in range(1, 9)]
    if fam == "rotate90":
        return [(i, False, 0, 0) for i in (1, 7, 4, 6)]
    if fam == "flipvertical":
        return [(1, False, 0, 0), (3, False, 0, 0)]
    if fam == "fliphorizontal":
        return [(1, False, 0, 0), (2, False, 0, 0)]
    if fam == "flipcolor":
        return [(1, False, 0, 0), (3, True, 0, 0)]
    if fam == "shift":
        return [(1, False, e, n) for n in range(-7, 8) for e in range(-7, 8)]
    if fam == "shifthorizontal":
        return [(1, False, e, 0) for e in range(-7, 8)]
    return [(1, False, 0, n) for n in range(-7, 8)]


MEMBERS = {f: members(f) for f in FAMILIES}


def image_under(m: Mapping, d: Designator) -> Designator | None:
    """a designator under one mapping, or None"""
    men, sq, wr, wf = d
    sy, ex, ea, no = m
    if ex:
        men = ((men & 63) << 6) | ((men >> 6) & 63) | (men & 4096)
    if ea or no:
        dx = 0 if wr else ea
        dy = 0 if wf else no
    else:
        dx = dy = 0
    turned = SYMMETRIES[sy]
    out = 0
    for s in range(64):
        if sq >> s & 1:
            f, r = turned(s & 7, s >> 3)
            if on_board(f + dx, r + dy):
                out |= 1 << ((r + dy) * 8 + f + dx)
    if out == 0:
        return None
    if sy >= 5:
        wr, wf = wf, wr
    return (men, out, wr, wf)


_images: Dict[Tuple[Mappings, Designator], Optional[Designator]] = {}


def image(g: Mappings, d: Designator) -> Designator | None:
    k = (g, d)
    if k not in _images:
        if len(_images) > 300000:
            _images.clear()
        x: Designator | None = d
        for m in g:
            x = image_under(m, x) if x is not None else None
        _images[k] = x
    return _images[k]


def exchanged(g: Mappings) -> bool:
    return sum(m[1] for m in g) % 2 == 1


def light_changed(g: Mappings) -> bool:
    return sum(m[0] in (2, 3, 6, 7) for m in g) % 2 == 1


COMPASS: Dict[str, Step] = {
    "up": (0, 1),
    "down": (0, -1),
    "left": (-1, 0),
    "right": (1, 0),
    "northeast": (1, 1),
    "northwest": (-1, 1),
    "southeast": (1, -1),
    "southwest": (-1, -1),
}


def compass_image(g: Mappings, d: Step) -> Step:
    for m in g:
        o = SYMMETRIES[m[0]](0, 0)
        t = SYMMETRIES[m[0]](*d)
        d = (t[0] - o[0], t[1] - o[1])
    return d


LIGHT = sum(1 << s for s in range(64) if ((s & 7) + (s >> 3)) % 2 == 1)
ALL = (1 << 64) - 1
POWER = [0, 9, 5, 3, 3, 1] * 2 + [0]
LOWEST, HIGHEST = -(1 << 63), (1 << 63) - 1


def squares_of(m: int) -> list[int]:
    """the squares of a set, from a1 on"""
    squares: list[int] = []
    while m:
        squares.append((m & -m).bit_length() - 1)
        m &= m - 1
    return squares


def fits(g: Mappings, f: Filter) -> bool:
    """decided by the designators and families that stand under no further family"""
    if f.form == "designator":
        return image(g, f.args[0]) is not None
    if f.form == "family":
        return any(fits((h,) + g, f.args[1]) for h in MEMBERS[f.args[0]])
    return all(fits(g, p) for p, _, _ in parts_of(f))


def tags_of(of: str | None, g: Mappings, white: bytes, black: bytes) -> list[bytes]:
    """the tag of the player named, or both"""
    if of is None:
        return [white, black]
    return [white] if (of == "white") != exchanged(g) else [black]


def in_range_all(operation: Callable[[int, int], int], values: Sequence[int | None]) -> int | None:
    """the values joined from the left, None where one is None or a result is out of range"""
    known = [v for v in values if v is not None]
    if len(known) < len(values):
        return None
    result = known[0]
    for v in known[1:]:
        result = operation(result, v)
        if not LOWEST <= result <= HIGHEST:
            return None
    return result


def steps_of_word(g: Mappings, word: str) -> list[Step]:
    """the steps of a direction's word under the mappings"""
    if word == "diagonal":
        return [COMPASS[c] for c in ("northeast", "northwest", "southeast", "southwest")]
    if word == "orthogonal":
        return [COMPASS[c] for c in ("up", "down", "left", "right")]
    if word == "anydirection":
        return list(COMPASS.values())
    return [compass_image(g, COMPASS[word])]


def steps_from(squares: int, steps: list[Step], least: int, most: int) -> int:
    """the squares that lie least to most steps from one of the squares"""
    out = 0
    for q in squares_of(squares):
        for dx, dy in steps:
            for i in range(least, min(most, 8) + 1):
                f, r = (q & 7) + i * dx, (q >> 3) + i * dy
                if on_board(f, r):
                    out |= 1 << (r * 8 + f)
    return out


Value = TypeVar("Value")
Asks = Callable[["Search", Filter, Mappings, Node, Names], Value]


def kept(ask: Asks[Value]) -> Asks[Value]:
    """asks once what a filter is at a node under the mappings, for each choice of squares for the names in it: no other name counts"""

    @functools.wraps(ask)
    def asked(self: Search, f: Filter, g: Mappings, n: Node, e: Names) -> Value:
        if f.form == "name":
            return ask(self, f, g, n, e)
        names = names_in(f)
        k = (f, g, n.no, tuple([x for x in e if x[0] in names]))
        if k not in self.asked:
            value = ask(self, f, g, n, e)
            if len(self.asked) > 300000:
                self.asked.clear()
            self.asked[k] = value
        return cast(Value, self.asked[k])

    return asked


class Search:
    """the searched tree of a game and the meaning of filters in it"""

    def __init__(self, game: Game, variations: bool) -> None:
        self.game = game
        self.var = variations
        self.nodes = game.nodes if variations else [x for x in game.nodes if x.main]
        self.children = {x.no: (x.children if variations else x.children[:1]) for x in self.nodes}
        self.fit: Dict[Tuple[int, Mappings], Tuple[Filter, List[Mappings]]] = {}
        self.asked: Dict[Tuple[Filter, Mappings, int, Names], Any] = {}
        self.attacks: Dict[Tuple[int, int], int] = {}

    def fitting(self, g: Mappings, f: Filter) -> list[Mappings]:
        k = (id(f), g)
        if k not in self.fit:
            self.fit[k] = (f, [(h,) + g for h in MEMBERS[f.args[0]] if fits((h,) + g, f.args[1])])
        return self.fit[k][1]

    def descendants(self, n: Node) -> list[Node]:
        out: list[Node] = []
        st = [n]
        while st:
            x = st.pop()
            out.append(x)
            st.extend(self.children[x.no])
        return out

    def attacked_from(self, q: int, n: Node) -> int:
        """the set of the squares that the man on a square attacks"""
        if (q, n.no) not in self.attacks:
            self.attacks[q, n.no] = sum(1 << t for t in attacks_list(n.pos.board, q))
        return self.attacks[q, n.no]

    def holds(self, f: Filter, g: Mappings, n: Node, e: Names) -> bool:
        k = kind_of(f)
        if k == "set":
            return self.set(f, g, n, e) != 0
        if k == "number":
            return self.number(f, g, n, e) is not None
        return self.position(f, g, n, e)

    @kept
    def set(self, f: Filter, g: Mappings, n: Node, e: Names) -> int:
        k, a = f.form, f.args
        board = n.pos.board
        if k == "designator":
            d = image(g, a[0])
            return 0 if d is None else sum(1 << q for q in squares_of(d[1]) if d[0] >> board[q] & 1)
        if k == "name":
            return 1 << dict(e)[a[0]]
        if k == "family":
            r = 0
            for h in self.fitting(g, f):
                r |= self.set(a[1], h, n, e)
            return r
        if k == "~":
            return ALL & ~self.set(a[0], g, n, e)
        if k == "union":
            r = 0
            for x in a[0]:
                r |= self.set(x, g, n, e)
            return r
        if k == "intersection":
            r = ALL
            for x in a[0]:
                r &= self.set(x, g, n, e)
            return r
        if k in ("light", "dark"):
            return self.set(a[0], g, n, e) & (LIGHT if (k == "light") != light_changed(g) else ALL & ~LIGHT)
        if k == "direction":
            return steps_from(self.set(a[3], g, n, e), steps_of_word(g, a[0]), a[1], a[2])
        one, other = self.set(a[0], g, n, e), self.set(a[1], g, n, e)
        if k == "attacks":
            return sum(1 << q for q in squares_of(one) if other & self.attacked_from(q, n))
        if k == "attackedby":
            r = 0
            for q in squares_of(other):
                r |= self.attacked_from(q, n)
            return r & one
        assert k == "between"
        r = 0
        for p in squares_of(one):
            for q in squares_of(other):
                for t in between(p, q):
                    r |= 1 << t
        return r

    @kept
    def number(self, f: Filter, g: Mappings, n: Node, e: Names) -> int | None:
        k, a = f.form, f.args
        if k == "number":
            return int(a[0])
        if k == "family":
            return max((x for x in (self.number(a[1], h, n, e) for h in self.fitting(g, f)) if x is not None), default=None)
        if k == "#":
            return bin(self.set(a[0], g, n, e)).count("1")
        if k == "power":
            return sum(POWER[n.pos.board[q]] for q in squares_of(self.set(a[0], g, n, e)))
        if k == "plain":
            return self.plain_number(a[0], n)
        if k == "elo":
            return self.elo(a[0], g)
        if k == "line":
            return self.line(f, g, n, e)
        if k in ("max", "min"):
            return in_range_all(max if k == "max" else min, [self.number(x, g, n, e) for x in a[0]])
        if k == "product":
            return in_range_all(lambda x, y: x * y, [self.number(x, g, n, e) for x in a[0]])
        values = [(minus, self.number(x, g, n, e)) for minus, x in a[0]]
        return in_range_all(lambda x, y: x + y, [-v if minus and v is not None else v for minus, v in values])

    def plain_number(self, w: str, n: Node) -> int | None:
        if w == "movenumber":
            return n.pos.number
        if w == "year":
            d = self.game.tags.get(b"Date", b"")[:4]
            return int(d) if len(d) == 4 and all(c in DIGITS for c in d) else None
        r = 0
        while n.parent is not None:
            if w == "ply" or n.parent.children[0] is not n:
                r += 1
            n = n.parent
        return r

    def elo(self, of: str | None, g: Mappings) -> int | None:
        texts = [self.game.tags.get(tag, b"") for tag in tags_of(of, g, b"WhiteElo", b"BlackElo")]
        return max((int(t) for t in texts if re.fullmatch(b"[0-9]{1,9}", t)), default=None)

    def plain(self, w: str, g: Mappings, n: Node) -> bool:
        p = n.pos
        if w == "check":
            return in_check(p, p.side)
        if w == "mate":
            return is_mate(p)
        if w == "stalemate":
            return is_stalemate(p)
        if w in ("wtm", "btm"):
            return (p.side == 0) == ((w == "wtm") != exchanged(g))
        if w == "initial":
            return n.parent is None
        if w == "terminal":
            return not self.children[n.no]
        if w == "mainline":
            return n.main
        if w == "variation":
            return not n.main
        assert w == "hascomment"
        return bool(n.comments)

    @kept
    def position(self, f: Filter, g: Mappings, n: Node, e: Names) -> bool:
        k, a = f.form, f.args
        if k == "plain":
            return self.plain(a[0], g, n)
        if k == "result":
            wanted: str = {"White": "Black", "Black": "White"}.get(a[0], a[0]) if exchanged(g) else a[0]
            return self.game.result == wanted
        if k == "player":
            return any(a[1] in self.game.tags.get(t, b"") for t in tags_of(a[0], g, b"White", b"Black"))
        if k in ("event", "site"):
            return a[0] in self.game.tags.get(k.capitalize().encode(), b"")
        if k == "not":
            return not self.holds(a[0], g, n, e)
        if k in ("and", "all"):
            return all(self.holds(x, g, n, e) for x in a[0])
        if k == "or":
            return any(self.holds(x, g, n, e) for x in a[0])
        if k == "if":
            return self.holds(a[1] if self.holds(a[0], g, n, e) else a[2], g, n, e)
        if k in ("<", "<=", "==", ">=", ">"):
            x, y = self.number(a[0], g, n, e), self.number(a[1], g, n, e)
            if x is None or y is None:
                return False
            return {"<": x < y, "<=": x <= y, "==": x == y, ">=": x >= y, ">": x > y}[k]
        if k == "square":
            v = (self.holds(a[3], g, n, e + ((a[1], q),)) for q in squares_of(self.set(a[2], g, n, e)))
            return all(v) if a[0] else any(v)
        if k == "find":
            return any(self.holds(a[0], g, below, e) for below in self.descendants(n))
        if k == "find <--":
            return any(self.holds(a[0], g, above, e) for above in self.paths_up(n, False)[0])
        if k == "child":
            return any(self.holds(a[0], g, below, e) for below in self.children[n.no])
        if k == "parent":
            return n.parent is not None and self.holds(a[0], g, n.parent, e)
        if k == "sort":
            return self.number(a[2], g, n, e) is not None
        if k == "comment":
            return True
        if k == "family":
            return any(self.holds(a[1], h, n, e) for h in self.fitting(g, f))
        assert k == "move"
        return self.move(a, g, n, e)

    def move(self, a: list[Filter | None], g: Mappings, n: Node, e: Names) -> bool:
        """is the move that leads to the node one of the move filter's"""
        if n.parent is None or n.move is None:
            return False
        o, t, pr = n.move
        b = n.parent.pos.board
        taken = t if b[t] != EMPTY else None
        if b[t] == EMPTY and b[o] % 6 == PAWN and (o & 7) != (t & 7):
            taken = (o >> 3) * 8 + (t & 7)
        if a[0] is not None and not self.set(a[0], g, n.parent, e) >> o & 1:
            return False
        if a[1] is not None and not self.set(a[1], g, n, e) >> t & 1:
            return False
        if a[2] is not None and (taken is None or not self.set(a[2], g, n.parent, e) >> taken & 1):
            return False
        if a[3] is not None and (pr is None or not self.set(a[3], g, n, e) >> t & 1):
            return False
        return True

    def paths_up(self, n: Node, primary: bool) -> list[list[Node]]:
        path = [n]
        while n.parent is not None and not (primary and n.parent.children[0] is not n):
            n = n.parent
            path.append(n)
        return [path]

    def paths_down(self, n: Node, primary: bool) -> list[list[Node]]:
        """each path from the node to a leaf of the searched tree"""
        paths: list[list[Node]] = []
        open_paths = [[n]]
        while open_paths:
            w = open_paths.pop()
            below = self.children[w[-1].no]
            if primary:
                below = [x for x in below if x.parent is not None and x.parent.children[0] is x]
            if not below:
                paths.append(w)
            open_paths += [w + [x] for x in below]
        return paths

    def line(self, f: Filter, g: Mappings, n: Node, e: Names) -> int | None:
        back, primary, ext, parts = f.args
        memo: Dict[Tuple[int, int], bool] = {}

        def at(x: Filter, w: Node) -> bool:
            k = (id(x), w.no)
            if k not in memo:
                memo[k] = self.holds(x, g, w, e)
            return memo[k]

        def ends(c: Constituent, w: list[Node], starts: Iterable[int]) -> Places:
            """the places where a part spelled by the constituent can end, begun at one of the starts"""
            body, m = c

            def once(st: Iterable[int]) -> Places:
                if body[0] == "atom":
                    return {i + 1 for i in st if i < len(w) and at(body[1], w[i])}
                return seq(body[1], w, st)

            if m[0] == "once":
                return once(starts)
            bounds: Dict[str, Tuple[int, Optional[int]]] = {"*": (0, None), "+": (1, None), "?": (0, 1)}
            lo, hi = (m[1], m[2]) if m[0] == "times" else bounds[m[0]]
            if hi is not None and lo > hi:
                return set()
            cur = set(starts)
            i = 0
            out: Places = set(cur) if lo == 0 else set()
            while hi is None or i < hi:
                nxt = once(cur)
                i += 1
                if hi is None and i > lo:
                    new = nxt - out
                    if not new:
                        break
                    out |= nxt
                    cur = nxt
                else:
                    cur = nxt
                    if i >= lo:
                        out |= cur
                if not cur:
                    break
            return out

        def seq(cs: list[Constituent], w: list[Node], st: Iterable[int]) -> Places:
            found = set(st)
            for c in cs:
                found = ends(c, w, found)
            return found

        best: int | None = None

        def ok(k: int) -> bool:
            return k >= 1 and (ext is None or ext[0] <= k <= ext[1])

        # A path is known by its last node, so the length of the longest spelled part is all that is asked.
        for w in self.paths_up(n, primary) if back else self.paths_down(n, primary):
            for k in seq(parts, w, {0}):
                if ok(k) and (best is None or k > best):
                    best = k
        return best

    def is_hit(self, q: Query, n: Node) -> bool:
        return all(self.holds(f, (), n, ()) for f in q["items"])


def hits(q: Query, game: Game) -> tuple[list[Node], Search]:
    s = Search(game, q["variations"])
    return [n for n in s.nodes if s.is_hit(q, n)], s


def keys(q: Query, hs: list[Node], s: Search) -> list[int]:
    """the value of each sort item over the nodes, at each of which it has one"""
    items = [f for f in q["items"] if f.form == "sort"]
    values = [[s.number(f.args[2], (), n, ()) for n in hs] for f in items]
    return [(min if f.args[0] else max)(v for v in row if v is not None) for f, row in zip(items, values)]
