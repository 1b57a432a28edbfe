"""A query as text after its families are opened: two filters with the same text mean the same."""

from __future__ import annotations

from .chess import MEN
from .pgn import RESULT_TEXTS
from .meaning import COMPASS, MEMBERS, Mappings, compass_image, exchanged, fits, image, light_changed
from .query import Constituent, Filter, Query, kind_of


def put(word: str, *parts: str) -> str:
    """a word with its parts, in brackets"""
    return "(" + " ".join((word,) + parts) + ")"


def quoted(text: bytes) -> str:
    return '"' + text.decode("latin1") + '"'


def of_exchanged(word: str, g: Mappings) -> str:
    """a colour or a side to move, as the mappings leave or exchange it"""
    return (
        {"white": "black", "black": "white", "wtm": "btm", "btm": "wtm", "White": "Black", "Black": "White"}.get(word, word)
        if exchanged(g)
        else word
    )


def constituent(c: Constituent, g: Mappings) -> str:
    """a part of a line"""
    body, m = c
    t = flat(body[1], g) if body[0] == "atom" else put("seq", *[constituent(x, g) for x in body[1]])
    if m[0] == "once":
        return t
    return put("{%d,%d}" % (m[1], m[2]) if m[0] == "times" else m[0], t)


def flat(f: Filter, g: Mappings) -> str:
    """the flat form as its text (two flat forms are equal where their texts and kinds are)"""
    k, a = f.form, f.args
    if k == "designator":
        d = image(g, a[0])
        if d is None:
            raise ValueError
        return "[" + "".join(c for i, c in enumerate(MEN + "_") if d[0] >> i & 1) + "]:%016x" % d[1]
    if k == "number":
        return str(a[0])
    if k == "name":
        return str(a[0])
    if k == "plain":
        return of_exchanged(a[0], g)
    if k == "result":
        return put("result", RESULT_TEXTS[of_exchanged(a[0], g)].decode())
    if k == "player":
        return put("player", *([of_exchanged(a[0], g)] if a[0] else []), quoted(a[1]))
    if k == "elo":
        return put("elo", *([of_exchanged(a[0], g)] if a[0] else []))
    if k in ("event", "site", "comment"):
        return put(k, quoted(a[0]))
    if k in ("not", "find", "child", "parent", "~", "#", "power"):
        return put(k, flat(a[0], g))
    if k == "find <--":
        return put("find<--", flat(a[0], g))
    if k in ("light", "dark"):
        return put(k if not light_changed(g) else {"light": "dark", "dark": "light"}[k], flat(a[0], g))
    if k == "direction":
        w = a[0]
        if w in COMPASS:
            w = [x for x in COMPASS if COMPASS[x] == compass_image(g, COMPASS[w])][0]
        return put(w, str(a[1]), str(a[2]), flat(a[3], g))
    if k in ("or", "and", "all", "max", "min", "union", "intersection", "product"):
        return put({"union": "|", "intersection": "&", "product": "*"}.get(k, k), *[flat(x, g) for x in a[0]])
    if k == "sum":
        t = flat(a[0][0][1], g)
        for m, x in a[0][1:]:
            t = put("-" if m else "+", t, flat(x, g))
        return t
    if k in ("<", "<=", "==", ">=", ">", "attacks", "attackedby", "between", "if"):
        return put(k, *[flat(x, g) for x in a])
    if k == "square":
        return put("square", *(["all"] if a[0] else []), a[1], flat(a[2], g), flat(a[3], g))
    if k == "sort":
        return put("sort", *(["min"] if a[0] else []), quoted(a[1]), flat(a[2], g))
    if k == "move":
        parts: list[str] = []
        for w, x in zip(("from", "to", "capture", "promote"), a):
            if x is not None:
                parts += [w, flat(x, g)]
        return put("move", *parts)
    if k == "line":
        pre = (["primary"] if a[1] else []) + ([str(x) for x in a[2]] if a[2] else []) + ["<--" if a[0] else "-->"]
        return put("line", *pre, *[constituent(c, g) for c in a[3]])
    assert k == "family"
    out: list[str] = []
    for h in MEMBERS[a[0]]:
        if fits((h,) + g, a[1]):
            t = flat(a[1], (h,) + g)
            if t not in out:
                out.append(t)
    return put({"position": "any", "set": "union", "number": "greatest"}[kind_of(f)], *out)


def explain(q: Query) -> bytes:
    return "".join(flat(f, ()) + "\n" for f in q["items"]).encode("latin1")
