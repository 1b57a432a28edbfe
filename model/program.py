"""The whole program as functions: `eval` of a query over an archive, `many` of several, `check`, `explain` and `selfrun` of a query."""

from __future__ import annotations

import re
from typing import Dict, Iterator, List, Sequence, Tuple, Union

from .explain import explain
from .maker import made
from .meaning import Search, hits, keys
from .pgn import Fault, Game, Node, cut, export, read_game
from .query import Query, QueryFault, fault_line, read_query

# An answer: its status, what is on standard output, and what is on standard error.
Answer = Tuple[int, bytes, bytes]

_games: Dict[bytes, List[Union[Game, Fault]]] = {}


def games_of(b: bytes) -> list[Game | Fault]:
    if b not in _games:
        if len(_games) > 50:
            _games.clear()
        _games[b] = [read_game(b, sp) for sp in cut(b)]
    return _games[b]


def export_of(q: Query, g: Game, hs: list[Node]) -> bytes:
    texts = [q["match_text"]] + [f.args[0] for f in q["items"] if f.form == "comment"]
    return export(g, {n.no: texts for n in hs})


def order_of(q: Query, hs: list[Node], s: Search) -> list[int]:
    """what a game is sorted by, the least first"""
    return [k if f.args[0] else -k for k, f in zip(keys(q, hs, s), [f for f in q["items"] if f.form == "sort"])]


def parts(q: Query, b: bytes, first: bool = False) -> Iterator[tuple[int, bytes]]:
    """what is written, in its order, of all games or up to the first that matches: (1, a game) and (2, a line of the report); what is
    sorted comes when all games are read"""
    found: list[tuple[list[int], int, bytes]] = []
    number, refused = 0, 0
    for number, g in enumerate(games_of(b), 1):
        if isinstance(g, tuple):
            refused += 1
            yield 2, b"game %d byte %d: %s\n" % (number, g[1], g[2].encode())
            continue
        hs, s = hits(q, g)
        if hs:
            order, text = order_of(q, hs, s), export_of(q, g, hs)
            found.append((order, number, text))
            if not order or first:
                yield 1, text
            if first:
                break
    if found and found[0][0] and not first:
        yield from ((1, text) for _, _, text in sorted(found, key=lambda one: one[:2]))
    yield 2, b"games %d matched %d refused %d\n" % (number, len(found), refused)


def status_of(written: Sequence[tuple[int, bytes]]) -> int:
    """the status of an answer in parts: whether a game is faulty"""
    return int(sum(stream == 2 for stream, _ in written) > 1)


def answer(q: Query, b: bytes, first: bool = False) -> Answer:
    written = list(parts(q, b, first))
    out, err = (b"".join(text for stream, text in written if stream == wanted) for wanted in (1, 2))
    return (status_of(written), out, err)


USAGE = b"usage: cqlpgn MODE QUERY [ARCHIVE] [--workers N] [--seed S] [--games G] [--limit B] [--first]\n"


def run_eval(text: bytes, b: bytes, first: bool = False) -> Answer:
    try:
        q = read_query(text)
    except QueryFault as f:
        return (2, b"", fault_line(f))
    return answer(q, b, first)


MOST_BYTES, MOST_QUERIES = 1 << 20, 16


def pieces_of(text: bytes) -> list[bytes]:
    """the queries of a file, which is cut at each line that is exactly `%%`; that line and its end belong to none"""
    return re.split(rb"^%%(?:\n|\Z)", text, flags=re.M)


def joined(answers: Sequence[Answer]) -> Answer:
    """what `many` answers, of the answers to each query alone"""
    outs = [b"query %d bytes %d\n" % (number, len(out)) + out for number, (_, out, _) in enumerate(answers, 1)]
    *faults, _ = answers[0][2].splitlines(keepends=True)
    counts = [err.splitlines(keepends=True)[-1] for _, _, err in answers]
    return (answers[0][0], b"".join(outs), b"".join(faults + counts))


def run_many(text: bytes, b: bytes) -> Answer:
    """the queries of a file over one archive"""
    if len(text) > MOST_BYTES:
        return (2, b"", b"queries too long\n")
    pieces = pieces_of(text)
    if len(pieces) > MOST_QUERIES:
        return (2, b"", b"queries too many\n")
    queries = []
    for number, piece in enumerate(pieces, 1):
        try:
            queries.append(read_query(piece))
        except QueryFault as f:
            return (2, b"", b"query %d" % number + fault_line(f)[len(b"query") :])
    return joined([answer(q, b) for q in queries])


def run_check(text: bytes) -> Answer:
    try:
        read_query(text)
    except QueryFault as f:
        return (2, b"", fault_line(f))
    return (0, b"ok\n", b"")


def run_explain(text: bytes) -> Answer:
    try:
        q = read_query(text)
    except QueryFault as f:
        return (2, b"", fault_line(f))
    return (0, explain(q), b"")


def run_selfrun(text: bytes, seed: int = 1, games: int = 100) -> Answer:
    try:
        q = read_query(text)
    except QueryFault as f:
        return (2, b"", fault_line(f))
    archive = made(seed, games)
    status, out, err = answer(q, archive)
    return (status, b"bytes %d %s written %d\n" % (len(archive), err.splitlines()[-1], len(out)), b"")
