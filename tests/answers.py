"""What games should be: small archives, and what the independent model says of them."""

from __future__ import annotations

from model import meaning, program, query
from model.pgn import Node

ONE = b"1. e4 e5 2. Nf3 *\n1. f3 e5 2. g4 Qh4# 0-1\n1. d4 *\n"
TWO = b"1. e4 *\n1. e4 e5 2. Ke3 *\n1. f3 e6 2. g4 Qh4# 0-1\n"
QUERY = "cql() check"
COUNTS_ONE, COUNTS_TWO = "games 3 matched 1 refused 0", "games 3 matched 1 refused 1"
FAULT_TWO = "game 2 byte 20: illegal move"
TOTAL = "all archives: games 6 matched 2 refused 1"
LINES = ["one.pgn: " + COUNTS_ONE, "two.pgn: " + FAULT_TWO, "two.pgn: " + COUNTS_TWO]
MANY = b"cql() check\n%%\ncql() initial\n%%\ncql() Pa8\n"


def found(*archives: bytes, asking: str = QUERY) -> bytes:
    """The games that the model finds in archives, one after the other."""
    return b"".join(program.run_eval(asking.encode(), archive)[1] for archive in archives)


def nodes_found(asking: str, archive: bytes) -> list[tuple[int, list[Node]]]:
    """Of each game that the model reads its number, and the nodes at which the query holds."""
    read, games = query.read_query(asking.encode()), enumerate(program.games_of(archive), 1)
    return [(number, meaning.hits(read, game)[0]) for number, game in games if not isinstance(game, tuple)]
