"""Queries over chess games, by the program cqlpgn: what it finds, where each game came from, and faults that help.

    import cqlpgn

    for hit in cqlpgn.search('cql() mate', 'games.pgn.zst'):
        print(hit.archive, hit.game_number, hit.ply, hit.san, hit.fen, hit.tags['White'])
    cqlpgn.check('cql() echo')      # None, or a Fault with byte, line, column, reason and hint
"""

from .errors import Error, Fault, NotFound, Stopped, Unreadable
from .query import text
from .search import Found, Hit, check, found, search

__all__ = ["Error", "Fault", "Found", "Hit", "NotFound", "Stopped", "Unreadable", "check", "found", "search", "text"]
