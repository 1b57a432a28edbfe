"""The games of an archive as lines of JSON, and the report on its faulty games: what `pgnjson` writes.

    python3 -m model.json_lines [MARK] < ARCHIVE
"""

from __future__ import annotations

import json
import sys
from typing import Any

from . import pgn
from .chess import Move, fen_text, san_text, square_name
from .program import Answer


def characters(b: bytes) -> str:
    """UTF-8, or a Latin-1 letter for each byte"""
    try:
        return b.decode("utf-8")
    except UnicodeDecodeError:
        return b.decode("latin-1")


def notes(node: pgn.Node) -> dict[str, Any]:
    """the glyphs and the comments, if there are any"""
    out: dict[str, Any] = {}
    if node.nags:
        out["nags"] = node.nags
    if node.comments:
        out["comments"] = [characters(c) for c in node.comments]
    return out


def uci_text(move: Move | None) -> str:
    if move is None:
        return "0000"
    start, goal, promotion = move
    return square_name(start) + square_name(goal) + ("" if promotion is None else "kqrbn"[promotion])


def node_object(node: pgn.Node, parent: pgn.Node, ply: int, mark: bytes) -> dict[str, Any]:
    out: dict[str, Any] = {"parent": parent.no, "ply": ply, "uci": uci_text(node.move), "san": san_text(parent.pos, node.move)}
    out.update(notes(node))
    if not mark or mark in node.comments:
        out["fen"] = fen_text(node.pos)
    return out


def game_object(game: pgn.Game, number: int, byte: int, mark: bytes) -> dict[str, Any]:
    tags = [[characters(name), characters(value)] for name, value in game.tags.items()]
    out: dict[str, Any] = {"game": number, "byte": byte, "tags": tags, "start": fen_text(game.root.pos)}
    out["result"] = pgn.RESULT_TEXTS[game.result].decode()
    out.update(notes(game.root))
    if not mark or mark in game.root.comments:
        out["marked"] = True
    plies, nodes = [0], []
    for node in game.nodes:
        if node.parent is not None:
            plies.append(plies[node.parent.no] + 1)
            nodes.append(node_object(node, node.parent, plies[-1], mark))
    out["nodes"] = nodes
    return out


def line(game: pgn.Game, number: int, byte: int, mark: bytes) -> bytes:
    """the line of a game that is read"""
    text = json.dumps(game_object(game, number, byte, mark), ensure_ascii=False, separators=(",", ":"))
    return text.encode() + b"\n"


def answer(archive: bytes, mark: bytes = b"CQL") -> Answer:
    mark = b" ".join(pgn.words(mark)).replace(b"}", b")")
    out: list[bytes] = []
    err: list[bytes] = []
    refused = number = 0
    for number, span in enumerate(pgn.cut(archive), 1):
        game = pgn.read_game(archive, span)
        if isinstance(game, tuple):
            refused += 1
            err.append(b"game %d byte %d: %s\n" % (number, game[1], game[2].encode()))
        else:
            out.append(line(game, number, span[0], mark))
    err.append(b"games %d matched %d refused %d\n" % (number, len(out), refused))
    return (1 if refused else 0, b"".join(out), b"".join(err))


if __name__ == "__main__":
    status, text, report = answer(sys.stdin.buffer.read(), *map(str.encode, sys.argv[1:]))
    sys.stdout.buffer.write(text)
    sys.stderr.buffer.write(report)
    sys.exit(status)
