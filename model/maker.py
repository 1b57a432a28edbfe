"""An archive made from a seed: python3 -m model.maker SEED GAMES writes it."""

from __future__ import annotations

import sys

from .chess import START, Move, is_mate, is_stalemate, legal_moves, play
from .pgn import Game, Node, export, make_game


class Draws:
    def __init__(self, seed: int) -> None:
        self.state = seed

    def below(self, bound: int) -> int:
        self.state = (self.state * 6364136223846793005 + 1442695040888963407) % 2**64
        return (self.state >> 33) % bound


def add(parent: Node, move: Move) -> Node:
    node = Node(parent, move, play(parent.pos, move))
    parent.children.append(node)
    return node


def made_game(number: int, draws: Draws) -> Game:
    root = Node(None, None, START)
    last = root
    for _ in range(20 + draws.below(60)):
        moves = legal_moves(last.pos)
        if not moves:
            break
        played = add(last, moves[draws.below(len(moves))])
        if draws.below(16) == 0:
            add(last, moves[draws.below(len(moves))])
        last = played
    result = "Open"
    if is_mate(last.pos):
        result = "White" if last.pos.side else "Black"
    elif is_stalemate(last.pos):
        result = "Draw"
    return make_game({b"Event": b"Selfrun", b"Round": b"%d" % number}, result, root)


def made(seed: int, games: int) -> bytes:
    draws = Draws(seed)
    return b"".join(export(made_game(number, draws)) for number in range(1, games + 1))


if __name__ == "__main__":
    sys.stdout.buffer.write(made(int(sys.argv[1]), int(sys.argv[2])))
