"""The cases of the themes, each a folder `gallery-NAME` of cases/, made from the examples of themes.toml.

    python3 -m tests.theme_cases            writes query and archive of each, and the model's answer where one of the two has changed

An example is there as it is written, with colours exchanged, and both of it with the wings exchanged where the theme is the same on both.
The tag `Wanted` says what the query must do with a game, and was not made by asking it.
"""

from __future__ import annotations

import sys

from cqlpgn.themes import Example, Theme, all_themes
from tests.cases import CASES, Case, read

FILES = str.maketrans("abcdefgh", "hgfedcba")
RANKS = str.maketrans("12345678", "87654321")


def colours_exchanged(example: Example) -> Example:
    """The same example for the other side."""
    board, side, castle, passed = example.start.split(" ")
    rights = "".join(sorted(castle.swapcase(), key="KQkq-".index))
    start = f"{'/'.join(reversed(board.swapcase().split('/')))} {'b' if side == 'w' else 'w'} {rights} {passed.translate(RANKS)}"
    return Example(start, tuple(move.translate(RANKS) for move in example.moves))


def wings_exchanged(example: Example) -> Example:
    """The same example, left and right exchanged; nobody castles in it."""
    board, side, castle, passed = example.start.split(" ")
    start = f"{'/'.join(row[::-1] for row in board.split('/'))} {side} {castle} {passed.translate(FILES)}"
    return Example(start, tuple(move.translate(FILES) for move in example.moves))


def images(theme: Theme, example: Example) -> dict[str, Example]:
    """The images of an example, each with what is said of it."""
    has = {"as it is": example, "colours exchanged": colours_exchanged(example)}
    if theme.wings and example.start.split(" ")[2] == "-":
        has |= {f"{said}, wings exchanged": wings_exchanged(image) for said, image in has.items()}
    return has


def numbered(example: Example) -> str:
    """The moves with their numbers."""
    half = 0 if example.is_white else 1
    words: list[str] = []
    for place, move in enumerate(example.moves, half):
        words += [f"{place // 2 + 1}."] if place % 2 == 0 else [f"{place // 2 + 1}..."] if place == half else []
        words.append(move)
    return " ".join([*words, "*"])


def game(event: str, wanted: str, example: Example) -> str:
    """A game as PGN."""
    tags = {"Event": event, "Result": "*", "Wanted": wanted, "SetUp": "1", "FEN": f"{example.start} 0 1"}
    return "".join(f'[{tag} "{value}"]\n' for tag, value in tags.items()) + f"\n{numbered(example)}\n\n"


def archive(theme: Theme) -> str:
    """The examples of a theme as games."""
    kinds = {"yes": theme.found, "no": theme.near}
    return "".join(
        game(f"{theme.name} {number}: {said}", wanted, image)
        for wanted, examples in kinds.items()
        for number, example in enumerate(examples, 1)
        for said, image in images(theme, example).items()
    )


def name_of(theme: Theme) -> str:
    """The name of a theme's case."""
    return f"gallery-{theme.id}"


def files(theme: Theme) -> dict[str, bytes]:
    """What is asked in the case of a theme."""
    return {"query.cql": theme.query.encode() + b"\n", "archive.pgn": archive(theme).encode()}


def main() -> int:
    """Writes the cases."""
    for theme in all_themes():
        folder = CASES / name_of(theme)
        folder.mkdir(exist_ok=True)
        if any(read(folder / name) != text for name, text in files(theme).items()) or read(folder / "out") is None:
            for name, text in files(theme).items():
                (folder / name).write_bytes(text)
            case = Case(name_of(theme))
            case.write(case.by_model())
    return 0


if __name__ == "__main__":
    sys.exit(main())
