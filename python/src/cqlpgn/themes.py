"""The themes that players and composers have names for, each with its query, its examples and its other names, from themes.toml."""

from __future__ import annotations

import re
import tomllib
from collections.abc import Sequence
from dataclasses import dataclass
from functools import cache
from pathlib import Path

from .errors import Error

FILE = Path(__file__).with_name("themes.toml")
# The kinds in the order of the page, and their headings.
KINDS = {
    "mate": "Mates",
    "tactic": "Tactics",
    "structure": "Structures",
    "ending": "Endings",
    "pupil": "A pupil's games",
    "composer": "Composers' themes",
}
NAME = re.compile(r"[a-z0-9]+(?:-[a-z0-9]+)*")
# The board, the side to move, the rights to castle and the en passant square of an example, and its moves.
EXAMPLE = re.compile(
    r"((?:[KQRBNPkqrbnp1-8]{1,8}/){7}[KQRBNPkqrbnp1-8]{1,8} [wb] (?:-|K?Q?k?q?) (?:-|[a-h][36]))(?: \| ([A-Za-z0-9=+# -]+))?"
)
TEXTS = ("id", "name", "kind", "says", "query", "omits")
LISTS = ("others", "found", "near")
FIELDS = {*TEXTS, *LISTS, "wings", "cost"}


class Damaged(Error):
    """The file of themes has an entry that is not one (status 5)."""


@dataclass(frozen=True)
class Example:
    """A short game: the first four fields of the FEN of its start, and its moves."""

    start: str
    moves: tuple[str, ...]

    @property
    def is_white(self) -> bool:
        """White has the first move."""
        return self.start.split(" ")[1] == "w"


@dataclass(frozen=True)
class Theme:
    """A theme. `found` are examples that its query finds, `near` are some that it does not. With `wings` it is the same on both wings.
    `cost` says why its query takes more than four times as long as reading, and is empty elsewhere."""

    id: str
    name: str
    others: tuple[str, ...]
    kind: str
    says: str
    query: str
    omits: str
    found: tuple[Example, ...]
    near: tuple[Example, ...]
    wings: bool
    cost: str

    @property
    def names(self) -> tuple[str, ...]:
        """Each name that it goes by, its identifier first."""
        return (self.id, self.name, *self.others)


def _example(text: str, where: str) -> Example:
    if not (read := EXAMPLE.fullmatch(text)):
        raise Damaged(f"{where}: `{text[:80]}` is no position with moves")
    return Example(read[1], tuple((read[2] or "").split()))


def _checked(entry: dict[str, object], where: str) -> None:
    """Raises `Damaged` where a field is missing, unknown, or of another type."""
    for field in TEXTS:
        if not isinstance(entry.get(field), str) or not entry[field]:
            raise Damaged(f"{where}: `{field}` is no text")
    for field in LISTS:
        values = entry.get(field)
        if not isinstance(values, list) or not all(isinstance(value, str) for value in values):
            raise Damaged(f"{where}: `{field}` is no list of texts")
    if unknown := sorted(set(entry) - FIELDS):
        raise Damaged(f"{where}: `{unknown[0]}` is unknown")
    if not isinstance(entry.get("wings", True), bool) or not isinstance(entry.get("cost", ""), str):
        raise Damaged(f"{where}: `wings` or `cost` has another type")
    if not NAME.fullmatch(str(entry["id"])) or entry["kind"] not in KINDS:
        raise Damaged(f"{where}: `id` or `kind` is unknown")


def _theme(entry: object, number: int) -> Theme:
    where = f"theme {number}"
    if not isinstance(entry, dict):
        raise Damaged(f"{where}: it is no table")
    where = f"{where} ({str(entry.get('id', 'without id'))[:40]})"
    _checked(entry, where)
    lists = {field: tuple(entry[field]) for field in LISTS}
    found, near = (tuple(_example(text, where) for text in lists[field]) for field in ("found", "near"))
    if not found:
        raise Damaged(f"{where}: it has no example")
    texts = {field: " ".join(entry[field].split()) if field != "query" else entry[field].strip() for field in TEXTS}
    return Theme(**texts, others=lists["others"], found=found, near=near, wings=entry.get("wings", True), cost=entry.get("cost", ""))


def read(text: str) -> tuple[Theme, ...]:
    """The themes of a file, in the order of their kinds. Raises `Damaged`, which names the entry."""
    try:
        entries = tomllib.loads(text).get("theme")
    except tomllib.TOMLDecodeError as fault:
        raise Damaged(f"the file of themes is no TOML: {fault}") from fault
    if not isinstance(entries, list):
        raise Damaged("the file of themes has no theme")
    themes = [_theme(entry, number) for number, entry in enumerate(entries, 1)]
    ids = [theme.id for theme in themes]
    if twice := next((one for one in ids if ids.count(one) > 1), None):
        raise Damaged(f"the theme {twice} is there twice")
    return tuple(sorted(themes, key=lambda theme: list(KINDS).index(theme.kind)))


@cache
def all_themes() -> tuple[Theme, ...]:
    """The themes of the package. Raises `Damaged`."""
    return read(FILE.read_text(encoding="utf-8"))


def _plain(name: str) -> str:
    return re.sub(r"[^a-z0-9]+", "-", name.lower().replace("'", "")).strip("-")


def named(name: str, themes: Sequence[Theme]) -> Theme | None:
    """The theme of this identifier, or else of this name or other name, whose case and signs don't count; None where there is none."""
    exact = [theme for theme in themes if theme.id == name]
    loose = [theme for theme in themes if _plain(name) in map(_plain, theme.names)]
    return next(iter([*exact, *loose]), None)
