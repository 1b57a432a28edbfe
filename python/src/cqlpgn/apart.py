"""Games apart: a file for each value of a tag, or for so many games, in one folder. The files appear together, and none that is there is
replaced."""

from __future__ import annotations

import os
import re
import shutil
import tempfile
from collections import OrderedDict
from collections.abc import Callable, Iterator
from types import TracebackType
from typing import BinaryIO

from .errors import NotFound, Stopped
from .files import shown
from .pieces import Joint, Standing
from .signals import unbroken

MOST_OPEN = 64
LONGEST_NAME = 120
# a tag that is missing, or unknown, as `?` and `????.??.??`
UNKNOWN = re.compile(r"[?.\-\s]*")
# Where tags are looked for: before the moves, between white space, comments and lines that are passed over.
BEFORE_MOVES = re.compile(
    rb"(?P<other>[\t-\r ]+|\{[^}]*\}|;[^\n]*|(?:(?<=\n)|\A)%[^\n]*|\A\xef\xbb\xbf)"
    rb"|\[[\t-\r ]*(?P<name>[A-Za-z0-9][A-Za-z0-9_+#=:/-]*)[\t-\r ]*"
    rb'"(?P<value>(?:[^"\\\n]|\\[^\n])*)"[\t-\r ]*\]'
)
DEVICES = re.compile(r"(?:con|prn|aux|nul|com\d|lpt\d)(?:\..*)?", re.I)


def tags_of(text: bytes) -> dict[str, str]:
    """The tags of a game as it stands, up to what is no tag; of two with one name the first."""
    found: dict[str, str] = {}
    at = 0
    while match := BEFORE_MOVES.match(text, at):
        at = match.end()
        if match["name"]:
            value = re.sub(rb'\\(["\\])', rb"\1", match["value"])
            found.setdefault(match["name"].decode(), _letters(value))
    return found


def _letters(value: bytes) -> str:
    try:
        return value.decode()
    except UnicodeDecodeError:
        return value.decode("latin-1")


def values_of(word: str, text: bytes) -> Iterator[str]:
    """Under which values a game is filed: its tag of that name; for `year` the year of its Date, for `player` White and Black. An unknown
    one is empty."""
    tags = tags_of(text)
    names = {"year": ["Date"], "player": ["White", "Black"]}.get(word, [word])
    values = [tags.get(name, "") for name in names]
    if word == "year":
        values = [value[:4] if re.match(r"\d{4}(?!\d)", value, re.ASCII) else "" for value in values]
    yield from dict.fromkeys("" if UNKNOWN.fullmatch(value) else value for value in values)


def safe(value: str) -> str:
    """A name of a file in the same folder for any text: letters, digits and some signs stay, and it is neither hidden nor an option."""
    name = "".join(letter if letter.isalnum() or letter in " _-.,+'()=" else "_" for letter in value)
    name = " ".join(name.split())
    while len(name.encode()) > LONGEST_NAME:
        name = name[:-1]
    name = re.sub(r"^[.\-]", "_", name).rstrip(". ")
    return "_" + name if DEVICES.fullmatch(name) else name or "_"


class Apart:
    """The files: `with Apart(prefix, told) as files: files.add(value, game); files.commit()`. Without `commit` none is left. Raises
    `NotFound` where there is no such folder."""

    def __init__(self, prefix: str, told: Callable[[str], object]) -> None:
        self._folder, self._begin = (prefix, "") if os.path.isdir(prefix) else os.path.split(prefix)
        self._told = told
        self._joints: dict[str, Joint] = {}
        self._names: dict[str, str] = {}
        self._taken: set[str] = set()
        self._open: OrderedDict[str, BinaryIO] = OrderedDict()
        self._room = ""

    def __enter__(self) -> Apart:
        try:
            with unbroken():
                self._room = tempfile.mkdtemp(".new", ".cqlpgn-", self._folder or ".")
        except (OSError, ValueError) as fault:
            raise NotFound(f"{shown(self._folder or '.')}: {getattr(fault, 'strerror', None) or fault}") from fault
        return self

    def __exit__(self, _kind: type[BaseException] | None, _value: BaseException | None, _trace: TracebackType | None) -> None:
        for file in self._open.values():
            try:
                file.close()
            except OSError:
                pass
        shutil.rmtree(self._room, ignore_errors=True)

    @property
    def left_out(self) -> int:
        """How many games are in no file, since they would take the next."""
        return sum(joint.left_out for joint in self._joints.values())

    def add(self, value: str, game: Standing) -> None:
        """One more game in the file of a value."""
        if value not in self._joints:
            name = self._name(value)
            self._joints[value] = Joint(lambda text: self._write(name, text), lambda said: self._told(f"{shown(name)}: {said}"))
        self._joints[value].add(game)

    def _name(self, value: str) -> str:
        """The name of a new file. Names that differ in case alone are one on some machines."""
        plain = name = self._begin + (safe(value) if value else "unknown")
        again = 1
        while name.casefold() in self._taken:
            again += 1
            name = f"{plain}-{again}"
        self._taken.add(name.casefold())
        self._names[value] = name + ".pgn"
        return name + ".pgn"

    def _write(self, name: str, text: bytes) -> None:
        file = self._open.pop(name, None)
        if file is None:
            if len(self._open) >= MOST_OPEN:
                self._open.popitem(last=False)[1].close()
            file = open(os.path.join(self._room, name), "ab")
        self._open[name] = file
        file.write(text)

    def commit(self) -> list[str]:
        """Gives all files their names, or none where one of these is there; the names. Raises `Stopped` (status 6)."""
        for joint in self._joints.values():
            joint.finish()
        for file in self._open.values():
            file.close()
        made: list[str] = []
        name = ""
        try:
            with unbroken():
                for name in self._names.values():
                    # an empty file that nobody else has made, in whose place the other one is put
                    os.close(os.open(os.path.join(self._folder, name), os.O_WRONLY | os.O_CREAT | os.O_EXCL, 0o666))
                    made.append(name)
                for name in made:
                    os.rename(os.path.join(self._room, name), os.path.join(self._folder, name))
        except OSError as fault:
            for other in made:
                os.unlink(os.path.join(self._folder, other))
            said = "is there already; nothing was written" if isinstance(fault, FileExistsError) else fault.strerror
            raise Stopped(f"{shown(os.path.join(self._folder, name))}: {said}", 6) from fault
        return made
