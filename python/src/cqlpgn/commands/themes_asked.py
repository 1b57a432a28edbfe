"""The options of cqlpgn-over that ask for themes by their names: one theme, the list of all, and the table of all over archives."""

from __future__ import annotations

import argparse
import difflib
import re
import subprocess
import tempfile
from collections.abc import Iterator, Sequence
from typing import IO

from .. import archives, origins, process
from ..archives import Archive
from ..errors import Error
from ..files import STANDARD_INPUT, shown
from ..process import Counts, Process
from ..themes import KINDS, Theme, all_themes, named
from .ends import say
from .split import LINE

AT_ONCE = 16  # queries of one reading
HEAD = 4096  # bytes of a game, at most, in which its tags are looked for
TAG = re.compile(rb'^\[(White|Black|Event|Date) "((?:[^"\\]|\\.)*)"\]$', re.M)


def add(made: argparse.ArgumentParser) -> None:
    """Adds the options to a parser."""
    made.add_argument("--theme", metavar="NAME", help="the query is that of the theme of this name, as smothered-mate; `--themes` has all")
    made.add_argument("--themes", action="store_true", help="no archive is asked: the names of the themes are listed, each with what it is")
    made.add_argument(
        "--all-themes", action="store_true", help="all themes are asked: a table of how many games have each, with one of them"
    )


def refuse_together(made: argparse.ArgumentParser, flags: argparse.Namespace) -> None:
    """Ends the process where options don't go together."""
    if sum((flags.theme is not None, flags.themes, flags.all_themes, flags.check, flags.doubtful, flags.many is not None)) > 1:
        made.error("--theme, --themes, --all-themes, --check, --doubtful and --many don't go together")
    if flags.themes and flags.words:
        made.error("--themes takes no archive")
    if flags.all_themes and (flags.out is not None or flags.number or flags.first or flags.quiet):
        made.error("--all-themes goes with none of -o, --number, --first and -q")


def query_of(made: argparse.ArgumentParser, name: str) -> str:
    """The query of a theme; the process ends where no theme has this name."""
    themes = all_themes()
    if theme := named(name, themes):
        return theme.query
    near = difflib.get_close_matches(name, [theme.id for theme in themes], 3)
    hint = f"; there is {', '.join(near)}" if near else "; `--themes` lists all"
    made.error(f"no theme has the name {shown(name)}{hint}")


def list_all() -> int:
    """Lists the themes, the name first, each kind under its heading."""
    themes = all_themes()
    width = max(len(theme.id) for theme in themes)
    for kind, heading in KINDS.items():
        if of_kind := [theme for theme in themes if theme.kind == kind]:
            say(f"{heading}:")
            for theme in of_kind:
                say(f"  {theme.id.ljust(width)}  {theme.says}")
    return 0


def _first_of(source: IO[bytes]) -> str:
    """The players of the first game, or its event where neither is known; of a game as the program writes it."""
    tags = {name.decode(): value.decode("utf-8", "replace") for name, value in TAG.findall(source.read(HEAD).split(b"\n\n")[0])}
    players = [tags.get(side, "?") for side in ("White", "Black")]
    who = tags.get("Event", "?") if players == ["?", "?"] else " - ".join(players)
    date = tags.get("Date", "").replace(".??", "").strip("?")
    return shown(f"{who}, {date}" if date else who)


def _games(source: IO[bytes]) -> Iterator[str]:
    """For each query of `cqlpgn many` a game that it has found, or nothing."""
    source.seek(0)
    while line := source.readline(HEAD):
        if not (said := LINE.fullmatch(line)):
            raise Error("cqlpgn has written no line `query N bytes B`")
        size, begin = int(said[2]), source.tell()
        yield _first_of(source) if size else ""
        source.seek(begin + size)


def _asked(archive: Archive, themes: Sequence[Theme], options: Sequence[str]) -> list[tuple[Counts, str]]:
    """For each theme how many games have it, and one of these."""
    text = b"\n%%\n".join(theme.query.encode() for theme in themes)
    with tempfile.TemporaryFile() as room:
        with origins.start(archive, ["many", Process.QUERY, STANDARD_INPUT, *options], text, out=room, err=subprocess.PIPE) as asked:
            counts = [said for line in asked.report() if isinstance(said := process.read_line(line), Counts)]
            process.raise_for(asked.finish(), shown(archive.name))
        return list(zip(counts, _games(room), strict=True))


def tell_table(flags: argparse.Namespace) -> int:
    """Writes a row for each theme that an archive has: its name, how many games have it, and one of these. Raises `Error`."""
    themes = all_themes()
    options = [word for name in ("workers", "limit") if (value := getattr(flags, name)) is not None for word in (f"--{name}", value)]
    sums = {theme.id: Counts() for theme in themes}
    shows: dict[str, str] = {}
    for archive in archives.archives(flags.words or [STANDARD_INPUT]):
        if isinstance(archive, Error):
            raise archive
        with tempfile.NamedTemporaryFile() as room:
            kept = origins.kept(archive, room) if archive.path == STANDARD_INPUT else archive
            for batch in range(0, len(themes), AT_ONCE):
                asked = themes[batch : batch + AT_ONCE]
                for theme, (counts, game) in zip(asked, _asked(kept, asked, options), strict=True):
                    sums[theme.id] += counts
                    shows.setdefault(theme.id, game) if game else None
    _write_table(themes, sums, shows)
    return 1 if any(counts.refused for counts in sums.values()) else 0


def _write_table(themes: Sequence[Theme], sums: dict[str, Counts], shows: dict[str, str]) -> None:
    width = max(len(theme.id) for theme in themes)
    for theme in themes:
        if matched := sums[theme.id].matched:
            say(f"{theme.id.ljust(width)}  {matched:>8}  {shows.get(theme.id, '')}")
    counts = sums[themes[0].id]
    lacking = sum(not one.matched for one in sums.values())
    say(f"games {counts.games} refused {counts.refused}; themes that no game has: {lacking}")
