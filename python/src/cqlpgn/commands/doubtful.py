"""`cqlpgn-over --doubtful`: games of archives that are read, and may mean something else than was meant."""

from __future__ import annotations

from collections.abc import Sequence

from .. import archives, doubts
from ..errors import Error
from ..files import STANDARD_INPUT, shown
from .ends import say, tell


def tell_all(names: Sequence[str]) -> int:
    """Tells the doubtful games of some archives, a line for each oddity on standard output; the status is 0 where there are none, 1 where
    there are some, or the greatest one of what could not be read."""
    worst = 0
    for archive in archives.archives(names or [STANDARD_INPUT]):
        try:
            if isinstance(archive, Error):
                raise archive
            for doubt in doubts.of_archive(archive):
                say(f"{shown(archive.name)}: game {doubt.game} byte {doubt.byte}: {doubt.said}")
                worst = max(worst, 1)
        except Error as fault:
            tell(fault)
            worst = max(worst, fault.status)
    return worst
