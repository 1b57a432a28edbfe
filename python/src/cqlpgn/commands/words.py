"""The words of the command lines, as argparse reads them: a usage line and status 3 for those that are refused."""

from __future__ import annotations

import argparse
import sys
from typing import NoReturn

from ..files import shown
from .ends import Failed, say, tell


class Parser(argparse.ArgumentParser):
    """A parser whose faults go to standard error with status 3. Options are not abbreviated."""

    def __init__(self, name: str, description: str, epilog: str) -> None:
        super().__init__(prog=name, description=description, epilog=epilog, allow_abbrev=False)

    def error(self, message: str) -> NoReturn:
        """Tells the usage and what is wrong with the words; the process ends with status 3."""
        tell(self.format_usage() + f"{self.prog}: {shown(message)}\n`{self.prog} --help` has more.")
        sys.exit(3)

    def exit(self, status: int = 0, message: str | None = None) -> NoReturn:
        """Ends the process with this status, and tells the message, if there is one."""
        if message:
            tell(message.rstrip("\n"))
        sys.exit(status)

    def print_help(self, file: object = None) -> None:
        """Writes the help to standard output, whatever file is given."""
        try:
            say(self.format_help().rstrip("\n"))
        except UnicodeError as fault:
            raise Failed from fault
