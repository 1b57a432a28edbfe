"""How a command is begun by its name. Where its module can't be imported, the status is one that tells nothing else."""

from __future__ import annotations

import os
import signal
import sys
from contextlib import suppress
from importlib import import_module

if signal.getsignal(signal.SIGINT) is signal.default_int_handler:
    signal.signal(signal.SIGINT, signal.SIG_DFL)  # it ends the command without a traceback, until the command handles it
FAILED = 70  # EX_SOFTWARE of sysexits.h


def begin(name: str) -> None:
    """Runs a command with the words of the process, and ends the process."""
    try:
        entry = import_module("cqlpgn.commands." + name).entry
    except Exception as fault:
        with suppress(Exception):
            said = f"cqlpgn-{name}: could not be begun: {type(fault).__name__}: {fault}"
            print(ascii(said)[1:-1], file=sys.stderr, flush=True)
        os._exit(FAILED)
    entry()


def desk() -> None:
    """Runs cqlpgn-desk."""
    begin("desk")


def diagrams() -> None:
    """Runs cqlpgn-diagrams."""
    begin("diagrams")


def mend() -> None:
    """Runs cqlpgn-mend."""
    begin("mend")


def over() -> None:
    """Runs cqlpgn-over."""
    begin("over")


def pick() -> None:
    """Runs cqlpgn-pick."""
    begin("pick")


def problems() -> None:
    """Runs cqlpgn-problems."""
    begin("problems")


def rows() -> None:
    """Runs cqlpgn-rows."""
    begin("rows")


def split() -> None:
    """Runs cqlpgn-split."""
    begin("split")
