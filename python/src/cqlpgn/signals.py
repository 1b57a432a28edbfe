"""Signals that end a command: they wait while something is begun, so that all that was begun is known and can be undone."""

from __future__ import annotations

import contextlib
import signal
import threading
from collections.abc import Iterator
from types import FrameType

KINDS = (signal.SIGTERM, signal.SIGHUP, signal.SIGINT)
TICK = 1.0  # seconds


class Ended(BaseException):
    """A signal has asked the command to end; what was begun is undone on the way out. The status is that of a shell."""

    def __init__(self, number: int) -> None:
        super().__init__(number)
        self.status = 128 + number


class _Waiting:
    depth = 0
    number: int | None = None


def _end(number: int, _frame: FrameType | None) -> None:
    if _Waiting.depth:
        _Waiting.number = number
    else:
        raise Ended(number)


@contextlib.contextmanager
def unbroken() -> Iterator[None]:
    """Within it no signal raises `Ended`; one that came does so at its end. Other threads than the first one never see a signal."""
    if threading.current_thread() is not threading.main_thread():
        yield
        return
    _Waiting.depth += 1
    try:
        yield
    finally:
        _Waiting.depth -= 1
        if not _Waiting.depth and _Waiting.number is not None:
            number, _Waiting.number = _Waiting.number, None
            raise Ended(number)


def _tick(_number: int, _frame: FrameType | None) -> None:
    """Does nothing; the signal itself breaks a wait, which goes on where no other signal came."""


@contextlib.contextmanager
def raised() -> Iterator[None]:
    """Within it SIGTERM, SIGHUP and SIGINT raise `Ended`.

    A signal that comes just before the first thread begins to wait, or that another thread takes, does not break the wait. A clock breaks
    each wait of the first thread, so that such a signal is seen within a second."""
    before = [(kind, signal.signal(kind, _end)) for kind in KINDS]
    before.append((signal.SIGALRM, signal.signal(signal.SIGALRM, _tick)))
    signal.setitimer(signal.ITIMER_REAL, TICK, TICK)
    try:
        yield
    finally:
        signal.setitimer(signal.ITIMER_REAL, 0)
        for kind, handler in before:
            signal.signal(kind, handler)


def stop_clock() -> None:
    """Ends the clock of `raised` where a loop of asyncio waits, which wakes at each signal: a tick would need room in the loop's pipe."""
    signal.setitimer(signal.ITIMER_REAL, 0)
