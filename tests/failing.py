"""Streams of a process that fail after some bytes."""

from __future__ import annotations

import contextlib
import os
import resource
import signal
import tempfile
import tty
from collections.abc import Callable, Iterator

from model.program import Answer


@contextlib.contextmanager
def input_of(data: bytes) -> Iterator[int]:
    """An end of a terminal whose other end sent these bytes and is closed: they are read, and the next read fails."""
    # a terminal holds so many bytes until they are read
    assert len(data) <= 4096
    ours, theirs = os.openpty()
    try:
        tty.setraw(theirs)
        os.write(theirs, data)
        os.close(theirs)
        yield ours
    finally:
        os.close(ours)


def limit_files(size: int) -> None:
    """For preexec_fn: files take so many bytes, the write that reaches further takes what fits, and the next fails."""
    signal.signal(signal.SIGXFSZ, signal.SIG_IGN)
    resource.setrlimit(resource.RLIMIT_FSIZE, (size, size))


def short(asked: Callable[..., Answer], size: int, stream: str) -> Answer:
    """The answer of a call that is handed arguments of Popen, where that stream is a file that takes so many bytes."""
    with tempfile.TemporaryFile() as file:
        status, out, err = asked(preexec_fn=lambda: limit_files(size), **{stream: file})
        file.seek(0)
        taken = file.read()
    return (status, taken, err) if stream == "stdout" else (status, out, taken)
