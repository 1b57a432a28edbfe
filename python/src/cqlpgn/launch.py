"""How programs are begun: each ends with the process that has begun it, however that ends.

Linux ends a child by a signal when the thread that made it ends. So children are made by a thread that lives as long as the process, and
each asks for that signal itself, in a small interpreter that becomes the program. A child whose parent has ended before begins nothing.
"""

from __future__ import annotations

import os
import queue
import signal
import sys
import threading
from collections.abc import Callable, Sequence
from concurrent.futures import Future
from types import TracebackType
from typing import Any, TypeVar

T = TypeVar("T")
SET_PARENT_DEATH_SIGNAL = 1  # PR_SET_PDEATHSIG of prctl(2)
# Its words: the number of the parent, that of a pipe for an error number, the program, and the program's words. Python ignores two signals,
# which the program would inherit.
INTERPRETED = f"""
import os, sys
try:
    import ctypes
    libc = ctypes.CDLL(None)
    libc.prctl(ctypes.c_int({SET_PARENT_DEATH_SIGNAL}), ctypes.c_ulong({int(signal.SIGKILL)}))
    libc.signal({int(signal.SIGPIPE)}, None)
    libc.signal({int(signal.SIGXFSZ)}, None)
except (ImportError, OSError, AttributeError):
    pass
if os.getppid() != int(sys.argv[1]):
    os._exit(1)
report = int(sys.argv[2])
os.set_inheritable(report, False)
try:
    os.execv(sys.argv[3], sys.argv[3:])
except OSError as fault:
    os.write(report, str(fault.errno).encode())
os._exit(1)
"""


def is_held() -> bool:
    """Whether children can be made to end with this process."""
    return sys.platform == "linux" and bool(sys.executable) and not hasattr(sys, "frozen")


class Launch:
    """A program that is to be begun: `call` are the words of the child, `files` the numbers of the files that it inherits. `wait` comes
    after the child was made; at the end of the `with` the parent's files are closed. A program that `ends_soon` itself is begun directly,
    which takes a tenth of the time."""

    def __init__(self, call: Sequence[str], files: Sequence[int] = (), ends_soon: bool = False) -> None:
        self.call, self.files = list(call), list(files)
        self.report = self._told = -1
        if is_held() and not ends_soon:
            self.report, self._told = os.pipe()
            self.files.append(self._told)
            self.call = [sys.executable, "-I", "-S", "-B", "-c", INTERPRETED, str(os.getpid()), str(self._told), *call]

    def __enter__(self) -> Launch:
        return self

    def __exit__(self, _kind: type[BaseException] | None, _value: BaseException | None, _trace: TracebackType | None) -> None:
        for file in (self.report, self._told):
            if file >= 0:
                os.close(file)
        self.report = self._told = -1

    def release(self) -> None:
        """Closes the parent's end for writing once the child has its own."""
        if self._told >= 0:
            os.close(self._told)
            self._told = -1

    def wait(self) -> None:
        """Waits until the child is the program. Raises `OSError` where it can't be."""
        self.release()
        said = os.read(self.report, 16) if self.report >= 0 else b""
        if said:
            raise OSError(int(said), os.strerror(int(said)))


class _Lasting(threading.Thread):
    """A thread that lives as long as the process and does what it is asked."""

    def __init__(self) -> None:
        super().__init__(name="cqlpgn-lasting", daemon=True)
        self._asked: queue.SimpleQueue[tuple[Callable[[], Any], Future[Any]]] = queue.SimpleQueue()
        self.start()

    def run(self) -> None:
        """Does one work after the other."""
        while True:
            work, result = self._asked.get()
            try:
                result.set_result(work())
            except BaseException as fault:
                result.set_exception(fault)

    def ask(self, work: Callable[[], T]) -> T:
        """What the work gives, or raises."""
        result: Future[T] = Future()
        self._asked.put((work, result))
        return result.result()


class _Shared:
    """The one lasting thread; a fork has none of its parent's."""

    lock = threading.Lock()
    thread: _Lasting | None = None

    @classmethod
    def forget(cls) -> None:
        """Begins anew in a child that was forked."""
        cls.lock, cls.thread = threading.Lock(), None


os.register_at_fork(after_in_child=_Shared.forget)


def lasting(work: Callable[[], T]) -> T:
    """Does the work in a thread that lives as long as the process, which the first thread does itself."""
    if threading.current_thread() is threading.main_thread():
        return work()
    with _Shared.lock:
        if _Shared.thread is None:
            _Shared.thread = _Lasting()
        thread = _Shared.thread
    return thread.ask(work)
