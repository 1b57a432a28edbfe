"""Files that are written: without a name, or beside it, until all is done, so that nothing that was there is lost before."""

from __future__ import annotations

import errno
import fcntl
import os
import re
import secrets
import stat
import sys
from collections.abc import Iterable
from contextlib import suppress
from dataclasses import dataclass
from types import TracebackType
from typing import BinaryIO

from .errors import Error, Stopped
from .signals import unbroken

STANDARD_INPUT = "-"
OWN_FILES = "/proc/self/fd/"
LEFT = re.compile(r"\.cqlpgn-\d{1,10}-[0-9a-f]{16}\.new")
MOST_LINKS = 40


def shown(name: str) -> str:
    """A name as it is told: control characters, bytes that are no UTF-8, and half letters of UTF-16, as escapes."""
    try:
        data = name.encode("utf-8", "surrogateescape")
    except UnicodeEncodeError:
        data = name.encode("utf-8", "backslashreplace")
    text = data.decode("utf-8", "backslashreplace")
    return "".join(letter if letter.isprintable() else letter.encode("unicode_escape").decode() for letter in text)


def _identity(name: str | int) -> tuple[int, int] | None:
    """Device and inode of a file, by its name or number; None where it is not there or holds nothing of its own, as a pipe."""
    try:
        found = os.stat(name)
    except (OSError, ValueError):
        return None
    return (found.st_dev, found.st_ino) if stat.S_ISREG(found.st_mode) else None


def refuse_inputs(outputs: Iterable[str], inputs: Iterable[str]) -> None:
    """Raises `Error` (status 3) where a file that is to be written is one of those that are read, whatever its name; `-` is standard
    input. Standard output counts as one that is written. Nothing is opened for it."""
    read = {_identity(0 if name == STANDARD_INPUT else name): name for name in inputs}
    read.pop(None, None)
    written: list[str | int] = [*outputs, 1]
    for output in written:
        name = read.get(_identity(output))
        if name is not None:
            said = "standard output" if output == 1 else shown(str(output))
            raise Error(f"{said}: is the same file as {shown(name)}, which is to be read; nothing was written", 3)


@dataclass
class _Output:
    """A file that is written: its name, the path that this leads to, and the name that it has beside that, if it has one. A device or a
    pipe `is_direct`: it is written at once."""

    file: BinaryIO
    name: str
    target: str
    beside: str = ""
    is_direct: bool = False


class Replacing:
    """Files that appear together: each is written without a name, and `commit` gives all of them their names. Without it, whatever ends
    the `with`, what was there is there, and nothing is left. Where files have to have names, it is one beside that of the file."""

    def __init__(self) -> None:
        self._open: list[_Output] = []

    def __enter__(self) -> Replacing:
        return self

    def __exit__(self, _kind: type[BaseException] | None, _value: BaseException | None, _trace: TracebackType | None) -> None:
        with unbroken():
            for output in self._open:
                with suppress(OSError):
                    output.file.close()
                if output.beside:
                    _remove(output.beside)
            self._open = []

    def open(self, name: str) -> BinaryIO:
        """A new file for a name. Raises `Stopped` (status 6) where it can't be made, and `Error` (3) where two are one file."""
        try:
            target = _resolved(name)
            mode = _mode_of(target)
            if mode is None:
                self._open.append(_Output(open(target, "wb"), name, target, is_direct=True))
                return self._open[-1].file
            self._refuse_twice(name, target)
            _refuse_lasting(target)
            with unbroken():
                remove_left(os.path.dirname(target))
                number, beside = _made(target)
                self._open.append(_Output(os.fdopen(number, "wb"), name, target, beside))
            os.fchmod(number, mode)
        except (OSError, ValueError) as fault:
            raise Stopped(f"{shown(name)}: {getattr(fault, 'strerror', None) or fault}", 6) from fault
        return self._open[-1].file

    def _refuse_twice(self, name: str, target: str) -> None:
        found = _identity(target)
        for other in self._open:
            if not other.is_direct and (other.target == target or found and _identity(other.target) == found):
                raise Error(f"{shown(name)}: is the same file as {shown(other.name)}, and both are to be written; nothing was written", 3)

    def commit(self) -> None:
        """Gives the files their names. Raises `Stopped` (status 6) where not all bytes could be written; then all old ones are there."""
        name = ""
        try:
            for output in self._open:
                name = output.name
                output.file.flush()
                if not output.is_direct:
                    os.fsync(output.file.fileno())
                    _refuse_lasting(output.target)
            with unbroken():
                for output in self._open:
                    name = output.name
                    if not output.is_direct and not output.beside and os.path.lexists(output.target):
                        output.beside = _linked(output)
                while self._open:
                    name = self._open[0].name
                    _give_name(self._open[0])
                    del self._open[0]
        except OSError as fault:
            raise Stopped(f"{shown(name)}: {fault.strerror}", 6) from fault


def _remove(name: str) -> None:
    with suppress(OSError):
        os.remove(name)


def _resolved(name: str) -> str:
    """The path to which a name leads. Raises `PermissionError` at a link of another user in a sticky folder, as /tmp is."""
    path, rest, links = "/", os.path.join(os.getcwd(), name).split("/")[::-1], 0
    while rest:
        part = rest.pop()
        path = os.path.dirname(path) if part == ".." else os.path.join(path, part) if part not in ("", ".") else path
        if part in ("", ".", "..") or not os.path.islink(path):
            continue
        links += 1
        folder = os.path.dirname(path)
        if os.stat(folder).st_mode & stat.S_ISVTX and os.lstat(path).st_uid not in (os.geteuid(), os.stat(folder).st_uid):
            raise PermissionError(errno.EPERM, "a link of another user in a folder that all can write to is not followed")
        if links > MOST_LINKS:
            raise OSError(errno.ELOOP, os.strerror(errno.ELOOP))
        leads = os.readlink(path)
        rest += leads.split("/")[::-1]
        path = "/" if leads.startswith("/") else folder
    return path


def _refuse_lasting(target: str) -> None:
    """Raises `OSError` where a file can't be replaced: a folder, or the file of another user in a sticky folder."""
    folder = os.stat(os.path.dirname(target))
    try:
        found = os.lstat(target)
    except FileNotFoundError:
        return
    if stat.S_ISDIR(found.st_mode):
        raise IsADirectoryError(errno.EISDIR, os.strerror(errno.EISDIR))
    if folder.st_mode & stat.S_ISVTX and os.geteuid() not in (0, found.st_uid, folder.st_uid):
        raise PermissionError(errno.EPERM, os.strerror(errno.EPERM))


def _name_beside(target: str) -> str:
    return os.path.join(os.path.dirname(target), f".cqlpgn-{os.geteuid()}-{secrets.token_hex(8)}.new")


def _made(target: str) -> tuple[int, str]:
    """Number and name of a new file for the folder of the target, locked; it has no name where that can be. Raises `OSError`."""
    with suppress(OSError):
        number = os.open(os.path.dirname(target), os.O_TMPFILE | os.O_RDWR | os.O_CLOEXEC, 0o600)
        if os.path.exists(f"{OWN_FILES}{number}"):
            _lock(number)
            return number, ""
        os.close(number)
    beside = _name_beside(target)
    number = os.open(beside, os.O_RDWR | os.O_CREAT | os.O_EXCL | os.O_CLOEXEC | os.O_NOFOLLOW, 0o600)
    _lock(number)
    return number, beside


def _lock(number: int) -> bool:
    """Locks a file for as long as the process has it; whether it was free, or its folder knows no locks."""
    try:
        fcntl.flock(number, fcntl.LOCK_EX | fcntl.LOCK_NB)
    except BlockingIOError:
        return False
    except OSError:
        return True
    return True


def _linked(output: _Output) -> str:
    """A name beside the target for a file that has none. Raises `OSError`."""
    beside, number = _name_beside(output.target), output.file.fileno()
    os.link(f"{OWN_FILES}{number}", beside, src_dir_fd=number)
    return beside


def _give_name(output: _Output) -> None:
    """Gives a file its name. Raises `OSError`."""
    number = output.file.fileno()
    if not output.is_direct and not output.beside:
        try:
            os.link(f"{OWN_FILES}{number}", output.target, src_dir_fd=number)
        except FileExistsError:
            output.beside = _linked(output)
    if output.beside:
        os.rename(output.beside, output.target)
    output.beside = ""
    output.file.close()


def remove_left(folder: str) -> None:
    """Removes what killed runs of the same user have left in a folder. A file of a run that goes on is locked."""
    names = [name for name in os.listdir(folder) if LEFT.fullmatch(name)] if os.access(folder, os.R_OK) else []
    for path in (os.path.join(folder, name) for name in names):
        with suppress(OSError):
            number = os.open(path, os.O_RDWR | os.O_NOFOLLOW | os.O_NONBLOCK | os.O_CLOEXEC)
            try:
                found = os.fstat(number)
                is_own = stat.S_ISREG(found.st_mode) and found.st_uid == os.geteuid()
                if is_own and _lock(number) and os.lstat(path).st_ino == found.st_ino:
                    os.remove(path)
            finally:
                os.close(number)


def _mode_of(target: str) -> int | None:
    """The mode of a file that is there, or that a new one gets; None for what is written at once. A folder raises. Who a file runs as is
    not kept."""
    try:
        found = os.stat(target)
    except FileNotFoundError:
        mask = os.umask(0)
        os.umask(mask)
        return 0o666 & ~mask
    if stat.S_ISDIR(found.st_mode):
        raise IsADirectoryError(errno.EISDIR, os.strerror(errno.EISDIR))
    return stat.S_IMODE(found.st_mode) & 0o777 if stat.S_ISREG(found.st_mode) else None


def standard_output() -> BinaryIO:
    """Standard output, for bytes, which are to be flushed. It has a buffer whatever PYTHONUNBUFFERED says: without one a write may take a
    part and say nothing. Raises `Stopped` where it is closed."""
    if sys.stdout is None:
        raise Stopped("standard output is closed")
    return open(1, "wb", closefd=False)
