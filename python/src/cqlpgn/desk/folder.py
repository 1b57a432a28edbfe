"""The archives and the saved queries below one folder: which there are, and how one is opened without ever leaving the folder."""

from __future__ import annotations

import os
import secrets
import stat
from collections.abc import Iterator
from dataclasses import dataclass, field
from io import BufferedReader
from itertools import islice
from typing import BinaryIO

from ..archives import ENDINGS, Archive, members, named
from ..errors import Error, Unreadable
from ..files import shown

MOST_FILES, MOST_COUNTED = 5000, 100_000
MOST_QUERY = 1 << 20
QUERY = ".cql"
AROUND = 160  # bytes before and after a fault that are shown


class Refused(Error):
    """What the page asked is not done; the reason says why."""

    status = 3


@dataclass(frozen=True)
class Held(Archive):
    """An archive that was opened: whatever becomes of its name, this file is read. `size` is how many bytes of the file are its own."""

    raw: BinaryIO = field(kw_only=True)
    size: int = field(kw_only=True)

    def open(self) -> BufferedReader:
        """The file from its beginning; `at` follows what is read of it."""
        number = os.dup(self.raw.fileno())
        os.lseek(number, 0, os.SEEK_SET)
        return os.fdopen(number, "rb")

    @property
    def at(self) -> int:
        """How many of the bytes were read."""
        begin = self.member.header_offset if self.member is not None else 0
        return max(0, min(os.lseek(self.raw.fileno(), 0, os.SEEK_CUR) - begin, self.size))


def _is_told(name: str) -> bool:
    """Whether a name can be told to the page and back: it has neither control characters nor bytes that are no UTF-8."""
    return name.isprintable()


def _told(name: str) -> str:
    """A name that the page has sent, as it is told; it may have half a letter of UTF-16."""
    return shown(name[:300].encode("utf-8", "replace").decode())


class Folder:
    """A folder by its path; all names are of files below it."""

    def __init__(self, path: str) -> None:
        self.path = os.path.realpath(path)

    def _files(self, endings: tuple[str, ...]) -> Iterator[tuple[str, int]]:
        """Name and size of the files with such endings, by folder and name; links are not followed, nor hidden folders."""
        for place, folders, files in os.walk(self.path):
            folders[:] = sorted(folder for folder in folders if not folder.startswith("."))
            for name in sorted(name for name in files if name.lower().endswith(endings) and not name.startswith(".")):
                path = os.path.join(place, name)
                try:
                    facts = os.lstat(path)
                except OSError:
                    continue
                told = os.path.relpath(path, self.path)
                if stat.S_ISREG(facts.st_mode) and _is_told(told):
                    yield told, facts.st_size

    def archives(self) -> tuple[list[dict[str, str | int]], int]:
        """The archives, each with its name in the folder and its size in bytes, as many as are listed; and how many more there are, where
        more than `MOST_COUNTED` are not counted."""
        found = self._files(ENDINGS)
        listed: list[dict[str, str | int]] = [{"name": name, "size": size} for name, size in islice(found, MOST_FILES)]
        return listed, sum(1 for _ in islice(found, MOST_COUNTED))

    def queries(self) -> list[str]:
        """The names of the saved queries."""
        return [name for name, _ in islice(self._files((QUERY,)), MOST_FILES)]

    def _opened(self, name: str, endings: tuple[str, ...]) -> BinaryIO:
        """The file of this name. It is asked of the open file where it lies, so neither `..` nor a link that was just changed leads out;
        and it is opened without waiting, so that a pipe of that name does not hold up the server."""
        if not name.lower().endswith(endings) or not _is_told(name):
            raise Refused(f"{_told(name)}: is none of the files that can be read here")
        try:
            number = os.open(os.path.join(self.path, name), os.O_RDONLY | os.O_NONBLOCK | os.O_CLOEXEC)
        except (OSError, ValueError) as fault:
            raise Refused(f"{_told(name)}: {getattr(fault, 'strerror', None) or 'no name of a file'}") from fault
        real = os.readlink(f"/proc/self/fd/{number}")
        if not stat.S_ISREG(os.fstat(number).st_mode) or not real.startswith(os.path.join(self.path, "")):
            os.close(number)
            raise Refused(f"{_told(name)}: is no file of this folder")
        return os.fdopen(number, "rb", buffering=0)

    def open(self, name: str) -> list[Held]:
        """The archive of this name, or the members of a `.zip`. Raises `Refused`, and `Unreadable` where it is packed badly."""
        raw = self._opened(name, ENDINGS)
        whole = Held(name, name, raw=raw, size=os.fstat(raw.fileno()).st_size)
        if not name.lower().endswith(".zip"):
            return [whole]
        try:
            found = members(whole)
        except Error:
            raw.close()
            raise
        return [
            Held(member.name, name, member.member, raw=raw, size=member.member.compress_size if member.member else 0)
            for member in named(name, found)
        ]

    def around(self, name: str, byte: int) -> tuple[bytes, bytes]:
        """The bytes before and from a byte of an archive, or of the member of a `.zip`, whose name stands after a colon."""
        colon = name.lower().find(".zip:") + len(".zip")
        several = self.open(name[:colon] if colon >= len(".zip") else name)
        try:
            for archive in several:
                if archive.name == name:
                    return _around(archive, byte)
        finally:
            several[0].raw.close()
        raise Refused(f"{_told(name)}: is not there any more")

    def query(self, name: str) -> str:
        """The text of a saved query."""
        with self._opened(name, (QUERY,)) as file:
            data = file.read(MOST_QUERY + 1)
        if len(data) > MOST_QUERY:
            raise Refused(f"{shown(name)}: is too long for a query")
        return data.decode("utf-8", "replace")

    def save(self, name: str, text: str, over: bool) -> str:
        """Writes a query into the folder itself, and gives the file's name. It is renamed from beside, which replaces a link of that name
        and does not follow it. Raises `Refused`, also where there is one and `over` does not say that it may go."""
        file = name if name.lower().endswith(QUERY) else name + QUERY
        if not name or "/" in name or name.startswith(".") or not _is_told(name) or len(file.encode("utf-8", "replace")) > 200:
            raise Refused("a name has no / and no . at its beginning, and at most 200 bytes")
        target, data = os.path.join(self.path, file), text.encode("utf-8", "replace")
        if len(data) > MOST_QUERY:
            raise Refused("this is too long for a query")
        if os.path.lexists(target) and not over:
            raise Refused(f"{file}: is there already")
        try:
            _replace(target, data)
        except OSError as fault:
            raise Refused(f"{file}: {fault.strerror}") from fault
        return file


def _replace(target: str, data: bytes) -> None:
    """Puts a new file, which has the mode that the user's mask leaves, in the place of what has this name."""
    beside = os.path.join(os.path.dirname(target), f".cqlpgn-{secrets.token_hex(8)}.new")
    number = os.open(beside, os.O_WRONLY | os.O_CREAT | os.O_EXCL | os.O_CLOEXEC | os.O_NOFOLLOW, 0o666)
    try:
        with os.fdopen(number, "wb") as to:
            to.write(data)
            to.flush()
            os.fsync(to.fileno())
        os.rename(beside, target)
    except BaseException:
        os.unlink(beside)
        raise


def _around(archive: Held, byte: int) -> tuple[bytes, bytes]:
    """The bytes before and from a byte. What is packed is read from its beginning. Raises `Unreadable` where there are not so many."""
    if archive.is_plain:
        begin, file = max(0, byte - AROUND), archive.raw.fileno()
        if os.fstat(file).st_size < byte:
            raise Unreadable(f"{shown(archive.name)}: has become shorter")
        return os.pread(file, byte - begin, begin), os.pread(file, AROUND, byte)
    begin, seen, kept = max(0, byte - AROUND), 0, bytearray()
    for block in archive.blocks():
        if seen + len(block) > begin:
            kept += block[max(0, begin - seen) :][: byte + AROUND - begin - len(kept)]
        seen += len(block)
        if seen >= byte + AROUND:
            break
    if seen < byte:
        raise Unreadable(f"{shown(archive.name)}: has become shorter")
    return bytes(kept[: byte - begin]), bytes(kept[byte - begin :])
