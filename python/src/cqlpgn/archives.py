"""Archives by their names: files, packed files, members of `.zip`, folders; as blocks of bytes, with progress on a terminal."""

from __future__ import annotations

import bz2
import gzip
import lzma
import os
import stat
import sys
import zipfile
from collections.abc import Callable, Iterable, Iterator
from dataclasses import dataclass
from io import BufferedReader
from typing import Any, BinaryIO, Protocol, cast

from . import zips
from .errors import Error, NotFound, Unreadable
from .files import STANDARD_INPUT, shown
from .zips import Unpacking

BLOCK = zips.BLOCK
# of so many bytes zstd makes at most some megabytes
PIECE = 256
PACKED = (".gz", ".bz2", ".xz", ".zst")
ENDINGS = (".pgn", ".zip", *(".pgn" + kind for kind in PACKED))


@dataclass(frozen=True)
class Archive:
    """An archive: its name as it is told, the file, and of a `.zip` the member."""

    name: str
    path: str
    member: zipfile.ZipInfo | None = None

    @property
    def is_plain(self) -> bool:
        """Whether the program can read the file itself."""
        return self.member is None and _ending(self.path) not in PACKED

    def open(self) -> BufferedReader:
        """The file itself, which for a plain archive is all of it. Raises `NotFound`."""
        return _opened(self.path, self.name)

    def look(self) -> None:
        """Raises `NotFound` where the file can't be opened, and `Unreadable` where what unpacks it is not installed."""
        self.open().close()
        if _ending(self.path) == ".zst":
            _zstandard(self.name)

    def blocks(self, progress: bool = False) -> Iterator[bytes]:
        """The bytes of the archive, unpacked, in blocks of bounded size. Raises `NotFound`, and `Unreadable` where it can't be
        unpacked to its end."""
        try:
            with self.open() as file, _progress(self, file, progress) as told:
                yield from self._unpacked(file, told)
        except (Error, MemoryError):
            raise
        except OSError as fault:
            raise Unreadable(_unpacking(self, fault)) from fault
        except Exception as fault:
            # over the bytes of anybody the readers of Python's library raise what their formats bring along
            raise Unreadable(_unpacking(self, fault)) from fault

    def _unpacked(self, file: BufferedReader, told: _Progress) -> Iterator[bytes]:
        if self.member is not None:
            for block, count in zips.blocks(file, self.member):
                told.update(count)
                yield block
        elif _ending(self.path) == ".gz":
            with gzip.GzipFile(fileobj=file) as inside:
                # a file without a byte is none of gzip's, which its reader lets pass
                if not inside.peek(1) and not file.tell():
                    raise EOFError
                yield from _read(inside, file, told)
        elif _ending(self.path) == ".zst":
            yield from _frames(file, _zstandard(self.name), told)
        elif _ending(self.path) in PACKED:
            yield from _streams(file, _bz2 if _ending(self.path) == ".bz2" else _xz, told)
        else:
            while block := file.read1(BLOCK):
                told.update(len(block))
                yield block


def _bz2() -> Unpacking:
    return bz2.BZ2Decompressor()


def _xz() -> Unpacking:
    return lzma.LZMADecompressor(lzma.FORMAT_AUTO, zips.MOST_WINDOW)


def _zstandard(name: str) -> Any:
    try:
        import zstandard
    except ImportError as fault:
        raise Unreadable(f"{shown(name)}: python3-zstandard, which unpacks it, is not installed") from fault
    return zstandard.ZstdDecompressor(max_window_size=zips.MOST_WINDOW)


def _unpacking(archive: Archive, fault: Exception) -> str:
    name = shown(archive.name)
    if archive.member is not None and archive.member.flag_bits & 1:
        return f"{name}: is encrypted"
    if archive.is_plain:
        return f"{name}: could not be read to its end"
    return f"{name}: could not be unpacked to its end; the lines above are of its first part"


def _ending(path: str) -> str:
    return os.path.splitext(path)[1].lower()


class _Progress(Protocol):
    n: Any

    def update(self, n: int) -> Any:
        """So many bytes more were read."""
        ...

    def __enter__(self) -> Any:
        ...

    def __exit__(self, *words: Any) -> Any:
        ...


class _Silent:
    n = 0

    def update(self, n: int) -> None:
        """Counts so many bytes more."""
        self.n += n

    def __enter__(self) -> _Silent:
        return self

    def __exit__(self, *words: object) -> None:
        pass


def shows_progress() -> bool:
    """Whether progress can be shown: standard error is a terminal, and tqdm is installed."""
    try:
        import tqdm  # noqa: F401
    except ImportError:
        return False
    return sys.stderr is not None and sys.stderr.isatty()


def _progress(archive: Archive, file: BinaryIO, wanted: bool) -> _Progress:
    """How far a file was read, on a terminal."""
    if not wanted or not shows_progress():
        return _Silent()
    from tqdm import tqdm

    size = os.fstat(file.fileno()).st_size
    name = os.path.basename(shown(archive.name))
    bar = tqdm(total=size or None, desc=name, unit="B", unit_scale=True, leave=False, mininterval=0.5)
    return cast(_Progress, bar)


def _read(source: Any, file: BinaryIO, told: _Progress) -> Iterator[bytes]:
    while block := source.read(BLOCK):
        told.update(file.tell() - told.n if file.seekable() else len(block))
        yield block


def _frames(file: BufferedReader, unpacker: Any, told: _Progress) -> Iterator[bytes]:
    """What zstd's frames unpack to. A few bytes are unpacked at a time, since all that they give comes at once; a stream that reads by
    itself would not tell an end that is cut off."""
    inside = unpacker.decompressobj()
    while data := file.read1(BLOCK):
        told.update(len(data))
        for at in range(0, len(data), PIECE):
            piece = data[at : at + PIECE]
            while piece:
                inside = unpacker.decompressobj() if inside.eof else inside
                yield inside.decompress(piece)
                piece = inside.unused_data if inside.eof else b""
    if not inside.eof:
        raise EOFError


def _streams(file: BufferedReader, begin: Callable[[], Unpacking], told: _Progress) -> Iterator[bytes]:
    """What streams one after the other unpack to; after the last one nothing may come but zero bytes."""
    inside, data = begin(), b""
    while True:
        if inside.eof:
            data = inside.unused_data or file.read1(BLOCK)
            while data and not data.strip(b"\0"):
                data = file.read1(BLOCK)
            if not data:
                return
            inside = begin()
        elif inside.needs_input:
            data = file.read1(BLOCK)
            told.update(len(data))
            if not data:
                raise EOFError
        block = inside.decompress(data, BLOCK)
        data = b""
        if block:
            yield block


def _opened(path: str, name: str | None = None) -> BufferedReader:
    try:
        if path == STANDARD_INPUT:
            return os.fdopen(os.dup(0), "rb")
        return open(path, "rb")
    except (OSError, ValueError) as fault:
        raise NotFound(f"{shown(name or path)}: could not be opened") from fault


def members(archive: Archive) -> list[zipfile.ZipInfo]:
    """The games in a `.zip`, each as a file of its own, in the order of its directory. Raises `NotFound` and `Unreadable`."""
    path = archive.path
    try:
        found = [member for member in zips.members(archive.open()) if member.filename.lower().endswith(".pgn")]
    except (Error, MemoryError):
        raise
    except zips.TooMany as fault:
        raise Unreadable(f"{shown(path)}: has more than {zips.MOST_MEMBERS} members, or their names are too long") from fault
    except Exception as fault:
        raise Unreadable(f"{shown(path)}: could not be unpacked to its end") from fault
    if not found:
        raise Unreadable(f"{shown(path)}: has no file *.pgn in it")
    return found


def single(name: str) -> Archive:
    """The one archive that a name stands for; of a `.zip`, its only member. Raises `NotFound`, and `Unreadable` where a `.zip` has none or
    several, or can't be unpacked."""
    archive = Archive(name, name)
    if name == STANDARD_INPUT or _ending(name) != ".zip":
        return archive
    found = members(archive)
    if len(found) > 1:
        raise Unreadable(f"{shown(name)}: has {len(found)} files *.pgn in it, and one is wanted")
    return next(named(name, found))


def _in_folder(folder: str) -> list[str]:
    """The archives in a folder and in the folders within it, by their names: regular files, and links to them."""
    found = []
    for place, folders, names in os.walk(folder):
        folders.sort()
        paths = [os.path.join(place, name) for name in sorted(names) if name.lower().endswith(ENDINGS) and not name.startswith(".")]
        found += [path for path in paths if _kind(path) in (stat.S_IFREG, None)]
    if not found:
        raise NotFound(f"{shown(folder)}: is a folder without archives")
    return found


def _kind(path: str) -> int | None:
    """The kind of the file to which a path leads; None where it leads nowhere."""
    try:
        return stat.S_IFMT(os.stat(path).st_mode)
    except (OSError, ValueError):
        return None


def files(names: Iterable[str]) -> Iterator[str | Error]:
    """The files of some names, those of a folder one by one; a folder that has none gives what is to be said of it."""
    for name in names:
        if name != STANDARD_INPUT and _kind(name) == stat.S_IFDIR:
            try:
                yield from _in_folder(name)
            except Error as fault:
                yield fault
        else:
            yield name


def archives(names: Iterable[str]) -> Iterator[Archive | Error]:
    """The archives of some names: of a folder all in it, of a `.zip` each member `*.pgn`. What can't be looked into comes as the error that
    it is, in its place, so that the others can still be asked."""
    for name in files(names):
        if isinstance(name, Error):
            yield name
        elif name == STANDARD_INPUT or _ending(name) != ".zip":
            yield Archive(name, name)
        else:
            try:
                yield from named(name, members(Archive(name, name)))
            except Error as fault:
                yield fault


def named(path: str, found: list[zipfile.ZipInfo]) -> Iterator[Archive]:
    """The members of a `.zip`; of two that have one name the second is told as `NAME (2)`."""
    seen: dict[str, int] = {}
    for member in found:
        seen[member.filename] = seen.get(member.filename, 0) + 1
        again = f" ({seen[member.filename]})" if seen[member.filename] > 1 else ""
        yield Archive(f"{path}:{member.filename}{again}", path, member)
