"""Members of a `.zip`: which there are, within bounds, and the bytes of one, unpacked in blocks of bounded size."""

from __future__ import annotations

import bz2
import lzma
import struct
import zipfile
import zlib
from collections.abc import Iterator
from io import BufferedReader
from typing import Protocol

BLOCK = 1 << 18
MOST_MEMBERS = 10_000
# bytes of the directory; a member has 47 at least there, and some hundreds in memory
MOST_DIRECTORY = 1 << 22
# bytes that an archive may ask for, to be unpacked
MOST_WINDOW = 1 << 27
# signature, and the lengths of the name and of what follows it, before the bytes of a member
LOCAL = struct.Struct("<4s22x2H")
# version, length of the properties, and the properties: one byte for three numbers, and the window
LZMA = struct.Struct("<2xHBI")


class TooMany(Exception):
    """A `.zip` has more members than are read."""


class Unpacking(Protocol):
    """The objects of bz2 and lzma that unpack one stream."""

    @property
    def eof(self) -> bool:
        """Whether the stream has come to its end."""
        ...

    @property
    def needs_input(self) -> bool:
        """Whether it gives nothing more before it is fed."""
        ...

    @property
    def unused_data(self) -> bytes:
        """The bytes that were fed and lie behind the end of the stream."""
        ...

    def decompress(self, data: bytes, max_length: int = -1) -> bytes:
        """The bytes that the data unpack to, at most so many, if any number is said. Raises what the library does."""
        ...


class _Bounded(BufferedReader):
    """A file of which no read gives more than a directory may have."""

    def read(self, size: int | None = -1) -> bytes:
        """So many bytes. Raises `TooMany`."""
        most = MOST_DIRECTORY + 1
        data = super().read(most if size is None or size < 0 else min(size, most))
        if len(data) > MOST_DIRECTORY:
            raise TooMany
        return data


def members(file: BufferedReader) -> list[zipfile.ZipInfo]:
    """The members in the order of the directory, which is read once. Raises `TooMany`, and what zipfile does."""
    with _Bounded(file.detach()) as bounded, zipfile.ZipFile(bounded) as packed:
        found = packed.infolist()
    if len(found) > MOST_MEMBERS:
        raise TooMany
    return found


def blocks(file: BufferedReader, member: zipfile.ZipInfo) -> Iterator[tuple[bytes, int]]:
    """The bytes of a member in blocks, each with how many bytes of the file it took. Raises `BadZipFile`, and what the libraries do."""
    file.seek(member.header_offset)
    head = file.read(LOCAL.size)
    if len(head) < LOCAL.size or not head.startswith(b"PK\3\4"):
        raise zipfile.BadZipFile("a member does not begin where the directory says")
    _, name, extra = LOCAL.unpack(head)
    file.seek(member.header_offset + LOCAL.size + name + extra)
    size = digest = 0
    begin = file.tell()
    for block in _unpacked(file, member):
        size, digest = size + len(block), zlib.crc32(block, digest)
        if size > member.file_size:
            raise zipfile.BadZipFile("a member is longer than the directory says")
        at = file.tell()
        yield block, at - begin
        begin = at
    if size != member.file_size or digest != member.CRC:
        raise zipfile.BadZipFile("a member is not what the directory says")


def _unpacked(file: BufferedReader, member: zipfile.ZipInfo) -> Iterator[bytes]:
    kind, size = member.compress_type, member.compress_size
    if member.flag_bits & 1:
        raise zipfile.BadZipFile("a member is encrypted")
    if kind == zipfile.ZIP_STORED:
        return _packed(file, size)
    if kind == zipfile.ZIP_DEFLATED:
        return _inflated(_packed(file, size))
    if kind == zipfile.ZIP_BZIP2:
        return _stream(_packed(file, size), bz2.BZ2Decompressor())
    if kind == zipfile.ZIP_LZMA and size >= LZMA.size:
        return _stream(_packed(file, size - LZMA.size), _lzma(file.read(LZMA.size)))
    raise zipfile.BadZipFile("a member is packed in a way that is not read")


def _packed(file: BufferedReader, size: int) -> Iterator[bytes]:
    """So many bytes of a file, as they are. Raises `EOFError`."""
    while size:
        data = file.read1(min(size, BLOCK))
        if not data:
            raise EOFError
        size -= len(data)
        yield data


def _inflated(packed: Iterator[bytes]) -> Iterator[bytes]:
    inside = zlib.decompressobj(-zlib.MAX_WBITS)
    data = b""
    while not inside.eof:
        data = data or next(packed, b"")
        block = inside.decompress(data, BLOCK)
        if not data and not block:
            raise EOFError
        data = inside.unconsumed_tail
        if block:
            yield block


def _stream(packed: Iterator[bytes], inside: Unpacking) -> Iterator[bytes]:
    """The bytes that one stream unpacks to. One of lzma need not have an end, so its reader counts the bytes."""
    while not inside.eof:
        data = next(packed, b"") if inside.needs_input else b""
        if not data and inside.needs_input:
            return
        block = inside.decompress(data, BLOCK)
        if block:
            yield block


def _lzma(head: bytes) -> lzma.LZMADecompressor:
    """What unpacks a stream with these properties. Raises `BadZipFile` where they are none, or ask for too much memory."""
    length, numbers, window = LZMA.unpack(head)
    if length != 5 or numbers >= 9 * 5 * 5 or window > MOST_WINDOW:
        raise zipfile.BadZipFile("a member has properties that are not read")
    rest, literal = divmod(numbers, 9)
    position, before = divmod(rest, 5)
    chosen = {"id": lzma.FILTER_LZMA1, "dict_size": max(window, 1 << 12), "lc": literal, "lp": before, "pb": position}
    return lzma.LZMADecompressor(lzma.FORMAT_RAW, filters=[chosen])
