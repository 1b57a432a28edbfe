"""Inputs that are made to hurt: games, packed archives, names, folders."""

from __future__ import annotations

import gzip
import os
import zipfile
from pathlib import Path

GAME = b'[Event "E"]\n[White "A"]\n[Black "B"]\n[Result "0-1"]\n\n1. f3 e5 2. g4 Qh4# 0-1\n\n'
MARKED = GAME.replace(b"Qh4#", b"Qh4# {CQL}")
QUERY = "cql() mate"
PROBLEM = b'algebraic: {white: [Kb6, Rh1], black: [Kb8]}\nstipulation: "#1"\nsolution: "1.Rh8#"\n'
BEGINNING = "open({witness!r}, 'a').write({name!r} + chr(10))\nraise ImportError('code of the folder')\n"
# what a Python program of this kind imports
MODULES = (
    *(
        "argparse",
        "array",
        "ast",
        "asyncio",
        "base64",
        "bisect",
        "bz2",
        "calendar",
        "collections",
        "concurrent",
        "contextlib",
        "copy",
        "csv",
    ),
    *("ctypes", "dataclasses", "datetime", "email", "enum", "fcntl", "functools", "getopt", "gettext", "gzip", "heapq", "hashlib", "html"),
    *(
        "http",
        "importlib",
        "io",
        "ipaddress",
        "itertools",
        "json",
        "locale",
        "logging",
        "lzma",
        "mimetypes",
        "operator",
        "pickle",
        "posixpath",
    ),
    *(
        "queue",
        "random",
        "re",
        "resource",
        "secrets",
        "selectors",
        "shlex",
        "shutil",
        "signal",
        "socket",
        "ssl",
        "stat",
        "string",
        "struct",
    ),
    *("subprocess", "tempfile", "textwrap", "threading", "traceback", "types", "typing", "urllib", "uuid", "warnings", "weakref", "yaml"),
    *("zipfile", "zlib", "zstandard", "tqdm", "aiohttp", "runs", "queries", "os", "sys", "site", "sitecustomize", "usercustomize"),
)
PACKAGE = ("cqlpgn/__init__", "cqlpgn/commands/__init__", "cqlpgn/commands/rows", "cqlpgn/commands/diagrams", "cqlpgn/desk/__init__")
ESCAPES = ("\x1b]0;owned\x07", "\x1b[31m", "\x07", "\x9b31m", "\x1b[2J", "\x7f\x08", "\x1bc", "\x1b[6n", "\x85", "\x1bP1$r\x1b\\")


def hostile(folder: Path, witness: Path, names: tuple[str, ...]) -> Path:
    """Fills a folder with code that tells that it was run."""
    for name in names:
        file = folder / f"{name}.py"
        file.parent.mkdir(parents=True, exist_ok=True)
        file.write_text(BEGINNING.format(witness=str(witness), name=file.name if "/" not in name else name), encoding="utf-8")
    (folder / "a.pgn").write_bytes(MARKED * 3)
    return folder


def written(path: Path, data: bytes) -> str:
    """The name of a file with these bytes."""
    path.write_bytes(data)
    return str(path)


def zipped(path: Path, members: dict[str, bytes], kind: int = zipfile.ZIP_DEFLATED, again: int = 1) -> str:
    """The name of a `.zip`; each member is written so many times over."""
    with zipfile.ZipFile(path, "w", kind) as packed:
        for name, data in members.items():
            with packed.open(zipfile.ZipInfo(name), "w") if kind == zipfile.ZIP_STORED else packed.open(_info(name, kind), "w") as to:
                for _ in range(again):
                    to.write(data)
    return str(path)


def _info(name: str, kind: int) -> zipfile.ZipInfo:
    made = zipfile.ZipInfo(name)
    made.compress_type = kind
    return made


def packed(path: Path, data: bytes) -> str:
    """The name of a `.gz`."""
    with gzip.open(path, "wb", 1) as to:
        to.write(data)
    return str(path)


def pipe(path: Path) -> str:
    """The name of a pipe in the file system."""
    os.mkfifo(path)
    return str(path)
