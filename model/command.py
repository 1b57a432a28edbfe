"""What the commands of the model have in common: numbers in words, files that are read, what is written, and how they end."""

from __future__ import annotations

import os
import re
import sys
from typing import Callable, List, Tuple

# What is written on which stream, in this order.
Written = List[Tuple[int, bytes]]
MOST_BYTES = 1 << 40


class Refused(Exception):
    """the words are none of the command's"""


class Ended(Exception):
    """an end with a status and nothing to be written"""

    def __init__(self, status: int) -> None:
        super().__init__(status)
        self.status = status


def read_number(word: str, least: int, most: int) -> int:
    if not re.fullmatch("[0-9]{1,20}", word) or not least <= int(word) <= most:
        raise Refused
    return int(word)


def read_file(name: str) -> bytes:
    try:
        file = os.fdopen(os.dup(0), "rb") if name == "-" else open(name, "rb")
    except OSError as fault:
        raise Ended(5 if isinstance(fault, IsADirectoryError) else 4) from fault
    try:
        with file:
            return file.read()
    except OSError as fault:
        raise Ended(5) from fault


def read_archive(name: str, limit: int = MOST_BYTES) -> bytes:
    archive = read_file(name)
    if len(archive) > limit:
        raise Ended(8)
    return archive


def main(words: List[str], usage: bytes, answer: Callable[[List[str]], Tuple[int, Written]]) -> int:
    """writes the answer, or the usage where the words are refused, and gives the status"""
    try:
        for word in words:
            word.encode()
        status, written = answer(words)
    except (Refused, UnicodeEncodeError):
        status, written = 3, [(2, usage)]
    except Ended as ended:
        return ended.status
    except MemoryError:
        return 7
    try:
        for stream, text in written:
            while text:
                text = text[os.write(stream, text) :]
    except OSError:
        return 6
    return status


def run(usage: bytes, answer: Callable[[List[str]], Tuple[int, Written]], help_text: str | None = None) -> None:
    """ends the process as the words of its command line say"""
    if help_text is not None and sys.argv[1:] in (["-h"], ["--help"]):
        print(help_text)
        sys.exit(0)
    try:
        sys.exit(main(sys.argv[1:], usage, answer))
    except KeyboardInterrupt:
        sys.exit(130)
