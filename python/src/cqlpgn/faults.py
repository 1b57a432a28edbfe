"""Where a fault of a query is, and what to write instead: from a byte to line and column, caret and hint."""

from __future__ import annotations

import re
from collections.abc import Iterator

from . import hints, query
from .errors import Fault

QUERY_FAULT = re.compile(r"query (?:(\d+) )?byte (\d+): (.*)", re.S)
FILE_FAULT = re.compile(r"queries too (?:long|many)")
WIDEST = 200
OPEN = {b"(": b")", b"{": b"}"}


def _decoded(text: bytes) -> str:
    return text.decode("utf-8", "replace")


def located(text: bytes, byte: int, reason: str, last: int | None = None) -> Fault:
    """The fault at a byte of a text, as line (from 1), column (in letters, from 1) and the line itself. The text is a query or a file of
    them; `last` is where the query at fault ends, if that is not the end of the text. A fault at the end is shown after the last word."""
    last = len(text) if last is None else last
    at = min(byte, len(text[:last].rstrip()))
    start = text.rfind(b"\n", 0, at) + 1
    end = text.find(b"\n", at)
    line = text[start : end if end >= 0 else len(text)].rstrip()
    column = len(_decoded(text[start:at])) + 1
    return Fault(reason, byte, text.count(b"\n", 0, at) + 1, column, _decoded(line))


def open_brackets(text: bytes) -> list[query.Token]:
    """The parentheses and braces of a query that are open at its end."""
    found: list[query.Token] = []
    for token in query.tokens(text):
        if token.bytes in OPEN and not token.kind:
            found.append(token)
        elif token.bytes in OPEN.values() and not token.kind and found:
            found.pop()
    return found


def _still_open(text: bytes, begin: int, piece: bytes) -> str | None:
    """Which bracket of a query that begins at a byte of a text is open at its end."""
    left_open = open_brackets(piece)
    if not left_open:
        return None
    where = located(text, begin + left_open[-1].at, "")
    return f"the `{left_open[-1].bytes.decode()}` in line {where.line}, column {where.column} is still open"


def _hint(text: bytes, byte: int, reason: str) -> str | None:
    """What to write instead, where that is known, of a fault at a byte of a query."""
    begin, end = text.rfind(b"\n", 0, byte) + 1, text.find(b"\n", byte)
    line = _decoded(text[byte : end if end >= 0 else len(text)])
    word = re.match(r"[A-Za-z_]\w*", line)
    castles = re.match(r"o-o(-o)?(?!\w)", line)
    named = re.search(r" (?:name|profile) (\w+)\Z", reason)
    for foreign in (castles and castles.group(), named and named.group(1), word and word.group()):
        if foreign and reason != "unexpected end" and (advice := hints.foreign(foreign)):
            return advice
    row = hints.slip(reason, _decoded(text[begin:byte]), line)
    return hints.in_words(row) if row else None


def fault(text: bytes, line: str) -> Fault | None:
    """What a line of the program says of a query, or of a file of queries, as a fault with its hint; None where it says nothing of it."""
    if FILE_FAULT.fullmatch(line):
        return Fault(line, 0)
    said = QUERY_FAULT.fullmatch(line)
    if said is None:
        return None
    pieces = query.pieces(text)
    begin, piece = pieces[int(said[1]) - 1] if said[1] else (0, text)
    byte, reason = int(said[2]), said[3]
    found = located(text, begin + byte, reason, begin + len(piece))
    found.hint = reason == "unexpected end" and _still_open(text, begin, piece) or _hint(piece, byte, reason)
    return found


def caret(found: Fault) -> list[str]:
    """A fault in lines: that of the text, cut where it is long, a caret below its place with the reason, and the hint."""
    shown, before = found.shown.replace("\t", " "), found.column - 1
    if len(shown) > WIDEST:
        cut = max(0, before - WIDEST // 2)
        shown, before = shown[cut : cut + WIDEST], before - cut
    shown = "".join(letter if letter.isprintable() else "\ufffd" for letter in shown)
    lines = [shown, " " * before + "^ " + str(found)]
    return [*lines, " " * before + "  " + found.hint] if found.hint else lines


def warnings(text: bytes) -> Iterator[Fault]:
    """What a query without faults asks that may not be what is meant, each with its place."""
    quiet = bytearray(b" " * len(text))
    for token in query.tokens(text):
        quiet[token.at : token.end] = b'"' + b" " * (len(token.bytes) - 1) if token.kind in ("text", "file") else token.bytes
    plain = quiet.decode("latin-1")
    for row in hints.ACCEPTED:
        for match in re.finditer(row.pattern, plain):
            yield located(text, match.start(), row.said)
    yield from _players_within_flipcolor(text)


def _players_within_flipcolor(text: bytes) -> Iterator[Fault]:
    """Names of White or Black within `flipcolor`, which exchanges the two."""
    depth: list[int] = []
    level, before, earlier = 0, b"", b""
    for token in query.tokens(text):
        if token.kind:
            is_player = before == b"player" and depth and token.bytes in (b"white", b"black")
        else:
            is_player = False
        if token.bytes == b"{" or token.bytes == b"(":
            level += 1
            if before == b"flipcolor":
                depth.append(level)
        elif token.bytes in (b"}", b")"):
            if depth and depth[-1] == level:
                depth.pop()
            level -= 1
        if is_player or earlier == b"flipcolor" and before == b"player" and token.bytes in (b"white", b"black"):
            yield located(
                text, token.at, f"within `flipcolor` `player {token.bytes.decode()}` asks for White and for Black: it turns the names too"
            )
        earlier, before = before, token.bytes
