"""Queries with sort items, which pieces can answer in two steps.

In the first step each piece is asked the query without its texts of `matchstring` and `comment`, so that it finds the games and adds
nothing to them; the second one asks the query as it is of the games that were found.
"""

from __future__ import annotations

import re
from typing import NamedTuple


class Asked(NamedTuple):
    """what a query asks: it without its texts, whether it sorts, and whether it asks for the text of a tag that is missing"""

    silent: bytes
    sorts: bool
    sees_missing_tags: bool


MOST_BYTES = 65536
MEN = rb"(?:[KQRBNPkqrbnpAa_.]|\[[KQRBNPkqrbnpAa_.]+\])"
SPECIFICATION = rb"[a-h](?:-[a-h])?[1-8](?:-[1-8])?"
SQUARES = rb"(?:%s|\[%s(?:,%s)*\])" % (SPECIFICATION, SPECIFICATION, SPECIFICATION)
SEPARATOR = re.compile(rb"[\x09-\x0d\x20]+|//[^\n]*")
FILE = re.compile(rb"[^\x00-\x20\"()]+")
TEXT = re.compile(rb'"[^"]*"')
NAME = re.compile(rb"[A-Za-z_][A-Za-z0-9_]*")
DESIGNATORS = [re.compile(MEN + SQUARES), re.compile(SQUARES), re.compile(MEN)]


def token_at(query: bytes, at: int, before: bytes) -> bytes:
    """the bytes of the token at a place: a designator where it is at least as long as a name, and a file's name after `input`, `output`"""
    file = FILE.match(query, at) if before in (b"input", b"output") else None
    text = TEXT.match(query, at)
    whole = file or text
    if whole:
        return whole.group()
    found = [match.group() for match in (NAME.match(query, at), *(form.match(query, at) for form in DESIGNATORS)) if match]
    return max(found, key=len, default=query[at : at + 1])


def asked(query: bytes) -> Asked:
    """What a query without faults asks: the same query without its texts of `matchstring` and `comment`; whether it sorts; and whether it
    asks for a text that a game may have only as it is written, since a tag that is missing is written as `?`."""
    out, at, given = bytearray(), 0, False
    head: int | None = None
    sorts, missing = False, False
    before = [b"", b""]
    while at < len(query):
        separator = SEPARATOR.match(query, at)
        if separator:
            out += separator.group()
            at = separator.end()
            continue
        token = token_at(query, at, before[-1])
        at += len(token)
        is_file = before[-1] in (b"input", b"output")
        is_text = token[:1] == b'"' and not is_file
        if is_text and before[-1] in (b"matchstring", b"comment"):
            given = given or before[-1] == b"matchstring"
            out += b'""'
        else:
            out += token
        tag = before[-2] if before[-1] in (b"white", b"black") else before[-1]
        missing = missing or is_text and tag in (b"player", b"event", b"site") and token in (b'""', b'"?"')
        sorts = sorts or token == b"sort" and not is_file
        if head is None and token == b"(":
            head = len(out)
        before = [before[-1], b"a file" if is_file else token]
    if not given and head is not None:
        out[head:head] = b'matchstring "" '
    return Asked(bytes(out), sorts, missing)
