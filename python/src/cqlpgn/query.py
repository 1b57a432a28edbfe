"""The text of a query, as far as one must know it from outside: its tokens, its texts, and where a file of queries is cut."""

from __future__ import annotations

import re
from collections.abc import Iterator
from dataclasses import dataclass

from .errors import Fault, NotFound

MOST_BYTES = 65536
SPACE = rb"(?:[\x09-\x0d\x20]|//[^\n]*(?:\n|$))*"
HEAD = re.compile(SPACE + rb"cql" + SPACE + rb"\(")
MEN = rb"(?:[KQRBNPkqrbnpAa_.]|\[[KQRBNPkqrbnpAa_.]+\])"
SPECIFICATION = rb"[a-h](?:-[a-h])?[1-8](?:-[1-8])?"
SQUARES = rb"(?:%s|\[%s(?:,%s)*\])" % (SPECIFICATION, SPECIFICATION, SPECIFICATION)
SEPARATOR = re.compile(rb"[\x09-\x0d\x20]+|//[^\n]*")
FILE = re.compile(rb"[^\x00-\x20\"()]+")
TEXT = re.compile(rb'"[^"]*"')
NAME = re.compile(rb"[A-Za-z_][A-Za-z0-9_]*")
DESIGNATORS = [re.compile(MEN + SQUARES), re.compile(SQUARES), re.compile(MEN)]
CUT = re.compile(rb"^%%(?:\n|\Z)", re.M)


@dataclass(frozen=True)
class Token:
    """A token: its bytes, where it begins, and whether it is a text or the name of a file."""

    bytes: bytes
    at: int
    kind: str = ""

    @property
    def end(self) -> int:
        """The first byte after it."""
        return self.at + len(self.bytes)


def _token_at(query: bytes, at: int, before: bytes) -> Token:
    # a designator where it is at least as long as a name, and a file's name after `input` and `output`
    if before in (b"input", b"output") and (file := FILE.match(query, at)):
        return Token(file.group(), at, "file")
    if text := TEXT.match(query, at):
        return Token(text.group(), at, "file" if before in (b"input", b"output") else "text")
    designators = [match.group() for form in DESIGNATORS if (match := form.match(query, at))]
    name = NAME.match(query, at)
    longest = max([*designators, name.group() if name else b""], key=len)
    if not longest:
        return Token(query[at : at + 1], at)
    is_designator = any(len(men) == len(longest) for men in designators)
    return Token(longest, at, "designator" if is_designator else "name")


def tokens(query: bytes) -> Iterator[Token]:
    """The tokens of a query, without white space and remarks. A byte that begins no token is one of its own."""
    at, before = 0, b""
    while at < len(query):
        if separator := SEPARATOR.match(query, at):
            at = separator.end()
            continue
        token = _token_at(query, at, before)
        yield token
        at, before = token.end, b"" if token.kind == "file" else token.bytes


def is_query(word: bytes) -> bool:
    """Whether a word is the text of a query, which begins with `cql(`, and not the name of a file."""
    return HEAD.match(word) is not None


def sorts(query: bytes) -> bool:
    """Whether a query without faults has a `sort` item."""
    return any(token.bytes == b"sort" for token in tokens(query))


def sees_missing_tags(query: bytes) -> bool:
    """Whether a query without faults may tell a tag that is missing from one that is `?`, as what is written has it in both cases."""
    before = [b"", b""]
    for token in tokens(query):
        tag = before[-2] if before[-1] in (b"white", b"black") else before[-1]
        if token.kind == "text" and tag in (b"player", b"event", b"site") and token.bytes in (b'""', b'"?"'):
            return True
        before = [before[-1], token.bytes if token.kind != "file" else b""]
    return False


def without_marks(query: bytes, comments: bool = True, mark: bytes = b'""') -> bytes:
    """A query without faults, with an empty text of `matchstring`, or another one: it finds the same games and adds no mark. With
    `comments=False` its items `comment` add nothing either, so that the games are written as they were read."""
    out, at, head, is_given, before = bytearray(), 0, -1, False, b""
    for token in tokens(query):
        out += query[at : token.at]
        is_mark = token.kind == "text" and before == b"matchstring"
        is_given = is_given or is_mark
        is_said = token.kind == "text" and before == b"comment" and not comments
        out += mark if is_mark else b'""' if is_said else token.bytes
        if head < 0 and token.bytes == b"(":
            head = len(out)
        at, before = token.end, b"" if token.kind == "file" else token.bytes
    out += query[at:]
    if not is_given:
        out[head:head] = b"matchstring " + mark + b" "
    return bytes(out)


def mark_of(query: bytes) -> bytes:
    """The comment that a query without faults gives to each position that matches, its words with single spaces; of several texts of
    `matchstring` the last one counts."""
    mark, before = b"CQL", b""
    for token in tokens(query):
        if token.kind == "text" and before == b"matchstring":
            mark = token.bytes[1:-1]
        before = token.bytes if token.kind != "file" else b""
    return b" ".join(mark.split())


def pieces(queries: bytes) -> list[tuple[int, bytes]]:
    """The queries of a file that is cut at each line `%%`, each with its first byte in the file."""
    found, begin = [], 0
    for cut in CUT.finditer(queries):
        found.append((begin, queries[begin : cut.start()]))
        begin = cut.end()
    return [*found, (begin, queries[begin:])]


def text(string: str) -> str:
    """A text of the query language that has exactly these letters, with its quotes: what comes from outside is put into a query by this.

    >>> 'cql() player white ' + text("O'Kelly")
    'cql() player white "O\\'Kelly"'

    Raises `Fault` where the string has a quote, which no text can have, or letters that can't be written in UTF-8.
    """
    at = string.find('"')
    if at >= 0:
        raise Fault("a text has no quotes in it", len(string[:at].encode("utf-8", "surrogatepass")), column=at + 1, shown=string)
    try:
        string.encode("utf-8", "surrogateescape")
    except UnicodeEncodeError as fault:
        raise Fault("a text is written in UTF-8", fault.start, column=fault.start + 1) from fault
    return f'"{string}"'


def read(word: str | bytes) -> bytes:
    """The bytes of a query: the word itself, if it is one, or else the file of that name. Raises `NotFound` where there is neither."""
    data = word if isinstance(word, bytes) else word.encode("utf-8", "surrogateescape")
    return data if is_query(data) else read_file(word, "is no query, which begins with cql(, and no file that can be read: ")


def read_file(name: str | bytes, reason: str = "") -> bytes:
    """The bytes of a file with queries. Raises `NotFound` where it can't be read."""
    # a name with bytes that no file can have is none of a file
    try:
        with open(name, "rb") as file:
            return file.read((1 << 20) + 1)
    except (OSError, ValueError) as fault:
        said = name.decode("utf-8", "backslashreplace") if isinstance(name, bytes) else name
        said = said if len(said) < 200 else said[:200] + ".."
        raise NotFound(f"{said}: {reason}{getattr(fault, 'strerror', None) or 'no such name'}") from fault
