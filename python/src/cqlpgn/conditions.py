"""Conditions on games, as `cqlpgn-pick --where` takes them: from a text to a function that is asked of each game.

    EXPRESSION = AND {"or" AND}        AND = NOT {"and" NOT}        NOT = {"not"} ("(" EXPRESSION ")" | CONDITION)
    CONDITION  = TAG [SIGN VALUE] | "result" SIGN RESULT | "plies" SIGN NUMBER | ["white" | "black"] MOVE SIGN VALUE
    TAG        = a name that begins with a capital | "tag" TEXT
    MOVE       = "glyph" | "comment" | "clock" | "eval"
    SIGN       = "=" | "!=" | "<" | "<=" | ">" | ">=" | "~" | "!~"
    VALUE      = TEXT | NUMBER | DATE | RESULT
"""

from __future__ import annotations

import operator
import os
import re
import warnings
from collections.abc import Callable, Iterable, Iterator
from difflib import get_close_matches
from typing import Any, NamedTuple, NoReturn

from .errors import Error, Fault
from .facts import Facts, date_of, number_of
from .faults import located

Asked = Callable[[Facts], bool]
Compared = Callable[[Any, Any], bool]
TOKEN = re.compile(
    r'(?P<text>"(?:[^"\\]|\\.)*")|(?P<result>1-0|0-1|1/2-1/2|\*)(?![\w/-])|(?P<number>-?\d+(?:\.\d+){0,2})(?![\w.:/-])'
    r"|(?P<sign><=|>=|!=|!~|[<>=~])|(?P<bracket>[()])|(?P<word>[A-Za-z]\w*)",
    re.ASCII | re.S,
)
SIGNS: dict[str, Compared] = {
    "=": operator.eq,
    "!=": operator.ne,
    "<": operator.lt,
    "<=": operator.le,
    ">": operator.gt,
    ">=": operator.ge,
}
# Fields and words that are no tags, each with what it takes.
FIELDS = {
    "result": "the game's result: 1-0, 0-1, 1/2-1/2 or *",
    "plies": "how many moves of either side the main line has",
    "glyph": 'a glyph of a move, by its number or as a text, as 4 or "??"',
    "comment": "a comment",
    "clock": "the clock after a move, in seconds, from [%clk]",
    "eval": "the evaluation after a move, in pawns, from [%eval]; a mate is beyond every number",
}
MEASURED: dict[str, Callable[[Facts, str | None], Iterable[Any]]] = {
    "glyph": Facts.glyphs,
    "clock": Facts.clocks,
    "eval": Facts.evaluations,
}
WORDS = [*FIELDS, "tag", "white", "black", "and", "or", "not"]
GLYPHS = {"!": 1, "?": 2, "!!": 3, "??": 4, "!?": 5, "?!": 6}
# What other languages write, at the place of a fault, and what to write instead.
SLIPS = [
    (r"&&?", "`and` joins two conditions"),
    (r"\|\|?", "`or` joins two conditions"),
    (r"!(?![=~])", '`not` turns a condition, as in `not Opening ~ "French"`'),
    (r"==", "`=` compares; it is written once"),
    (r"=~|~=", "`~` asks a pattern"),
    (r"<>|=!", "`!=` is the sign for what is not equal"),
    (r"=<|=>", "`<=` and `>=` have their `=` behind"),
    (r"['‘’“”«»]", "a text stands in double quotes"),
    (r'"', 'a text ends with a double quote; within it, one is written `\\"`'),
    (r"\d+:\d", "a time stands in double quotes for a tag, and in seconds for `clock`"),
    (r"\d", "a number is written as 2400 or -1.5, a date as 1990, 1990.05 or 1990.05.31"),
]
DEEPEST, LONGEST, SHORT, PATIENCE = 100, 20_000, 200, 1.0


class Token(NamedTuple):
    """A word of an expression: its kind, its text, and the byte where it begins."""

    kind: str
    text: str
    byte: int


class Condition:
    """An expression that was compiled; `tags` are those that it names. Raises `Fault` where the text is none, and `Error` (status 4) where
    python3-regex is wanted and not installed."""

    def __init__(self, text: str) -> None:
        parser = _Parser(text)
        self._asked = parser.whole()
        self.tags = parser.tags

    def holds(self, facts: Facts) -> bool:
        """Whether a game meets it. Raises `Fault` where a pattern takes too long."""
        return self._asked(facts)


def _search(pattern: str, fault: Callable[[str, str | None], Fault]) -> Callable[[str], bool]:
    """What looks for a pattern in a text, and stops where that takes too long."""
    try:
        import regex
    except ImportError as absent:
        raise Error("`~` needs python3-regex, which is not installed", 4) from absent
    try:
        with warnings.catch_warnings():
            warnings.simplefilter("ignore")
            compiled = regex.compile(pattern, regex.VERSION0)
    except (regex.error, RecursionError, OverflowError, ValueError, MemoryError) as said:
        raise fault(
            f"bad pattern: {said or 'it is too large'}",
            "a pattern is a regular expression; a sign as ( or * that means itself has a \\ before it",
        ) from said

    if not any(sign in pattern for sign in "\\^$.|?*+()[]{}"):
        return lambda value: pattern in value

    # one repetition at most, and no choice: no more steps than the square of the length, and to look at the clock costs more than these
    is_plain = not set(pattern) & set("|(") and sum(map(pattern.count, "*+?{")) <= 1

    def found(value: str) -> bool:
        if is_plain and len(value) < SHORT:
            return compiled.search(value) is not None
        try:
            return compiled.search(value, timeout=PATIENCE) is not None
        except TimeoutError as late:
            raise fault("the pattern takes too long", "a repetition within a repetition, as (a*)*, may do so") from late

    return found


class _Parser:
    def __init__(self, text: str) -> None:
        self._text = text
        self._tokens = list(self._lexed())
        self._at, self._depth = 0, 0
        self.tags: set[str] = set()

    def _fault(self, byte: int, reason: str, hint: str | None = None) -> Fault:
        found = located(os.fsencode(self._text), byte, reason)
        found.hint = hint
        return found

    def _lexed(self) -> Iterator[Token]:
        if len(self._text) > LONGEST:
            raise Fault(f"the expression has more than {LONGEST} letters", 0)
        at, byte = 0, 0
        while at < len(self._text):
            if self._text[at] in " \t\r\n":
                at, byte = at + 1, byte + 1
                continue
            found = TOKEN.match(self._text, at)
            if found is None or found.lastgroup == "sign":
                slip = next((hint for pattern, hint in SLIPS if re.compile(pattern).match(self._text, at)), None)
                if found is None or slip:
                    raise self._fault(byte, "unexpected text", slip)
            yield Token(str(found.lastgroup), found[0], byte)
            at, byte = found.end(), byte + len(os.fsencode(found[0]))
        yield Token("end", "", byte)

    def _next(self) -> Token:
        return self._tokens[self._at]

    def _take(self) -> Token:
        token = self._tokens[self._at]
        self._at = min(self._at + 1, len(self._tokens) - 1)
        return token

    def _is(self, word: str) -> bool:
        if self._next().text != word or self._next().kind not in ("word", "bracket"):
            return False
        self._take()
        return True

    def _refuse(self, token: Token, wanted: str, hint: str | None = None) -> NoReturn:
        what = "unexpected end" if token.kind == "end" else f"unexpected `{token.text}`"
        raise self._fault(token.byte, f"{what}, {wanted} is wanted", hint)

    def whole(self) -> Asked:
        """The expression, to its end."""
        asked = self._either()
        if self._next().kind != "end":
            hint = "`and` or `or` joins two conditions" if self._next().kind == "word" or self._next().text == "(" else None
            self._refuse(self._next(), "`and`, `or` or the end", hint)
        return asked

    def _either(self) -> Asked:
        parts = [self._both()]
        while self._is("or"):
            parts.append(self._both())
        return parts[0] if len(parts) == 1 else lambda facts: any(part(facts) for part in parts)

    def _both(self) -> Asked:
        parts = [self._turned()]
        while self._is("and"):
            parts.append(self._turned())
        return parts[0] if len(parts) == 1 else lambda facts: all(part(facts) for part in parts)

    def _turned(self) -> Asked:
        is_turned = False
        while self._is("not"):
            is_turned = not is_turned
        asked = self._one()
        return (lambda facts: not asked(facts)) if is_turned else asked

    def _one(self) -> Asked:
        token = self._next()
        if self._is("("):
            self._depth += 1
            if self._depth > DEEPEST:
                raise self._fault(token.byte, "nested too deep")
            asked = self._either()
            if not self._is(")"):
                self._refuse(self._next(), "`)`")
            self._depth -= 1
            return asked
        side = None
        if token.kind == "word" and token.text in ("white", "black"):
            side, token = self._take().text, self._next()
        if token.kind != "word":
            self._refuse(token, "a tag or a word" if side is None else "glyph, comment, clock or eval")
        self._take()
        return self._condition(token, side)

    def _condition(self, token: Token, side: str | None) -> Asked:
        name = token.text
        if name in ("glyph", "comment", "clock", "eval"):
            return self._of_moves(name, side)
        if side is not None:
            self._refuse(token, "glyph, comment, clock or eval", f'`{side.capitalize()} = "NAME"` asks the tag')
        if name == "result":
            return self._result()
        if name == "plies":
            test = self._number(self._sign(), "plies")
            return lambda facts: test(facts.plies)
        if name == "tag":
            quoted = self._take()
            if quoted.kind != "text":
                self._refuse(quoted, "the name of a tag in double quotes")
            return self._tag(_unquoted(quoted.text))
        if name[0].isupper() and name.lower() not in ("and", "or", "not"):
            return self._tag(name)
        near = get_close_matches(name.lower(), WORDS, 1)
        raise self._fault(token.byte, f"unknown word `{name}`", f"`{near[0]}`?" if near else f'a tag of that name is `tag "{name}"`')

    def _sign(self) -> Token:
        sign = self._take()
        if sign.kind != "sign":
            self._refuse(sign, "a sign, as = or <")
        return sign

    def _result(self) -> Asked:
        sign, value = self._sign(), self._take()
        wanted = _unquoted(value.text) if value.kind == "text" else value.text
        if sign.text not in ("=", "!="):
            self._refuse(sign, "= or !=")
        if wanted not in ("1-0", "0-1", "1/2-1/2", "*"):
            self._refuse(value, "1-0, 0-1, 1/2-1/2 or *")
        return (lambda facts: facts.result == wanted) if sign.text == "=" else lambda facts: facts.result != wanted

    def _number(self, sign: Token, field: str) -> Callable[[float], bool]:
        value = self._take()
        known = GLYPHS.get(_unquoted(value.text)) if field == "glyph" and value.kind == "text" else None
        if value.kind == "text" and known is None or value.kind != "text" and (value.kind != "number" or value.text.count(".") > 1):
            self._refuse(value, "a number", f"`{field}` is {FIELDS[field]}")
        if sign.text not in SIGNS:
            self._refuse(sign, "a sign that compares, as = or <", "`~` asks a pattern of a tag or a comment")
        compare, wanted = SIGNS[sign.text], float(value.text) if known is None else float(known)
        return lambda said: compare(said, wanted)

    def _of_moves(self, name: str, side: str | None) -> Asked:
        sign = self._sign()
        if name == "comment":
            return _some(Facts.comments, self._text_test(sign), side)
        test = self._number(sign, name)
        return _some(MEASURED[name], test, side)

    def _text_test(self, sign: Token) -> Callable[[str], bool]:
        value = self._take()
        if value.kind != "text":
            self._refuse(value, "a text in double quotes", f'`"{value.text}"`' if value.kind == "word" else None)
        text, byte = _unquoted(value.text), value.byte
        if sign.text in ("~", "!~"):
            found = _search(text, lambda reason, hint: self._fault(byte, reason, hint))
            return found if sign.text == "~" else lambda said: not found(said)
        compare = SIGNS[sign.text]
        if sign.text in ("=", "!="):
            return lambda said: compare(said, text)
        return lambda said: "?" not in said and compare(said, text)

    def _tag(self, name: str) -> Asked:
        self.tags.add(name)
        if self._next().kind != "sign":
            return lambda facts: name in facts.tags
        sign, value = self._sign(), self._next()
        if value.kind == "number" and sign.text in SIGNS:
            self._take()
            return self._numbered(name, SIGNS[sign.text], value)
        if value.kind == "result" and sign.text in ("=", "!="):
            self._take()
            compare, text = SIGNS[sign.text], value.text
            return lambda facts: name in facts.tags and compare(facts.tags[name], text)
        if value.kind == "text" and name.endswith("Date") and sign.text in ("<", "<=", ">", ">="):
            return self._numbered(name, SIGNS[sign.text], self._take()._replace(text=_unquoted(value.text)))
        test = self._text_test(sign)
        return lambda facts: name in facts.tags and test(facts.tags[name])

    def _numbered(self, name: str, compare: Compared, value: Token) -> Asked:
        if name.endswith("Date"):
            parts = value.text.count(".") + 1
            date = date_of(value.text, parts)
            if date is None:
                self._refuse(value, "a date", "a date is written as 1990, 1990.05 or 1990.05.31")
            return lambda facts: (said := date_of(facts.tags.get(name, ""), parts)) is not None and compare(said, date)
        if value.text.count(".") > 1:
            self._refuse(value, "a number", "a date is asked of tags whose names end in Date")
        number = float(value.text)
        return lambda facts: (said := number_of(facts.tags.get(name, ""))) is not None and compare(said, number)


def _unquoted(text: str) -> str:
    """The text between quotes; a backslash before a quote is none of it."""
    return text[1:-1].replace('\\"', '"')


def _some(values: Callable[[Facts, str | None], Iterable[Any]], test: Callable[[Any], bool], side: str | None) -> Asked:
    """Whether some value of a move, or of one of that side, passes a test."""
    return lambda facts: any(map(test, values(facts, side)))
