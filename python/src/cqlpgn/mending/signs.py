"""What is written otherwise besides moves: rules that each know a spelling by the reason of the fault, by the text from its byte on, and by
how the text ends before it."""

from __future__ import annotations

import re
from collections.abc import Callable, Iterator
from dataclasses import dataclass

EVALUATIONS = {
    "+-": "$18", "-+": "$19", "+/-": "$16", "-/+": "$17", "+/=": "$14", "=/+": "$15", "+=": "$14", "=+": "$15", "=": "$10", "~": "$13",
    "∞": "$13", "±": "$16", "∓": "$17", "⩲": "$14", "⩱": "$15", "□": "$7", "⌓": "$142", "N": "$146", "TN": "$146",
}  # fmt: skip
# of these a game may end with as its result, too
RESULTS = {"+-", "-+", "+/-", "-/+", "="}
MOVE, BYTE, TAG = "not a move|illegal move", "bad byte", "bad tag|unclosed string|bad byte"
EITHER = f"{MOVE}|{BYTE}"
END = r"(?=\s*(?:\[|\Z)|\s*\n\s*\n\s*1\.)"  # of a game
DASHES = r"[-:\u2010-\u2015\u2212\udc96\udc97]"
HALF = r"(?:1/2|½|\udcbd)"
# what may be a move, of whatever language
SAN = re.compile(r"(?:^|[\s.])(?:[^\W\d_]{0,2}[a-h]?[1-8]?[-x:]?[a-h][1-8]|O-O)(?![\w@])")


@dataclass(frozen=True)
class Rule:
    """A spelling that is mended: its class, the reasons of faults, the text from the fault's byte on, what takes its place, and the text
    before it. All that the patterns match is replaced, but for what they look ahead or back at. `new` is a template of `re`, in which the
    groups of `onward` are named, or a call."""

    kind: str
    reasons: str
    onward: str
    new: str | Callable[[re.Match[str], re.Match[str]], str | None]
    before: str = ""

    def change(self, reason: str, before: str, onward: str) -> tuple[int, int, str] | None:
        """How many letters before and from the fault's byte are replaced, and by what; None where the rule does not fit."""
        if not re.fullmatch(self.reasons, reason):
            return None
        ahead, back = re.match(self.onward, onward), re.search(f"(?:{self.before})\\Z", before)
        if ahead is None or back is None:
            return None
        new = ahead.expand(self.new) if isinstance(self.new, str) else self.new(back, ahead)
        return None if new is None else (len(back[0]), len(ahead[0]), new)


def _result(back: re.Match[str], ahead: re.Match[str]) -> str | None:
    sides = re.findall("[01]", back[0] + ahead[0])
    return {"10": "1-0", "01": "0-1", "00": "{0-0} *"}.get("".join(sides))


def _glyph(_back: re.Match[str], ahead: re.Match[str]) -> str | None:
    sign = ahead[1]
    is_last = re.match(r"\s*(?:\[|\Z)", ahead.string[ahead.end() :]) is not None
    return None if sign in RESULTS and is_last else EVALUATIONS[sign]


def _remark(back: re.Match[str], ahead: re.Match[str]) -> str | None:
    said = (back[0] + ahead[0]).strip()
    inside = said[1:-1] if said[:1] == "(" and said[-1:] == ")" else said
    return None if SAN.search(inside) or re.search(r"[{}]", inside) else f"{{{inside.strip()}}}"


def _nested(back: re.Match[str], ahead: re.Match[str]) -> str:
    return "{" + (back[0] + ahead[0])[1:-1].replace("{", "(").replace("}", ")") + "}"


SIGNS = "|".join(re.escape(sign) for sign in sorted(EVALUATIONS, key=len, reverse=True))
CHECK_WORD = r"(?:dis(?:c|covered)?\.?\s*)?(?:dbl|double)?\.?\s*(?:ch|check)(?![\w-])\.?|(?:mate|matt|e\.\s?p\.|ep|disch)(?![\w-])\.?"
RULES = [
    Rule("results", EITHER, rf"{HALF}(?:\s*{DASHES}\s*{HALF})?(?![\w/-])(?:\s*\*)?{END}", "1/2-1/2"),
    Rule("results", EITHER, r"(?:draw|drawn|remis|nulle|tablas)(?!\w)\.?(?:\s*\*)?" + END, "1/2-1/2"),
    Rule("results", EITHER, r"([01])[:]([01])(?![\w-])" + END, _result),
    Rule("results", BYTE, rf"{DASHES}\s*[01](?![\w/]){END}", _result, r"(?<![\w/.])[01]\s*"),
    Rule("results", MOVE, r"0-0" + END, _result),
    Rule("results", BYTE, r"\+:-" + END, "1-0"),
    Rule("results", BYTE, r"-:\+" + END, "0-1"),
    Rule("results", MOVE, r"(1-0|0-1)(ff?|F|wo)(?!\w)" + END, r"{\2} \1"),
    Rule("nulls", EITHER, r"(?i:null|pass)(?!\w)|<>|@@@@", "--"),
    Rule("checks", BYTE, r"[+#†‡]+(?![-/=+])", "", r"[ \t]*"),
    Rule("checks", EITHER, CHECK_WORD, "", r"[ \t]*"),
    Rule("glyphs", EITHER, rf"({SIGNS})(?![\w/=+-])", _glyph),
    Rule("glyphs", "empty variation", r"\)", lambda back, _: back[1], r"[ \t]*\(\s*([!?]{1,2})\s*"),
    Rule("glyphs", "NAG out of range", r"\$\d+", "", r"[ \t]*"),
    Rule("numbers", "unopened variation", r"\)", ".", r"(?<=\d)"),
    Rule("numbers", BYTE, "…|\udc85", "...", ""),
    Rule("numbers", BYTE, ",", "", ""),
    Rule("brackets", "unopened variation", r"\)", ""),
    Rule("brackets", "empty variation", r"\)", lambda back, _: back[1], r"\(((?:\s|\{[^{}()]*\})*)"),
    Rule("brackets", EITHER, r"[^{}]*\}", _nested, r"\{[^{}]*(?:\{[^{}]*)+\}\s*"),
    Rule("brackets", BYTE, r"\}", ""),
    Rule("bytes", BYTE, "[\x00\x1a\ufeff\u00ad\u200b-\u200f\u2060\x7f]+", ""),
    Rule("bytes", BYTE, "[\u00a0\u2000-\u200a\u202f\u3000\udca0]", " "),
    Rule("remarks", "bad tag", r"\[%[^\[\]{}\n]*\]", r"{\g<0>}"),
    Rule("remarks", BYTE, r"<[^<>{}\n]*>", r"{\g<0>}"),
    Rule("remarks", BYTE, r"%[^\n{}]*[^\s{}]", r"{\g<0>}", r"(?<=[^\n])"),
    Rule("remarks", "not a move|bad byte", r"[^(){}\n;]*\)", _remark, r"\([\s\d.]*"),
    Rule("remarks", "variation without move", r"\([^(){}\n;]*\)", _remark),
    Rule("tags", "bad tag", r"(?=\[\s*[A-Za-z0-9]\w*\s*\")", "", r"(?<=\n)[ \t]+"),
    Rule("tags", "bad tag", r"(?=\[\s*[A-Za-z0-9]\w*\s*\")", "\n", r"(?<=\r)"),
    Rule("tags", "bad tag", r"(?=\[Event\s*\")", "\n", r"(?<=[\s\w*])"),
]  # fmt: skip


QUOTES = '"\u201c\u201d\u201e'


def whole_line(reason: str, line: str) -> str | None:
    """A line, or two, with a tag, as it is written rightly; None where it is none of a tag, or has more than one."""
    body = line.strip()
    if not re.fullmatch(TAG, reason) or body[:1] != "[":
        return None
    is_closed = body[-1:] == "]" and len(body) > 1
    body = (body[1:-1] if is_closed else body[1:]).strip()
    found = re.fullmatch(rf"([^{QUOTES}]*)[{QUOTES}](.*?)([{QUOTES}]?)", body, re.S) or re.fullmatch(r"([^\s\[\]]*)\s*(.*?)()", body, re.S)
    if found is None or re.search(r'"\s*\]|\[[A-Z]\w* "', found[2]) or not is_closed and re.search(rf"[{QUOTES}]", found[2]):
        return None
    name, value = re.sub(r"[\W_]", "", found[1]), found[2]
    if not name.isascii() or len(found[1]) > 40 or not name and value.strip():
        return None
    value = re.sub(r"\s+", " ", re.sub(r'\\(["\\])', r"\1", value)).strip()
    value = value.replace("\\", "\\\\").replace('"', '\\"')
    return f'[{name} "{value or "?"}"]' if name else ""


def text_between(reason: str, before: str, onward: str) -> str | None:
    """What stands between two games and is none, as a comment; None where it may be one. `before` is all that the game has before it."""
    end = re.search(r"\s*(?:\n(?=\s*\[)|\Z)", onward)
    said = (before + onward[: end.start() if end else 0]).strip()
    if not re.fullmatch(EITHER, reason) or SAN.search(said) or re.search(r"[{}]|\d+\.(?!\d)|(?:^|\s)(?:1-0|0-1|\*)(?:\s|\Z)", said):
        return None
    return f"{{{said}}}" if re.search("[A-Za-z]", said) and not re.search(r"^\s*\[", said, re.M) else None


def position(text: str) -> str | None:
    """A FEN with all its fields, as far as it has them; the empty text where there is none at all, None where nothing is to be changed."""
    fields = text.split()
    if not fields or text.strip() in ("?", "-"):
        return ""
    usual = ["", "w", "-", "-", "0", "1"]
    new = [*fields[:6], *usual[len(fields) :]] if len(fields) > 1 else fields
    if len(new) == 6:
        new[1] = new[1].lower()
        new[4:] = [field if field.isdecimal() and field.isascii() else other for field, other in zip(new[4:], ("0", "1"))]
    return " ".join(new) if new != fields else None


def matching(reason: str, before: str, onward: str) -> Iterator[tuple[str, int, int, str]]:
    """The class of each rule that fits, with what it replaces."""
    for rule in RULES:
        if found := rule.change(reason, before, onward):
            yield rule.kind, *found
