"""The games of one piece of an archive: each fault is looked up in turn, and a change is kept where the reader then comes further."""

from __future__ import annotations

import re
from collections.abc import Container, Iterator
from dataclasses import dataclass

from ..process import FaultyGame
from . import asking, moves, signs
from .languages import ENGLISH, LANGUAGES, translated
from .text import Change, Text

AHEAD, BEHIND = 4096, 400  # bytes that are looked at around a fault
MOST_CHANGES = 4000  # in one piece
MOST_PROBED = 1 << 29  # bytes that are read to try changes, in one piece
MOST_LETTERS = 1500  # of men, in a game whose language is looked for
MOVE_FAULT = re.compile("not a move|illegal move|bad byte")
# a move that may have the letter of another language
FOREIGN = re.compile(r"[^\W\d_]{1,2}[-x:×]?[a-h]?[1-8]?[-x:×]?[a-h][1-8]|(?:[a-h]x)?[a-h][18]=?[^\W\d_]")
PARAGRAPH = re.compile(rb"\r?\n[ \t\r]*\n\s*(?=\[)")


@dataclass(frozen=True)
class Left:
    """A fault that stays: its byte in the piece as it was, the reason, and why nothing was changed."""

    byte: int
    reason: str
    why: str


@dataclass(frozen=True)
class Mended:
    """What became of a piece: its bytes, the changes, and the faults that are left."""

    bytes: bytes
    changes: tuple[Change, ...]
    left: tuple[Left, ...]


def _text(part: bytes) -> str:
    return part.decode("utf-8", "surrogateescape")


def _bytes(part: str) -> bytes:
    return part.encode("utf-8", "surrogateescape")


class Mending:
    """The work on one piece. `kinds` are the classes of changes that are wanted."""

    def __init__(self, piece: bytes, kinds: Container[str]) -> None:
        self.text = Text(piece)
        self.left: list[Left] = []
        self._kinds, self._probed, self._why = kinds, 0, ""

    def run(self) -> Mended:
        """Mends what can be mended."""
        faults = asking.faults(self.text.bytes)
        while (fault := self._next(faults)) is not None:
            if len(self.text.changes) > MOST_CHANGES or self._probed > MOST_PROBED:
                self._leave(fault, "it has too many faults")
                break
            self._why = ""
            begin = self._begin_of_game(fault)
            for text in self._tries(fault, begin):
                self._probed += len(text.bytes)
                after = asking.faults(text.bytes)
                following = self._next(after, text)
                if following is None or text.origin(following.byte) > self.text.origin(fault.byte):
                    self.text, faults = text, after
                    break
            else:
                self._leave(fault, self._why or "no other spelling fits")
        return Mended(self.text.bytes, self.text.changes, tuple(self.left))

    def _leave(self, fault: FaultyGame, why: str) -> None:
        self.left.append(Left(self.text.origin(fault.byte), fault.reason, why))

    def _next(self, faults: list[FaultyGame], text: Text | None = None) -> FaultyGame | None:
        """The first fault that is not left."""
        text = text or self.text
        left = {one.byte for one in self.left}
        return next((fault for fault in faults if text.origin(fault.byte) not in left), None)

    def _begin_of_game(self, fault: FaultyGame) -> int:
        """Where the game with a fault begins: after the last game that ends before it."""
        if fault.game == 1:
            return 0
        return asking.places(self.text.bytes)[fault.game - 1][0]

    def _tries(self, fault: FaultyGame, begin: int) -> Iterator[Text]:
        """The text with each change that may mend the fault."""
        at, whole = fault.byte, self.text.bytes
        before, onward = _text(whole[max(begin, at - BEHIND) : at]), _text(whole[at : at + AHEAD])
        if MOVE_FAULT.fullmatch(fault.reason):
            word = moves.WORD.match(onward)
            if word is not None:
                made = self._by_moves(fault, begin, word[0])
                if made is not None or self._why:
                    yield from [made] if made is not None else []
                    return
            if FOREIGN.match(onward) and "letters" in self._kinds:
                yield from self._by_language(fault, begin)
                if self._why:
                    return
        for kind, back, ahead, new in signs.matching(fault.reason, before, onward):
            if kind in self._kinds:
                first = at - len(_bytes(before[len(before) - back :]))
                yield self._changed(first, at + len(_bytes(onward[:ahead])), new, kind, fault)
        yield from self._by_lines(fault, begin)
        yield from self._by_brackets(fault, begin)

    def _changed(self, begin: int, end: int, new: str, kind: str, fault: FaultyGame) -> Text:
        return self.text.changed(begin, end, _bytes(new), kind, fault.reason)

    def _by_moves(self, fault: FaultyGame, begin: int, word: str) -> Text | None:
        """The text with the one move that a word can be; where there are two, the reason why nothing is changed."""
        tried = list(dict.fromkeys(moves.spellings(word)))
        if not tried:
            return None
        before = self.text.bytes[begin : fault.byte]
        self._probed += len(tried) * (len(before) + 64)
        found = asking.taken(before, [spelling for _, spelling in tried])
        if len(set(found.values())) > 1:
            told = list({move: tried[at][1] for at, move in sorted(found.items(), reverse=True)}.values())[::-1]
            self._why = f"two moves fit, as {told[0]} and {told[1]}"
            return None
        # of two spellings of the move the first is kept, which says it with less
        kind, spelling = tried[min(found)] if found else ("", "")
        if kind not in self._kinds:
            return None
        return self._changed(fault.byte, fault.byte + len(_bytes(word)), spelling, kind, fault)

    def _by_language(self, fault: FaultyGame, begin: int) -> Iterator[Text]:
        """The text with the letters of the one language in which the reader comes furthest."""
        end = next(last for first, last in asking.places(self.text.bytes) if last > fault.byte or last == len(self.text.bytes))
        whole, reached = _text(self.text.bytes[begin:end]), dict[bytes, tuple[int, str, Text]]()
        for language in LANGUAGES:
            text, at, shift = self.text, 0, begin
            changes = list(translated(whole, language))
            if len(changes) > MOST_LETTERS or all(whole[first:last] in ENGLISH for first, last, _ in changes):
                continue
            for first, last, letter in changes:
                shift, at = shift + len(_bytes(whole[at:first])), last
                old = _bytes(whole[first:last])
                text = text.changed(shift, shift + len(old), _bytes(letter), "letters", f"{fault.reason} ({language})")
                shift += len(_bytes(letter))
            if text is not self.text and text.bytes not in reached:
                self._probed += len(text.bytes)
                following = self._next(asking.faults(text.bytes), text)
                place = len(text.old) + 1 if following is None else text.origin(following.byte)
                reached[text.bytes] = (place, language, text)
        best = max((place for place, _, _ in reached.values()), default=0)
        fitting = [(language, text) for place, language, text in reached.values() if place == best]
        if len(fitting) > 1 and best > self.text.origin(fault.byte):
            self._why = f"two languages fit, {fitting[0][0]} and {fitting[1][0]}"
        elif len(fitting) == 1:
            yield fitting[0][1]

    def _by_lines(self, fault: FaultyGame, begin: int) -> Iterator[Text]:
        """The text with a tag's line, a FEN or lines between games written otherwise."""
        whole, at = self.text.bytes, fault.byte
        first = max(begin, whole.rfind(b"\n", 0, at) + 1)
        if "tags" in self._kinds:
            yield from self._by_tag(fault, first)
            if not whole[first:at].strip() and first > begin:  # what the line before lacks is missed at this one
                yield from self._by_tag(fault, max(begin, whole.rfind(b"\n", 0, first - 1) + 1))
        if "positions" in self._kinds and fault.reason == "bad FEN":
            yield from self._by_fen(fault, first)
        text = signs.text_between(fault.reason, _text(whole[begin:at]), _text(whole[at : at + AHEAD]))
        if text is not None and "remarks" in self._kinds:
            inside = _bytes(text[1:-1])
            first = whole.find(inside, begin)
            if begin <= first <= at:
                yield self._changed(first, first + len(inside), text, "remarks", fault)

    def _by_tag(self, fault: FaultyGame, first: int) -> Iterator[Text]:
        """The text with the tag that begins a line written otherwise."""
        if self.text.bytes[first : first + 40].lstrip()[:1] == b"[":
            for end in self._line_ends(first):
                new = signs.whole_line(fault.reason, _text(self.text.bytes[first:end]))
                if new is not None:
                    yield self._changed(first, end, new, "tags", fault)

    def _line_ends(self, first: int) -> Iterator[int]:
        """Where a tag may end that begins with a line: with the next line, where that goes on with it, and with its own."""
        lines = _text(self.text.bytes[first : first + AHEAD]).splitlines(keepends=True)
        if len(lines) > 1 and not re.search(r"\]\s*\Z", lines[0]) and re.fullmatch(r"[^\[]*\]\s*", lines[1]):
            yield first + len(_bytes((lines[0] + lines[1]).rstrip()))
        if lines:
            yield first + len(_bytes(lines[0].rstrip()))

    def _by_fen(self, fault: FaultyGame, first: int) -> Iterator[Text]:
        whole, at = self.text.bytes, fault.byte
        end = whole.find(b'"', at + 1)
        new = signs.position(_text(whole[at + 1 : end]))
        if new:
            yield self._changed(at + 1, end, new, "positions", fault)
        elif new == "":
            closed = whole.find(b"]", end) + 1
            yield self._changed(first, max(closed, end), "", "positions", fault)

    def _by_brackets(self, fault: FaultyGame, begin: int) -> Iterator[Text]:
        """The text with what was not closed closed: variations before the result, a comment before the next game."""
        whole, at = self.text.bytes, fault.byte
        if "brackets" not in self._kinds:
            return
        if fault.reason == "unclosed variation":
            game = whole[begin:at]
            closing = ")" * asking.levels(game)
            result = re.search(rb"\s*(?:1-0|0-1|1/2-1/2|\*)?\s*\Z", game)
            place = begin + (result.start() if result else len(game))
            yield self._changed(place, place, closing, "brackets", fault)
        elif fault.reason == "unclosed comment":
            end = PARAGRAPH.search(whole, at)
            place = end.start() if end else len(whole.rstrip())
            yield self._changed(place, place, "}", "brackets", fault)


def mended(piece: bytes, kinds: Container[str]) -> Mended:
    """A piece of an archive, as pgnpieces cuts it, with what can be mended; its first byte is not the first one of an archive."""
    return Mending(piece, kinds).run()
