"""A text with changes: each has its place in the text as it was."""

from __future__ import annotations

from dataclasses import dataclass


@dataclass(frozen=True)
class Change:
    """Bytes of a text that are replaced: from where to where in the text as it was, by what, of which class, and why."""

    begin: int
    end: int
    new: bytes
    kind: str
    reason: str


class Text:
    """A text, and the changes that are made so far, in their order and apart from each other."""

    def __init__(self, old: bytes, changes: tuple[Change, ...] = ()) -> None:
        self.old, self.changes = old, changes
        parts, at = [], 0
        for change in changes:
            parts += [old[at : change.begin], change.new]
            at = change.end
        self.bytes = b"".join([*parts, old[at:]])

    def origin(self, at: int) -> int:
        """The place in the text as it was of a byte of this one; of one that is new, the beginning of what it replaces."""
        shift = 0
        for change in self.changes:
            begin = change.begin + shift
            if at < begin:
                break
            if at < begin + len(change.new):
                return change.begin
            shift += len(change.new) - (change.end - change.begin)
        return at - shift

    def changed(self, begin: int, end: int, new: bytes, kind: str, reason: str) -> Text:
        """The text with these bytes of it replaced. Changes that it touches become one with it."""
        first, last, shift = begin, end, 0
        left: list[Change] = []
        right: list[Change] = []
        before = touched = 0
        for change in self.changes:
            now, grown = change.begin + shift, len(change.new) - (change.end - change.begin)
            shift += grown
            if now + len(change.new) < begin:
                left.append(change)
                before += grown
            elif now > end:
                right.append(change)
            else:
                touched += grown
                first, last = min(first, now), max(last, now + len(change.new))
        text = self.bytes[first:begin] + new + self.bytes[end:last]
        made = Change(first - before, last - before - touched, text, kind, reason)
        return Text(self.old, (*left, made, *right))
