"""The classes of changes: the one table of which options, report and pages are made."""

from __future__ import annotations

CLASSES = {
    "results": "results, as `1/2`, `1:0`, `1/2 - 1/2`",
    "notation": "moves as engines and dials write them, as `g1f3`, `e7e8q`, `nf3`",
    "castling": "castling, as `o-o`, `OO`, `e1g1`, `Ke1-g1`",
    "captures": "captures and promotions, as `exd`, `N:f6`, `e8=q`, `e8(Q)`",
    "checks": "marks and words of check and of en passant, as `Bb5 +`, `ch`, `e.p.`",
    "letters": "letters of other languages, as `Sf3`, and figurines",
    "glyphs": "evaluations as signs, as `+-`, `=`, `±`, which become `$` and a number",
    "brackets": "a `)` or `}` that was not opened, `()`, a `(` or `{` that was not closed",
    "tags": "tags with quotes or backslashes within, without an end or a value",
    "positions": "the tag FEN with fewer fields, another letter of the side, no value",
    "numbers": "move numbers, as `1e4`, `1)`, `1…`, and commas",
    "nulls": "null moves, as `null`, `<>`, `@@@@`",
    "remarks": "remarks that are no comments, as `(0.24/12)`, `[%clk ..]`, lines of text between games",
    "bytes": "Ctrl-Z, zero bytes, marks of order within, no-break spaces",
}
