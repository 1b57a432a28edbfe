"""What to write instead: the table of the words of CQL 6 that the profile does not have, and that of the slips.

docs/LANGUAGE.md ("Coming from CQL 6") and docs/SLIPS.md ("Refused") show the same rows.
"""

from __future__ import annotations

import re
from dataclasses import dataclass


@dataclass(frozen=True)
class Foreign:
    """A row of words of CQL 6: how the page shows them, the words themselves, and what to write, as the page has it."""

    shown: str
    words: str
    advice: str


@dataclass(frozen=True)
class Slip:
    """A row of what is often written wrong: as an example, what to write in its place, and why. It is known by what is said, by how the
    text goes on from the fault's byte, and by how it ends before it; both patterns are of one line."""

    written: str
    meant: str
    why: str
    said: str
    onward: str
    before: str = ""


FOREIGN = [
    Foreign("`piece x in A`", "piece", "`square x in A`; x is the square, and does not follow the man when it moves"),
    Foreign("`lastposition`", "lastposition", "`terminal`"),
    Foreign("`initialposition`", "initialposition", "`initial`"),
    Foreign("`attack (R k)`", "attack", "`R attacks k`"),
    Foreign("`ray (R k)`", "ray", "`R attacks k` where nothing stands between, `between(R k)` for the squares between"),
    Foreign("`pin`", "pin", "`square y in [QRB] square x in a & between(y k) { y attacks x not between(x k) & ~_ }`"),
    Foreign("`xray`", "xray", "`square y in [QRB] square x in A & between(y k) { y attacks x not between(x k) & ~_ }`"),
    Foreign("`passedpawns`", "passedpawns", r"`P & ~(down p \| down left 1 p \| down right 1 p)`; of either side with `flipcolor`"),
    Foreign("`isolatedpawns`", "isolatedpawns", r"`P & ~(up 0 7 (left 1 P \| right 1 P) \| down 0 7 (left 1 P \| right 1 P))`"),
    Foreign("`doubledpawns`", "doubledpawns", "`P & up P`, all but the hindmost"),
    Foreign("`o-o`, `o-o-o`, `castle`", "o-o-o o-o castle", "`move from Ke1 to g1`, and so on"),
    Foreign("`enpassant`", "enpassant", "`move from Pa-h5 to a-h6 capture pa-h5`, with `flipcolor`"),
    Foreign("`next`, `previous`, ranges of `find`", "next previous", "`line --> ..`, `line <-- ..`"),
    Foreign("`find all`, counts of `find`", "", "nothing; how many positions in a row is the value of `line`"),
    Foreign("`firstmatch`", "firstmatch", "`F and not parent find <-- F`"),
    Foreign("`silent`, `quiet`", "silent quiet", '`cql(matchstring "")`'),
    Foreign("`message`, `string`, `comment (..)`", "message string", '`comment "T"`, at the top alone, with a fixed text'),
    Foreign('`hascomment "T"`', "", "`hascomment`, whatever its text"),
    Foreign("`type`, `colortype`", "type colortype", "`x & [QR]`, a set with a man of this kind"),
    Foreign("`distance`", "distance", "nothing; squares two steps from x on a line are `anydirection 2 x`"),
    Foreign(
        "`legal`, `pseudolegal`",
        "legal pseudolegal",
        "nothing; `move` asks for moves that were played. So a mate that was missed can't be found",
    ),
    Foreign("`gamenumber`", "gamenumber", "nothing"),
    Foreign("`date`, `eco`, `tag`", "date eco tag", "`year`; for other tags `pgn-extract` before the program (docs/RECIPES.md)"),
    Foreign("`echo`", "echo", "nothing"),
    Foreign("variables, `while`, `loop`, `function`, `persistent`, `dictionary`", "while loop function persistent dictionary", "nothing"),
    Foreign(
        "`makesquare`, `rotate45`, `virtualmainline`, `nestban`, `singlecolor`",
        "makesquare rotate45 virtualmainline nestban singlecolor",
        "nothing",
    ),
]

NAME, KIND, TOKEN, BYTE = "unknown name", "kind mismatch", "unexpected token", "bad byte"
SLIPS = [
    Slip("Pc", "Pc1-8", "a file is written with its ranks", NAME, r"[KQRBNPkqrbnpAa_.][a-h]\b"),
    Slip("P7", "Pa-h7", "a rank is written with its files", NAME, r"[KQRBNPkqrbnpAa_.][1-8]\b"),
    Slip(
        "Kf1-h2",
        "Kf-h1-2",
        "the files first, then the ranks; here a king on f1 minus a square h2 was read",
        KIND,
        r"[KQRBNPkqrbnpAa_.][a-h][1-8]-[a-h][1-8]",
    ),
    Slip("[KQ]d1-h1", "[KQ]d-h1", "the files first, then the ranks", KIND, r"\[\w+\][a-h][1-8]-[a-h][1-8]"),
    Slip("[Ra1,Rh1]", "R[a1,h1]", "men stand in one pair of brackets, squares in another", BYTE, r"\[[A-Za-z_.][a-h][1-8],"),
    Slip("Q on f7", "Qf7", "man and square are written as one word", NAME, r"on\b"),
    Slip(
        "Qxf7",
        "move from Q to f7 capture a",
        "a query has no moves in the notation of games; `Nf3` is a knight on f3",
        NAME,
        r"([KQRBN][a-h]?[1-8]?|[a-h])x[a-h][1-8]",
    ),
    Slip("queen f7", "Qf7", "men are letters, capitals for White", NAME, r"(king|queen|rook|bishop|knight|pawn)s?\b"),
    Slip(
        "Bxh7+",
        "move from B to h7 capture a check",
        "a query has no moves in the notation of games; a check is `check`",
        "unexpected end",
        r"",
        r"\b[KQRBN]?[a-h]?[1-8]?x?[a-h][1-8][+#]\s*\Z",
    ),
    Slip("no Q", "not Q", "the word is `not`", NAME, r"no\b"),
    Slip("e8=Q", "move to e8 promote Q", "a query has no moves in the notation of games", BYTE, r"=\s*[QRBN]\b", r"\b[a-h][18]\s*\Z"),
    Slip("O-O", "move from Ke1 to g1", "castling is the king's move; here one name minus another was read", KIND, r"O-O(-O)?\b"),
    Slip("checkmate", "mate", "the word is `mate`", NAME, r"(?i:checkmate)\b"),
    Slip(
        "mate in 2",
        "child child child mate",
        "only a mate that was played can be asked; it comes three half-moves later",
        TOKEN,
        r"in\s*\d",
        r"\bmate\s*\Z",
    ),
    Slip(
        "Mate", "mate", "words are written in small letters", NAME, r"(?=[a-z]*[A-Z])(?i:check|mate|stalemate|wtm|btm|find|flipcolor|not)\b"
    ),
    Slip("CQL() mate", "cql() mate", "the first word is written in small letters too", TOKEN, r"(?!cql)(?i:cql)\b"),
    Slip("cql mate", "cql() mate", "the parentheses must be there, though they are empty", TOKEN, r"", r"^\s*cql\s+\Z"),
    Slip(
        "cql() variations mate",
        "cql(variations) mate",
        "what the whole query is told stands in the parentheses",
        TOKEN,
        r"(variations|matchstring|input|output)\b",
    ),
    Slip("Qf7, Bc4", "Qf7 Bc4", "nothing but white space stands between items", TOKEN, r","),
    Slip("mate; check", "mate check", "nothing but white space stands between items", BYTE, r";"),
    Slip("mate /* in the corner */", "mate // in the corner", "a note begins with `//` and ends with its line", BYTE, r"/\*"),
    Slip("comment 'mate'", 'comment "mate"', 'texts stand in `"`', BYTE, r"'"),
    Slip("(wtm result 1-0)", "{wtm result 1-0}", "parentheses hold one filter, braces a list", TOKEN, r"", r"\(\s*\w+\s*\Z"),
    Slip(
        "flipcolor (check Qh5)",
        "flipcolor {check Qh5}",
        "parentheses hold one filter, braces a list, here too",
        TOKEN,
        r"",
        r"\b(flip\w*|shift\w*|rotate90|not)\s*\(\s*\w+\s*\Z",
    ),
    Slip("check & mate", "check and mate", "`&` is of squares; of positions it is `and`, or nothing at all", KIND, r"\w+\s*[&|]"),
    Slip("WhiteElo > 2500", "elo white > 2500", "the ratings are `elo white` and `elo black`", KIND, r"(White|Black)Elo\b"),
    Slip("A > a", "power A > power a", "compare numbers: `#A` counts men, `power A` their worth", KIND, r"\S+\s*[<>]=?\s*[A-Za-z\[]"),
    Slip("[Qq] == 0", "#[Qq] == 0", "compare numbers: how many men is `#`", KIND, r"\S+\s*([<>]=?|==)\s*\d"),
    Slip(
        "#check >= 3",
        "initial find { check child find { check child find check } }",
        "`#` counts squares of one position; what comes several times is found by `find` within `find`",
        KIND,
        r"(check|mate|stalemate)\b",
        r"#\s*\Z",
    ),
    Slip("#N = 2", "#N == 2", "equal is `==`", BYTE, r"="),
    Slip("#N != 2", "not #N == 2", "unequal is the opposite of equal", BYTE, r"!="),
    Slip("3 <= ply <= 5", "3 <= ply ply <= 5", "one comparison at a time", TOKEN, r"([<>]=?|==)", r"([<>]=?|==)\s*\w+\s*\Z"),
    Slip("power A - power a < -3", "power A - power a < 0 - 3", "a number has no sign", TOKEN, r"-\s*\d", r"[<>=]\s*\Z"),
    Slip('elo > "2500"', "elo > 2500", "numbers stand without quotes", TOKEN, r'"\d+"', r"[<>=]\s*\Z"),
    Slip('result "1-0"', "result 1-0", "results stand without quotes", TOKEN, r'"', r"\bresult\s*\Z"),
    Slip("result draw", "result 1/2-1/2", "a result is written as in the archive", TOKEN, r"[A-Za-z]", r"\bresult\s*\Z"),
    Slip(
        "player Fischer", 'player "Fischer"', "names stand in quotes", TOKEN, r"[A-Za-z]", r"\b(player|event|site)(\s+(white|black))?\s*\Z"
    ),
    Slip(
        'player = "Fischer"',
        'player "Fischer"',
        "nothing stands between `player` and the name",
        BYTE,
        r"=",
        r"\b(player|event|site)(\s+(white|black))?\s*\Z",
    ),
    Slip("white wins", "result 1-0", "a result is written as in the archive", TOKEN, r"(white|black)\s+(wins?|won)\b"),
    Slip('white "Fischer"', 'player white "Fischer"', "`white` and `black` stand after `player` and `elo`", TOKEN, r"(white|black)\b"),
    Slip(
        'player "Tal" or "Keres"',
        'player "Tal" or player "Keres"',
        "`or` stands between two whole filters",
        TOKEN,
        r'"',
        r"\b(or|and)\s*\Z",
    ),
    Slip('date "1972"', "year == 1972", "of the date there is the year alone, a number", TOKEN, r"", r"\bdate\s*\Z"),
    Slip(
        'eco "B90"',
        "Pe4 pc5 ply == 2",
        "an opening is the position that it leads to; `pgn-extract` asks for codes (docs/RECIPES.md)",
        TOKEN,
        r"",
        r"\b(?i:eco)\s*\Z",
    ),
    Slip("sort elo", 'sort "rating" elo', "a sort item has a name", TOKEN, r'[^"]', r"\bsort\s+(min\s+)?\Z"),
    Slip(
        'flipcolor sort "pawns" #P',
        'sort "pawns" flipcolor #P',
        "`sort` and `comment` stand within nothing else",
        "not at top",
        r"(sort|comment)\b",
    ),
    Slip("promote N", "move promote N", "it is a part of `move`", TOKEN, r"promote\b"),
    Slip(
        "move capture q from R",
        "move from R capture q",
        "the order is `from`, `to`, `capture`, `promote`",
        TOKEN,
        r"(from|to|capture)\b",
        r"\bmove\b.*\Z",
    ),
    Slip(
        "N attacks k attacks q",
        "square x in N { x attacks k x attacks q }",
        "`attacks` stands between two sets",
        TOKEN,
        r"attack(s|edby)\b",
    ),
    Slip("between(R, k)", "between(R k)", "no comma", TOKEN, r",", r"\bbetween\s*\([^()]*\Z"),
    Slip("max(ply, 3)", "max(ply 3)", "no comma", TOKEN, r",", r"\b(max|min)\s*\([^()]*\Z"),
    Slip("if mate wtm", "if mate then wtm else btm", "all three parts are written", TOKEN, r"", r"\bif\b(?!.*\belse\b).*\Z"),
    Slip("line check --> mate", "line --> check --> mate", "an arrow stands before the first part too", TOKEN, r"", r"\bline\s*\Z"),
    Slip(
        "line --> check --> not check",
        "line --> check --> {not check}",
        "a part that is not a single word stands in braces",
        TOKEN,
        r"",
        r"(-->|<--)\s*\Z",
    ),
    Slip(
        "line --> ({check btm} --> wtm){2,40}",
        "line --> ({check btm} --> wtm){2} --> ({check btm} --> wtm)*",
        "a line has 64 places at most, and each part counts as often as it may stand; after `*` and `+` only once",
        "line too long",
        r"",
    ),
    Slip(
        "square n in N n attacks k",
        "square knight in N knight attacks k",
        "`n` is a black knight; a name must not be a man or a square",
        TOKEN,
        r"",
        r"\bsquare(\s+all)?\s*\Z",
    ),
    Slip(
        "piece x in Q x attacks k",
        "square x in Q x attacks k",
        "docs/LANGUAGE.md has a table for those who come from CQL 6",
        "outside profile piece",
        r"",
    ),
    Slip(
        "castling",
        "move from Ke1 to [c1,g1] or move from ke8 to [c8,g8]",
        "there is no such word, so it is taken for a name",
        NAME,
        r"castl(ing|ed)\b",
    ),
    Slip(
        "square x in N { x attacks k } x attacks q",
        "square x in N { x attacks k x attacks q }",
        "a name is known within the filter after its `square`; braces make one filter of several",
        NAME,
        r"",
        r"\bsquare\b.*\Z",
    ),
]


@dataclass(frozen=True)
class Meaning:
    """A row of what is accepted with another meaning than in CQL 6, or than was meant: how it is known, and what is said."""

    written: str
    pattern: str
    said: str


ACCEPTED = [
    Meaning(
        "Q f7",
        r"(?<![\w\]-])[KQRBNPkqrbnp]\s+[a-h][1-8](?![\w-])",
        "a man anywhere, and a square, which always holds; a man on it is `Qf7`",
    ),
    Meaning(
        "1. e4",
        r"(?<![\w.-])\d+\.+\s*[KQRBN]?[a-h]?[1-8]?x?[a-h][1-8](?![\w-])",
        "a number, any square, and men or a square, as they stand; an opening is a position, as `ply == 1 Pe4`",
    ),
    Meaning("0-0", r"(?<![\w-])0-0(-0)?(?![\w-])", "a number, which always holds; castling is a move, as `move from Ke1 to g1`"),
    Meaning(
        "1-0", r"(?<![\w-])(?<!result\s)(?<!\s\s)(1-0|0-1)(?![\w-])", "a number, which always holds; the result is asked by `result 1-0`"
    ),
    Meaning(
        "find 3 check", r"\bfind\s+(<--\s*)?\d", "finds a number, which always holds; how many positions in a row is the value of `line`"
    ),
    Meaning('comment "try"', r'\bcomment\s*"', "writes a comment and always holds; comments that are there are asked by `hascomment`"),
]


def _plain(advice: str) -> str:
    return advice.replace("\\|", "|")


def foreign(word: str) -> str | None:
    """What to write in place of a word of CQL 6; None for any other word."""
    for row in FOREIGN:
        if word in row.words.split():
            advice = _plain(row.advice)
            if advice == "nothing":
                return f"`{word}` of CQL 6 has no counterpart here"
            if advice.startswith("nothing; "):
                return f"`{word}` of CQL 6 has no counterpart here; {advice[9:]}"
            return f"`{word}` of CQL 6 is {advice}"
    return None


def slip(said: str, before: str, onward: str) -> Slip | None:
    """The row that a fault is of, by what is said, and by the line before and from its byte; None where it is of none."""
    # where several rows fit, the one that asks for more is meant
    for row in sorted(SLIPS, key=lambda row: (not row.onward, -len(row.before))):
        if said.startswith(row.said) and re.match(row.onward, onward) and re.search(row.before, before):
            return row
    return None


def in_words(row: Slip) -> str:
    """A row as a hint."""
    return f"{row.why}: as `{row.meant}`, not `{row.written}`"
