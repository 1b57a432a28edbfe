"""Rows of queries: what `check` says of them, what they weigh, and their flat form."""

from __future__ import annotations

from collections.abc import Iterator
from typing import Tuple

# A query, and what is said of its fault; nothing where it is accepted.
SAID = [
    (b"cql() flipcolor Ka1", b""),
    (b"cql() line --> check{64}", b""),
    (b"cql() line 3 2 --> wtm", b""),
    (b"cql() move from N to f3", b""),
    (b"cql() move", b""),
    (b"cql() not move promote q", b""),
    (b'cql(variations input a.pgn output "b") Ka1 // c', b""),
    (b"cql() square x in A x attacks k", b""),
    (b'cql() sort "a" ply sort "b" 1 sort min "c" depth sort "d" elo', b""),
    (b'cql() comment "c" (comment "c") {check}', b""),
    (b'cql(matchstring "}" matchstring "a") A', b""),
    (b"!", b"0: bad byte"),
    (b"cql() !", b"6: bad byte"),
    (b'cql() "a', b"6: unclosed text"),
    (b"cql() 1000000000", b"6: number too large"),
    (b"", b"0: unexpected end"),
    (b"cql() move to", b"13: unexpected end"),
    (b"cql() move to f3 from N", b"17: unexpected token"),
    (b"cql() line 0 3 --> check", b"11: unexpected token"),
    (b"cql() line 1 128 --> check", b"13: unexpected token"),
    (b"cql() line 2 --> check", b"13: unexpected token"),
    (b"cql() check or or", b"15: unexpected token"),
    (b"cql() echo", b"6: outside profile echo"),
    (b"cql() not ray", b"10: outside profile ray"),
    (b"cql() #check", b"7: kind mismatch, wanted set, found position"),
    (b"cql() # 1", b"8: kind mismatch, wanted set, found number"),
    (b"cql() power ply", b"12: kind mismatch, wanted set, found number"),
    (b"cql() ~check", b"7: kind mismatch, wanted set, found position"),
    (b"cql() A | check", b"10: kind mismatch, wanted set, found position"),
    (b"cql() A & 1", b"10: kind mismatch, wanted set, found number"),
    (b"cql() check attacks k", b"6: kind mismatch, wanted set, found position"),
    (b"cql() A attackedby check", b"19: kind mismatch, wanted set, found position"),
    (b"cql() between(A check)", b"16: kind mismatch, wanted set, found position"),
    (b"cql() light check", b"12: kind mismatch, wanted set, found position"),
    (b"cql() up 1 check", b"11: kind mismatch, wanted set, found position"),
    (b"cql() 1 + check", b"10: kind mismatch, wanted number, found position"),
    (b"cql() A * 2", b"6: kind mismatch, wanted number, found set"),
    (b"cql() max(1 A)", b"12: kind mismatch, wanted number, found set"),
    (b"cql() ply < check", b"12: kind mismatch, wanted number, found position"),
    (b'cql() sort "t" A', b"15: kind mismatch, wanted number, found set"),
    (b"cql() square x in ply check", b"18: kind mismatch, wanted set, found number"),
    (b"cql() square x in A x == 1", b"20: kind mismatch, wanted number, found set"),
    (b"cql() #(1 + check)", b"7: kind mismatch, wanted set, found number"),
    (b"cql() move from check", b"16: kind mismatch, wanted set, found position"),
    (b"cql() x", b"6: unknown name x"),
    (b"cql() square x in x check", b"18: unknown name x"),
    (b"cql() square x in A check x", b"26: unknown name x"),
    (b'cql() not sort "t" ply', b"10: not at top"),
    (b'cql() {comment "c"}', b"7: not at top"),
    (b'cql() check or comment "c"', b"15: not at top"),
    (b'cql() sort "a" 1 sort "b" 1 sort "c" 1 sort "d" 1 sort "e" 1', b"50: too many sorts"),
    (b'cql(matchstring "}") A', b"4: text holds brace"),
    (b'cql() comment "}"', b"6: text holds brace"),
    (b"cql() line --> check{65}", b"6: line too long"),
    (b"cql() check line --> (check --> mate){33}", b"12: line too long"),
    (b"cql() line --> {line --> check{65}}", b"16: line too long"),
    (b"cql() square v in A square w in A square x in A square y in A square z in A z", b"62: too many squares"),
    (b"cql() shift shift check", b""),
    (b"cql() check shift shift shift check", b"12: too many members"),
    (b"cql() shift shift shift line --> check{65}", b"24: line too long"),
    (b"[Ra1]", b"0: bad byte"),
    (b"x$", b"1: bad byte"),
    (b"R[a1", b"1: bad byte"),
    (b"\x00", b"0: bad byte"),
    (b"\x80", b"0: bad byte"),
    (b"\xff", b"0: bad byte"),
    (b'"abc', b"0: unclosed text"),
    (b"1 1000000000", b"2: number too large"),
    (b"999999999 $", b"10: bad byte"),
    (b"cql(echo)", b"4: outside profile echo"),
    (b"cql() check or echo", b"15: outside profile echo"),
    (b"cql() line --> check{999999999}", b"6: line too long"),
    # names that begin as designators do, and words that others begin with
    (b"cql() bishop", b"6: unknown name bishop"),
    (b"cql() a1b2", b"6: unknown name a1b2"),
    (b"cql() Ra", b"6: unknown name Ra"),
    (b"cql() Kab1", b"6: unknown name Kab1"),
    (b"cql() moves", b"6: unknown name moves"),
    (b"cql(input a//b.pgn) Ka1", b""),
    (b'cql(output "x y") Ka1', b""),
    (b"cql ( ) wtm", b""),
    (b"//", b"2: unexpected end"),
    (b"// a\r b", b"7: unexpected end"),
]

# Texts of tokens that only begin a query: their fault, an unexpected end, is at their length.
BEGUN = [
    b"cql",
    b"cql(",
    b"cql(matchstring",
    b"cql(input a",
    b"cql()",
    b"cql() ",
    b"cql() check or",
    b"cql() not",
    b"cql() if check then mate else",
    b"cql() square x in A",
    b'cql() sort "t"',
    b"cql() 1 <",
    b"cql() A &",
    b"cql() up 1 2",
    b"cql() max(1",
    b"cql() (check",
    b"cql() {check",
    b"cql() line -->",
    b"cql() line --> check{2",
    b"cql() line --> (check",
]

# A query, and the byte of the first token that no query goes on with.
UNEXPECTED = [
    (b"check", 0),
    (b"cql cql", 4),
    (b"cql(check", 4),
    (b"cql(input)", 9),
    (b"cql(matchstring x)", 16),
    (b"cql() )", 6),
    (b"cql() }", 6),
    (b"cql() or", 6),
    (b"cql() matchstring", 6),
    (b"cql() check or )", 15),
    (b"cql() check )", 12),
    (b"cql() not or", 10),
    (b"cql() find -->", 11),
    (b"cql() find <-- <--", 15),
    (b"cql() if check mate", 15),
    (b"cql() if check then mate wtm", 25),
    (b"cql() square in A A", 13),
    (b"cql() square all all", 17),
    (b"cql() square x A", 15),
    (b"cql() square x in not A", 18),
    (b"cql() square x in A < 3", 20),
    (b"cql() ply < 2 < 3", 14),
    (b"cql() A attacks a attacks k", 18),
    (b"cql() 1 + not 2", 10),
    (b"cql() up 1 2 3", 13),
    (b"cql() up not check", 9),
    (b"cql() result x", 13),
    (b"cql() player ply", 13),
    (b"cql() player white ply", 19),
    (b"cql() event ply", 12),
    (b"cql() comment check", 14),
    (b"cql() elo white black", 16),
    (b"cql() sort ply", 11),
    (b"cql() sort min ply", 15),
    (b"cql() between A", 14),
    (b"cql() between(A)", 15),
    (b"cql() between(A a k)", 18),
    (b"cql() max(1)", 11),
    (b"cql() ()", 7),
    (b"cql() {}", 7),
    (b"cql() (check mate)", 13),
    (b"cql() {check)", 12),
    (b"cql() line check", 11),
    (b"cql() line 1 128", 13),
    (b"cql() line 2 -->", 13),
    (b"cql() line primary 3 -->", 21),
    (b"cql() line --> not check", 15),
    (b"cql() line --> check <-- mate", 21),
    (b"cql() line --> (check <-- mate)", 22),
    (b"cql() line --> (check mate)", 22),
    (b"cql() line --> check{}", 21),
    (b"cql() line --> check{2,}", 23),
    (b"cql() line --> check**", 21),
    (b"cql() line --> check* >= 2", 22),
    (b"cql() line --> move", 15),
    (b"cql() move from not N", 16),
    (b"cql() move to f3 to f4", 17),
    (b"cql() move promote q capture a", 21),
]

# `cql() `, 64 times a word, and what follows it; what is said of its fault.
NESTED = [
    (b"(", b"(", b"70: too deep"),
    (b"(", b")", b"70: unexpected token"),
    (b"(", b"", b"70: unexpected end"),
    (b"{", b"line --> check", b"70: too deep"),
    (b"not ", b"not", b"262: too deep"),
    (b"not ", b"A attacks ~B", b"272: too deep"),
    (b"~", b"not", b"70: unexpected token"),
]

# What follows `cql() `, its top items, and its weight: the number of its filters, those of a family once a member.
WEIGHED = [
    (b"Ka1", 1, 1),
    (b"check mate stalemate wtm btm initial terminal mainline", 8, 8),
    (b"variation hascomment ply movenumber depth year", 6, 6),
    (b'result 1-0 result * event "T" site "T" comment "c"', 5, 5),
    (b'player "T" player white "T" player black "T"', 3, 3),
    (b"elo elo white elo black", 3, 3),
    (b"check or mate or wtm", 1, 4),
    (b"check or mate and wtm or btm", 1, 6),
    (b"check and mate and wtm", 1, 4),
    (b"not check and mate", 1, 4),
    (b"not not check", 1, 3),
    (b"find check find <-- mate", 2, 4),
    (b"child parent check", 1, 3),
    (b"flip Ka1", 1, 9),
    (b"rotate90 flipvertical Ka1", 1, 13),
    (b"fliphorizontal Ka1 flipcolor Ka1", 2, 6),
    (b"shift Ka1", 1, 226),
    (b"shifthorizontal Ka1 shiftvertical Ka1", 2, 32),
    (b"if check or mate then wtm else btm", 1, 6),
    (b"if check then mate else wtm and btm", 1, 6),
    (b"square x in A | a x attacks k", 1, 7),
    (b"square all x in A not x attacks k", 1, 6),
    (b'sort "t" ply', 1, 2),
    (b'sort min "t" ply + depth', 1, 4),
    (b"ply < 2 ply <= 2 ply == 2 ply >= 2 ply > 2", 5, 15),
    (b"ply + 1 - 2 - 3 == 4", 1, 7),
    (b"ply * 2 * 3 + 1", 1, 6),
    (b"A | a & R attacks k", 1, 7),
    (b"A & a | R & k", 1, 7),
    (b"R attacks k R attackedby k", 2, 6),
    (b"up A down 2 A left 1 3 A right A", 4, 8),
    (b"northeast 1 2 dark A northwest A southeast A", 3, 7),
    (b"southwest A diagonal A orthogonal A anydirection A", 4, 8),
    (b"between(A k) attacks Q", 1, 5),
    (b"max(1 2 3) + min(ply depth)", 1, 8),
    (b"(check)", 1, 1),
    (b"((check or mate)) and wtm", 1, 5),
    (b"{check mate} {check}", 2, 5),
    (b"line --> check", 1, 2),
    (b"line primary --> check --> mate", 1, 3),
    (b"line <-- check*", 1, 2),
    (b"line 2 5 --> (check --> mate)+ --> wtm?", 1, 4),
    (b"line primary 1 127 --> check{2} --> mate{0,3}", 1, 3),
    (b"line --> check {2}", 1, 2),
    (b"line --> check wtm", 2, 3),
    (b"line --> {check or mate}", 1, 5),
    (b"(line --> check*) >= 2", 1, 4),
    (b"line 3 2 --> wtm", 1, 2),
    (b"line --> {line <-- check}", 1, 4),
    (b"move", 1, 1),
    (b"move from N to f3", 1, 3),
    (b"not move promote q", 1, 3),
    (b"move from light N to f3 capture a promote Q", 1, 6),
    (b"move capture a or move", 1, 4),
    (b"line --> {move}", 1, 3),
    (b"# A == # a", 1, 5),
    (b"power A light A", 2, 4),
    (b"A // all\n a", 2, 2),
    (b"not " * 64 + b"check", 1, 65),
    (b"not " * 64 + b"A (B)", 2, 66),
    (b"~" * 64 + b"A", 1, 65),
]

# What follows `cql() `, and its flat form, an item a line.
FLAT = [
    (b"flipcolor Ka1", b"(union [K]:0000000000000001 [k]:0100000000000000)"),
    (b"line 2 3 --> wtm", b"(line 2 3 --> wtm)"),
    (b"flipcolor Ka1 check", b"(union [K]:0000000000000001 [k]:0100000000000000)\ncheck"),
    (b"[Kk_][a-b1,d1,f1,h1]", b"[Kk_]:00000000000000ab"),
    (b"Aa1-8", b"[KQRBNP]:0101010101010101"),
    (b"070", b"70"),
    # each designator is the longest of its form
    (b"c3-6 a-h2 aa1", b"[KQRBNPkqrbnp_]:0000040404040000\n[KQRBNPkqrbnp_]:000000000000ff00\n[kqrbnp]:0000000000000001"),
    (b"[KQ]a1 [a1,b2-3] K[a1,h8]", b"[KQ]:0000000000000001\n[KQRBNPkqrbnp_]:0000000000020201\n[K]:8000000000000001"),
    (b"b _a2 .", b"[b]:ffffffffffffffff\n[_]:0000000000000100\n[KQRBNPkqrbnp_]:ffffffffffffffff"),
    (b"ab1", b"[kqrbnp]:0000000000000002"),
    (b"#c3-6-7", b"(- (# [KQRBNPkqrbnp_]:0000040404040000) 7)"),
    (b"h-a8-1", b"[KQRBNPkqrbnp_]:ffffffffffffffff"),
    (b"#a-b5", b"(# [KQRBNPkqrbnp_]:0000000300000000)"),
    (b"line --> Pe4* --> Pe4+", b"(line --> (* [P]:0000000010000000) (+ [P]:0000000010000000))"),
    (b"result 1-00", b"(result 1-0)\n0"),
    (b"result // c\n *", b"(result *)"),
    (b"hascomment", b"hascomment"),
    (b'player "x"', b'(player "x")'),
    (b'player white "x"', b'(player white "x")'),
    (b'event "x"', b'(event "x")'),
    (b'site "x"', b'(site "x")'),
    (b"result 1/2-1/2", b"(result 1/2-1/2)"),
    (b"elo", b"(elo)"),
    (b'comment "x"', b'(comment "x")'),
    (b"move", b"(move)"),
    (b"find <-- Ka1", b"(find<-- [K]:0000000000000001)"),
    (b"#~Ka1", b"(# (~ [K]:0000000000000001))"),
    (b"up Ka1", b"(up 1 7 [K]:0000000000000001)"),
    (b"down 3 ka1", b"(down 3 3 [k]:0000000000000001)"),
    (b"{check 1}", b"(all check 1)"),
    (b"wtm or check and mate", b"(or wtm (and check mate))"),
    (b"max(1 2 * 3 * 4)", b"(max 1 (* 2 3 4))"),
    (
        b"Ka1 attacks ka2 & between(Qa1 qa1)",
        b"(& (attacks [K]:0000000000000001 [k]:0000000000000100) (between [Q]:0000000000000001 [q]:0000000000000001))",
    ),
    (b"1 <= 2", b"(<= 1 2)"),
    (b"if wtm then 1 else 2", b"(if wtm 1 2)"),
    (b"square x in Ka1 x", b"(square x [K]:0000000000000001 x)"),
    (b"square all x in Ka1 x", b"(square all x [K]:0000000000000001 x)"),
    (b'sort min "x" ply', b'(sort min "x" ply)'),
    (b"wtm not check", b"wtm\n(not check)"),
    (b"1 + 2", b"(+ 1 2)"),
    (b"1 - 2 + 3", b"(+ (- 1 2) 3)"),
    (b"1 - 2 + 3 - 4", b"(- (+ (- 1 2) 3) 4)"),
    (b"1 - (2 + 3)", b"(- 1 (+ 2 3))"),
    (
        b"line primary <-- wtm <-- wtm* <-- (wtm+ <-- wtm?) <-- wtm{2,9}",
        b"(line primary <-- wtm (* wtm) (seq (+ wtm) (? wtm)) ({2,9} wtm))",
    ),
    (b"line --> wtm{3}", b"(line --> ({3,3} wtm))"),
    (b"move from N to f3", b"(move from [N]:ffffffffffffffff to [KQRBNPkqrbnp_]:0000000000200000)"),
    (b"move capture qa1 promote Q", b"(move capture [q]:0000000000000001 promote [Q]:ffffffffffffffff)"),
    (b"flip Ka1", b"(union [K]:0000000000000001 [K]:0000000000000080 [K]:0100000000000000 [K]:8000000000000000)"),
    (b"rotate90 Ka1", b"(union [K]:0000000000000001 [K]:0100000000000000 [K]:8000000000000000 [K]:0000000000000080)"),
    (b"flipcolor elo white", b"(greatest (elo white) (elo black))"),
    (b"flipcolor wtm", b"(any wtm btm)"),
    (b"shift shift check", b"(any (any check))"),
    (
        b"flipcolor flipcolor Ka1",
        b"(union (union [K]:0000000000000001 [k]:0100000000000000) (union [k]:0100000000000000 [K]:0000000000000001))",
    ),
    (b"shiftvertical (Ka1 | Ka8)", b"(union (| [K]:0000000000000001 [K]:0100000000000000))"),
]

Said = Iterator[Tuple[bytes, bytes]]
HEAVY = b" flip flip flip flip flip check"


def repeated() -> Said:
    """queries that are long, deep or heavy, and what is said of their faults"""
    yield b" " * 65536, b"65536: unexpected end"
    yield b" " * 65537, b"65536: query too long"
    yield b"cql() " + b"(" * 65, b"70: too deep"
    yield b"cql()" + HEAVY * 7 + b" check", b""
    yield b"cql()" + HEAVY * 7 + b" check check", b"6: too many members"
    yield b"cql() check" + HEAVY * 7, b""
    yield b"cql() check" + HEAVY * 7 + b" check", b"12: too many members"
    for depth in range(3, 60):
        yield b"cql() " + b"shift " * depth + b"check", b"6: too many members"


def said() -> Said:
    """each query with what is said of its fault"""
    yield from SAID
    yield from repeated()
    for text in BEGUN:
        yield text, b"%d: unexpected end" % len(text)
    for text, byte in UNEXPECTED:
        yield text, b"%d: unexpected token" % byte
    for word, rest, fault in NESTED:
        yield b"cql() " + word * 64 + rest, fault


def padding(weight: int) -> bytes:
    """items of this weight, the first of them a family: a fifth flip weighs 37,449, and a shift 226"""
    heavy, rest = divmod(weight, 37449)
    shifts, rest = divmod(rest, 226)
    return b"flip flip flip flip flip check " * heavy + b"shift check " * shifts + b"check " * rest


def weighed() -> Said:
    """queries brought to the limit of weight, which are accepted, and one above it, which are not"""
    for items, _, weight in WEIGHED:
        yield b"cql() " + padding(262144 - weight) + items, b""
        yield b"cql() " + padding(262145 - weight) + items, b"6: too many members"


def flat() -> Said:
    """each query with its flat form, a line an item"""
    for items, text in FLAT:
        yield b"cql() " + items, text + b"\n"
    yield b"cql()" + HEAVY * 7 + b" check", b"(any (any (any (any (any check)))))\n" * 7 + b"check\n"
