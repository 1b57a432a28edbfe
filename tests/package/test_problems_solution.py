"""Texts of solutions, in all the hands that collections show, and the variations that they become."""

from __future__ import annotations

import time

import pytest

from cqlpgn.problems import solution
from cqlpgn.problems.convert import Converter, Game, stipulation
from cqlpgn.problems.faults import (
    AmbiguousMove,
    BadDiagram,
    BadTwin,
    FairyCondition,
    IllegalMove,
    NoMate,
    NoMove,
    NoMoveBefore,
    NoSolution,
    NullMoveInCheck,
    OtherStipulation,
    ProblemFault,
    TooLarge,
)
from cqlpgn.problems.records import Record
from cqlpgn.problems.tokens import plain, tokens

# A problem of two moves in which much can be said: the queen mates on g1 or h3, and the pawn promotes.
WHITE, BLACK = ("Kd7", "Qa3", "Bb6", "Sb8"), ("Kh2", "Pg2", "Ph3")


def outcomes(text: str, asked: str = "#2", white: tuple[str, ...] = WHITE, black: tuple[str, ...] = BLACK, **more: object) -> list[object]:
    record = Record(1, 1, white, black, asked, text)
    for name, value in more.items():
        setattr(record, name, value)
    return [made if isinstance(made, Game) else made.fault for made in Converter(record, "file").games()]


def moves(text: str, asked: str = "#2", white: tuple[str, ...] = WHITE, black: tuple[str, ...] = BLACK, **more: object) -> str:
    """The moves of the one game that there is."""
    (made,) = outcomes(text, asked, white, black, **more)
    if isinstance(made, ProblemFault):
        raise made
    assert isinstance(made, Game)
    return " ".join(made.text.split("\n\n")[1].split())


LONG = "1.Qa3-e3 ! zugzwang. 1...g2-g1=Q 2.Qe3*g1 # 1...Kh2-h1 2.Qe3*h3 # 2.Qe3-g1 #"
TREE = "1. Qe3 $1 {zugzwang} 1... g1=Q (1... Kh1 2. Qxh3# (2. Qg1#)) 2. Qxg1# *"


@pytest.mark.parametrize(
    "text",
    [
        LONG,
        "1.Qe3! zz 1...g1Q 2.Qxg1# 1...Kh1 2.Qxh3#/Qg1#",
        "1.Qe3! ZZ 1....g1/Q 2.Q:g1# 1. ... Kh1 2.Q(:)h3#, Qg1#",
        "1.De3! zugzwang 1…g1(D) 2.Dg1# 1 ... Kh1 2.Dh3# oder Dg1#",
        "1.Qe3! zugzwang: 1...g1=Q 2.Qxg1‡ 1...Kh1 2.Qh3(g1)#",
        '"1.Qe3!   zugzwang\r\n\t1...g1=Q 2.Q*g1 #\n\n 1...Kh1 2.Qh3 or Qg1#"',
        "1.aQe3! zugzwang 1...g1=Q 2.3Qg1# 1...Kh1 2.Qh3/g1",
    ],
)
def test_hands_of_the_same_solution(text: str) -> None:
    assert moves(text) == TREE


@pytest.mark.parametrize(
    "text, wanted",
    [
        ("1.Qe3!", "1. Qe3 $1 *"),
        ("1.Qc5? 1...Kg3!", "1. Qc5 $2 1... Kg3 $1 *"),
        ("1.Qc5? but 1...Kg3! 1.Qe3!", "1. Qe3 $1 (1. Qc5 $2 1... Kg3 $1 {but}) *"),
        ("1.Qc5? But Kg3! g1S!", "1. Qc5 $2 1... Kg3 $1 {but} (1... g1=N $1 {but}) *"),
        ("1...Kh1 2.Qxh3# 1.Qe3!", "1. Qe3 $1 (1. -- {set play} 1... Kh1 2. Qxh3#) *"),
        ("1.Qe3! {a fine key} [A]", "1. Qe3 $1 {a fine key} {A} *"),
        ("1.Qe3 and nothing else works", "1. Qe3 {nothing else works} *"),
        ("1.Qe3!! 1...Kh1!? 2.Qh3?!", "1. Qe3 $3 1... Kh1 $5 2. Qxh3# $6 *"),
        ("1.Qe3,Kh1 2.Qg1", "1. Qe3 Kh1 2. Qg1# *"),
        ("1.Qe3 (1.Qc5) Kh1", "1. Qe3 (1. Qc5) 1... Kh1 *"),
        (
            "1.Qe3! 1...g1=~ 2.Qxg1#",
            "1. Qe3 $1 1... g1=Q {g1=~} (1... g1=R {g1=~} 2. Qxg1#) (1... g1=B {g1=~} 2. Qxg1#) (1... g1=N {g1=~} 2. Qxg1#) 2. Qxg1# *",
        ),
        ("1.Qe3 g1Q/g1R 2.Qxg1", "1. Qe3 g1=Q (1... g1=R 2. Qxg1#) 2. Qxg1# *"),
        ("1.Qe3 g1Q/R 2.Qxg1", "1. Qe3 g1=Q (1... g1=R 2. Qxg1#) 2. Qxg1# *"),
        ("1.Qe3 g1", "1. Qe3 g1=Q *"),
    ],
)
def test_what_stands_in_solutions(text: str, wanted: str) -> None:
    assert moves(text) == wanted


ROOK, CORNER = ("Kg6", "Ra2"), ("Kh8", "Pa7")


@pytest.mark.parametrize(
    "text, wanted",
    [
        ("1.Rd2 threat: 2.Rd8# 1...a6 2.Rd8#", "1. Rd2 {threat} 1... a6 (1... -- {threat} 2. Rd8#) 2. Rd8# *"),
        ("1.Rd2 a6 2.Rd8# threat: 1...Kg8", "1. Rd2 a6 (1... Kg8) 2. Rd8# {threat} *"),
        ("1.Rd2 (2.Rd8#) 1...Kg8", "1. Rd2 Kg8 (1... -- {threat} 2. Rd8#) *"),
        ("1.Rd2 [2.Rd8#] Kg8 2.Rd8#", "1. Rd2 Kg8 (1... -- {threat} 2. Rd8#) 2. Rd8# *"),
        ("1.Rd2 > Rd8#", "1. Rd2 {threat} 1... -- {threat} 2. Rd8# *"),
        ("1.Rd2 ~ 2.Rd8#", "1. Rd2 -- {~} 2. Rd8# *"),
        (
            "1.Rd2 thr. 2.Rd8# 1...Kg8/a6/a5 2.Rd8#",
            "1. Rd2 {threat} 1... Kg8 (1... -- {threat} 2. Rd8#) (1... a6 2. Rd8#) (1... a5 2. Rd8#) 2. Rd8# *",
        ),
        ("1.Rd2 Kg8 2.Kf6 1...a6 2.Rd8#", "1. Rd2 a6 (1... Kg8 2. Kf6) 2. Rd8# *"),
        ("1.Rd2 Kg8 2.Kf6 1...a6 2.Kf7", "1. Rd2 Kg8 (1... a6 2. Kf7) 2. Kf6 *"),
    ],
)
def test_a_threat_is_a_variation_and_the_main_line_the_first_defence_that_lasts(text: str, wanted: str) -> None:
    assert moves(text, "#2", ROOK, CORNER) == wanted


def test_a_record_says_the_same_twice() -> None:
    once, twice = "1.Rd2! 1...a6 2.Rd8#", "1.Rd2! 1...a6 2.Rd8# 1.Rd2! Kg8 2.Rd8# 1...a6 2.Rd8#"
    assert moves(once, "#2", ROOK, CORNER) == "1. Rd2 $1 1... a6 2. Rd8# *"
    assert moves(twice, "#2", ROOK, CORNER) == "1. Rd2 $1 1... a6 (1... Kg8 2. Rd8#) 2. Rd8# *"


@pytest.mark.parametrize(
    "text, fault, detail",
    [
        ("", NoSolution, ""),
        ("   \n ", NoSolution, ""),
        ("see the book", NoMove, ""),
        ("1.Qh8", IllegalMove, "Qh8"),
        ("1.Ra1", IllegalMove, "Ra1"),
        ("1.Qe3 1...Ke4", IllegalMove, "Ke4"),
        ("1.Qe3#", NoMate, "Qe3#"),
        ("1.Qe3 2...Kh1", NoMoveBefore, "Kh1"),
        ("1.Qe3 7.Qe4", NoMoveBefore, "Qe4"),
        ("0.Qe3", NoMoveBefore, "Qe3"),
        ("1.Qd6+ threat: 2.Qh2", NullMoveInCheck, "Qh2"),
        ("1.O-O", IllegalMove, "O-O"),
        ("1.Qa8=Q", IllegalMove, "Qa8=Q"),
    ],
)
def test_what_is_wrong_is_said_with_its_text(text: str, fault: type[ProblemFault], detail: str) -> None:
    with pytest.raises(fault) as met:
        moves(text)
    assert met.value.detail in (detail, "threat") if detail else True


def test_two_men_that_could_go() -> None:
    white, black = ("Kb6", "Sd4", "Sd8", "Rh1"), ("Kb8",)
    with pytest.raises(AmbiguousMove):
        moves("1.Sc6+", "#2", white, black)
    assert moves("1.S4c6+", "#2", white, black) == moves("1.4Sc6", "#2", white, black) == "1. N4c6+ *"
    rooks = ("Ka6", "Rh1", "Rg7")
    assert moves("1.R1h7", "#2", rooks, ("Ka8",)) == "1. Rhh7 *"


def test_a_sign_tells_two_men_apart() -> None:
    white, black = ("Kb6", "Rd1", "Rh8"), ("Ka8", "Be8")
    assert moves("1.Rd8", "#2", ("Kb6", "Rd1"), ("Kb8",)) == "1. Rd8# *"
    assert moves("1.Rxe8#", "#2", white, black) == "1. Rxe8# *"


def test_any_move_of_a_man_becomes_all_that_the_text_does_not_give() -> None:
    white, black = ("Kd2", "Rg4", "Bb3"), ("Ka1", "Sb2")
    made = moves("1.Kc2! 1...S~ 2.Ra4# 1...Sc4 2.Rg1#", "#2", white, black)
    assert made == "1. Kc2 $1 1... Nd1 {S~} (1... Nd3 {S~} 2. Ra4#) (1... Na4 {S~} 2. Rxa4#) (1... Nc4 2. Rg1#) 2. Ra4# *"


def test_castling_and_en_passant_as_the_solution_needs_them() -> None:
    (castles,) = outcomes("1.0-0 #", "#1", ("Ke1", "Rh1", "Qd4", "Bb5", "Ph2"), ("Kf3",))
    assert isinstance(castles, Game) and "1. O-O# *" in castles.text and " w K - 0 1" in castles.text
    (passing,) = outcomes("1.h5*g6 ep. #", "#1", ("Kf7", "Rh1", "Be3", "Ph5"), ("Kh6", "Pg5"))
    assert isinstance(passing, Game) and "1. hxg6# *" in passing.text and " w - g6 0 1" in passing.text
    (plain_move,) = outcomes("1.Be3-d4", "#1", ("Kf7", "Rh1", "Be3", "Ph5"), ("Kh6", "Pg5"))
    assert isinstance(plain_move, ProblemFault) or " w - - 0 1" in str(getattr(plain_move, "text", ""))


def test_help_and_self_mates() -> None:
    white, black = ("Kg6", "Rc1", "Sd6"), ("Ka8", "Pb7")
    assert moves("1.Ka8-b8 Sd6-b5 2.Kb8-a8 Rc1-c8 #", "h#2", white, black) == "1... Kb8 2. Nb5 Ka8 3. Rc8# *"
    assert moves("1...Sb5 2.Kb8 Kf7 3.Ka8 Rc8#", "h#2.5", white, black) == "1. Nb5 Kb8 2. Kf7 Ka8 3. Rc8# *"
    assert moves("1.Qd1+! Rxd1#", "s#1", ("Kh1", "Qg4", "Sc4", "Pg2", "Ph2"), ("Ka1", "Rd3", "Pa2")) == "1. Qd1+ $1 1... Rxd1# *"


def test_twins_are_games_of_their_own() -> None:
    text = "a)\n 1.Rh1-h8 #\nb) bKb8--a8\n 1.Rh1-h8 #\n+c) wRh1--c1\n 1.Rc1-c8 #\nd)\n 1.Rg1-g8 #\ne)\n 1.Rh8#"
    twins = {"b": "Move b8 a8", "c": "Continued Move h1 c1", "d": "Shift b1 a1", "e": ""}
    made = outcomes(text, "#1", ("Kb6", "Rh1"), ("Kb8",), twins=twins)
    shown = [str(one.text.split("[FEN ")[1].split(" ")[0]) if isinstance(one, Game) else type(one) for one in made]
    assert shown == ['"1k6/8/1K6/8/8/8/8/7R', '"k7/8/1K6/8/8/8/8/7R', '"k7/8/1K6/8/8/8/8/2R5', '"k7/8/K7/8/8/8/8/6R1', BadTwin]
    assert '[Twin "c Continued Move h1 c1"]' in getattr(made[2], "text")


def test_a_twin_without_its_part_of_the_solution_is_named() -> None:
    made = outcomes("1.Rh8#", "#1", ("Kb6", "Rh1"), ("Kb8",), twins={"a": "", "b": "Move b8 a8"})
    assert [type(one) for one in made] == [Game, NoSolution]


def test_a_twin_may_have_another_stipulation_or_side() -> None:
    text = "a)\n1.Rh8#\nb)\n1.Kc8 Rh7 2.Kb8 Rh8#\n"
    made = outcomes(text, "#1", ("Kb6", "Rh1"), ("Kb8",), twins={"b": "Stipulation h#2"})
    assert [getattr(one, "text").split('"')[1] for one in made] == ["direct #1.", "help h#2."]
    black = outcomes("1.Rh8#", "#1 by Black", ("Kb8",), ("Kb6", "Rh1"))
    assert getattr(black[0], "text").split('"')[1] == "direct #1. by Black"
    both = outcomes("1.Rb8#\n\n1.Rxb1#", "#1", ("Kg6", "Rb1"), ("Kg8", "Ra1"), options=("Duplex",))
    assert [isinstance(one, Game) for one in both] == [True, False]


@pytest.mark.parametrize(
    "text, event",
    [
        ("#2", "direct #2."),
        ("#23", "direct #23."),
        ("h#2", "help h#2."),
        ("h#2.5", "help h#2,5."),
        ("s#3", "self s#3."),
        ("r#2", "reflex r#2."),
        ("+", "study +."),
        ("=", "study =."),
    ],
)
def test_stipulations_are_told_exactly(text: str, event: str) -> None:
    assert stipulation(text).event(False) == event
    assert not any(other in event for other in ("direct #2.", "help h#2.", "study +.") if other != event)


@pytest.mark.parametrize("text", ["", "ser-h#2", "h=2", "#", "#0", "#99999999999999999999", "=3", "See text"])
def test_other_stipulations(text: str) -> None:
    (fault,) = outcomes(LONG, text)
    assert isinstance(fault, OtherStipulation)


def test_other_rules_and_other_checks_are_refused() -> None:
    assert isinstance(outcomes(LONG, options=("Circe",))[0], FairyCondition)
    assert isinstance(outcomes("1.Kb7", "#2", ("Kb6", "Rh8"), ("Kb8",))[0], BadDiagram)


LONG_WORDS = [
    "(a1 " * 9_000,
    "{" * 9_000,
    "1 " * 9_000,
    "~" * 9_000,
    "\n" * 9_000 + "1",
    "[" * 9_000,
    "1" + " " * 99_000,
    "(" + "a1 " * 9_000,
    "(a" * 9_000,
]


@pytest.mark.parametrize("text", LONG_WORDS, ids=range(len(LONG_WORDS)))
def test_the_words_of_any_text_are_soon_read(text: str) -> None:
    before = time.process_time()
    assert sum(1 for _ in tokens(plain(text))) <= len(text)
    assert time.process_time() - before < 5


@pytest.mark.parametrize(
    "rest", ["{n}...K~ {m}.Q~ ", "{n}...Kh1/Kg3/Kg1/Kh2 {m}.Qe4/Qe3/Qe5/Qe6/Qe7 ", "{n}...Kh1 {m}.Q~ {n}...Kg3 {m}.Q~ "]
)
def test_a_text_that_would_become_a_forest_is_refused(rest: str, monkeypatch: pytest.MonkeyPatch) -> None:
    monkeypatch.setattr(solution, "MOST_MOVES", 300)
    text = "1.Q~ " + "".join(rest.format(n=n, m=n + 1) for n in range(1, 60))
    with pytest.raises(ProblemFault):
        moves(text, "#99", ("Kd7", "Qa3", "Bb6"), ("Kh2", "Pg5"))
    with pytest.raises(TooLarge, match="more than 300 moves"):
        moves("1.Kd6 g4 2.Q~ g3+ 3.K~ Kh3 4.Q~ Kh2 5.K~ Kg2", "#99", ("Kd7", "Qa3"), ("Kh2", "Pg5"))


@pytest.mark.parametrize("line", ["1.Q~ K~ 2.Q~ K~ 3.Q~", "1.Q~ ~ 2.Q~ K~ 3.Q~ K~ 4.Q~", "1.K~ K~ 2.K~ K~ 3.K~ K~ 4.K~"])
def test_a_short_text_may_not_have_many_moves(line: str) -> None:
    with pytest.raises(TooLarge, match=f"more than {2_000 + 20 * len(line)} moves"):
        moves(line, "#4", ("Kd6", "Qh1", "Qg1"), ("Kb8",))


def test_all_twins_have_one_budget() -> None:
    made = outcomes("a)\n1.Q~ K~ 2.Q~\n" * 8, "#4", ("Kd6", "Qh1"), ("Kb8",))
    assert isinstance(made[0], Game) and isinstance(made[-1], TooLarge)


def test_many_comments_at_one_move_are_soon_kept() -> None:
    text = "1.Qe3 " + "".join(f"{{a{number}}} " for number in range(16_000))
    before = time.process_time()
    assert moves(text).count("{") == 16_000
    assert time.process_time() - before < 5


def test_brackets_may_not_be_open_without_end() -> None:
    assert moves("1.Qe3 " + "( ) " * 1000) == "1. Qe3 *"
    with pytest.raises(TooLarge, match="more than 100 open brackets"):
        moves("1.Qe3 " + "( " * 1000)


def test_a_line_may_not_be_endless() -> None:
    with pytest.raises(TooLarge):
        moves("1.Kd6 Kg3 " + "Kd7 Kh2 Kd6 Kg3 " * 1000, "#99", ("Kd7",), ("Kh2",))
