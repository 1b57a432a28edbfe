"""The men of records, and what twins change."""

from __future__ import annotations

import pytest

from cqlpgn.problems.board import NAMES, Board
from cqlpgn.problems.diagram import check_men, diagram, rights, twin
from cqlpgn.problems.faults import BadDiagram, BadTwin, FairyMan


def men(white: str, black: str) -> list[str]:
    return diagram(white.split(), black.split())


def squares(board: list[str]) -> str:
    return " ".join(man + NAMES[square] for square, man in enumerate(board) if man)


def test_the_men_of_a_record() -> None:
    assert squares(men("Ka1 Sb1 Pc2", "Kh8 Sg8")) == "Ka1 Nb1 Pc2 ng8 kh8"


@pytest.mark.parametrize("man", ["Gh4", "Nh2", "DRd2", "Ka9", "K", "", "Ka1b"])
def test_other_men_are_fairy_men(man: str) -> None:
    with pytest.raises(FairyMan):
        diagram([man], [])


@pytest.mark.parametrize(
    "white, black",
    [
        ("Ka1 Ka2", "Kh8"),
        ("Ka1", ""),
        ("Ka1 Pb1", "Kh8"),
        ("Ka1 Pb8", "Kh8"),
        ("Ka1", "Kh8 " + " ".join(f"P{f}{r}" for r in "67" for f in "abcdefgh")),
    ],
)
def test_men_that_no_game_can_have(white: str, black: str) -> None:
    with pytest.raises(BadDiagram):
        check_men(men(white, black))


def test_two_men_on_a_square() -> None:
    with pytest.raises(BadDiagram, match="two men on a1"):
        men("Ka1", "Ka1")


@pytest.mark.parametrize(
    "change, wanted",
    [
        ("Move b3 c4", "Ka1 Nc4 ph7 kh8"),
        ("move b3 c4", "Ka1 Nc4 ph7 kh8"),
        ("Moce b3 c4", "Ka1 Nc4 ph7 kh8"),
        ("wSb3--c4", "Ka1 Nc4 ph7 kh8"),
        ("Sb3-->c4", "Ka1 Nc4 ph7 kh8"),
        ("bPh7 - h6", "Ka1 Nb3 ph6 kh8"),
        ("Exchange b3 h7", "Ka1 pb3 Nh7 kh8"),
        ("Remove h7", "Ka1 Nb3 kh8"),
        ("Remove h7, Add wPe3", "Ka1 Nb3 Pe3 kh8"),
        ("Remove h7 add white Pb4", "Ka1 Nb3 Pb4 kh8"),
        ("Add black Ra2", "Ka1 ra2 Nb3 ph7 kh8"),
        ("WSc2", "Ka1 Nc2 Nb3 ph7 kh8"),
        ("Continued Move b3 c4", "Ka1 Nc4 ph7 kh8"),
        ("cont. Move b3 c4 and Remove h7", "Ka1 Nc4 kh8"),
    ],
)
def test_what_twins_change(change: str, wanted: str) -> None:
    assert squares(twin(men("Ka1 Sb3", "Kh8 Ph7"), change)) == wanted


def test_the_board_is_shifted_and_turned() -> None:
    assert squares(twin(men("Ka1 Sb3", "Kg7"), "Shift a1 b2")) == "Kb2 Nc4 kh8"
    assert squares(twin(men("Ka1 Sb3", "Kg7"), "Rotate 90")) == "kg2 Nc7 Ka8"
    assert squares(twin(men("Ka1 Sb3", "Kg7"), "rotate 180")) == "kb2 Ng6 Kh8"


@pytest.mark.parametrize("change", ["Shift b1 a1", "turn it", "Move b3", "Move b3 c4 somewhere", "bKe5<-wSe4", "Rotate 45"])
def test_what_is_not_understood_is_refused(change: str) -> None:
    with pytest.raises(BadTwin):
        twin(men("Ka1 Sb3", "Kh8"), change)


def test_kings_and_rooks_at_home_may_castle() -> None:
    assert rights(men("Ke1 Ra1 Rh1", "Ke8 Rh8")) == "KQk"
    assert Board(men("Ke1 Ra1 Rh1", "Ke8 Rh8"), True, "KQk").fen().endswith(" w KQk - 0 1")
