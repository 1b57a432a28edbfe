"""The cases of cases/, over the program and, where it can be asked, over the model."""

from __future__ import annotations

from pathlib import Path

import pytest
from model.program import Answer
from tests.cases import Case, all_cases, main, names

CASES = all_cases()
OF_THE_MODEL = [case for case in CASES if case.is_for_the_model()]


def shown(answer: Answer) -> list[str]:
    """The lines of an answer, for a difference that can be read."""
    status, out, err = answer
    return [f"status {status}", *(out + b"--\n" + err).decode("utf-8", "backslashreplace").splitlines()]


@pytest.mark.parametrize("case", CASES, ids=[case.name for case in CASES])
def test_program(cqlpgn: str, tmp_path: Path, case: Case) -> None:
    answer = case.by_program(cqlpgn, tmp_path)
    assert shown(answer) == shown(case.wanted())
    assert answer == case.wanted()


@pytest.mark.parametrize("case", OF_THE_MODEL, ids=[case.name for case in OF_THE_MODEL])
def test_model(case: Case) -> None:
    answer = case.by_model()
    assert shown(answer) == shown(case.wanted())
    assert answer == case.wanted()


def test_a_name_that_no_case_has(capsys: pytest.CaptureFixture[str]) -> None:
    before = names()
    assert main(["model", "no-such-case"]) == 2
    assert (names(), capsys.readouterr().err) == (before, "cases/ has no no-such-case\n")
