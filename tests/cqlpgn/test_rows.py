"""The worked rows: the program answers each, and the model each that it has a mode for."""

from __future__ import annotations

from pathlib import Path

import pytest
from model import program
from model.program import Answer
from tests.cqlpgn import query_rows
from tests.cqlpgn.rows import Row, rows
from tests.processes import run

ROWS = dict(rows())
OPTIONS = ("--workers", "--limit", "--seed", "--games")
# The statuses of words that are refused and of limits, which the model knows neither of.
NOT_OF_THE_MODEL = (3, 8)


def by_program(cqlpgn: str, room: Path, words: list[str], files: dict[str, bytes]) -> Answer:
    for name, text in files.items():
        if name != "-":
            (room / name).write_bytes(text)
    return run(cqlpgn, *words, data=files.get("-", b""), folder=room)


def by_model(words: list[str], files: dict[str, bytes]) -> Answer:
    """The answer of the model, which has one worker and no limits."""
    asked: list[str] = []
    given: list[str] = []
    for before, word in zip(["", *words], words):
        (given if word.startswith("--") or before in OPTIONS else asked).append(word)
    mode, query, *names = asked
    text = query.encode() if mode in ("eval", "selfrun") else files.get(query, b"-")
    options = dict(zip(given, given[1:]))
    if mode == "selfrun":
        return program.run_selfrun(text, int(options.get("--seed", 1)), int(options.get("--games", 100)))
    if mode in ("check", "explain"):
        return (program.run_check if mode == "check" else program.run_explain)(text)
    return program.run_eval(text, files[names[0] if names else "-"], first="--first" in given)


def shown(answer: Answer) -> tuple[int, int, bytes, bytes]:
    """An answer in which a long stream is told by its length and its beginning."""
    status, out, err = answer
    return status, len(out), out[:2000], err[:2000]


@pytest.mark.parametrize("row", ROWS.values(), ids=ROWS)
def test_program(cqlpgn: str, tmp_path: Path, row: Row) -> None:
    answer = by_program(cqlpgn, tmp_path, row.words, row.files)
    assert shown(answer) == shown(row.want)
    assert answer == row.want


@pytest.mark.parametrize("row", [pytest.param(row, id=name) for name, row in ROWS.items() if row.want[0] not in NOT_OF_THE_MODEL])
def test_model(row: Row) -> None:
    answer = by_model(row.words, row.files)
    assert shown(answer) == shown(row.want)
    assert answer == row.want


@pytest.mark.parametrize("number", range(len(query_rows.WEIGHED)))
def test_the_number_of_items(cqlpgn: str, tmp_path: Path, number: int) -> None:
    """The top items of each query that is weighed, by its flat form."""
    items, count, _ = query_rows.WEIGHED[number]
    text = b"cql() " + items
    assert program.run_explain(text)[1].count(b"\n") == count
    assert by_program(cqlpgn, tmp_path, ["explain", "q.cql"], {"q.cql": text})[1].count(b"\n") == count
