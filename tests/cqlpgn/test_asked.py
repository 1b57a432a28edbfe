"""Queries over games: what the program finds beside the model, each query by itself and as one of several.

asked/ has queries, one a line: one of each form (forms.txt), two hundred that were drawn (drawn.txt), those of the pages (pages.txt) and
some with sort items (sorted.txt); and archives: two games with variations (two.pgn), and ten openings of world championships with
variations drawn at random (ten.pgn). The answer shows the positions at which a query holds.
"""

from __future__ import annotations

import functools
from pathlib import Path

import pytest
from model import program
from tests.conftest import TOP
from tests.processes import run

ASKED = TOP / "tests" / "cqlpgn" / "asked"
ARCHIVES = {"forms": "two.pgn", "drawn": "two.pgn", "pages": "ten.pgn", "sorted": "ten.pgn"}
MOST = program.MOST_QUERIES


@functools.lru_cache(None)
def queries_of(name: str) -> list[bytes]:
    return (ASKED / f"{name}.txt").read_bytes().splitlines()


@functools.lru_cache(None)
def archive_of(name: str) -> bytes:
    return (ASKED / ARCHIVES[name]).read_bytes()


ALONE = [pytest.param(name, number, id=f"{name}-{number + 1}") for name in ARCHIVES for number in range(len(queries_of(name)))]
TOGETHER = [pytest.param(name, at, id=f"{name}-{at + 1}") for name in ARCHIVES for at in range(0, len(queries_of(name)), MOST)]


@pytest.mark.parametrize(("name", "number"), ALONE)
def test_alone(cqlpgn: str, name: str, number: int) -> None:
    query, archive = queries_of(name)[number], archive_of(name)
    wanted = program.run_eval(query, archive)
    assert wanted[0] == 0, query
    assert run(cqlpgn, "eval", query, data=archive) == wanted, query


@pytest.mark.parametrize(("name", "at"), TOGETHER)
def test_together(cqlpgn: str, tmp_path: Path, name: str, at: int) -> None:
    """As many queries as a file may have, beside what the program answers to each alone, which is compared with the model."""
    queries, archive = queries_of(name)[at : at + MOST], archive_of(name)
    (tmp_path / "queries.cql").write_bytes(b"\n%%\n".join(queries))
    wanted = program.joined([run(cqlpgn, "eval", query, data=archive) for query in queries])
    assert run(cqlpgn, "many", "queries.cql", data=archive, folder=tmp_path) == wanted
