"""docs/PROBLEMS.md: its queries are accepted, and its twenty themes are there."""

from __future__ import annotations

import re
import subprocess

from tests.conftest import TOP
from tests.processes import PATIENCE

PAGE = (TOP / "docs" / "PROBLEMS.md").read_text(encoding="utf-8")


def queries() -> list[str]:
    """The queries of the page: the indented blocks that begin with `cql(`."""
    blocks = re.findall(r"(?m)^(?: {4}.*\n)+", PAGE)
    return [block for block in blocks if block.strip().startswith("cql(")]


def test_the_page_has_twenty_themes_with_a_query_each() -> None:
    numbers = [int(number) for number in re.findall(r"(?m)^\*\*(\d+)\. ", PAGE)]
    assert numbers == list(range(1, 21)) and len(queries()) == 20


def test_the_program_accepts_each_query_of_the_page(cqlpgn: str) -> None:
    for query in queries():
        done = subprocess.run([cqlpgn, "check", "-"], input=query.encode(), capture_output=True, check=False, timeout=PATIENCE)
        assert (done.returncode, done.stdout) == (0, b"ok\n"), query
