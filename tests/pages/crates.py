"""The crates as crates.txt has them, and the numbers of docs/ARCHITECTURE.md.

    python3 -m tests.pages.crates            writes how many crates stand on each one into docs/ARCHITECTURE.md
"""

from __future__ import annotations

import sys

from tests.cases import TOP
from tests.pages.reading import codes, source, tables_of

PAGE = "docs/ARCHITECTURE.md"
HEAD = ("Crate", "May stand on", "May not know", "Crates above")


def crates_below() -> dict[str, set[str]]:
    """Of each crate those of the repository that crates.txt has after it."""
    rows = [line.split(":") for line in source("crates.txt").splitlines() if not line.startswith("#") and ":" in line]
    names = {name.split()[0] for name, _ in rows}
    return {name.split()[0]: names & set(below.split()) for name, below in rows}


def above(name: str) -> str:
    """How many crates stand on one."""
    below, found, new = crates_below(), set[str](), {name}
    while new:
        found |= new
        new = {crate for crate in below if below[crate] & found} - found
    return str(len(found) - 1)


def with_numbers(text: str) -> str:
    """The page with the numbers in its table of crates."""
    for head, rows in tables_of(text):
        for row in rows if head == HEAD else []:
            line = "| %s |" % " | ".join(row)
            text = text.replace(line, "| %s | %s |" % (" | ".join(row[:3]), above(codes(row[0])[0])))
    return text


def main(words: list[str]) -> int:
    if words:
        print(__doc__)
        return 2
    page = TOP / PAGE
    beside = page.with_name(page.name + ".new")
    beside.write_text(with_numbers(page.read_text(encoding="utf-8")), encoding="utf-8")
    beside.replace(page)
    return 0


if __name__ == "__main__":
    sys.exit(main(sys.argv[1:]))
