"""What the pages show, beside the programs and the cases.

Pages are README.md, CONTRIBUTING.md and those of docs/; `pytest tests -k RECIPES` goes through one of them:

- a line of code that begins with `$ ` is a command (`> ` goes on with it), and the lines below it are what it writes:
  first to standard output, then to standard error. Each part of a page, from a heading of the second level to the next one, has a
  folder of its own with the files of examples/;
- a line of code that begins with `cql(` is a query, up to three spaces, with the lines set in below it, and must have no fault;
- a block of code whose first line names a file of crates/ in a comment shows lines of that file, one after the other;
- the rows of a table are checked by what its head says (TABLES, below).

A block of code that needs one of the programs of OPTIONAL is left out where it is missing, and the page then counts as skipped.
"""

from __future__ import annotations

import os
import re
import shutil
import subprocess
from collections.abc import Callable
from pathlib import Path

import pytest
from model.program import Answer
from tests.cases import EXAMPLES, TOP, Case, all_cases
from tests.conftest import BIN
from tests.differences import Differences
from tests.pages import crates
from tests.pages.reading import blocks_of, codes, commands_of, queries, source, tables_of
from tests.processes import PATIENCE, run

OPTIONAL = ["iconv", "jq", "pgn-extract", "pv"]
PATH = os.environ["PATH"] + ":/usr/games"
PAGES = ["README.md", "CONTRIBUTING.md", *sorted("docs/" + path.name for path in (TOP / "docs").glob("*.md"))]
CASES = all_cases()


class Page:
    """A page that is gone through, with the program that it is compared with."""

    def __init__(self, name: str, cqlpgn: str) -> None:
        self.name, self.cqlpgn, self.text = name, cqlpgn, source(name)
        self.differences = Differences()

    def compare(self, what: str, got: object, wanted: object) -> None:
        self.differences.compare(f"{self.name}: {what}", got, wanted)

    def said_of(self, text: str) -> str:
        """What the program says of a query: its fault, or nothing."""
        status, _, err = run(self.cqlpgn, "eval", text)
        return "" if status == 0 else err.decode().strip()

    def is_query(self, text: str) -> None:
        self.compare(text, self.said_of(text), "")

    def answer_over(self, text: str, *names: str) -> Answer:
        """What the program answers to a query over sample archives, one after the other."""
        return run(self.cqlpgn, "eval", text, data=b"".join((EXAMPLES / name).read_bytes() for name in names))


# The blocks of code of a page.


def is_missing(tool: str) -> bool:
    return shutil.which(tool, path=PATH) is None


def missing_for(block: list[str]) -> list[str]:
    """The programs that a block needs and that are not there."""
    text = "\n".join(block)
    return [tool for tool in OPTIONAL if re.search(r"(^|[ |(])%s\b" % tool, text, re.M) and is_missing(tool)]


def try_block(page: Page, block: list[str], room: Path) -> None:
    for command, wanted in commands_of(block):
        where = {**os.environ, "PATH": f"{room}/bin:{PATH}", "LC_ALL": "C.UTF-8"}
        done = subprocess.run(
            ["bash", "-c", command], cwd=room, env=where, stdin=subprocess.DEVNULL, capture_output=True, timeout=PATIENCE, check=False
        )
        page.compare(command, (done.stdout + done.stderr).decode("utf-8", "replace").strip("\n"), wanted)
    for query in re.findall(r"^cql\(.*(?:\n +.*)*", "\n".join(block), re.M):
        page.is_query(re.sub(r"\n +", " ", re.sub(r"(?<=\S) {3,}.*", "", query)))
    named = re.fullmatch(r"(?://|--) (crates/\S+)", block[0])
    if named:
        page.compare(f"lines of {named[1]}", "\n".join(block[1:]) in source(named[1]), True)


def fill(room: Path, programs: list[str]) -> None:
    """Puts the samples into a folder, and the programs into a folder bin in it."""
    shutil.copytree(EXAMPLES, room, dirs_exist_ok=True)
    (room / "examples").symlink_to(".")
    (room / "bin").mkdir()
    for path in [*map(Path, programs), *BIN.iterdir()]:
        (room / "bin" / path.name).symlink_to(path)


def split(text: str) -> list[str]:
    """The parts of a page, each with its heading of the second level; the first one has none."""
    return re.split(r"^(?=## )", text, flags=re.M)


def parts_of(name: str) -> list[tuple[str, int]]:
    """A page with the number of each part that has code."""
    return [(name, number) for number, part in enumerate(split(source(name))) if any(blocks_of(part))]


@pytest.mark.parametrize(("name", "number"), [part for name in PAGES for part in parts_of(name)])
def test_code(cqlpgn: str, pgnpieces: str, pgnjson: str, tmp_path: Path, name: str, number: int) -> None:
    fill(tmp_path, [cqlpgn, pgnpieces, pgnjson])
    page, left_out = Page(name, cqlpgn), set[str]()
    for block in blocks_of(split(page.text)[number]):
        missing = missing_for(block) if any(commands_of(block)) else []
        left_out.update(missing)
        if not missing:
            try_block(page, block, tmp_path)
    page.differences.check()
    if left_out:
        pytest.skip(f"{name}: blocks that want {', '.join(sorted(left_out))}; the others were tried")


# The rows of its tables.


def events_of(out: bytes) -> list[str]:
    """The events of the games in an export, in order."""
    found = re.findall(rb'^\[Event "(.*)"\]$', out, re.M)
    return [re.sub(r"\\(.)", r"\1", event.decode()) for event in found]


def found_row(page: Page, row: list[str]) -> None:
    """What is sought, a query, the games that it finds: a case has the query and finds the same."""
    text, wanted = codes(row[1])[0], row[2].split("; ")
    found = [events_of(case.wanted()[1]) for case in CASES if case.query.strip() == text.encode()]
    page.compare(f"a case that finds what is said of {text}", wanted in found, True)


def count_row(page: Page, row: list[str]) -> None:
    """What is sought, a query, how many games of three archives are found."""
    text = codes(row[1])[0]
    found = re.findall(rb"matched (\d+)", page.answer_over(text, "famous.pgn", "games.pgn", "themes.pgn")[2])
    page.compare(f"how many games are found by {text}", found, [row[2].encode()])


def slip_row(page: Page, row: list[str]) -> None:
    """A query, its positions in famous.pgn, what it asks, the query that was meant, its positions."""
    for text, wanted in ((queries(row[0])[0], row[1]), (queries(row[3])[0], row[4])):
        found = page.answer_over(text, "famous.pgn")[1].count(b"{CQL}")
        page.compare(f"how many positions are found by {text}", str(found), wanted)


def faster_row(page: Page, row: list[str]) -> None:
    """Two queries that find and mark the same, each with what it costs."""
    slow, fast = [page.answer_over(queries(cell)[0], "famous.pgn", "games.pgn", "themes.pgn") for cell in row[:2]]
    # games.pgn has a faulty game, so a query without a fault ends with 1
    page.compare(f"what is found by {row[1]}", fast[:2], (1, slow[1]))


def query_fault_row(page: Page, row: list[str]) -> None:
    """A step, a reason, where it stands, an example with its byte: a case has it."""
    named = re.match(r"[a-z ]*[a-z]", row[1])
    assert named is not None
    byte = re.findall(r" at ([0-9]+)", row[3])[-1]
    begin = b"query byte %s: %s" % (byte.encode(), named[0].encode())
    texts = codes(row[3])
    wanted = texts[0] if len(texts) == 1 and row[3].startswith("`") else None
    found = [case for case in CASES if case.wanted()[2].startswith(begin) and is_of(case, wanted)]
    page.compare(f"a case of {named[0]} at {byte}", bool(found), True)


def is_of(case: Case, text: str | None) -> bool:
    """Whether a case has a query, where one is wanted."""
    return text is None or case.query.decode("latin1").strip("\n") == text


def game_fault_row(page: Page, row: list[str]) -> None:
    """Reasons, where they stand: each has a case."""
    lines = b"\n".join(case.wanted()[2] for case in CASES).split(b"\n")
    for reason in row[0].split(", "):
        has_case = any(re.fullmatch(rb"game \d+ byte \d+: %s" % reason.encode(), line) for line in lines)
        page.compare(f"a case of {reason}", has_case, True)


def queries_fault_row(page: Page, row: list[str]) -> None:
    """What is said of a file of queries, and where it is: a case has it."""
    said = re.sub("REASON", "[a-z ]+", re.sub(r"\b[IB]\b", r"\\d+", codes(row[0])[0]))
    found = [case.name for case in CASES if re.fullmatch(said, case.wanted()[2].decode("latin1").strip())]
    page.compare(f"a case of {row[0]}", bool(found), True)


def status_row(page: Page, row: list[str]) -> None:
    page.compare(f"a case with status {row[0]}", int(row[0]) in [case.wanted()[0] for case in CASES], True)


def refused_row(page: Page, row: list[str]) -> None:
    """A query that is refused, what is said of it, what was meant."""
    for text in queries(row[0]):
        page.compare(f"what is said of {text}", page.said_of(text), codes(row[1])[0])
    for text in queries(row[2]):
        page.is_query(text)


def fault_row(page: Page, row: list[str]) -> None:
    """A query and what is said of it."""
    page.compare(f"what is said of {row[0]}", page.said_of(codes(row[0])[0]), codes(row[1])[0])


def word_row(page: Page, row: list[str]) -> None:
    """A word of the language, what it means, an example that begins with a query."""
    for text in queries(row[2])[:1]:
        page.is_query(text)


def rule_row(page: Page, row: list[str]) -> None:
    """A rule, the file where it stands, definitions that the file declares."""
    text = source(row[1])
    for name in codes(row[2]):
        declared = re.search(r"^\s*(?:abbrev |unfoldable )?pub (?:record |data )?%s\b" % re.escape(name), text, re.M)
        page.compare(f"{row[1]} declares {name}", bool(declared), True)


def sign_row(page: Page, row: list[str]) -> None:
    """A sign, what it means, an example, the file where that stands."""
    for text in codes(row[2]):
        page.compare(f"{row[3]} has {text}", text in source(row[3]), True)


def crate_row(page: Page, row: list[str]) -> None:
    """A crate, what it may stand on, what it may not know, how many crates stand on it."""
    name, below = codes(row[0])[0], crates.crates_below()
    page.compare(f"crates above {name}", row[3], crates.above(name))
    if codes(row[1]):
        page.compare(f"what {name} stands on", sorted(below.get(name, {"no such crate"}) - set(codes(row[1]))), [])


TABLES: dict[tuple[str, ...], Callable[[Page, list[str]], None]] = {
    ("What is sought", "Query", "Found"): found_row,
    ("What is sought", "Query", "Games"): count_row,
    ("Step", "Reason", "Where", "Example"): query_fault_row,
    ("Query", "Its fault"): fault_row,
    ("Reason", "Where it stands"): game_fault_row,
    ("Line", "Where it comes"): queries_fault_row,
    ("Status", "Means", "What to do"): status_row,
    ("Written", "What is said", "Meant", "Why"): refused_row,
    ("Written", "Finds", "What it asks", "Meant", "Finds"): slip_row,
    ("Written", "The same, faster", "Times", "Then", "Why"): faster_row,
    ("Word", "Means", "Example"): word_row,
    ("Word", "Holds where", "Example"): word_row,
    ("Rule", "File", "Definition"): rule_row,
    ("Sign", "Is read", "Example", "Where"): sign_row,
    crates.HEAD: crate_row,
}


@pytest.mark.parametrize("name", PAGES)
def test_tables(cqlpgn: str, name: str) -> None:
    page = Page(name, cqlpgn)
    for head, rows in tables_of(page.text):
        for row in rows if head in TABLES else []:
            TABLES[head](page, row)
    page.differences.check()


def test_each_kind_of_table_is_in_a_page() -> None:
    met = {head for name in PAGES for head, _ in tables_of(source(name))}
    assert sorted(set(TABLES) - met) == []


def test_each_crate_has_a_row() -> None:
    """But those of tests."""
    rows = [row for head, rows in tables_of(source(crates.PAGE)) if head == crates.HEAD for row in rows]
    with_a_row = {codes(row[0])[0] for row in rows}
    assert sorted({crate for crate in crates.crates_below() if not crate.endswith("_tests")} - with_a_row) == []


def test_the_version() -> None:
    """CHANGELOG.md and debian/changelog have one, and so has the Python package."""
    names = ("CHANGELOG.md", "debian/changelog", "pyproject.toml")
    patterns = (r"\d+\.\d+\.\d+", r"\d+\.\d+\.\d+", r'(?<=^version = ")[^"]*')
    found = [re.search(pattern, source(name), re.M) for name, pattern in zip(names, patterns)]
    assert len({version and version[0] for version in found}) == 1 and None not in found


def test_the_cookbook() -> None:
    """Each of its cases is in README."""
    shown = source("README.md").replace("\\|", "|").encode()
    assert [case.name for case in CASES if case.name.startswith("cookbook-") and case.query.strip() not in shown] == []
