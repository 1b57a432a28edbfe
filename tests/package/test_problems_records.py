"""Records as they stand in files, and texts that are none."""

from __future__ import annotations

import pytest

from cqlpgn.problems.faults import NotARecord
from cqlpgn.problems.popeye import is_popeye, printed
from cqlpgn.problems.records import Record, Unread, records

RECORD = b"""---
authors:
  - Loyd, Samuel
  - Another
source: London Era
source-id: 1
date: 1861-01-13
distinction: 1st Prize
algebraic:
  white: [Kb6, Rh1]
  black: [Kb8]
stipulation: "#1"
solution: |
  1.Rh8 #
keywords: [Excelsior, Model mates]
options: SetPlay
twins:
  b: Move b8 a8
"""
BOARD = """
Popeye Linux v4.61

                          Loyd, Samuel
                           London Era

+---a---b---c---d---e---f---g---h---+
|                                   |
8   .  -K   .   .   .   .   .   .   8
|                                   |
7   .   .   .   .   .   .   .   .   7
|                                   |
6   .   K   .   .   .   .   .   .   6
|                                   |
5   .   .   .   .   .   .   .   .   5
|                                   |
4   .   .   .   .   .   .   .   .   4
|                                   |
3   .   .   .   .   .   .   .   .   3
|                                   |
2   .   .   .   .   .   .   .   .   2
|                                   |
1   .   .   .   .   .   .   .   R   1
|                                   |
+---a---b---c---d---e---f---g---h---+
  #1                          2 + 1

   1.Rh1-h8 #

solution finished. Time = 0.010 s
"""


def one(data: bytes) -> Record | Unread:
    (found,) = records(data)
    return found


def fault(data: bytes) -> str:
    found = one(data)
    assert isinstance(found, Unread) and isinstance(found.fault, NotARecord)
    return found.fault.detail


def test_the_fields_of_a_record() -> None:
    assert one(RECORD) == Record(
        1,
        2,
        white=("Kb6", "Rh1"),
        black=("Kb8",),
        stipulation="#1",
        solution="1.Rh8 #\n",
        text_line=14,
        authors=("Loyd, Samuel", "Another"),
        source="London Era",
        source_number="1",
        date="1861-01-13",
        award="1st Prize",
        keywords=("Excelsior", "Model mates"),
        options=("SetPlay",),
        twins={"b": "Move b8 a8"},
    )


def test_records_are_numbered_and_know_their_lines() -> None:
    found = list(records(b"\n" + RECORD + b"---\n---  \r\n" + RECORD[4:].replace(b"\n", b"\r\n") + b"---\n"))
    assert [(record.number, record.line) for record in found] == [(1, 3), (2, 22)]
    assert isinstance(found[1], Record) and found[1].text_line == 34 and RECORD.count(b"\n") == 18


def test_texts_are_never_numbers_or_signs() -> None:
    found = one(b"stipulation: =\ndate: 1914\nsource: yes\nsolution: 1.0\n")
    assert isinstance(found, Record)
    assert (found.stipulation, found.date, found.source, found.solution, found.text_line) == ("=", "1914", "yes", "1.0", None)


def test_missing_and_empty_fields() -> None:
    assert one(b"solution:\nauthors:\n") == Record(1, 1)


@pytest.mark.parametrize(
    "data, said",
    [
        (b"no map", "no map of fields"),
        (b"- a list", "no map of fields"),
        (b"a: b\n...\na: c\n", "not YAML"),
        (b"a: [b", "not YAML"),
        (b'a: "\\d"', "not YAML"),
        (b"a: b: c", "not YAML"),
        (b"a: \x07", "not YAML"),
        (b"? [a]\n: b", "is no text"),
        (b"a: b\na: c", "a name that stands twice"),
        (b"authors: !!python/object/apply:os.system [x]", "an alias or a tag of YAML"),
        (b"authors: !!int 1", "an alias or a tag of YAML"),
        (b"a: &x [1]\nb: *x", "an alias or a tag of YAML"),
        (b"a: " + b"[" * 50_000, "nested too deep"),
        (b"{a: " * 50_000, "nested too deep"),
        (b"- " * 50_000, "nested too deep"),
        (b"solution: [a]", "the field solution is no text"),
        (b"authors: {a: b}", "the field authors is no list of texts"),
        (b"authors: [[a]]", "the field authors is no list of texts"),
        (b"algebraic: [a]", "the field algebraic is no map"),
        (b"algebraic: {white: {a: b}}", "the field white is no list of texts"),
        (b"twins: {b: [c]}", "the field b is no text"),
    ],
)
def test_what_is_no_record_says_why(data: bytes, said: str) -> None:
    assert said in fault(data)


def test_bombs_of_aliases_are_refused_before_they_grow() -> None:
    lines = ["a0: &a0 [x, x, x, x, x, x, x, x, x]"]
    lines += [f"a{n}: &a{n} [{', '.join([f'*a{n - 1}'] * 9)}]" for n in range(1, 30)]
    assert fault("\n".join([*lines, "authors: *a29"]).encode()) == "an alias or a tag of YAML"


def test_other_bytes_than_utf_8() -> None:
    assert fault(b"source: \xff") == "not UTF-8 at byte 8 of the record"
    assert fault("source: \u0431".encode("utf-16"))


def test_a_fault_of_yaml_knows_its_line() -> None:
    found = one(b"---\na: b\nc: d: e\n")
    assert found.line == 3


def test_a_board_of_popeye() -> None:
    (found,) = printed(BOARD.encode())
    assert is_popeye(BOARD.encode()) and not is_popeye(RECORD)
    assert found == Record(
        1,
        7,
        white=("Kb6", "Rh1"),
        black=("Kb8",),
        stipulation="#1",
        solution="\n   1.Rh1-h8 #\n",
        text_line=27,
        authors=("Loyd, Samuel",),
        source="London Era",
    )


def test_several_boards_of_popeye() -> None:
    found = list(printed((BOARD + BOARD.replace("\n", "\r\n")).encode()))
    assert [(record.number, record.line, type(record)) for record in found] == [(1, 7, Record), (2, 37, Record)]
    assert isinstance(found[1], Record) and found[1].authors == ("Loyd, Samuel",)


@pytest.mark.parametrize(
    "old, new, said",
    [
        ("2 + 1", "3 + 1", "2 + 1 men are read, and 3 + 1 are said"),
        ("2 + 1", "2 + 1 + 1n", "men are read"),
        ("  #1 ", "  ", "without a stipulation"),
        ("7   .   .", "7   .", "a board of other rows"),
        ("8   .  -K", "9   .  -K", "a board of other rows"),
        ("|                                   |\n+---a---b---c---d---e---f---g---h---+\n  #1", "#1", "without a stipulation"),
    ],
)
def test_faulty_boards_of_popeye(old: str, new: str, said: str) -> None:
    (found,) = printed(BOARD.replace(old, new).encode())
    assert isinstance(found, Unread) and said in found.fault.detail


def test_conditions_of_popeye_are_no_orthodox_rules() -> None:
    (found,) = printed(BOARD.replace("2 + 1\n", "2 + 1\n          Circe\n").encode())
    assert isinstance(found, Record) and found.options == ("condition Circe",)
    (plain,) = printed(BOARD.replace("2 + 1\n", "2 + 1\n          SetPlay\n").encode())
    assert isinstance(plain, Record) and plain.options == ("SetPlay",)
