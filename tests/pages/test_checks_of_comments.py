"""The checks of re-exports and of comments, on small texts and on the crates."""

from __future__ import annotations

from pathlib import Path

import pytest
from tests import checks_of_comments as checks
from tests.cases import TOP
from tests.pages.crates import PAGE, crates_below
from tests.pages.reading import source

OWN = {"cq_bits", "cq_slides", "cq_run", "cq_search"}
LIST = "| Crate | Re-exports | Of |\n|---|---|---|\n| `cq_bits` | `slide`, `BitSet64` | `cq_square_sets` |\n"


@pytest.mark.parametrize(
    ("text", "names"),
    [
        ("pub use cq_slides::slide;\n", {"cq_slides::slide"}),
        ("pub use cq_slides::{slide, BitSet64};\n", {"cq_slides::slide", "cq_slides::BitSet64"}),
        ("pub use cq_slides::sets::{\n    slide,\n    BitSet64,\n};\n", {"cq_slides::sets::slide", "cq_slides::sets::BitSet64"}),
        ("use cq_slides::slide;\npub use crate::here::it;\npub use std::fmt;\n", set()),
    ],
)
def test_what_a_file_hands_on(text: str, names: set[str]) -> None:
    assert checks.handed_on(text, OWN) == names


def test_what_crates_hand_on(tmp_path: Path) -> None:
    for crate, text in {"cq_bits": "pub use cq_slides::slide;\n", "cq_run": "pub use cq_run::it;\n"}.items():
        (tmp_path / "crates" / crate / "src" / "a").mkdir(parents=True)
        (tmp_path / "crates" / crate / "src" / "a" / "b.rt").write_text(text)
    assert checks.re_exports(tmp_path, OWN) == {"cq_bits": {"cq_slides::slide"}}


@pytest.mark.parametrize(
    ("found", "told"),
    [
        ({"cq_bits": {"cq_slides::slide", "cq_slides::BitSet64"}}, []),
        ({"cq_bits": {"cq_slides::slide"}}, ["cq_bits doesn't hand on BitSet64, as the page says"]),
        (
            {"cq_bits": {"cq_slides::slide", "cq_slides::BitSet64", "cq_slides::more"}},
            ["cq_bits hands on more, and the page doesn't say so"],
        ),
        (
            {"cq_bits": {"cq_slides::slide", "cq_slides::BitSet64"}, "cq_search": {"cq_run::it"}},
            ["cq_search hands on it", "cq_search hands on it, and the page doesn't say so"],
        ),
    ],
)
def test_re_exports_beside_the_page(found: dict[str, set[str]], told: list[str]) -> None:
    assert checks.wrong_re_exports(LIST, found) == told


def test_comments() -> None:
    text = "//! The crate.\n//!\n//! Two\n//! lines.\nfn f() {}\n    // Within.\n-- A definition.\nlet a = 1; // beside code\n"
    found = [(it.line, it.texts) for it in checks.comments_of("a.rt", text)]
    assert found == [(1, ["The crate."]), (3, ["Two", "lines."]), (6, ["Within.", "A definition."])]


def test_questions() -> None:
    found = [checks.Comment("a.rt", 7, ["What is asked.", "The answer.", "Whatever.", "Where it stands."])]
    assert checks.begin_with_a_question(found) == ["a.rt:7: What is asked.", "a.rt:10: Where it stands."]


@pytest.mark.parametrize(
    ("texts", "found"),
    [
        (
            ["One. Two", "goes on. Is it three? `a.b` is", "four, e4.x too"],
            ["One.", "Two goes on.", "Is it three?", "`a.b` is four, e4.x too"],
        ),
        (["A list:", "- one", "- two", "  and more"], ["A list:", "- one", "- two and more"]),
        (["# Errors", "It fails if", "there is none."], ["# Errors It fails if there is none."]),
        (["Code:", "```", "let a = 1", "```", "The end."], ["Code:", "The end."]),
    ],
)
def test_sentences(texts: list[str], found: list[str]) -> None:
    assert checks.sentences([text.strip() for text in texts]) == found


def test_long_sentences() -> None:
    fits, long = " ".join(["word"] * 30) + ".", " ".join(["word"] * 31) + "."
    found = [checks.Comment("a.rt", 1, [fits, long]), checks.Comment("b.rt", 4, ["`" + long + "` is one word, - and a dash is none"])]
    assert checks.long_sentences(found) == [f"a.rt:1: 31 words: {long}"]


@pytest.mark.parametrize(("lines", "is_wrong"), [(50, True), (51, False)])
def test_one_line_in_fifty(lines: int, is_wrong: bool) -> None:
    """Under one in fifty."""
    found = [checks.Comment("a.rt", 1, ["What it is.", *["The answer."] * (lines - 1)])]
    assert bool(checks.wrong_comments(found)) == is_wrong


def test_the_re_exports_of_this_tree() -> None:
    assert checks.wrong_re_exports(source(PAGE), checks.re_exports(TOP, set(crates_below()))) == []


def test_the_comments_of_this_tree() -> None:
    assert checks.wrong_comments(checks.comments(TOP)) == []
