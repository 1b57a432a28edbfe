"""Wrong programs: how their texts are read, and which answers of the prover count as a refusal of what a function does."""

from __future__ import annotations

import os
import time
from pathlib import Path

import pytest
from tests.scripts.loading import SCRIPTS, loaded

CODE = "fn sign() -> u8 {\n    1\n}\n\nfn other() -> u8 {\n    2\n}\n"


WRONG = loaded("wrong-programs")


@pytest.fixture(name="crate")
def a_crate(tmp_path: Path) -> Path:
    """A crate with one file."""
    (tmp_path / "src").mkdir()
    (tmp_path / "src" / "signs.rt").write_text(CODE, encoding="utf-8")
    (tmp_path / "secret.rt").write_text(CODE, encoding="utf-8")
    return tmp_path


def test_a_wrong_program_is_read(crate: Path) -> None:
    text = "only: signs::sign\nfile: src/signs.rt\nold:     1\nnew:     3\nold:     2\nnew:     4\n"
    wrong = WRONG.read_wrong(text, crate)
    assert wrong.only == ["signs::sign"]
    assert WRONG.changed([wrong], crate) == {"src/signs.rt": CODE.replace("    1", "    3").replace("    2", "    4")}


@pytest.mark.parametrize(
    "text",
    [
        "file: src/signs.rt\nold:     1\nnew:     3\n",
        "only: signs::sign\nfile: src/signs.rt\nold:     5\nnew:     3\n",
        "only: signs::sign\nfile: src/signs.rt\nold: -> u8\nnew: -> u16\n",
        "only: signs::sign\nfile: src/signs.rt\nold:     1\nnew:     1\n",
        "only: signs::sign\nfile: src/../secret.rt\nold:     1\nnew:     3\n",
        "only: signs::sign\nfile: secret.rt\nold:     1\nnew:     3\n",
        "only: signs::sign\nold:     1\nnew:     3\n",
        "only: signs::sign\n",
        "",
    ],
)
def test_what_names_no_function_or_changes_nothing_is_no_wrong_program(crate: Path, text: str) -> None:
    with pytest.raises(WRONG.BadEdit):
        WRONG.read_wrong(text, crate)


def test_those_that_change_different_functions_are_tried_together(crate: Path) -> None:
    texts = [
        "only: signs::sign\nfile: src/signs.rt\nold:     1\nnew:     3\n",
        "only: signs::sign\nfile: src/signs.rt\nold: sign() -> u8\nnew: sign() -> u16\n",
        "only: signs::other\nfile: src/signs.rt\nold:     1\nnew:     5\n",
        "only: signs::other\nfile: src/signs.rt\nold:     2\nnew:     4\n",
    ]
    wrongs = [WRONG.read_wrong(text, crate) for text in texts]
    group = WRONG.together(wrongs, crate)
    assert group == [wrongs[0], wrongs[3]]
    assert WRONG.changed(group, crate) == {"src/signs.rt": CODE.replace("    1", "    3").replace("    2", "    4")}


NOTE = "note: src/signs.rt:1:1: it is not proved that what the function ensures holds when it returns (`returns`)\n"
NAME = "./proofs/sign/Answers.antt:3:1: error: `returns`: `c.sum` has no field `ensures`\n"


@pytest.mark.parametrize(
    ("status", "said", "is_refusal", "word"),
    [
        (1, NOTE + "only=1 proved=0\n", True, "refused: note: src/signs.rt"),
        (1, NAME + NOTE + "only=2 proved=1\n", True, "refused: note: src/signs.rt"),
        (1, NAME + "only=1 proved=0\n", False, "BAD EDIT"),
        (0, "only=1 proved=1\n", False, "NOT REFUSED"),
        (1, "error[mismatched-types]: expected u8\n", False, "NOT TRIED"),
        (1, NOTE + "only=1 proved=1\n", False, "NOT TRIED"),
        (2, "rattle: error: `signs` has no function `sign`\n", False, "NOT TRIED"),
        (2, "rattle: error[unusable-built-library]: the rlib of `signs` at `/out/signs.rlib` holds\n", False, "remove crates/*/out"),
        (2, "rattle: cannot read /out/signs.rlib/format: No such file or directory\n", False, "remove crates/*/out"),
        (3, NOTE + "only=1 proved=0\n", False, "NOT TRIED"),
        (-9, "", False, "NOT TRIED"),
    ],
)
def test_what_counts_as_a_refusal(status: int, said: str, is_refusal: bool, word: str) -> None:
    is_refused, why = WRONG.judged(status, said)
    assert is_refused == is_refusal
    assert word in why


NONE = "fn low::signs::sign: no proof: expected answers in ./proofs/signs/sign/Answers.antt; `search` did not prove `returns`\n"
TERM = "./proofs/signs/sign/Answers.antt:3:1: error: `returns`: the two types differ\n"
GONE = "./proofs/signs/sign/Answers.antt:3:1: error: `returns`: `c.sum` has no field `ensures`\n"


@pytest.mark.parametrize(
    ("status", "said", "line"),
    [
        (1, NONE + "fn low::signs::other: not proved\nonly=2 proved=0\n", NONE.strip()),
        (1, TERM + "fn low::signs::sign: not proved\nonly=2 proved=0\n", TERM.strip()),
        (1, GONE + TERM + "only=2 proved=0\n", TERM.strip()),
        (1, GONE + "fn low::signs::sign: not proved\nonly=2 proved=0\n", None),
        (1, "fn low::signs::sign: not proved\nonly=2 proved=0\n", None),
        (1, "fn low::signs::sign: proved\nfn low::signs::other: not proved\nonly=2 proved=1\n", None),
        (1, NONE.replace("sign:", "sign_of:") + "only=2 proved=0\n", None),
        (1, TERM.replace("sign/", "other/") + "only=2 proved=0\n", None),
        (2, NONE + "only=2 proved=0\n", None),
        (1, NONE + "error[mismatched-types]: expected u8\n", None),
    ],
)
def test_a_check_of_several_tells_of_each_function_by_its_own_lines(status: int, said: str, line: str | None) -> None:
    assert WRONG.refusal_of("signs::sign", "low", status, said) == line


def test_a_library_counts_once_this_run_has_made_it_and_it_stands(tmp_path: Path) -> None:
    library = tmp_path / "signs.rlib"
    library.mkdir()
    begun = time.time() - 60
    assert not WRONG.is_made(library, begun)
    (library / "format").write_text("1", encoding="utf-8")
    assert not WRONG.is_made(library, begun)
    WRONG.SETTLED = -1.0
    assert WRONG.is_made(library, begun)
    assert not WRONG.is_made(library, time.time() + 60)
    os.remove(library / "format")
    assert not WRONG.is_made(library, begun)


def test_each_wrong_program_of_the_repository_can_be_applied() -> None:
    edits = sorted(SCRIPTS.parent.glob("crates/*/wrong/*.edit"))
    assert edits
    for edit in edits:
        WRONG.read_wrong(edit.read_text(encoding="utf-8"), edit.parent.parent)


def test_the_crates_below_are_those_near_and_far() -> None:
    graph = {"low": ["memchr"], "middle": ["low"], "high": ["middle", "low", "itoa"]}
    assert sorted(WRONG.below("high", graph)) == ["low", "middle"]
    assert WRONG.below("low", graph) == []
