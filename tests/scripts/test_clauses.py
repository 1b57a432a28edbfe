"""scripts/clauses: which clauses are read, how names are replaced, and what is told of two commits."""

from __future__ import annotations

import subprocess
import sys
from pathlib import Path

import pytest
from tests.processes import PATIENCE
from tests.scripts.loading import SCRIPTS, loaded

CLAUSES = loaded("clauses")
NAMES = """
# crates, a type, a definition, and a type that two crates have
cq_masks cq_square_sets
cql_equal cql_rewrite
Crew RunContext
IsHit IsMatch
Asked Matcher
cq_first::Asked LookTarget
Taker::take visit
"""


@pytest.mark.parametrize(
    ("text", "wanted"),
    [
        ("cq_masks::mark(a)", "cq_square_sets::mark(a)"),
        ("ensures { IsHit(a, b) }", "ensures { IsMatch(a, b) }"),
        ("IsHits(a) is_hit my_cq_sets", "IsHits(a) is_hit my_cq_sets"),
        ("cq_first::Asked and cql_eval::Asked", "cq_first::LookTarget and cql_eval::Matcher"),
        ("Asked::new(crew)", "Matcher::new(crew)"),
        ("cql_equal::Crew::Asked", "cql_rewrite::RunContext::Matcher"),
        ("cq_run::Taker::take", "cq_run::Taker::visit"),
        ("take(a)", "take(a)"),
    ],
)
def test_names_in_a_text(text: str, wanted: str) -> None:
    assert CLAUSES.renamed(text, CLAUSES.read_names(NAMES)) == wanted


def test_names_within_a_crate() -> None:
    names = CLAUSES.read_names(NAMES)
    assert CLAUSES.renamed("Asked", CLAUSES.within("cq_first", names)) == "LookTarget"
    assert CLAUSES.renamed("Asked", CLAUSES.within("cql_eval", names)) == "Matcher"


@pytest.mark.parametrize("text", ["one", "one two three", "one two\none other", "one t-wo"])
def test_names_that_are_refused(text: str) -> None:
    with pytest.raises(CLAUSES.BadNames):
        CLAUSES.read_names(text)


CODE = """/// A hit.
pub fn is_hit(a: &Crew, b: u8) -> bool
    requires { b < 4 }
    ensures { result == IsHit(a,
        b) }
{
    other(a)
}

fn hidden() ensures { true } {}

impl Crew {
    pub fn enter(&self) ensures { self.IsFree } {}
}
"""


def test_clauses_of_a_file() -> None:
    assert CLAUSES.calls_of("cq_run", CODE) == {
        "cq_run::is_hit": {"requires { b < 4 }", "ensures { result == IsHit(a, b) }"},
        "cq_run::Crew::enter": {"ensures { self.IsFree }"},
    }


def git(folder: Path, *words: str) -> None:
    call = ["git", "-c", "user.name=a", "-c", "user.email=a@b.example", *words]
    subprocess.run(call, cwd=folder, check=True, capture_output=True, timeout=PATIENCE)


@pytest.fixture(name="repository")
def a_repository(tmp_path: Path) -> Path:
    """Two commits: names of a crate, a type and a definition have changed, and so has one bound."""
    git(tmp_path, "init", "-q")
    for crate, code in (
        ("cq_run", CODE),
        ("cq_job", CODE.replace("Crew", "RunContext").replace("IsHit", "IsMatch").replace("b < 4", "b < 3")),
    ):
        folder = tmp_path / "crates" / crate / "src"
        folder.mkdir(parents=True)
        (folder / "lib.rt").write_text(code)
        git(tmp_path, "add", "-A")
        git(tmp_path, "commit", "-qm", crate)
        if crate == "cq_run":
            git(tmp_path, "rm", "-qr", "crates")
    return tmp_path


def told(folder: Path, *words: str) -> list[str]:
    call = [sys.executable, str(SCRIPTS / "clauses"), *words]
    done = subprocess.run(call, cwd=folder, capture_output=True, text=True, check=False, timeout=PATIENCE)
    return [str(done.returncode), *(done.stdout + done.stderr).splitlines()]


def test_what_has_changed_is_told_alone(repository: Path) -> None:
    (repository / "names").write_text("cq_run cq_job\nCrew RunContext\nIsHit IsMatch\n")
    assert told(repository, "--names", "names", "HEAD~1") == [
        "0",
        "cq_job::is_hit",
        "    - requires { b < 4 }",
        "    + requires { b < 3 }",
        "2 calls with 3 clauses then, 2 with 3 now",
    ]


def test_without_names(repository: Path) -> None:
    lines = told(repository, "HEAD~1", "HEAD")
    assert lines[:-1] == ["0", "cq_run::Crew::enter is gone", "cq_run::is_hit is gone"]


@pytest.mark.parametrize("words", [[], ["--name", "names", "HEAD"], ["--names", "none", "HEAD"], ["none"]])
def test_words_that_are_refused(repository: Path, words: list[str]) -> None:
    assert told(repository, *words)[0] == "2"
