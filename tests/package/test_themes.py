"""The themes: the file is read strictly, the page is what is made of it, and cqlpgn-over knows the names."""

from __future__ import annotations

import pytest
from cqlpgn import themes, themes_page
from cqlpgn.themes import Damaged, all_themes, named, read
from tests.conftest import TOP, Asking

ENTRY = """[[theme]]
id = "mate"
name = "Mate"
others = ["the end"]
kind = "mate"
says = "It is mate."
query = "cql() mate"
omits = "Nothing."
found = ["6k1/5ppp/8/8/8/8/5PPP/3R2K1 w - - | Rd8#"]
near = []
"""
DAMAGES = [
    ('name = "Mate"\n', "", "theme 1 (mate): `name` is no text"),
    ('others = ["the end"]', "others = [1]", "theme 1 (mate): `others` is no list of texts"),
    ('kind = "mate"', 'kind = "end"', "theme 1 (mate): `id` or `kind` is unknown"),
    ('id = "mate"', 'id = "A mate"', "theme 1 (A mate): `id` or `kind` is unknown"),
    ("near = []", 'near = ["x"]', "theme 1 (mate): `x` is no position with moves"),
    ("near = []", "near = []\nfar = 1", "theme 1 (mate): `far` is unknown"),
    ("near = []", "near = []\nwings = 1", "theme 1 (mate): `wings` or `cost` has another type"),
    ("near = []", f"near = []\n{ENTRY}", "the theme mate is there twice"),
    (ENTRY, "", "the file of themes has no theme"),
    (ENTRY, "theme = [1]", "theme 1: it is no table"),
]


def test_an_entry_is_read() -> None:
    (theme,) = read(ENTRY)
    assert (theme.names, theme.query, theme.found[0].moves) == (("mate", "Mate", "the end"), "cql() mate", ("Rd8#",))


@pytest.mark.parametrize(("old", "new", "said"), DAMAGES, ids=range(len(DAMAGES)))
def test_a_damaged_entry_is_named(old: str, new: str, said: str) -> None:
    with pytest.raises(Damaged) as fault:
        read(ENTRY.replace(old, new))
    assert str(fault.value) == said


def test_no_toml() -> None:
    with pytest.raises(Damaged, match="^the file of themes is no TOML: "):
        read("[[theme")


def test_each_name_is_of_one_theme() -> None:
    assert [named(name, all_themes()) for theme in all_themes() for name in theme.names] == [
        theme for theme in all_themes() for _ in theme.names
    ]
    assert named("no such theme", all_themes()) is None


def test_the_page() -> None:
    assert (TOP / "docs" / "THEMES.md").read_text(encoding="utf-8") == themes_page.page()


@pytest.mark.parametrize("name", ["_cqlpgn", "cqlpgn.bash", "cqlpgn.fish"])
def test_the_shells_know_each_name(name: str) -> None:
    text = (TOP / "contrib" / "completion" / name).read_text(encoding="utf-8")
    assert " ".join(theme.id for theme in all_themes()) in text


def test_the_list(asked: Asking) -> None:
    done = asked("cqlpgn-over", "--themes")
    lines = done.out.decode().splitlines()
    assert (done.status, [line.split()[0] for line in lines if line.startswith("  ")]) == (0, [theme.id for theme in all_themes()])
    assert [line for line in lines if not line.startswith("  ")][0] == "Mates:"


@pytest.mark.parametrize("name", ["smothered-mate", "Philidor's legacy", "SMOTHERED MATE"])
def test_a_theme(asked: Asking, cqlpgn: str, name: str) -> None:
    archive = TOP / "cases" / "gallery-smothered-mate" / "archive.pgn"
    done = asked("cqlpgn-over", "-c", "--theme", name, str(archive))
    assert (done.status, done.lines[-1].endswith(": games 16 matched 8 refused 0")) == (0, True)


def test_a_name_that_no_theme_has(asked: Asking) -> None:
    done = asked("cqlpgn-over", "--theme", "smoothered-mate", "games.pgn")
    assert done.status == 3
    assert "no theme has the name smoothered-mate; there is smothered-mate" in done.err


@pytest.mark.parametrize(
    "words", [["--themes", "a.pgn"], ["--theme", "x", "--themes"], ["--all-themes", "-q"], ["--theme", "x", "--check"]]
)
def test_options_that_do_not_go_together(asked: Asking, words: list[str]) -> None:
    assert asked("cqlpgn-over", *words).status == 3


def test_the_table(asked: Asking, cqlpgn: str) -> None:
    archive = TOP / "cases" / "gallery-smothered-mate" / "archive.pgn"
    rows = [line.split(None, 2) for line in asked("cqlpgn-over", "--all-themes", str(archive)).out.decode().splitlines()]
    assert ["smothered-mate", "8", "Smothered mate 1: as it is"] in rows
    assert ["suffocation-mate", "4"] in [row[:2] for row in rows]
    piped = asked("cqlpgn-over", "--all-themes", data=archive.read_bytes())
    assert [line.split(None, 2) for line in piped.out.decode().splitlines()] == rows
    assert rows[-1][:2] == ["games", "16"]
    assert len(rows) + int(rows[-1][2].split()[-1]) == len(themes.all_themes()) + 1
