"""The cases of the themes: what is asked is what themes.toml has, and what is found is what each game's tag says."""

from __future__ import annotations

import re

import pytest
from cqlpgn.themes import Theme, all_themes
from tests.cases import Case, names
from tests.theme_cases import files, name_of

THEMES = all_themes()
IDS = [theme.id for theme in THEMES]


def events(text: bytes, wanted: str) -> list[str]:
    """The events of the games with this tag `Wanted`."""
    games = re.split(r"(?=^\[Event )", text.decode(), flags=re.M)
    return sorted(re.findall(r'"(.*)"', game)[0] for game in games if f'[Wanted "{wanted}"]' in game)


@pytest.mark.parametrize("theme", THEMES, ids=IDS)
def test_what_is_found(theme: Theme) -> None:
    case = Case(name_of(theme))
    assert {name: case.file(name) for name in files(theme)} == files(theme)
    yes, no = events(case.archive, "yes"), events(case.archive, "no")
    status, out, err = case.wanted()
    assert (events(out, "yes"), events(out, "no"), status) == (yes, [], 0)
    assert err.decode() == f"games {len(yes) + len(no)} matched {len(yes)} refused 0\n"


@pytest.mark.parametrize("theme", THEMES, ids=IDS)
def test_there_are_enough(theme: Theme) -> None:
    assert (len(theme.found) >= 2, len(theme.near) >= 2) == (True, True)


def test_each_case_has_a_theme() -> None:
    assert sorted(name for name in names() if name.startswith("gallery-")) == sorted(map(name_of, THEMES))
