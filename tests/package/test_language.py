"""What contrib/ has of the language: vim's words, and the manual page that is made of docs/LANGUAGE.md."""

from __future__ import annotations

import subprocess
import sys

from model import query
from tests.conftest import TOP


def words(kind: str) -> set[str]:
    """The words that vim's syntax file has of a kind, or of the others."""
    text = (TOP / "contrib" / "vim" / "syntax" / "cql.vim").read_text("ascii")
    rows = [row.split()[2:] for row in text.splitlines() if row.startswith("syn keyword")]
    return {word for own, *some in rows if (own == "cqlReserved") == (kind == "cqlReserved") for word in some}


def test_the_words_of_vim() -> None:
    assert (words("cqlWord"), words("cqlReserved")) == (query.WORDS, query.RESERVED)


def test_no_mark_of_markdown_is_left_in_the_manual_page() -> None:
    call = [sys.executable, str(TOP / "contrib" / "manual"), str(TOP / "docs" / "LANGUAGE.md")]
    page = subprocess.run(call, capture_output=True, check=True).stdout
    assert [mark for mark in (b"`", b"**", b"|--") if mark in page] == []


def test_the_words_of_the_desk() -> None:
    """What the desk offers is what the pages say: contrib/desk-words writes it anew."""
    pages = [str(TOP / page) for page in ("README.md", "docs/RECIPES.md", "docs/LANGUAGE.md")]
    made = subprocess.run([sys.executable, str(TOP / "contrib" / "desk-words"), *pages], capture_output=True, check=True).stdout
    assert made == (TOP / "python" / "src" / "cqlpgn" / "desk" / "words.json").read_bytes()
