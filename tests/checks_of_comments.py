"""What is asked of the crates as a whole: re-exports that are listed, and comments in plain technical English.

    python3 -m tests.checks_of_comments            tells what this tree has against them

A re-export is `pub use OTHER_CRATE::..` in a file of crates/*/src. A comment is a line that begins with `//`, `///`, `//!` or `--` in a
file of crates/*/src or crates/*/specs; lines beside each other are one text, whose sentences end with `.`, `?`, `!` or `:` before white
space.
"""

from __future__ import annotations

import re
import sys
from collections.abc import Iterable, Iterator
from pathlib import Path
from typing import NamedTuple

from tests.cases import TOP
from tests.pages.crates import PAGE, crates_below
from tests.pages.reading import codes, source, tables_of

# The crates of which others' names may be handed on; the head of the table in ARCHITECTURE that lists them.
MAY_HAND_ON = {"cq_outside", "cq_bits", "cq_shards", "cq_run", "cql_plain", "pgn_tree"}
HEAD = ("Crate", "Re-exports", "Of")
# So many words a sentence has at most, and one comment line in so many may begin with such a word.
MOST_WORDS = 30
LEAST_LINES = 50
QUESTIONS = ("What", "Whether", "Where")
COMMENT = re.compile(r"\s*(?://[/!]?|--)[ \t]?(.*)")


class Comment(NamedTuple):
    """Lines of a comment beside each other: the file, the number of the first one, and their texts."""

    path: str
    line: int
    texts: list[str]


# Re-exports.


def handed_on(text: str, own: set[str]) -> set[str]:
    """The names of other crates of the repository that a file hands on, as `CRATE::NAME`."""
    found: set[str] = set()
    for crate, rest in re.findall(r"^\s*pub use (\w+)::([^;]*);", text, re.M):
        if crate in own:
            inside = re.fullmatch(r"(.*?)\{(.*)\}", "".join(rest.split()))
            names = [inside[1] + name for name in inside[2].split(",") if name] if inside else ["".join(rest.split())]
            found |= {f"{crate}::{name}" for name in names}
    return found


def re_exports(top: Path, own: set[str]) -> dict[str, set[str]]:
    """The names that each crate hands on, where it hands on any."""
    found: dict[str, set[str]] = {}
    for path in sorted(top.glob("crates/*/src/**/*.rt")):
        crate = path.relative_to(top).parts[1]
        names = handed_on(path.read_text(encoding="utf-8"), own - {crate})
        if names:
            found.setdefault(crate, set()).update(names)
    return found


def listed(page: str) -> dict[str, set[str]]:
    """The names that the table of a page says are handed on: a crate, and the last parts of the names."""
    return {codes(row[0])[0]: set(codes(row[1])) for head, rows in tables_of(page) if head == HEAD for row in rows}


def wrong_re_exports(page: str, found: dict[str, set[str]]) -> list[str]:
    """In what a page and the code differ, and which crates may not hand on a name."""
    had = {crate: {name.rpartition("::")[2] for name in names} for crate, names in found.items()}
    said = listed(page)
    told = [f"{crate} hands on {', '.join(sorted(had[crate]))}" for crate in sorted(had) if crate not in MAY_HAND_ON]
    for crate in sorted(set(had) | set(said)):
        there, here = had.get(crate, set()), said.get(crate, set())
        told += [f"{crate} hands on {name}, and the page doesn't say so" for name in sorted(there - here)]
        told += [f"{crate} doesn't hand on {name}, as the page says" for name in sorted(here - there)]
    return told


# Comments.


def comments_of(path: str, text: str) -> Iterator[Comment]:
    """The comments of a file: an empty comment line parts two of them, as any other line does."""
    open_one: Comment | None = None
    for number, line in enumerate([*text.splitlines(), ""], 1):
        met = COMMENT.fullmatch(line)
        if met and met[1].strip():
            open_one = open_one or Comment(path, number, [])
            open_one.texts.append(met[1].strip())
        elif open_one:
            yield open_one
            open_one = None


def comments(top: Path) -> list[Comment]:
    """The comments of the crates' code and definitions."""
    paths = [path for part in ("src/**/*.rt", "specs/**/*.antt") for path in sorted(top.glob(f"crates/*/{part}"))]
    return [it for path in paths for it in comments_of(str(path.relative_to(top)), path.read_text(encoding="utf-8"))]


def begin_with_a_question(found: Iterable[Comment]) -> list[str]:
    """The lines that begin with What, Whether or Where, with their places."""
    lines = [(it.path, it.line + number, text) for it in found for number, text in enumerate(it.texts)]
    return [f"{path}:{number}: {text}" for path, number, text in lines if text.partition(" ")[0] in QUESTIONS]


def sentences(texts: list[str]) -> list[str]:
    """The sentences of a comment; items of a list, headings and lines of code are sentences of their own."""
    out, is_code = [""], False
    for text in texts:
        is_fence = text.startswith("```")
        is_code = is_code != is_fence
        if is_fence or is_code or re.match(r"[-*#|] ?|\d+\. ", text):
            out.append("")
        if not is_fence and not is_code:
            out[-1] += " " + text
    return [it.strip() for text in out for it in re.split(r"(?<=[.?!:])\s+", text) if it.strip()]


def words_of(sentence: str) -> int:
    """How many words a sentence has; a text between backticks is one."""
    return len(re.findall(r"\S*\w\S*", re.sub(r"`[^`]*`", "x", sentence)))


def long_sentences(found: Iterable[Comment]) -> list[str]:
    """The sentences with too many words, with their places."""
    places = [(f"{it.path}:{it.line}", sentence) for it in found for sentence in sentences(it.texts)]
    return [f"{place}: {words_of(it)} words: {it}" for place, it in places if words_of(it) > MOST_WORDS]


def wrong_comments(found: list[Comment]) -> list[str]:
    """What is against the rules: too many lines that begin with a question, and sentences that are too long."""
    number, asked = sum(len(it.texts) for it in found), begin_with_a_question(found)
    told = long_sentences(found)
    if len(asked) * LEAST_LINES >= number > 0:
        told += [f"{len(asked)} of {number} comment lines begin with {', '.join(QUESTIONS)}", *asked]
    return told


def main() -> int:
    told = wrong_re_exports(source(PAGE), re_exports(TOP, set(crates_below()))) + wrong_comments(comments(TOP))
    print(*told, sep="\n")
    return 1 if told else 0


if __name__ == "__main__":
    sys.exit(main())
