"""Faults of queries: line, column, caret and hint; the same rows as in the pages; and `--check`."""

from __future__ import annotations

import os
import re
from pathlib import Path

import cqlpgn as package
import pytest
from cqlpgn import faults, hints
from tests.conftest import TOP, Answer, Asking

pytestmark = pytest.mark.usefixtures("cqlpgn")


def rows(page: str, heading: str) -> list[list[str]]:
    """The rows of the first table below a heading, without the table's own head."""
    text = (TOP / "docs" / page).read_text()
    lines = text[text.index(f"\n## {heading}\n") + 1 :].splitlines()
    begin = next(number for number, line in enumerate(lines) if line.startswith("|--"))
    found = []
    for line in lines[begin + 1 :]:
        if not line.startswith("|"):
            break
        found.append([cell.strip() for cell in re.split(r"(?<!\\)\|", line)[1:-1]])
    return found


def plain(cell: str) -> str:
    """What stands between the marks of a cell."""
    return cell.strip("`").replace("\\|", "|")


def test_the_words_of_cql_6_are_those_of_the_page() -> None:
    assert [[row.shown, row.advice] for row in hints.FOREIGN] == rows("LANGUAGE.md", "Coming from CQL 6")


def test_the_slips_are_those_of_the_page() -> None:
    assert [[row.written, row.meant, row.why] for row in hints.SLIPS] == [
        [plain(written), plain(meant), why] for written, _, meant, why in rows("SLIPS.md", "Refused")
    ]


def test_what_is_accepted_stands_on_the_page() -> None:
    written = {plain(row[0]) for row in rows("SLIPS.md", "Accepted, and not what was meant")}
    assert {row.written for row in hints.ACCEPTED} <= written


def test_each_slip_has_its_own_hint() -> None:
    """The hint below a slip's own text is that of its row, and the text that was meant has no fault."""
    for row in hints.SLIPS:
        texts = [text if text.startswith(("cql", "CQL")) else "cql() " + text for text in (row.written, row.meant)]
        fault = package.check(texts[0])
        assert fault is not None, row.written
        # what a word of CQL 6 is here is told before what the slip is
        told = {hints.in_words(row), hints.foreign(row.written.split()[0])}
        assert fault.hint in told, (row.written, fault.reason, fault.hint)
        assert package.check(texts[1]) is None, row.meant


def test_each_word_of_cql_6_has_its_hint() -> None:
    for row in hints.FOREIGN:
        for word in row.words.split():
            fault = package.check(f"cql() {word}")
            assert fault is not None and fault.hint == hints.foreign(word), word


@pytest.mark.parametrize(
    ("text", "hint"),
    [
        ("cql() check {\n  mate {wtm} (btm", "the `(` in line 2, column 14 is still open"),
        ("cql() flipcolor {\n  mate", "the `{` in line 1, column 17 is still open"),
        ('cql() { player "a}" // }\n check', "the `{` in line 1, column 7 is still open"),
        ("cql() {check} o-o", "`o-o` of CQL 6 is `move from Ke1 to g1`, and so on"),
        ("cql() square x in Q { x attacks k } x attacks q", "a name is known within the filter after its `square`"),
        ("cql() (check mate)", "parentheses hold one filter, braces a list"),
        ("cql() Rd", "a file is written with its ranks: as `Pc1-8`, not `Pc`"),
        ("cql() gamenumber", "`gamenumber` of CQL 6 has no counterpart here"),
        ("cql() distance", "`distance` of CQL 6 has no counterpart here; squares two steps from x on a line are `anydirection 2 x`"),
    ],
)
def test_hints(text: str, hint: str) -> None:
    fault = package.check(text)
    assert fault is not None and (fault.hint or "").startswith(hint)


def test_places() -> None:
    text = 'cql()\n  player "Müller" ♔ check'
    fault = package.check(text)
    assert fault is not None
    assert (fault.byte, fault.line, fault.column) == (text.encode().index("♔".encode()), 2, 19)
    assert faults.caret(fault)[:2] == ['  player "Müller" ♔ check', " " * 18 + f"^ bad byte (line 2, byte {fault.byte})"]
    tab = package.check("cql()\n\t\techo")
    assert tab is not None and faults.caret(tab)[0] == "  echo"
    long = package.check("cql() " + "check " * 1000 + "echo " + "mate " * 1000)
    assert long is not None and len(faults.caret(long)[0]) <= 200
    assert faults.caret(long)[0][faults.caret(long)[1].index("^") :].startswith("echo")


def test_without_files_in_memory(monkeypatch: pytest.MonkeyPatch, room: Path) -> None:
    """Where files have no names in /proc, as in a bare chroot."""
    exists = os.path.exists
    monkeypatch.setattr(os.path, "exists", lambda name: not str(name).startswith("/proc") and exists(name))
    monkeypatch.setattr("tempfile.tempdir", str(room))
    assert package.check("cql() check") is None
    assert isinstance(package.check("cql() echo"), package.Fault)
    assert list(room.iterdir()) == []


def test_no_fault() -> None:
    assert package.check("cql() check") is None
    assert package.check(b'cql() player "M\xfcller"') is None


def warned(text: str) -> list[str]:
    return [fault.reason.split(",")[0] for fault in faults.warnings(text.encode())]


def test_warnings() -> None:
    """What is accepted with another meaning; texts, remarks and what is meant well are passed over."""
    assert warned("cql() Q f7") == ["a man anywhere"]
    assert warned("cql() find 3 check") == ["finds a number"]
    assert warned('cql() comment "try"') == ["writes a comment and always holds; comments that are there are asked by `hascomment`"]
    assert len(warned('cql() flipcolor { mate player white "Tal" }')) == 1
    assert len(warned('cql() flipcolor player black "Tal"')) == 1
    for text in (
        "cql() Qf7",
        'cql() player "Q f7" // Q f7',
        "cql() find check",
        'cql() player white "Tal" flipcolor { mate }',
        'cql() flipcolor { player "Tal" }',
        "cql() line --> check --> mate",
    ):
        assert warned(text) == [], text


def test_check_of_files(asked: Asking, room: Path) -> None:
    (room / "good.cql").write_text("cql() check\n")
    (room / "bad.cql").write_text("cql() check\n%%\n// two\ncql() echo\n%%\ncql()\nPc\n")
    (room / "warned.cql").write_text("cql() Q f7\n")
    bad = [
        "bad.cql: line 4, column 7:",
        "cql() echo",
        "      ^ outside profile echo (line 4, byte 28)",
        "        `echo` of CQL 6 has no counterpart here",
        "bad.cql: line 7, column 1:",
        "Pc",
        "^ unknown name Pc (line 7, byte 42)",
        "  a file is written with its ranks: as `Pc1-8`, not `Pc`",
    ]
    note = ["warned.cql: line 1, column 7: warning:", "cql() Q f7"]
    assert asked("cqlpgn-over", "--check", "good.cql") == Answer(0, b"good.cql: ok\n", "")
    assert asked("cqlpgn-over", "--check", "bad.cql") == Answer(2, b"", "\n".join([*bad, ""]))
    answer = asked("cqlpgn-over", "--check", "warned.cql", "none.cql", "good.cql", "bad.cql")
    assert (answer.status, answer.out, answer.lines[:2]) == (4, b"warned.cql: ok\ngood.cql: ok\n", note)
    assert answer.lines[3].startswith("none.cql: ") and answer.lines[4:] == bad
    (room / "many.cql").write_text("%%\n".join(["cql() check\n"] * 17))
    answer = asked("cqlpgn-over", "--check", "many.cql")
    assert answer == Answer(2, b"", "many.cql: queries too many\n")
    assert asked("cqlpgn-over", "--check", "cql() check") == Answer(0, b"query: ok\n", "")
    (room / "open.cql").write_text("cql() check\n%%\ncql() { mate\n")
    answer = asked("cqlpgn-over", "--check", "open.cql")
    assert (answer.status, answer.lines[3].strip()) == (2, "the `{` in line 3, column 7 is still open")


def test_texts_from_outside() -> None:
    for text in ("O'Kelly", "", "Müller", "a // b", "{x}", "x\\", os.fsdecode(b"M\xfcller")):
        query = "cql() player " + package.text(text)
        assert package.check(query) is None, text
    for text in ('" cql() "', '"', "\ud800"):
        with pytest.raises(package.Fault):
            package.text(text)
