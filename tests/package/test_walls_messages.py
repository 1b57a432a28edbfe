"""Messages: no name, word or text of anybody reaches the terminal as a control sequence."""

from __future__ import annotations

import argparse
import os
from pathlib import Path

import pytest
from cqlpgn.commands import ends
from cqlpgn.commands.words import Parser
from cqlpgn.files import shown
from tests.answers import ONE, QUERY
from tests.conftest import Asking

ESCAPES = ["\x1b[2J", "\x1b]0;x\x07", "\x9b31m", "\u202e", "\r", "\x7f", "\x08", "\u2028"]
COMMANDS = ["desk", "diagrams", "mend", "over", "pick", "problems", "rows", "split"]


def is_plain(data: str) -> bool:
    """Whether a terminal obeys nothing of a text but its line ends and tabs."""
    return all(letter.isprintable() or letter in "\n\t" for letter in data)


@pytest.mark.parametrize("command", COMMANDS)
def test_words_that_are_refused(asked: Asking, command: str) -> None:
    escape = "".join(ESCAPES)
    for words in ([f"--x{escape}"], ["a", "b", f"--x{escape}=y"], [f"-{escape}", "a\nb"], [f"--help={escape}"]):
        answer = asked(f"cqlpgn-{command}", *words)
        assert (answer.status, is_plain(answer.err), is_plain(answer.out.decode("utf-8", "surrogateescape"))) == (3, True, True), answer.err


@pytest.mark.usefixtures("cqlpgn", "pgnjson", "pgnpieces")
@pytest.mark.parametrize("escape", ["".join(ESCAPES), "\udcff\x1b"])
def test_names_and_texts(asked: Asking, room: Path, escape: str) -> None:
    query, archive, broken = f"q{escape}.cql", f"a{escape}.pgn", f"b{escape}.zip"
    (room / query).write_bytes(os.fsencode(f"cql() {escape} nonsense\n"))
    (room / f"w{escape}.cql").write_text("cql() mate")
    (room / archive).write_bytes(ONE + b"[x")
    (room / broken).write_bytes(b"PK")
    calls = [
        ["over", "--check", query, f"w{escape}.cql"],
        ["over", "--check", f"cql() {escape}"],
        ["over", f"cql() {escape}", archive],
        ["over", "-c", QUERY, archive, broken, f"none{escape}"],
        ["over", "-j", f"1{escape}", QUERY],
        ["over", "--limit", escape, QUERY, archive],
        ["rows", "--index", f"none{escape}", archive],
        ["rows", "--columns", escape, "-o", f"none/{escape}", archive],
        ["diagrams", f"--flip={escape}", archive],
        ["problems", f"none{escape}"],
        ["mend", f"none{escape}"],
        ["pick", "--games", escape, f"none{escape}"],
        ["desk", f"none{escape}"],
        ["desk", f"--port={escape}"],
    ]
    for call in calls:
        answer = asked(f"cqlpgn-{call[0]}", *call[1:])
        assert answer.status != 70 and answer.err and is_plain(answer.err), (call, answer.err)
        assert call[0] != "over" or call[1] != "--check" or is_plain(answer.out.decode("utf-8", "surrogateescape"))


def test_every_message_goes_through_one_place(capsys: pytest.CaptureFixture[str]) -> None:
    ends.tell("a\x1b[2J\tb\nc", "\udcff", "\ud800")
    ends.say("a\x1b[2J\tb\nc\u202e")
    said = capsys.readouterr()
    assert said.err == "a\\x1b[2J\tb\nc \\xff \\ud800\n" and said.out == "a\\x1b[2J\tb\nc\\u202e\n"


def test_half_letters_are_told() -> None:
    assert [shown(name) for name in ("\ud800", "a\udcff", "é\ud83d", "ü\n")] == ["\\ud800", "a\\xff", "é\\ud83d", "ü\\n"]


def test_a_refusal_is_one_line(capsys: pytest.CaptureFixture[str]) -> None:
    with pytest.raises(SystemExit) as end:
        Parser("cqlpgn-x", "", "").error("no \n\x1b[2J word")
    assert end.value.code == 3 and capsys.readouterr().err.count("\n") == 3
    assert isinstance(Parser("x", "", ""), argparse.ArgumentParser)
