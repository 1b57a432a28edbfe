"""The cases: queries over archives with the answers that are wanted, each a folder of cases/.

    pytest tests -k NAME                           runs those whose names have NAME, over the program and the model
    python3 -m tests.cases model NAME..            writes the out, err and status of these cases as the model answers them
    python3 -m tests.cases PROGRAM NAME..          writes them as the program of this path does

CONTRIBUTING.md says what the folder of a case holds.
"""

from __future__ import annotations

import gzip
import os
import sys
from pathlib import Path
from typing import Any

from model import program
from model.program import Answer
from tests.processes import run

TOP = Path(__file__).resolve().parent.parent
CASES = TOP / "cases"
EXAMPLES = TOP / "examples"


def read(path: Path) -> bytes | None:
    """The bytes of a file, or None where it is not there."""
    try:
        return path.read_bytes()
    except FileNotFoundError:
        return None


class Case:
    """A folder of cases/."""

    def __init__(self, name: str) -> None:
        self.name, self.folder = name, CASES / name
        self.query = self.file("query.cql")
        packed = self.file("queries.cql.gz")
        self.queries = gzip.decompress(packed) if packed else read(self.folder / "queries.cql")
        self.is_large = (self.folder / "archive.pgn.gz").exists()
        usual = b"run\nquery.cql\narchive.pgn\n" if self.queries is None else b"many\nqueries.cql\narchive.pgn\n"
        self.words = (self.file("args") or usual).decode().splitlines()
        self.under = dict(line.split() for line in self.file("under").decode().splitlines())

    def file(self, name: str) -> bytes:
        """A file of the case, empty where it is not there."""
        return read(self.folder / name) or b""

    @property
    def archive(self) -> bytes:
        if self.is_large:
            return gzip.decompress(self.file("archive.pgn.gz"))
        named = self.file("archive").decode().strip()
        return (EXAMPLES / named).read_bytes() if named else self.file("archive.pgn")

    def wanted(self) -> Answer:
        return int(self.file("status") or -1), self.file("out"), self.file("err")

    def by_program(self, path: str, room: Path) -> Answer:
        """The answer of the process, whose files are put into a folder; a stream that goes to the full device counts as empty."""
        for name, text in {"query.cql": self.query, "queries.cql": self.queries or b"", "archive.pgn": self.archive}.items():
            (room / name).write_bytes(text)
        with open("/dev/full", "wb") as full:
            streams: dict[str, Any] = {"std" + self.under["full"]: full} if "full" in self.under else {}
            return run(path, *self.words, folder=room, memory=int(self.under.get("memory", 0)), **streams)

    def is_for_the_model(self) -> bool:
        """Whether the model can be asked: it opens no files, and a large archive takes it long."""
        words = " ".join(self.words)
        known = ("run query.cql archive.pgn", "run query.cql archive.pgn --first", "many queries.cql archive.pgn", "check query.cql")
        return not self.is_large and not self.under and words in (*known, "explain query.cql")

    def by_model(self) -> Answer:
        if self.words[0] == "run":
            return program.run_eval(self.query, self.archive, first=self.words[-1] == "--first")
        if self.words[0] == "many":
            return program.run_many(self.queries or b"", self.archive)
        return (program.run_check if self.words[0] == "check" else program.run_explain)(self.query)

    def write(self, answer: Answer) -> None:
        status, out, err = answer
        for name, text in {"status": b"%d\n" % status, "out": out, "err": err}.items():
            (self.folder / name).write_bytes(text)


def names() -> list[str]:
    return sorted(path.name for path in CASES.iterdir())


def all_cases() -> list[Case]:
    return [Case(name) for name in names()]


def main(words: list[str]) -> int:
    """Writes the answers of cases."""
    import tempfile

    if len(words) < 2:
        print(__doc__)
        return 2
    unknown = [name for name in words[1:] if name not in names()]
    if unknown:
        print(f"cases/ has no {unknown[0]}", file=sys.stderr)
        return 2
    for case in [Case(name) for name in words[1:]]:
        if words[0] == "model" and not case.is_for_the_model():
            print(f"{case.name}: the model can't be asked this", file=sys.stderr)
            return 1
        with tempfile.TemporaryDirectory() as room:
            case.write(case.by_model() if words[0] == "model" else case.by_program(os.path.abspath(words[0]), Path(room)))
    return 0


if __name__ == "__main__":
    sys.exit(main(sys.argv[1:]))
