"""One page in a browser: what it asks over its line, its run, and the games that it shows."""

from __future__ import annotations

import asyncio
import json
import secrets
from collections.abc import Awaitable, Callable, Sequence
from contextlib import suppress
from itertools import islice
from typing import Any, Protocol

from .. import doubts, faults, game_hints
from ..errors import Error, Fault
from .folder import Folder, Refused
from .found import Found, Room
from .program import Program
from .runs import MOST_FAULTS, Run, told_of
from .shown import articles

PAUSE = 0.15  # seconds between two words on a run
MOST_GAMES, MOST_ROWS, MOST_ARCHIVES, MOST_HISTORY = 20, 200, 1000, 100
NOT_UNDERSTOOD = "this message is not understood"


class Line(Protocol):
    """The socket of a page."""

    @property
    def closed(self) -> bool:
        """Whether nothing can be sent any more."""

    async def send_str(self, data: str) -> None:
        """Sends a message."""


class Shared:
    """What all pages have in common: the folder, the program, how many runs go at once, and what was asked before."""

    def __init__(self, folder: Folder, program: Program, most: int) -> None:
        self.folder, self.program, self.room = folder, program, Room()
        self.turns = asyncio.Semaphore(most)
        self.history: list[str] = []
        self._tasks: set[asyncio.Task[Any]] = set()
        self._runs = 0

    def keep(self, work: Awaitable[Any]) -> asyncio.Task[Any]:
        """Starts what nobody waits for."""
        task = asyncio.ensure_future(work)
        assert isinstance(task, asyncio.Task)
        self._tasks.add(task)
        task.add_done_callback(self._tasks.discard)
        return task

    def number(self) -> int:
        """The number of the next run, from 1."""
        self._runs += 1
        return self._runs

    def remember(self, text: str) -> None:
        """Puts a query before all that were asked."""
        self.history = [text, *(one for one in self.history if one != text)][:MOST_HISTORY]


class Words:
    """The words of a message, each of its kind. Raises `Refused`."""

    def __init__(self, text: str) -> None:
        try:
            said = json.loads(text)
        except (ValueError, RecursionError) as fault:
            raise Refused(NOT_UNDERSTOOD) from fault
        if not isinstance(said, dict):
            raise Refused(NOT_UNDERSTOOD)
        self._said: dict[str, Any] = said

    def _get(self, name: str, kind: type) -> Any:
        value = self._said.get(name)
        if not isinstance(value, kind) or kind is int and isinstance(value, bool):
            raise Refused(NOT_UNDERSTOOD)
        return value

    def text(self, name: str) -> str:
        """A text."""
        value: str = self._get(name, str)
        return value

    def bytes(self, name: str) -> bytes:
        """A text as UTF-8."""
        return self.text(name).encode("utf-8", "surrogatepass")

    def number(self, name: str) -> int:
        """A whole number, brought into the range from -2^62 to 2^62."""
        value: int = self._get(name, int)
        return max(-(1 << 62), min(value, 1 << 62))

    def flag(self, name: str) -> bool:
        """Whether it is said to be so; what is not said is not."""
        return self._said.get(name) is True

    def texts(self, name: str) -> list[str]:
        """A list of texts."""
        values = self._get(name, list)
        if not all(isinstance(value, str) for value in values):
            raise Refused(NOT_UNDERSTOOD)
        return list(values)


def told(fault: Fault) -> dict[str, Any]:
    """What the page is told of a fault of a query."""
    return {"byte": fault.byte, "line": fault.line, "column": fault.column, "reason": fault.reason, "hint": fault.hint}


def doubtful(folder: Folder, names: Sequence[str]) -> list[dict[str, Any]]:
    """The doubtful games of some archives, as many as are told of faulty ones. What can't be read any more has none."""
    found: list[dict[str, Any]] = []
    for name in dict.fromkeys(names):
        with suppress(Error):
            several = folder.open(name)
            try:
                for archive in several:
                    told = islice(doubts.of_archive(archive), MOST_FAULTS - len(found))
                    found += [{"archive": archive.name, "game": one.game, "byte": one.byte, "reason": one.said} for one in told]
            finally:
                several[0].raw.close()
    return found


class Page:
    """`line` is its socket, None while it is away; what it is told first is the answer to its coming. Of its runs the last one is kept."""

    def __init__(self, shared: Shared) -> None:
        self.shared, self.name = shared, secrets.token_urlsafe(16)
        self.line: Line | None = None
        self.run: Run | None = None
        self._task: asyncio.Task[Any] | None = None
        self._shown: dict[int, Sequence[int]] = {}  # of a query the numbers of the games that a filter leaves
        self._filters = 0
        self._due: asyncio.TimerHandle | None = None
        self._one_by_one = asyncio.Lock()
        self.is_gone = self.is_greeted = False
        self._answers: dict[str, Callable[[Words], Awaitable[Any]]] = {
            "check": self._check,
            "explain": self._explain,
            "run": self._run,
            "stop": self._stop,
            "games": self._games,
            "rows": self._rows,
            "filter": self._filter,
            "faults": self._faults,
            "doubtful": self._doubtful,
            "at": self._at,
            "queries": self._queries,
            "open": self._open,
            "save": self._save,
            "archives": self._archives,
        }

    async def send(self, words: dict[str, Any]) -> None:
        """Tells the page this, unless it is away."""
        if self.line is not None and not self.line.closed:
            try:
                await self.line.send_str(json.dumps(words, ensure_ascii=True))
            except ConnectionResetError:
                pass

    async def hello(self, library: dict[str, Any]) -> None:
        """What a page is told first."""
        folder = self.shared.folder
        there, saved = await self._archives(), await asyncio.to_thread(folder.queries)
        run = self.run.words() if self.run else None
        self.is_greeted = True
        said = {"page": self.name, "folder": folder.path, "queries": saved, "history": self.shared.history, "run": run}
        await self.send(said | there | library)

    def changed(self, run: Run) -> None:
        """Tells the page of its run: its end at once, the rest now and then."""
        if run is not self.run:
            return
        if self._due and run.is_over:
            self._due.cancel()
            self._due = None
        if not self._due:
            self._due = asyncio.get_running_loop().call_later(0 if run.is_over else PAUSE, self._tell)

    def _tell(self) -> None:
        self._due = None
        if self.run and self.is_greeted:
            self.shared.keep(self.send({"run": self.run.words()}))

    async def end(self) -> None:
        """Stops the run; the program has ended when this returns."""
        if self._task:
            if not self._task.cancelling():
                self._task.cancel()
            await asyncio.wait([self._task])

    def drop(self) -> None:
        """Drops what was found; the page is gone."""
        self.is_gone = True
        if self.run:
            self.run.close()
            self.run = None

    async def answer(self, text: str) -> None:
        """One message of the page; whatever it has, there is an answer, and the server goes on."""
        number = None
        try:
            words = Words(text)
            number = words.number("n")
            answer = self._answers.get(words.text("do"))
            if answer is None:
                raise Refused(NOT_UNDERSTOOD)
            await self.send({"n": number, "is": await answer(words)})
        except Exception as fault:
            await self.send({"n": number, "refused": told_of(fault)})

    async def _check(self, words: Words) -> Any:
        text = words.bytes("query")
        fault = await self.shared.program.check(text)
        warned = [told(one) for one in faults.warnings(text)] if fault is None and len(text) < 1 << 16 else []
        return {"fault": told(fault) if fault else None, "warnings": warned}

    async def _explain(self, words: Words) -> Any:
        text = words.bytes("query")
        fault = await self.shared.program.check(text)
        return {"fault": told(fault)} if fault else {"text": await self.shared.program.explain(text)}

    async def _run(self, words: Words) -> Any:
        text, names, is_first = words.bytes("query"), words.texts("archives"), words.flag("first")
        if fault := await self.shared.program.check(text):
            return {"fault": told(fault)}
        if not 0 < len(names) <= MOST_ARCHIVES:
            raise Refused("choose an archive")
        opened, troubles = [], []
        for name in names:
            try:
                opened += await asyncio.to_thread(self.shared.folder.open, name)
            except Error as fault:
                troubles.append(str(fault))
        if not opened:
            raise Refused("; ".join(troubles))
        async with self._one_by_one:
            await self.end()
            if self.is_gone:
                raise Refused("the page has gone")
            if self.run:
                self.run.close()
            run = Run(self.shared.number(), self.shared.program.path, text, opened, is_first, self.shared.room, self.changed)
            if is_first and len(run.founds) > 1:
                run.close()
                self.run = None
                raise Refused("the first match alone is for one query; this text has several")
            run.troubles += troubles
            self.run, self._shown = run, {}
            self.shared.remember(words.text("query"))
            self._task = self.shared.keep(run.go(self.shared.turns))
        return {"run": run.words(), "history": self.shared.history}

    async def _stop(self, words: Words) -> Any:
        """Ends the run that is named; the one that has come after it goes on."""
        self.found(words.number("run"), 0)
        await self.end()

    def found(self, run: int, query: int) -> Found:
        """What a query of the page's run has found. Raises `Refused`, as of a run that is not the page's any more."""
        if self.run is None or self.run.number != run or not 0 <= query < len(self.run.founds):
            raise Refused("this run is not there any more")
        return self.run.founds[query]

    def _asked_of(self, words: Words, most: int) -> tuple[Found, list[int], int]:
        """What is asked of the games from a place of the list on: their numbers, and the first place."""
        query = words.number("query")
        found, first, count = self.found(words.number("run"), query), max(0, words.number("first")), min(words.number("count"), most)
        left = self._shown.get(query)
        numbers = range(len(found)) if left is None else left
        return found, list(numbers[first : first + max(0, count)]), first

    async def _games(self, words: Words) -> Any:
        """Games as the page of boards shows them, fewer where they are long."""
        found, numbers, first = self._asked_of(words, MOST_GAMES)
        with found.held():
            made = await asyncio.to_thread(lambda: list(articles(found, numbers))) if numbers else []
        return [[first + place, article] for place, article in made]

    async def _rows(self, words: Words) -> Any:
        found, numbers, _ = self._asked_of(words, MOST_ROWS)
        return [found.row(number) for number in numbers]

    async def _filter(self, words: Words) -> Any:
        """Leaves the games with this text in players, event or date, of those found so far; tells how many. Of several texts the one counts
        that was asked last."""
        query, text = words.number("query"), words.text("text")
        found = self.found(words.number("run"), query)
        self._filters += 1
        number = self._filters
        if not text:
            self._shown.pop(query, None)
            return len(found)
        with found.held():
            left = await asyncio.to_thread(found.with_text, text)
        self.found(words.number("run"), query)
        if number == self._filters:
            self._shown[query] = left
        return len(left)

    async def _faults(self, words: Words) -> Any:
        self.found(words.number("run"), 0)
        return self.run.faults if self.run else []

    async def _doubtful(self, words: Words) -> Any:
        self.found(words.number("run"), 0)
        names = self.run.names if self.run else []
        return await asyncio.to_thread(doubtful, self.shared.folder, names)

    async def _at(self, words: Words) -> Any:
        name, byte = words.text("archive"), max(0, words.number("byte"))
        before, after = await asyncio.to_thread(self.shared.folder.around, name, byte)
        faults = self.run.faults if self.run else []
        reason = next((fault["reason"] for fault in faults if (fault["archive"], fault["byte"]) == (name, byte)), "")
        hint = game_hints.hint(reason, after) or ""
        return [before.decode("utf-8", "backslashreplace"), after.decode("utf-8", "backslashreplace"), hint]

    async def _queries(self, _words: Words) -> Any:
        return await asyncio.to_thread(self.shared.folder.queries)

    async def _archives(self, _words: Words | None = None) -> dict[str, Any]:
        """The archives that are listed, and how many more are left out."""
        listed, left = await asyncio.to_thread(self.shared.folder.archives)
        return {"archives": listed, "left": left}

    async def _open(self, words: Words) -> Any:
        return await asyncio.to_thread(self.shared.folder.query, words.text("name"))

    async def _save(self, words: Words) -> Any:
        folder = self.shared.folder
        name = await asyncio.to_thread(folder.save, words.text("name"), words.text("query"), words.flag("over"))
        return {"name": name, "queries": await asyncio.to_thread(folder.queries)}
