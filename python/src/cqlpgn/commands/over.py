"""cqlpgn-over: one query, or a file of them, over several archives."""

from __future__ import annotations

import argparse
import os
import tempfile
import threading
import time
from collections.abc import Iterable, Iterator, Sequence
from collections import deque
from concurrent.futures import Future, ThreadPoolExecutor
from contextlib import ExitStack
from dataclasses import dataclass, field
from itertools import islice
from typing import IO, BinaryIO

from .. import archives, game_hints, origins, places, process, query
from ..archives import Archive
from ..errors import Error, Stopped
from ..files import STANDARD_INPUT, Replacing, refuse_inputs, shown
from ..process import Counts, Process
from . import checks, doubtful, themes_asked
from .ends import run, tell
from .outputs import Outputs, index_name
from .words import Parser

EPILOG = """The games of each archive come in the archive's order, or in that of the query's `sort` items within the archive. Each line of
the report begins with the archive's name; where there are several, a last line adds up their counts. The exit status is the greatest one
that an archive had, as `man cqlpgn` explains them; 5 also stands for a packed archive that could not be unpacked. After a failed write (6)
nothing more is asked; other archives are still answered after a failure of one. With -q it is 0 where a game was found, and 1 where none
was and nothing failed. CQLPGN names the program, if it is not the cqlpgn on the path."""

# how many archives may be answered before one that is named earlier, for each that is answered at once
AHEAD = 4


@dataclass
class Answer:
    """What one archive gave: its status, the counts of each query where the program came to its end, the lines to be told, the numbers of
    the games found, where they are wanted, and the seconds it took."""

    name: str
    status: int = 0
    counts: list[Counts] = field(default_factory=list)
    lines: list[str] = field(default_factory=list)
    numbers: list[int] = field(default_factory=list)
    seconds: float = 0.0
    out: IO[bytes] | None = None


@dataclass
class Job:
    """What is asked: the words of the program, the bytes of the query or of the file of queries, and what is wanted of the answers."""

    mode: str
    query: bytes
    options: list[str]
    number: bool
    quiet: bool
    progress: bool
    stopping: threading.Event = field(default_factory=threading.Event)
    running: set[Process] = field(default_factory=set)

    @property
    def words(self) -> list[str]:
        """The words that the program is called with."""
        return [self.mode, Process.QUERY, STANDARD_INPUT, *self.options]

    @property
    def first(self) -> bool:
        """Whether one game of all archives is wanted."""
        return "--first" in self.options

    def stop(self) -> None:
        """Ends what runs in other threads, and has nothing more begin."""
        self.stopping.set()
        for one in list(self.running):
            one.kill()


def parser() -> argparse.ArgumentParser:
    """The parser of the command's words."""
    made = Parser(
        "cqlpgn-over", "Asks one query, or a file of them, of several archives, packed or not, and says in words what went wrong.", EPILOG
    )
    forms = ["[OPTION..] QUERY [ARCHIVE..]", "[OPTION..] --many FILE [ARCHIVE..]", "--check FILE..", "--doubtful [ARCHIVE..]"]
    forms += ["[OPTION..] --theme NAME [ARCHIVE..]", "--themes", "--all-themes [ARCHIVE..]"]
    made.usage = "\n       ".join(f"cqlpgn-over {form}" for form in forms)
    made.add_argument(
        "words",
        metavar="QUERY ARCHIVE",
        nargs="*",
        help="QUERY is a query's text, `cql(..) ..`, or the name of a file with one. Of an ARCHIVE that is a folder all archives in it "
        "are asked; one whose name ends in .gz, .bz2, .xz or .zst is unpacked on the way; of a .zip each file *.pgn is an archive of its "
        "own. Without one, or with `-`, standard input is one",
    )
    _add_outputs(made)
    _add_others(made)
    themes_asked.add(made)
    return made


def _add_outputs(made: argparse.ArgumentParser) -> None:
    """The options that say what is written, and where."""
    made.add_argument("-o", metavar="FILE", dest="out", help="the games go to FILE, which is made when all is answered, with status 0 or 1")
    made.add_argument(
        "--keep-partial",
        action="store_true",
        help="with -o: FILE is made with any status, of the games that were found, each of them whole",
    )
    made.add_argument("-c", dest="count", action="store_true", help="counts alone: no games are written")
    made.add_argument(
        "-q", dest="quiet", action="store_true", help="nothing is written but failures; the status says whether a game was found"
    )
    made.add_argument("-p", dest="plain", action="store_true", help="no marks: the games are written without the comment of `matchstring`")
    made.add_argument(
        "--first", action="store_true", help="the first game that matches, in the order of the archives, and nothing after it"
    )
    made.add_argument(
        "--number",
        action="store_true",
        help="rows `found,archive,game`: which game of which archive each game is; in FILE.csv beside the FILE of -o, with the digest of "
        "FILE in a fourth column, or with -c on standard output",
    )


def _add_others(made: argparse.ArgumentParser) -> None:
    """The options that say what is asked, and how."""
    made.add_argument(
        "--many",
        metavar="FILE",
        help="the queries in FILE, as of `cqlpgn many`; with -o PREFIX the games go to PREFIX01.pgn, PREFIX02.pgn, ..",
    )
    made.add_argument(
        "-j", metavar="N", dest="jobs", type=int, default=1, help="so many archives at once; the games come in the order named"
    )
    made.add_argument("--summary", action="store_true", help="a last table: the counts and seconds of each archive")
    made.add_argument(
        "--check",
        action="store_true",
        help="each FILE with a query, or several, is checked; a fault is shown with line, column, caret and hint",
    )
    made.add_argument(
        "--doubtful",
        action="store_true",
        help="no query is asked: games that are read, and may mean something else than was meant, are told with their bytes",
    )
    made.add_argument("--workers", metavar="N", help="is handed on to cqlpgn")
    made.add_argument("--limit", metavar="B", help="is handed on to cqlpgn")


def refuse_together(made: argparse.ArgumentParser, flags: argparse.Namespace) -> None:
    """Ends the process where options don't go together."""
    if flags.check and not flags.words:
        made.error("--check wants a file")
    if flags.doubtful and (flags.check or flags.many is not None or flags.out is not None):
        made.error("--doubtful goes with none of --check, --many and -o")
    if not flags.check and not flags.doubtful and flags.many is None and not flags.words:
        made.error("a query is wanted")
    if not 1 <= flags.jobs <= 64:
        made.error("-j takes 1 to 64")
    if flags.many is not None and (flags.number or flags.first or flags.quiet):
        made.error("--many goes with none of --number, --first and -q")
    if flags.many is not None and flags.out is None and not flags.count:
        made.error("--many wants -o PREFIX, or -c")
    if flags.number and flags.out is None and not flags.count:
        made.error("--number wants -o FILE, or -c")
    if flags.out is not None and (flags.count or flags.quiet):
        made.error("-o goes with neither -c nor -q")


def accepted(text: bytes, options: Sequence[str], mode: str) -> int:
    """The status with which the program refuses a query or options before it looks at an archive, or 0; the fault is shown."""
    status, _, report = process.asked([mode, Process.QUERY, os.devnull, *options], text)
    if status == 2:
        checks.tell_fault(text, report)
    elif status == 3:
        tell("cqlpgn does not take", *options)
    elif status:
        tell(f"cqlpgn ended with status {status} before an archive was read")
    return status


def answered(archive: Archive | Error, job: Job, out: IO[bytes] | None, live: bool) -> Answer:
    """The answer of an archive, whose games go to `out`. Lines are told as they come if `live`, or else kept in the answer."""
    begin = time.monotonic()
    answer = Answer(shown(archive.name) if isinstance(archive, Archive) else "")

    def told(line: str, name: str = "") -> None:
        text = f"{name}: {line}" if name else line
        if live:
            tell(text)
        else:
            answer.lines.append(text)

    try:
        if isinstance(archive, Error):
            raise archive
        with ExitStack() as rooms:
            if job.number and archive.path == STANDARD_INPUT:
                archive = origins.kept(archive, rooms.enter_context(tempfile.NamedTemporaryFile()))
            seen = origins.state(archive) if job.number else ()
            _ask(archive, answer, job, out, told)
            if job.number and answer.status in (0, 1):
                answer.numbers = _numbers(archive, answer, job)
                # the numbers come of a second reading
                if not job.first and (len(answer.numbers) != answer.counts[0].matched or origins.state(archive) != seen):
                    raise origins.changed(archive)
    except Error as fault:
        told(str(fault))
        answer.status, answer.counts, answer.numbers = fault.status, [], []
    answer.seconds = time.monotonic() - begin
    return answer


def _ask(archive: Archive, answer: Answer, job: Job, out: IO[bytes] | None, told: checks.Telling) -> None:
    around = places.Around(archive)
    with origins.start(archive, job.words, job.query, out=out, progress=job.progress) as asked:
        job.running.add(asked)
        if job.stopping.is_set():
            raise Stopped("ended")
        for line in asked.report():
            said = process.read_line(line)
            if isinstance(said, Counts):
                answer.counts.append(said)
                line = f"query {len(answer.counts)}: {line}" if job.mode == "many" else line
            if not job.quiet:
                told(line, answer.name)
                if isinstance(said, process.FaultyGame) and (hint := game_hints.hint(said.reason, around.onward(said.byte))):
                    told(f"    {hint}", answer.name)
        answer.status = asked.finish()
        job.running.discard(asked)
    if words := process.in_words(answer.status):
        answer.status = 7 if answer.status < 0 else answer.status
        answer.counts = []
        told(words, answer.name)


def _numbers(archive: Archive, answer: Answer, job: Job) -> list[int]:
    if job.first:
        return [answer.counts[0].games] if answer.counts[0].matched else []
    return list(origins.numbers(archive, job.query))


def in_turn(wanted: Iterable[Archive | Error], job: Job, out: BinaryIO | None, apart: bool) -> Iterator[Answer]:
    """The answers one after the other; the games go to `out` at once, or with `apart` to a file of each answer."""
    for archive in wanted:
        if apart:
            with tempfile.TemporaryFile() as room:
                answer = answered(archive, job, room, True)
                answer.out = room
                yield answer
        else:
            yield answered(archive, job, out, True)


def at_once(wanted: Iterable[Archive | Error], job: Job, jobs: int) -> Iterator[Answer]:
    """The answers of several archives at once, in the order named, each with its games in a file."""

    def one(archive: Archive | Error) -> Answer:
        room = tempfile.TemporaryFile()
        answer = answered(archive, job, room, False)
        answer.out = room
        return answer

    with ThreadPoolExecutor(jobs) as pool:
        # no more are begun ahead than can have their files open
        waiting: deque[Future[Answer]] = deque()
        rest = iter(wanted)
        try:
            waiting.extend(pool.submit(one, archive) for archive in islice(rest, AHEAD * jobs))
            while waiting:
                answer = waiting.popleft().result()
                waiting.extend(pool.submit(one, archive) for archive in islice(rest, 1))
                for line in answer.lines:
                    tell(line)
                yield answer
        finally:
            pool.shutdown(wait=False, cancel_futures=True)
            job.stop()


def all_answers(job: Job, names: Sequence[str], flags: argparse.Namespace, outputs: Outputs) -> list[Answer]:
    """Asks all archives, or up to the one after which nothing more is to be asked."""
    wanted = archives.archives(names)
    done: list[Answer] = []
    with open(os.devnull, "wb") as nowhere:
        to: BinaryIO | None = nowhere if outputs.nowhere else outputs.direct
        answers = (
            at_once(wanted, job, flags.jobs) if flags.jobs > 1 else in_turn(wanted, job, to, job.mode == "many" and not outputs.nowhere)
        )
        for answer in answers:
            outputs.take(answer)
            if answer.out is not None:
                answer.out.close()
            done.append(answer)
            if answer.status == 6 or job.first and any(counts.matched for counts in answer.counts):
                break
        return done


def sums(done: Sequence[Answer], queries: int) -> list[Counts]:
    """The counts of each query over all archives."""
    found = [Counts()] * queries
    for answer in done:
        for number, counts in enumerate(answer.counts[:queries]):
            found[number] += counts
    return found


def tell_end(done: Sequence[Answer], queries: int, flags: argparse.Namespace) -> None:
    """The last lines: the counts of all archives together, and the table."""
    totals = sums(done, queries)
    if flags.quiet:
        return
    if len(done) > 1:
        for number, counts in enumerate(totals, 1):
            tell(f"all archives: query {number}: {counts}" if flags.many is not None else f"all archives: {counts}")
    if flags.summary:
        tell_table(done, totals)


def tell_table(done: Sequence[Answer], totals: Sequence[Counts]) -> None:
    """A row for each archive, or for each of its queries, with the seconds it took, and one for all."""
    rows = [["archive", "games", "matched", "refused", "seconds"]]
    for answer in done:
        if not answer.counts:
            rows.append([answer.name, "-", "-", "-", f"{answer.seconds:.1f}"])
        for counts in answer.counts:
            rows.append([answer.name, str(counts.games), str(counts.matched), str(counts.refused), f"{answer.seconds:.1f}"])
    for counts in totals:
        rows.append(["all archives", str(counts.games), str(counts.matched), str(counts.refused), f"{sum(a.seconds for a in done):.1f}"])
    widths = [max(len(row[column]) for row in rows) for column in range(5)]
    for row in rows:
        tell("  ".join([row[0].ljust(widths[0]), *(cell.rjust(width) for cell, width in zip(row[1:], widths[1:]))]))


def status_of(done: Sequence[Answer], flags: argparse.Namespace) -> int:
    """The greatest status of all. With -q: 0 if anything was found, otherwise that status, at least 1."""
    worst = max((answer.status for answer in done), default=0)
    if not flags.quiet:
        return worst
    if any(counts.matched for answer in done for counts in answer.counts):
        return 0
    return worst if worst > 1 else 1


def job_of(flags: argparse.Namespace, text: bytes) -> Job:
    """What is asked, by the options and the bytes of the query."""
    options = [word for name in ("workers", "limit") if (value := getattr(flags, name)) is not None for word in (f"--{name}", value)]
    if flags.first or flags.quiet:
        options.append("--first")
    mode = "run" if flags.many is None else "many"
    shows = flags.jobs == 1 and not flags.quiet and archives.shows_progress()
    return Job(mode, text, options, flags.number, flags.quiet, shows)


def without_marks(job: Job) -> bytes:
    """The query, or each of several, without its marks."""
    if job.mode == "run":
        return query.without_marks(job.query)
    return b"\n%%\n".join(query.without_marks(piece) for _, piece in query.pieces(job.query))


def ask(flags: argparse.Namespace) -> int:
    """The status of a job whose words are accepted."""
    word, names = (flags.many, flags.words) if flags.many is not None else (flags.words[0], flags.words[1:])
    names = names or [STANDARD_INPUT]
    process.executable()
    text = query.read(word) if flags.many is None else query.read_file(word)
    job = job_of(flags, text)
    if status := accepted(text, job.options, job.mode):
        return status
    if flags.plain:
        job.query = without_marks(job)
        if status := accepted(job.query, job.options, job.mode):
            return status
    queries = len(query.pieces(text)) if flags.many is not None else 1
    outputs = [flags.out] if flags.many is None else [f"{flags.out}{number:02}.pgn" for number in range(1, queries + 1)]
    outputs = [*outputs, index_name(flags.out)] if flags.number and flags.out else outputs
    inputs = [name for name in archives.files(names) if isinstance(name, str)]
    refuse_inputs(
        outputs if flags.out is not None else [], [*inputs, *([] if flags.many is None and query.is_query(os.fsencode(word)) else [word])]
    )
    with Replacing() as files:
        to = Outputs(flags, files, queries)
        done = all_answers(job, names, flags, to)
        tell_end(done, queries, flags)
        status = status_of(done, flags)
        if status < 2 or flags.keep_partial:
            to.finish()
            files.commit()
            to.drop_index()
        elif flags.out is not None:
            tell(f"{shown(flags.out)}: was not written, since not all was answered; with --keep-partial it has what was found")
    return status


def main(words: Sequence[str]) -> int:
    """Asks the archives, or checks files of queries, and gives the exit status. Raises `Error`."""
    made = parser()
    flags = made.parse_intermixed_args(words)
    themes_asked.refuse_together(made, flags)
    if flags.themes:
        return themes_asked.list_all()
    if flags.all_themes:
        return themes_asked.tell_table(flags)
    if flags.theme is not None:
        flags.words = [themes_asked.query_of(made, flags.theme), *flags.words]
    refuse_together(made, flags)
    if flags.doubtful:
        return doubtful.tell_all(flags.words)
    return checks.check_all(flags.words) if flags.check else ask(flags)


def entry() -> None:
    """Runs the command with the words of the process, which ends with it."""
    run(main)
