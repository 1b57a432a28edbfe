"""A run over the pieces of an archive: what its folder has, the answer of a piece, and the answer of the whole.

A run has a folder, which each machine that answers pieces must see under the same name:

    job          the query, the archive, and the program that is asked, as JSON
    query.cql    the query as it is; ask.cql is the one that the pieces are asked
    table        a line for each piece, `N OFFSET LENGTH FIRST GAMES`, as `pgnpieces` writes it
    todo         the numbers of the pieces that an engine is to answer
    N.out, N.err, N.status    the answer of piece N; `status` comes last and has the sizes of the other two
    N.match      piece N has a match: made in runs that want the first match alone
    .N.*         what is left of a try that was ended

Who can write there names the program that is asked. So the folder is one's own, nobody else can write in it, and no file in it is a link.
"""

from __future__ import annotations

import contextlib
import json
import os
import re
import shutil
import stat
import subprocess
import sys
import tempfile
import threading
from collections.abc import Callable, Iterator
from typing import IO, Any, NamedTuple, NoReturn, cast

FAULT = re.compile(rb"game (\d{1,15}) byte (\d{1,15}): ([^\n]*)\n")
COUNTS = re.compile(rb"games (\d{1,15}) matched (\d{1,15}) refused (\d{1,15})\n")
ROW = re.compile(rb"\d{1,15}(?: \d{1,15}){4}")
# What the file `job` has: the names of its values and their types.
JOB = {"program": str, "first": bool, "words": list, "archive": str, "size": int, "changed": int, "bytes": str}
BLOCK = 1 << 20
# How many games are read, match and are faulty.
Counts = tuple[int, int, int]


class Piece(NamedTuple):
    """a piece of an archive: where it begins, its bytes, its first game and how many it has"""

    number: int
    offset: int
    length: int
    first: int
    games: int


# what runs in the threads of this process, and whether it is to end
running: set[subprocess.Popen[bytes]] = set()
ended = threading.Event()


class NoAnswer(Exception):
    """why there is no answer, in words, and a status: those of `cqlpgn`, and 9 for an answer that is missing or does not fit"""

    def __init__(self, words: str, status: int = 9) -> None:
        super().__init__(words)
        self.status = status


def shown(text: str) -> str:
    """a text as it is told: control characters, and bytes that are no UTF-8, as escapes"""
    told = text.encode("utf-8", "surrogateescape").decode("utf-8", "backslashreplace")
    return "".join(letter if letter.isprintable() else letter.encode("unicode_escape").decode() for letter in told)


def tell(text: str) -> None:
    """writes lines to standard error, if that takes any"""
    with contextlib.suppress(OSError, ValueError, AttributeError):
        for line in text.splitlines():
            print(shown(line), file=sys.stderr, flush=True)


def own(folder: str) -> str:
    """The folder of a run. Raises `NoAnswer` where it is another user's, or where other users can write in it."""
    try:
        found = os.stat(folder)
    except (OSError, ValueError) as fault:
        raise NoAnswer("%s: %s" % (folder, getattr(fault, "strerror", None) or fault), 4) from fault
    if not stat.S_ISDIR(found.st_mode):
        raise NoAnswer("%s: is no folder" % folder, 4)
    if found.st_uid != os.geteuid() or found.st_mode & stat.S_IWOTH:
        raise NoAnswer("%s: the folder of a run must be your own, and no other user may write in it" % folder, 4)
    return folder


def opened(flags: int, *names: str) -> IO[bytes]:
    """A file of a run, by its name alone: a link is refused."""
    name = os.path.join(*names)
    mode = "rb" if flags == os.O_RDONLY else "wb"
    try:
        number = os.open(name, flags | os.O_NOFOLLOW | os.O_NONBLOCK | os.O_CLOEXEC, 0o666)
    except OSError as fault:
        if os.path.islink(name):
            raise NoAnswer("%s: is a link, and the files of a run are none" % name) from fault
        raise
    if not stat.S_ISREG(os.fstat(number).st_mode):
        os.close(number)
        raise NoAnswer("%s: is no regular file" % name)
    return os.fdopen(number, mode)


def new(*names: str) -> IO[bytes]:
    """A new file of a run; what a try has left under the name is removed, a link too."""
    with contextlib.suppress(FileNotFoundError):
        os.remove(os.path.join(*names))
    return opened(os.O_WRONLY | os.O_CREAT | os.O_EXCL, *names)


def read(*names: str) -> bytes:
    """all bytes of a file of a run"""
    with opened(os.O_RDONLY, *names) as file:
        return file.read()


def write(data: bytes, *names: str) -> None:
    """makes a file that is there with all of its bytes or not at all"""
    name = os.path.join(*names)
    with new(name + ".new") as file:
        file.write(data)
    os.rename(name + ".new", name)


def read_job(folder: str) -> dict[str, Any]:
    """The job of a run. Raises `NoAnswer` where it is damaged."""
    try:
        job = json.loads(read(own(folder), "job"))
    except (ValueError, RecursionError) as fault:
        raise NoAnswer("%s: is damaged" % os.path.join(folder, "job")) from fault
    known = isinstance(job, dict) and job.keys() == JOB.keys() and all(type(job[name]) is kind for name, kind in JOB.items())
    if not known or not all(isinstance(word, str) for word in job["words"]):
        raise NoAnswer("%s: is damaged" % os.path.join(folder, "job"))
    return cast("dict[str, Any]", job)


def pieces_of(table: bytes, size: int) -> list[Piece]:
    """the pieces of a table, which follow one another and have all the bytes of an archive of that size"""
    found: list[Piece] = []
    at, first = 0, 1
    for line in table.split(b"\n")[:-1]:
        if not ROW.fullmatch(line):
            raise NoAnswer("the table has the line %r" % line[:100])
        piece = Piece(*map(int, line.split()))
        if (piece.number, piece.offset, piece.first) != (len(found) + 1, at, first) or piece.length == 0:
            raise NoAnswer("piece %d of the table does not follow the one before" % piece.number)
        found.append(piece)
        at, first = at + piece.length, first + piece.games
    if at != size or not (table.endswith(b"\n") or table == b""):
        raise NoAnswer("the pieces of the table have %d bytes, the archive has %d" % (at, size))
    return found


def read_pieces(folder: str) -> list[Piece]:
    return pieces_of(read(folder, "table"), read_job(folder)["size"])


def is_done(folder: str, number: int) -> bool:
    return os.path.exists(os.path.join(folder, "%d.status" % number))


def wanted(folder: str, numbers: list[int]) -> list[int]:
    """those of the pieces that have no answer yet, and before which no piece has a match where the first match alone is wanted"""
    names = set(os.listdir(folder))
    match = min((int(name[:-6]) for name in names if re.fullmatch(r"\d+\.match", name)), default=None)
    return [number for number in numbers if "%d.status" % number not in names and (match is None or number <= match)]


def feed(archive: str, piece: Piece, to: IO[bytes]) -> bool:
    """Hands a piece's bytes on, after one space if it is not the archive's first piece: so its first byte is in no first column, and no
    byte order mark begins it. Answers whether the reader took all of them; an archive that ends before the piece is an error."""

    def hand_on(block: bytes | memoryview) -> None:
        while block:
            block = block[to.write(block) :]

    with open(archive, "rb", buffering=0) as file:
        file.seek(piece.offset)
        left = piece.length
        try:
            hand_on(b" " if piece.offset else b"")
            while left:
                block = file.read(min(left, BLOCK))
                if not block:
                    raise NoAnswer("piece %d: %s ends %d bytes before it" % (piece.number, archive, left), 5)
                hand_on(memoryview(block))
                left -= len(block)
        except BrokenPipeError:
            return False
    to.close()
    return True


@contextlib.contextmanager
def answering(program: subprocess.Popen[bytes]) -> Iterator[None]:
    """Within it the program is among those that `end` ends."""
    running.add(program)
    try:
        if ended.is_set():
            program.kill()
        yield
    finally:
        running.discard(program)


def end() -> None:
    """ends what runs in the threads of this process, and has nothing more begin"""
    ended.set()
    for program in list(running):
        program.kill()


def ask(words: list[str], archive: str, piece: Piece, out: IO[bytes], err: IO[bytes]) -> tuple[int, bool]:
    """the exit status of the program after a piece, and whether it took all bytes"""
    try:
        program = subprocess.Popen(words, stdin=subprocess.PIPE, stdout=out, stderr=err, bufsize=0)
    except OSError as fault:
        raise NoAnswer("piece %d: %s: %s" % (piece.number, words[0], fault.strerror), 4) from fault
    with program, answering(program):
        assert program.stdin is not None
        try:
            taken = feed(archive, piece, program.stdin)
        except OSError as fault:
            program.kill()
            raise NoAnswer("piece %d: %s: %s" % (piece.number, archive, fault.strerror), 4 if fault.filename else 5) from fault
        except BaseException:
            # what the program would say of a part is not wanted
            program.kill()
            raise
        program.stdin.close()
        return program.wait(), taken


def moved(report: bytes, piece: Piece, first: bool) -> tuple[bytes, Counts]:
    """The lines of a piece's report with games and bytes as they are counted in the archive, and its counts: games, matched, refused.
    It has as many games as the table says, or fewer where the first match ended the run."""
    lines = report.splitlines(keepends=True)
    counts = COUNTS.fullmatch(lines[-1]) if lines else None
    faults = [fault for fault in map(FAULT.fullmatch, lines[:-1]) if fault]
    if not counts or len(faults) < len(lines) - 1:
        raise NoAnswer("piece %d: its report can't be read" % piece.number)
    games, matched, refused = int(counts[1]), int(counts[2]), int(counts[3])
    if games > piece.games or games < piece.games and not (first and matched):
        raise NoAnswer("piece %d has %d games, by the table %d" % (piece.number, games, piece.games))
    # the space before all pieces but the first is no byte of the archive
    game, byte = piece.first - 1, piece.offset - (piece.offset > 0)
    text = b"".join(b"game %d byte %d: %s\n" % (int(fault[1]) + game, int(fault[2]) + byte, fault[3]) for fault in faults)
    return text, (games, matched, refused)


def answer(folder: str, number: int) -> None:
    """Lays the answer of a piece into the folder, if it is wanted and not there. Whatever fails, no part of an answer has its name."""
    if not wanted(folder, [number]):
        return
    job = read_job(folder)
    piece = read_pieces(folder)[number - 1]
    room = tempfile.mkdtemp(prefix=".%d." % number, dir=folder)
    try:
        out, err, last = (os.path.join(room, name) for name in ("out", "err", "status"))
        with open(out, "wb") as to, open(err, "wb") as report:
            words = [job["program"], "run", os.path.join(folder, "ask.cql"), "-", *job["words"]]
            status, taken = ask(words, job["archive"], piece, to, report)
        if status not in (0, 1):
            how = "status %d" % status if status > 0 else "signal %d" % -status
            raise NoAnswer("piece %d: the program ended with %s" % (number, how), status if status > 0 else 9)
        _, counts = moved(read(err), piece, job["first"])
        match = job["first"] and counts[1] > 0
        if not taken and not match:
            raise NoAnswer("piece %d: the program did not take all bytes" % number)
        with open(last, "wb") as file:
            file.write(b"%d %d %d\n" % (status, os.path.getsize(out), os.path.getsize(err)))
        if match:
            write(b"", folder, "%d.match" % number)
        for name in (out, err, last):
            os.rename(name, os.path.join(folder, "%d.%s" % (number, os.path.basename(name))))
    finally:
        shutil.rmtree(room, ignore_errors=True)


def sweep(folder: str) -> None:
    """takes away what tries left that were ended, and answers whose files have not the sizes that their status says"""
    for name in os.listdir(folder):
        if re.fullmatch(r"\.\d+\..*", name):
            shutil.rmtree(os.path.join(folder, name), ignore_errors=True)
        if re.fullmatch(r"\d+\.status", name) and not is_whole(folder, int(name[:-7])):
            os.remove(os.path.join(folder, name))


def is_whole(folder: str, number: int) -> bool:
    """whether the files of an answer have the sizes that its status says"""
    words = read(folder, "%d.status" % number).split()
    try:
        sizes = [b"%d" % os.path.getsize(os.path.join(folder, "%d.%s" % (number, name))) for name in ("out", "err")]
    except FileNotFoundError:
        return False
    return len(words) == 3 and words[1:] == sizes


def join(folder: str) -> tuple[list[Piece], bytes, Counts, int]:
    """The answer of the whole, but for its games: the pieces whose exports follow one another, the report, its counts, and the status."""
    job, sums = read_job(folder), (0, 0, 0)
    texts: list[bytes] = []
    joined: list[Piece] = []
    for piece in read_pieces(folder):
        if not is_done(folder, piece.number):
            raise NoAnswer("piece %d has no answer" % piece.number)
        if not is_whole(folder, piece.number):
            raise NoAnswer("piece %d: its answer has other sizes than its status says" % piece.number)
        text, counts = moved(read(folder, "%d.err" % piece.number), piece, job["first"])
        sums = (sums[0] + counts[0], sums[1] + counts[1], sums[2] + counts[2])
        texts.append(text)
        joined.append(piece)
        if job["first"] and counts[1]:
            break
    texts.append(b"games %d matched %d refused %d\n" % sums)
    return joined, b"".join(texts), sums, 1 if sums[2] else 0


def copy_games(folder: str, joined: list[Piece], to: IO[bytes]) -> None:
    """the exports of some pieces, as they stand"""
    for piece in joined:
        with opened(os.O_RDONLY, folder, "%d.out" % piece.number) as exports:
            shutil.copyfileobj(exports, to, BLOCK)


def _identity(name: str | int) -> tuple[int, int] | None:
    """Device and inode of a regular file; None for all else."""
    try:
        found = os.stat(name)
    except (OSError, ValueError):
        return None
    return (found.st_dev, found.st_ino) if stat.S_ISREG(found.st_mode) else None


def refuse_streams(names: list[str]) -> None:
    """Raises `NoAnswer` where standard output or standard error is one of the files that are read."""
    written = {1: "standard output", 2: "standard error"}
    for name in names:
        for number, stream in written.items():
            if (found := _identity(name)) is not None and found == _identity(number):
                raise NoAnswer("%s is %s, which is to be read; nothing was written" % (stream, name), 3)


def begin() -> None:
    """Ends with status 6 where standard output or standard error is closed; standard input that is closed becomes an empty one."""
    if sys.stdout is None or sys.stderr is None:
        os._exit(6)
    try:
        os.fstat(0)
    except OSError:
        os.open(os.devnull, os.O_RDONLY)


def end_with(status: int) -> NoReturn:
    """Ends the process with the status, or with 6 where the streams don't take what is still kept for them."""
    try:
        sys.stdout.flush()
        sys.stderr.flush()
    except (OSError, ValueError):
        status = status or 6
    os._exit(status)


def ended_by(main: Callable[[], int], name: str) -> NoReturn:
    """Ends the process with the status of its main function; what this raises is told in lines, after the name."""
    begin()
    try:
        status = main()
    except NoAnswer as fault:
        tell("\n".join("%s: %s" % (name, line) for line in str(fault).splitlines()))
        status = fault.status
    except OSError as fault:
        tell("%s: %s" % (name, fault))
        status = 6
    except SystemExit as fault:
        status = fault.code if isinstance(fault.code, int) else 3 if fault.code else 0
        tell(fault.code if isinstance(fault.code, str) else "")
    end_with(status)


def write_answer(copy: Callable[[IO[bytes]], object], report: bytes, status: int) -> int:
    """writes games to standard output and the report to standard error; answers the status, or that of a failed write"""
    try:
        copy(sys.stdout.buffer)
        sys.stdout.flush()
        sys.stderr.buffer.write(report)
        sys.stderr.flush()
    except OSError:
        # what is still kept for a stream that takes nothing goes nowhere
        for stream in (1, 2):
            os.dup2(os.open(os.devnull, os.O_WRONLY), stream)
        return 6
    return status
