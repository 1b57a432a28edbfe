#!/usr/bin/env python3
"""Attacks the programs, the package, the desk and the scripts for many machines of a checkout, from outside.

    bench/attacks.py [TREE] [--seed S] [--quick] [--point N].. [--programs FOLDER] [--package FOLDER] [--machines FOLDER]

TREE is the checkout, by default this one. For each of twenty points there are ten inputs of its kind at least. After them come, drawn by
the seed, 2,000 calls of all commands, 1,000 requests for the desk, and 300 commands that get signals. Each is judged by what is seen from
outside: a file that is left or that is another now, a process that is left, a status, memory, a traceback, a control sequence, or that
there is no end. As root all of it is done twice, beside each other: by root, and by a user with no name (65534, by setpriv). Each process
may have 256 files open. What is attacked is copied first, into a folder for temporary files, which is taken away at the end with all that
is in it; no traffic leaves the machine.

  --quick             fewer drawn inputs, and of a point at which something was found not all of them: three minutes at most
  --point N           this point alone; 21, 22 and 23 are the drawn calls, requests and signals
  --programs FOLDER   where cqlpgn, pgnjson and pgnpieces are; without it those that CQLPGN, PGNJSON and PGNPIECES name, or else TREE's
  --package FOLDER    the folder with bin/ and the package (TREE/python)
  --machines FOLDER   the scripts for many machines (TREE/machines, or TREE/many)

A line for each point says what was found. The last line has the counts. Status 0: nothing was found; 1: something was; 2: not all
could be tried. Wanted beside Python are aiohttp, PyYAML and zstandard, bash, zsh and fish, setpriv and prlimit."""

from __future__ import annotations

import argparse
import json
import os
import shutil
import signal
import subprocess
import sys
import tempfile
import time
import traceback
from collections.abc import Callable, Iterator
from concurrent.futures import ThreadPoolExecutor, as_completed
from dataclasses import asdict, dataclass, field
from pathlib import Path

sys.dont_write_bytecode = True
HERE = Path(__file__).resolve().parent
sys.path.insert(0, str(HERE.parent))
from bench.attacking import drawn, on_archives, on_desk, on_files, on_processes, on_texts  # noqa: E402
from bench.attacking.asking import PYTHON, Place, Untried, ended  # noqa: E402

NOBODY = 65534
Attack = Callable[[Place], Iterator[str]]
Drawn = Callable[[Place, str, int], Iterator[str]]
POINTS: dict[int, tuple[str, Attack]] = {
    1: ("code of the folder in which a command or the desk is begun", on_desk.folder_code),
    2: ("a full disk under the desk", on_desk.full_disks),
    3: ("a small zip of which much comes", on_archives.small_zips),
    4: ("engines that outlive who asked", on_processes.outliving),
    5: ("names that completion runs", on_processes.completed),
    6: ("indexes that are destroyed or belong to other games", on_files.indexes),
    7: ("zips of many members", on_archives.many_members),
    8: ("many archives at once", on_archives.many_at_once),
    9: ("other users at the desk's port", on_desk.strangers),
    10: ("pipes and devices in a folder", on_archives.no_files),
    11: ("run-over and join", on_processes.many_machines),
    12: ("cells of CSV and rows of JSON", on_files.cells),
    13: ("messages to the desk", on_desk.odd_messages),
    14: ("control sequences on the terminal", on_texts.obeyed),
    15: ("signals: files left, tracebacks", on_processes.signalled),
    16: ("files that are replaced", on_files.replaced),
    17: ("the desk's own file, far faults, large folders, modes", on_desk.own_troubles),
    18: ("problems that take long", on_texts.slow_problems),
    19: ("pages that take much memory", on_texts.large_pages),
    20: ("games that end in their midst", on_files.partial),
}
DRAWN: dict[int, tuple[str, Drawn]] = {
    21: ("drawn calls", drawn.inputs),
    22: ("drawn requests", drawn.requests),
    23: ("drawn signals", drawn.signals),
}
COUNTS = {21: (2000, 160), 22: (1000, 160), 23: (300, 60)}
LEAST = 10  # inputs of each point, but with --quick where something was found
PARTS = {21: 4, 22: 2, 23: 4}  # pieces in which a user's share is drawn
# seconds after which a point is left that has found something; at which it is left in any case; in which all begins
SLOW, QUICK = (30.0, 240.0, 900.0), (2.0, 30.0, 110.0)


@dataclass
class Result:
    """What became of a point, for one user: how many inputs there were, what was found, and why some were not tried."""

    point: int
    inputs: int = 0
    found: list[str] = field(default_factory=list)
    untried: str = ""
    seconds: float = 0.0


def tried(point: int, attack: Attack, place: Place) -> Result:
    """Tries a point."""
    result, begin = Result(point), time.monotonic()
    enough, most, _ = QUICK if place.is_quick else SLOW
    try:
        for said in attack(place):
            result.inputs += 1
            result.found += [said] if said else []
            spent = time.monotonic() - begin
            if point in POINTS and result.found and spent > enough and (place.is_quick or result.inputs >= LEAST):
                break
            if spent > most:
                result.untried = f"left after {spent:.0f} s"
                break
    except Untried as fault:
        result.untried = str(fault)
    except Exception as fault:  # a fault of the attack itself must not be taken for an input that found nothing
        traceback.print_exc()
        result.untried = repr(fault)
    result.seconds = time.monotonic() - begin
    return result


def jobs(points: list[int], seed: int, is_quick: bool, shares: int) -> Iterator[tuple[int, Attack]]:
    """What is tried by one of so many users."""
    for point in points:
        if point in POINTS:
            yield point, POINTS[point][1]
            continue
        attack, count = DRAWN[point][1], COUNTS[point][is_quick] // shares // PARTS[point]
        for part in range(PARTS[point]):
            name = f"{seed} {point} {os.geteuid()} {part}"

            def posed(place: Place, attack: Drawn = attack, name: str = name, count: int = count) -> Iterator[str]:
                return attack(place, name, count)

            yield point, posed


def part(stage: Path, flags: argparse.Namespace, shares: int) -> None:
    """Tries all points as the user that this process has; each result is a line of JSON."""
    begin = time.monotonic()
    last = (QUICK if flags.quick else SLOW)[2]

    def one(point: int, attack: Attack) -> Result:
        if time.monotonic() - begin > last:
            return Result(point, untried="there was no time for it")
        room = Path(tempfile.mkdtemp(prefix=f"{point}-", dir=stage / "rooms"))
        try:
            return tried(point, attack, Place.made(stage, room / "r", flags.seed, flags.quick))
        finally:
            shutil.rmtree(room, ignore_errors=True)

    with ThreadPoolExecutor(3) as pool:
        for done in as_completed([pool.submit(one, *job) for job in jobs(flags.point, flags.seed, flags.quick, shares)]):
            print(json.dumps(asdict(done.result())), flush=True)


def staged(flags: argparse.Namespace, stage: Path) -> None:
    """Copies what is attacked, and what attacks, to where every user can read it."""
    tree = Path(flags.tree)
    package = Path(flags.package or tree / "python")
    machines = Path(flags.machines or next((tree / name for name in ("machines", "many") if (tree / name).is_dir()), tree))
    for folder, name in (
        (package, "python"),
        (machines, "machines"),
        (tree / "contrib" / "completion", "completion"),
        (HERE / "attacking", "bench/attacking"),
    ):
        shutil.copytree(folder, stage / name, symlinks=True, ignore=shutil.ignore_patterns("tests", "__pycache__"))
    shutil.copy(HERE / "attacks.py", stage / "bench")
    (stage / "programs").mkdir()
    for name in ("cqlpgn", "pgnjson", "pgnpieces"):
        own = tree / "crates" / name / "out" / name
        there = os.path.join(flags.programs, name) if flags.programs else os.environ.get(name.upper(), str(own))
        if not os.access(there, os.X_OK):
            sys.exit(f"attacks.py: there is no program {there}; --programs names a folder with it")
        shutil.copy(there, stage / "programs" / name)
    (stage / "rooms").mkdir()
    for place, folders, files in os.walk(stage):
        for one in (*folders, *files):
            path = Path(place, one)
            if not path.is_symlink():
                path.chmod(0o755)
    stage.chmod(0o755)
    (stage / "rooms").chmod(0o1777)


def begun(stage: Path, user: int, shares: int) -> subprocess.Popen[str]:
    """A process of that user that tries all points."""
    own = ["setpriv", f"--reuid={user}", f"--regid={user}", "--clear-groups", "--"] if user != os.geteuid() else []
    words = [PYTHON, "-B", str(stage / "bench" / "attacks.py"), *sys.argv[1:], "--stage", str(stage), "--shares", str(shares)]
    return subprocess.Popen([*own, *words], stdin=subprocess.DEVNULL, stdout=subprocess.PIPE, text=True, cwd=stage)


def told(point: int, results: dict[int, list[Result]]) -> tuple[int, int, bool]:
    """Tells a point in a line, and gives how many inputs there were, how many found something, and whether not all were tried."""
    title = POINTS[point][0] if point in POINTS else DRAWN[point][0]
    inputs = found = 0
    words, example, untried = [], "", ""
    for user, several in results.items():
        own = [result for result in several if result.point == point]
        one, some = sum(result.inputs for result in own), sum(len(result.found) for result in own)
        words.append(f"{user}: {some} of {one}")
        inputs, found = inputs + one, found + some
        example = example or next((said for result in own for said in result.found), "")
        untried = untried or next((f"user {user}: {result.untried}" for result in own if result.untried), "")
    line = f"{point:2} {'found' if found else 'nothing' if inputs else 'not tried'}: {title} ({', '.join(words)})"
    print(line + (f": {example[:300]}" if example else "") + (f" [not all tried: {untried[:200]}]" if untried else ""))
    return inputs, found, bool(untried) or not inputs


def told_all(points: list[int], results: dict[int, list[Result]], seed: int, seconds: float, verbose: bool) -> int:
    """Tells all points and the counts, and gives the status."""
    sums = {point: told(point, results) for point in points}
    for user, several in results.items() if verbose else ():
        for result in sorted(several, key=lambda one: one.point):
            print(f"  {user} {result.point}: {result.seconds:.1f} s")
            for said in result.found:
                print(f"    {said[:400]}")
    listed = [point for point in points if point in POINTS]
    ones = sum(1 for point in listed if sums[point][1])
    drawn_ones = ", ".join(f"{sums[point][0]} {DRAWN[point][0]} ({sums[point][1]} found)" for point in points if point in DRAWN)
    posed = sum(sums[point][0] for point in listed)
    print(
        f"seed {seed}: {ones} of {len(listed)} points found, by {posed} inputs; {drawn_ones or 'nothing drawn'}; "
        f"users {' and '.join(map(str, results))}; {seconds:.0f} s"
    )
    return 2 if any(rest for _, _, rest in sums.values()) else 1 if any(found for _, found, _ in sums.values()) else 0


def parser() -> argparse.ArgumentParser:
    """The words of the command."""
    made = argparse.ArgumentParser(description=__doc__, formatter_class=argparse.RawDescriptionHelpFormatter, allow_abbrev=False)
    made.add_argument("tree", nargs="?", default=str(HERE.parent))
    made.add_argument("--seed", type=int, default=1)
    made.add_argument("--quick", action="store_true")
    made.add_argument("--verbose", action="store_true", help="tells all that was found, and the seconds of each point")
    made.add_argument("--point", type=int, action="append", choices=[*POINTS, *DRAWN])
    for name in ("programs", "package", "machines"):
        made.add_argument(f"--{name}")
    made.add_argument("--stage", help=argparse.SUPPRESS)
    made.add_argument("--shares", type=int, default=1, help=argparse.SUPPRESS)
    return made


def main() -> int:
    """Attacks, and gives the status."""
    flags = parser().parse_args()
    flags.point = sorted(set(flags.point or [*POINTS, *DRAWN]))
    if flags.stage:
        part(Path(flags.stage), flags, flags.shares)
        return 0
    for kind in (signal.SIGTERM, signal.SIGHUP):
        signal.signal(kind, lambda number, _: sys.exit(128 + number))
    begin = time.monotonic()
    users = [os.geteuid()] if os.geteuid() else [0, NOBODY]
    with tempfile.TemporaryDirectory(prefix="attacks-") as folder:
        stage = Path(folder)
        staged(flags, stage)
        several = [begun(stage, user, len(users)) for user in users]
        results = {}
        try:
            for user, process in zip(users, several):
                results[user] = [Result(**json.loads(line)) for line in process.communicate()[0].splitlines()]
        finally:
            for process in several:
                process.kill()
                process.wait()
                ended(f"{process.pid}-", 0.0)
    return told_all(flags.point, results, flags.seed, time.monotonic() - begin, flags.verbose)


if __name__ == "__main__":
    sys.exit(main())
