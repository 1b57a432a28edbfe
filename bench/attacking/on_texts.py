"""Texts: names that a terminal would obey, records that take long, and pages that take much."""

from __future__ import annotations

from collections.abc import Iterator
from itertools import product

from .asking import OBEYED, Place, Seen, ask
from .inputs import ESCAPES, MARKED, QUERY, packed, written


def _obeyed(seen: Seen, told: str) -> str:
    for stream, data in (("standard error", seen.err), ("standard output", seen.out)):
        if found := OBEYED.search(data):
            return f"{told}: {data[max(0, found.start() - 20):][:50]!r} on {stream}"
    return ""


def obeyed(place: Place) -> Iterator[str]:
    """Point 14: control sequences in names, words, queries and records, on standard error, and on standard output where names are told."""
    folder = place.folder()
    for escape in ESCAPES:
        faulty = written(folder / f"q{escape}.cql", f"cql() {escape} nonsense".encode())
        well = written(folder / f"w{escape}.cql", b"cql() mate")
        archive = written(folder / f"a{escape}.pgn", MARKED + b"[x")
        broken = written(folder / f"b{escape}.zip", b"PK")
        calls: list[list[str]] = [
            ["over", "--check", faulty, well],
            ["over", "--check", f"cql() {escape}"],
            ["over", f"--x{escape}", QUERY],
        ]
        calls += [
            ["over", "-c", QUERY, archive, broken, f"none{escape}"],
            ["over", "-j", f"1{escape}", QUERY],
            ["over", "--limit", escape, QUERY, archive],
        ]
        calls += [
            ["rows", f"--{escape}"],
            ["rows", "--index", f"no{escape}", archive],
            ["rows", "--columns", escape, "-o", f"no/{escape}", archive],
        ]
        calls += [
            ["diagrams", f"--flip={escape}", archive],
            ["diagrams", f"none{escape}"],
            ["problems", f"none{escape}"],
            ["split", escape, escape],
        ]
        calls += [
            ["desk", f"none{escape}"],
            ["desk", f"--port={escape}"],
            ["run-over", f"none{escape}", archive],
            ["run-over", QUERY, f"none{escape}"],
        ]
        calls += [
            ["run-over", f"--x{escape}", QUERY, archive],
            ["run-over", "--engine", f"none{escape}", QUERY, archive],
            ["join", f"none{escape}"],
        ]
        calls += [["run-over", "--table", faulty, QUERY, archive]]
        for call in calls[:: 4 if place.is_quick else 1]:
            seen = ask(place, place.command(*call), cwd=folder)
            yield _obeyed(seen, f"cqlpgn-{call[0]} {escape!r}")


def _record(white: str, stipulation: str, solution: str) -> bytes:
    return f'algebraic: {{white: [{white}], black: [Kb8]}}\nstipulation: "{stipulation}"\nsolution: "{solution}"\n'.encode()


def slow_problems(place: Place) -> Iterator[str]:
    """Point 18: records of a hundred bytes that have many moves, and many comments at one move."""
    men = ("Kb6, Qh1", "Kd6, Qh1, Qg1", "Kb6, Rh1, Ra1")
    lines = (
        "1.Q~ K~ 2.Q~ K~ 3.Q~",
        "1.Q~ K~ 2.Q~ K~ 3.Q~ K~ 4.Q~",
        "1.Q~ ~ 2.Q~ ~ 3.Q~",
        "1.~ 2.Q~ 3.Q~ 4.Q~",
        "1.K~ K~ 2.K~ K~ 3.K~ K~ 4.K~",
    )
    for white, line in product(men, lines):
        data = _record(white, "#4", line.replace("Q", "R") if "Q" not in white else line)
        path = written(place.work / "p.olv", data)
        seen = ask(place, place.command("problems", path), patience=40)
        yield f"{len(data)} bytes take {seen.work:.1f} s of a processor: {line}" if seen.is_hung or seen.work > 2 else ""
    forms = ("{{a{}}} ", "word{} {{b}} ", "{{{} a}} ! ")
    for form in forms:
        seconds = []
        for count in (4000, 16000):
            solution = "1.Qh8# " + "".join(form.format(number) for number in range(count))
            path = written(place.work / "p.olv", _record("Kb6, Qh1", "#1", solution))
            seconds.append(ask(place, place.command("problems", path), patience=60).work)
        is_slow = seconds[1] > 2 and seconds[1] > 7 * seconds[0]
        yield f"comments at one move: 4,000 take {seconds[0]:.1f} s, 16,000 take {seconds[1]:.1f} s" if is_slow else ""


def large_pages(place: Place) -> Iterator[str]:
    """Point 19: pages of very many games; memory must not grow with them, or a bound is said."""
    made: dict[tuple[int, str], str] = {}
    for count in (500, 5000):
        made[count, "plain"] = written(place.work / f"m{count}.pgn", MARKED * count)
        made[count, "packed"] = packed(place.work / f"m{count}.pgn.gz", MARKED * count)
        # many moves, few boards
        long = b"1. Nf3 Nf6 2. Ng1 Ng8 " + b" ".join(b"%d. Nf3 Nf6 %d. Ng1 Ng8" % (n, n + 1) for n in range(3, 80, 2))
        game = b'[White "A"]\n\n' + long.replace(b"Nf6", b"Nf6 {CQL}", 1) + b" *\n\n"
        made[count, "long"] = written(place.work / f"l{count}.pgn", game * (count // 5))
    words: tuple[list[str], ...] = ([], ["--tex"], ["--exercises"], ["--coordinates", "--flip", "side-to-move"])
    for kind, call in product(("plain", "packed", "long"), words):
        if call and kind == "packed" and place.is_quick:
            continue
        small, large = (ask(place, place.command("diagrams", *call, made[count, kind]), patience=90) for count in (500, 5000))
        said = large.memory > small.memory + 12 and b"most" not in large.err
        told = f"diagrams {' '.join(call)}, {kind}: {small.memory:.0f} MB, and {large.memory:.0f} MB for ten times as many games"
        yield told if said and not _is_bounded(large) else ""


def _is_bounded(seen: Seen) -> bool:
    """Whether the command has said that there is a bound, instead of writing all."""
    return bool(seen.err.strip()) and b"position has the comment" not in seen.err
