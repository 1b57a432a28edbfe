"""Files that are written: what they replace, what is in them, and whose they are."""

from __future__ import annotations

import json
import os
from collections.abc import Iterator, Sequence
from itertools import product
from pathlib import Path

from .asking import Bounds, Place, Seen, ask
from .inputs import GAME, MARKED, PROBLEM, QUERY, packed, written

NOBODY = 65534


def _indexed(place: Place, folder: Path) -> tuple[Path, Path]:
    """Games with the index that `--number` writes."""
    written(folder / "a.pgn", GAME * 2)
    seen = ask(place, place.command("over", "--number", "-o", "m.pgn", QUERY, "a.pgn"), cwd=folder)
    if seen.status or not (folder / "m.pgn.csv").exists():
        return Path(written(folder / "m.pgn", MARKED * 2)), Path(
            written(folder / "m.pgn.csv", b"found,archive,game\r\n1,a.pgn,1\r\n2,a.pgn,2\r\n")
        )
    return folder / "m.pgn", folder / "m.pgn.csv"


def indexes(place: Place) -> Iterator[str]:
    """Point 6: rows that replace the index they read, and an index that belongs to other games."""
    names = ("m.pgn.csv", "./m.pgn.csv", "../{}/m.pgn.csv", "{}/m.pgn.csv", "link", "hard", "d/../m.pgn.csv", "//proc/self/cwd/m.pgn.csv")
    for name, kind in [*product(names, ("--csv",)), ("m.pgn.csv", "--json"), ("m.pgn.csv", "--epd"), ("link", "--json")]:
        folder = place.folder()
        _, index = _indexed(place, folder)
        (folder / "d").mkdir()
        (folder / "link").symlink_to("m.pgn.csv")
        os.link(index, folder / "hard")
        before, told = index.read_bytes(), name.format(folder.name if name.startswith("..") else folder)
        seen = ask(place, place.command("rows", kind, "m.pgn", "-o", told), cwd=folder)
        is_kept = index.read_bytes() == before and not (name == "hard" and seen.status == 0)
        yield "" if is_kept else f"rows {kind} -o {name}: status {seen.status}, and the index is replaced"
    for options in ("", "--json", "--epd", "--index m.pgn.csv"):
        folder = place.folder()
        games, _ = _indexed(place, folder)
        written(games, (MARKED.replace(b'"A"', b'"Other"')) * 2)
        seen = ask(place, place.command("rows", *options.split(), "m.pgn"), cwd=folder)
        is_wrong = b"a.pgn" in seen.out and not seen.err
        yield f"rows {options}: games of another day are said to be of a.pgn, in silence" if is_wrong else ""
    folder = place.folder()
    games, index = _indexed(place, folder)
    written(folder / "b.pgn", GAME * 5)
    ask(place, place.command("over", "-o", "m.pgn", QUERY, "b.pgn"), cwd=folder)
    seen = ask(place, place.command("rows", "m.pgn"), cwd=folder)
    yield "-o without --number leaves an index that no longer belongs" if index.exists() and b"a.pgn" in seen.out and not seen.err else ""


def outside_quotes(text: str) -> str:
    """The first `;` or tab of a CSV that no quotes hold, with what stands around it."""
    quoted = False
    for at, letter in enumerate(text):
        if letter == '"':
            quoted = not quoted
        elif letter in ";\t" and not quoted:
            return text[max(0, at - 10) : at + 20]
    return ""


def cells(place: Place) -> Iterator[str]:
    """Point 12: cells that `;` and tab begin elsewhere, and rows of JSON that are none."""
    folder = place.folder()
    for letter, tag in product((";", "\t"), ("White", "Event", "Site", "comments")):
        text = f"x{letter}=1+1".encode()
        game = MARKED.replace(b'"A"', b'"' + text + b'"').replace(b'"E"', b'"' + text + b'"').replace(b"{CQL}", b"{CQL} {" + text + b"}")
        written(folder / "c.pgn", b'[Site "' + text + b'"]\n' + game)
        seen = ask(place, place.command("rows", "--columns", f"fen,{tag}", "c.pgn"), cwd=folder)
        found = outside_quotes(seen.out.decode("utf-8", "replace"))
        yield f"{tag} of a CSV begins a cell: {found!r}" if found else ""
    for letter in (";", "\t"):
        name = f"n{letter}=1+1.pgn"
        written(folder / name, GAME)
        seen = ask(place, place.command("over", "-c", "--number", QUERY, name), cwd=folder)
        found = outside_quotes(seen.out.decode("utf-8", "replace"))
        yield f"a name in --number begins a cell: {found!r}" if found else ""
    written(folder / "c.pgn", MARKED)
    for number, raw in enumerate((b"\xff", b"\xc3", b"\xed\xa0\x80", b"a\x80b")):
        written(folder / "i.csv", b"found,archive,game\r\n1," + raw + b",1\r\n")
        for words in (["--columns", os.fsdecode(b"archive," + raw)], ["--index", "i.csv"], ["--index", "i.csv", "--columns", "archive"]):
            seen = ask(place, place.command("rows", "--json", *words, "c.pgn"), cwd=folder)
            yield f"a row of JSON that is none ({number}): {seen.out[:80]!r}" if not _is_json(seen.out) else ""


def _is_json(data: bytes) -> bool:
    try:
        for line in data.decode("utf-8", "strict").splitlines():
            json.loads(line)
    except ValueError:
        return False
    return True


def _many(*games: bytes) -> bytes:
    """What `cqlpgn many` writes."""
    return b"".join(b"query %d bytes %d\n%s" % (number, len(game), game) for number, game in enumerate(games, 1))


def _kept(before: dict[Path, bytes], seen: Seen, told: str) -> str:
    """What is to be said where files are others than they were, though the run has failed, or should have."""
    lost = [path.name for path, data in before.items() if not path.exists() or path.read_bytes() != data]
    return f"{told}: status {seen.status}, and {', '.join(lost)} is another file now" if lost else ""


def _as_nobody(words: Sequence[str]) -> list[str]:
    return ["setpriv", f"--reuid={NOBODY}", f"--regid={NOBODY}", "--clear-groups", "--", *words]


def _own_input(place: Place) -> Iterator[str]:
    for name, prefix in product(("s01.pgn", "s02.pgn", "link", "hard"), ("s", "./s")):
        folder = place.folder()
        data = _many(GAME, GAME * 2)
        written(folder / "s01.pgn", data)
        written(folder / "s02.pgn", data)
        (folder / "link").symlink_to("s01.pgn")
        os.link(folder / "s02.pgn", folder / "hard")
        before = {folder / one: data for one in ("s01.pgn", "s02.pgn")}
        seen = ask(place, place.command("split", prefix), cwd=folder, redirect=f"< {name}")
        yield _kept(before, seen, f"cqlpgn-split {prefix} < {name}")


def _one_file(place: Place) -> Iterator[str]:
    folder = place.folder()
    written(folder / "s01.pgn", b"old\n")
    (folder / "s02.pgn").symlink_to("s01.pgn")
    seen = ask(place, place.command("split", "s"), cwd=folder, data=_many(GAME, GAME * 2))
    yield "" if seen.status else "s02.pgn is a link to s01.pgn: one answer is lost, with status 0"
    written(folder / "a.pgn", GAME)
    written(folder / "q.cql", f"{QUERY}\n%%\ncql() check\n".encode())
    seen = ask(place, place.command("over", "--many", "q.cql", "-o", "s", "a.pgn"), cwd=folder)
    yield "" if seen.status else "--many -o s with s02.pgn a link to s01.pgn: one answer is lost, with status 0"
    written(folder / "m.pgn", b"old\n")
    (folder / "m.pgn.csv").symlink_to("m.pgn")
    seen = ask(place, place.command("over", "--number", "-o", "m.pgn", QUERY, "a.pgn"), cwd=folder)
    yield "" if seen.status else "--number -o m.pgn with m.pgn.csv a link to it: the games are lost, with status 0"


def _bits(place: Place) -> Iterator[str]:
    folder = place.folder()
    written(folder / "a.pgn", GAME)
    written(folder / "m.pgn", MARKED)
    written(folder / "p.olv", PROBLEM)
    calls = [
        ("over", QUERY, "a.pgn", "-o", "out"),
        ("rows", "m.pgn", "-o", "out"),
        ("diagrams", "m.pgn", "-o", "out"),
        ("problems", "p.olv", "-o", "out"),
    ]
    for call, mode in product(calls, (0o6755, 0o4711)):
        out = Path(written(folder / "out", b"#!/bin/sh\n"))
        out.chmod(mode)
        ask(place, place.command(*call), cwd=folder)
        kept = out.stat().st_mode & 0o6000
        yield f"cqlpgn-{call[0]} keeps the bits {kept:o} of the file that it replaces" if kept and out.read_bytes()[:2] != b"#!" else ""


def _sticky(place: Place) -> Iterator[str]:
    """A folder as /tmp, in which a link of another user leads to one's own file; and one in which only the first name can be replaced."""
    if os.geteuid():
        return
    for name in ("01", "02"):
        folder = place.folder()
        folder.chmod(0o1777)
        victim = Path(written(place.work / f"victim{name}", b"mine\n"))
        (folder / f"s{name}.pgn").symlink_to(victim)
        os.chown(folder / f"s{name}.pgn", NOBODY, NOBODY, follow_symlinks=False)
        seen = ask(place, place.command("split", "s"), cwd=folder, data=_many(GAME, GAME))
        yield _kept({victim: b"mine\n"}, seen, f"s{name}.pgn is another's link in a sticky folder")
        folder = place.folder()
        folder.chmod(0o1777)
        one, other = Path(written(folder / "s01.pgn", b"one\n")), Path(written(folder / "s02.pgn", b"two\n"))
        os.chown(one, NOBODY, NOBODY)
        os.chmod(other, 0o666)
        seen = ask(place, _as_nobody(place.command("split", "s")), cwd=folder, data=_many(GAME, GAME))
        yield _kept({one: b"one\n", other: b"two\n"}, seen, "the second rename fails") if seen.status else ""


def replaced(place: Place) -> Iterator[str]:
    """Point 16: inputs that are replaced, two names of one file, renames that fail, bits of modes, links of other users."""
    yield from _own_input(place)
    yield from _one_file(place)
    yield from _bits(place)
    yield from _sticky(place)


def _is_whole(data: bytes) -> bool:
    """Whether there are whole games alone: tags, an empty line, moves, an empty line."""
    return not data or data.endswith(b"\n\n") and data.count(b"\n\n") % 2 == 0 and data.split(b"\n\n")[-2].startswith((b"1. ", b"{"))


def partial(place: Place) -> Iterator[str]:
    """Point 20: what `--keep-partial` keeps, where the file takes so many bytes, the archive ends too soon, or the engine is killed."""
    folder = place.folder()
    data = b"".join(GAME.replace(b'"E"', b'"%d"' % number) for number in range(3000))
    written(folder / "a.pgn", data)
    whole = packed(folder / "b.pgn.gz", data)
    for size, words in product((4096, 5000, 7777, 10001, 16384, 20011, 32768, 40003), ("", "-j 2 ")):
        out = folder / "out.pgn"
        out.unlink(missing_ok=True)
        call = place.command("over", *words.split(), "--keep-partial", "-o", "out.pgn", QUERY, "a.pgn", "a.pgn")
        seen = ask(place, call, cwd=folder, bounds=Bounds(size=size))
        kept = out.read_bytes() if out.exists() else b""
        told = f"{words}a file of {size} bytes at most: status {seen.status}"
        yield "" if _is_whole(kept) else f"{told}, and the games end with {kept[-30:]!r}"
    for cut in (3000, 2000, 1000, 500):
        written(folder / "c.pgn.gz", Path(whole).read_bytes()[:cut])
        (folder / "out.pgn").unlink(missing_ok=True)
        ask(place, place.command("over", "--keep-partial", "-o", "out.pgn", QUERY, "c.pgn.gz"), cwd=folder)
        kept = (folder / "out.pgn").read_bytes() if (folder / "out.pgn").exists() else b""
        yield "" if _is_whole(kept) else f"an archive that is cut off: the games end with {kept[-30:]!r}"
