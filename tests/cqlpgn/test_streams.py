"""Reads and writes that fail after some bytes: what the whole batches give is written, or a front of it."""

from __future__ import annotations

import functools

import pytest
from model import program
from tests import failing
from tests.cqlpgn.conftest import Asks

WORKERS = pytest.mark.parametrize("workers", ["1", "4"])

# Exports and a report without a fault, of three games; and a batch whose first game is faulty.
INITIAL, THREE = b"cql() initial", b"* * *"
_, EXPORTS, REPORT = program.run_eval(INITIAL, THREE)
BATCH = b"1. e5 *\n" + b"*\n" * 1023


@WORKERS
@pytest.mark.parametrize("room", [0, 100, 199, len(EXPORTS) - 1])
def test_a_file_for_the_exports(ask: Asks, workers: str, room: int) -> None:
    asked = functools.partial(ask, "eval", INITIAL, "--workers", workers, data=THREE)
    assert failing.short(asked, room, "stdout") == (6, EXPORTS[:room], b"")


@WORKERS
@pytest.mark.parametrize("room", [0, 27, len(REPORT) - 1])
def test_a_file_for_the_report(ask: Asks, workers: str, room: int) -> None:
    asked = functools.partial(ask, "eval", INITIAL, "--workers", workers, data=THREE)
    assert failing.short(asked, room, "stderr") == (6, EXPORTS, REPORT[:room])


@WORKERS
def test_a_fault_behind_a_failed_write(ask: Asks, workers: str) -> None:
    """A failed write is the last one."""
    asked = functools.partial(ask, "eval", INITIAL, "--workers", workers, data=b"1. e5 *\n* 1. e6 *\n")
    assert failing.short(asked, 9, "stdout") == (6, EXPORTS[:9], b"game 1 byte 3: illegal move\n")


@WORKERS
@pytest.mark.parametrize("archive", [THREE, BATCH[:-2]], ids=["three", "almost-a-batch"])
def test_a_read_that_fails_in_the_first_batch(ask: Asks, workers: str, archive: bytes) -> None:
    with failing.input_of(archive) as end:
        assert ask("eval", INITIAL, "--workers", workers, stdin=end) == (5, b"", b"")


@WORKERS
def test_a_read_that_fails_behind_a_batch(ask: Asks, workers: str) -> None:
    _, exports, report = program.run_eval(INITIAL, BATCH)
    with failing.input_of(BATCH) as end:
        assert ask("eval", INITIAL, "--workers", workers, stdin=end) == (5, exports, report[: report.index(b"games ")])


def test_a_file_that_takes_a_front_of_the_usage_line(ask: Asks) -> None:
    assert failing.short(functools.partial(ask, "eval"), 7, "stderr") == (6, b"", program.USAGE[:7])


# A write that fails after each number of bytes: the other stream has a front.
FAULTY = b"1. e5 *\n* * 1. e6 *\n"
_, FAULTY_EXPORTS, FAULTY_REPORT = program.run_eval(INITIAL, FAULTY)


@pytest.mark.parametrize("room", range(len(FAULTY_EXPORTS)))
def test_each_number_of_bytes_of_exports(ask: Asks, room: int) -> None:
    status, taken, others = failing.short(functools.partial(ask, "eval", INITIAL, "--workers", "1", data=FAULTY), room, "stdout")
    assert (status, taken, FAULTY_REPORT.startswith(others)) == (6, FAULTY_EXPORTS[:room], True)


@pytest.mark.parametrize("room", range(len(FAULTY_REPORT)))
def test_each_number_of_bytes_of_a_report(ask: Asks, room: int) -> None:
    status, others, taken = failing.short(functools.partial(ask, "eval", INITIAL, "--workers", "1", data=FAULTY), room, "stderr")
    assert (status, taken, FAULTY_EXPORTS.startswith(others)) == (6, FAULTY_REPORT[:room], True)


# A read that fails within three batches, and behind a first match: what the whole batches before it give is written.
PAWN, BAD, MATCH = b"cql() Pd4", b"1. e5 *", b"1. d4 *"
WHOLE = BAD + MATCH + b"*" * 1022
SIZES = {*range(0, 2 * len(WHOLE) + len(MATCH), 103), *(full + more for full in (len(WHOLE), 2 * len(WHOLE)) for more in (-1, 0, 1))}


@WORKERS
@pytest.mark.parametrize("size", sorted(SIZES))
def test_a_read_that_fails_behind_batches(ask: Asks, workers: str, size: int) -> None:
    archive = WHOLE * 2 + MATCH
    _, exports, report = program.run_eval(PAWN, archive[: size // len(WHOLE) * len(WHOLE)])
    with failing.input_of(archive[:size]) as end:
        assert ask("eval", PAWN, "--workers", workers, stdin=end) == (5, exports, report[: report.index(b"games ")])


@WORKERS
def test_no_read_behind_the_batch_of_the_first_match(ask: Asks, workers: str) -> None:
    archive = b"*" + BAD + b"*" * 1021 + MATCH
    with failing.input_of(archive) as end:
        assert ask("eval", PAWN, "--workers", workers, "--first", stdin=end) == program.run_eval(PAWN, archive, first=True)


@WORKERS
def test_a_read_that_fails_before_the_first_match(ask: Asks, workers: str) -> None:
    with failing.input_of(b"*" + BAD + b"*" * 1022 + MATCH) as end:
        assert ask("eval", PAWN, "--workers", workers, "--first", stdin=end) == (5, b"", b"game 2 byte 4: illegal move\n")
