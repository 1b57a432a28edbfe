#!/usr/bin/env python3
"""Prints as tables what cqlpgn-problems writes of files, by the kind of the stipulation, and how long the main lines are.

    bench/problems.py FILE..

bench/problems.sh runs it over the files that it fetches.
"""

from __future__ import annotations

import os
import sys
from collections import Counter, defaultdict

sys.dont_write_bytecode = True
sys.path.insert(0, os.path.join(os.path.dirname(os.path.realpath(__file__)), "..", "python", "src"))

from cqlpgn.problems.convert import BY_BLACK, Converter, Game, Left, stipulation  # noqa: E402
from cqlpgn.problems.faults import BadDiagram, FairyCondition, FairyMan, NoSolution, OtherStipulation  # noqa: E402
from cqlpgn.problems.records import Record, records  # noqa: E402
from cqlpgn.problems.tree import main_line, walk  # noqa: E402

NAMES = {"#": "`#n`", "h#": "`h#n`", "s#": "`s#n`", "r#": "`r#n`", "+": "`+`", "=": "`=`", "other": "others"}


def kind(record: Record) -> str:
    """The kind of what the record asks for."""
    try:
        return stipulation(BY_BLACK.sub("", record.stipulation)).kind
    except OtherStipulation:
        return "other"


def group(outcomes: list[Game | Left]) -> str:
    """Which column a record counts in."""
    faults = [one.fault for one in outcomes if isinstance(one, Left)]
    if not faults:
        return "whole"
    if len(faults) < len(outcomes):
        return "in part"
    if isinstance(faults[0], (FairyMan, FairyCondition, BadDiagram, OtherStipulation)):
        return "not chess"
    return "no solution" if isinstance(faults[0], NoSolution) else "not"


def length(game: Game) -> str:
    """The length of a main line beside the stipulation's."""
    line = main_line(game.root)
    mates = any(node.mates for node in walk(game.root.children[0]))
    if len(line) == game.asked.plies and line[-1].mates:
        return "as stipulated"
    if line[-1].mates:
        return "a mate before" if len(line) < game.asked.plies else "a mate after"
    if len(line) == 1:
        return "the key alone"
    return "breaks off, a variation mates" if mates else "breaks off"


def table(columns: dict[str, Counter[str]]) -> None:
    """A row for each kind; the share is that of records with a solution."""
    print("| Kind | Records | Not chess | No solution | With a solution | Whole | In part | Not | Whole, of 100 with a solution | Games |")
    print("|---|---:|---:|---:|---:|---:|---:|---:|---:|---:|")
    for name, shown in NAMES.items():
        count = columns[name]
        solved = count["whole"] + count["in part"] + count["not"]
        share = f"{100 * count['whole'] / solved:.1f}" if solved else "-"
        fields = [count.total() - count["games"], count["not chess"], count["no solution"], solved]
        fields += [count["whole"], count["in part"], count["not"]]
        print(f"| {shown} | " + " | ".join(f"{number:,}" for number in fields) + f" | {share} | {count['games']:,} |")


def main(names: list[str]) -> None:
    """Prints the tables of these files."""
    columns: dict[str, Counter[str]] = defaultdict(Counter)
    lengths: dict[str, list[str]] = defaultdict(list)
    largest = 0
    for name in names:
        with open(name, "rb") as file:
            data = file.read()
        for record in records(data):
            if not isinstance(record, Record):
                print(f"{os.path.basename(name)} {record.number}: {record.fault}")
                continue
            outcomes = list(Converter(record, name).games())
            games = [one for one in outcomes if isinstance(one, Game)]
            columns[kind(record)].update({group(outcomes): 1, "games": len(games)})
            for game in games:
                largest = max(largest, sum(1 for _ in walk(game.root)))
                if game.asked.plies:
                    lengths[length(game)].append(f"{os.path.basename(name).removesuffix('.olv')} {record.number}")
    table(columns)
    print(f"\nThe largest tree has {largest} positions.\n")
    for said, found in lengths.items():
        print(f"{said}: {len(found):,}" + ("" if said == "as stipulated" else f" ({', '.join(found)})"))


main(sys.argv[1:])
