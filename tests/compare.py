"""Compares shepard_grid, shepard_replay and shepard_esri with what documents 01 and 02 permit."""

from __future__ import annotations

import argparse
import sys
import tempfile
from collections import Counter
from collections.abc import Iterable, Sequence
from pathlib import Path
from random import Random
from typing import NamedTuple

import generator
import journals
import operations
import pair_checks
import protocol
import row_checks
from checks import Difference, check_esri_text, check_grid_file, check_replies
from generator import Test
from grid_inputs import GridInput
from journals import Journal
from pair_journals import Pair
from programs import SECONDS, Run, run_program
from protocol import Call

SAMPLE = Path(__file__).parent.parent / "sample" / "worn_drive.rls"
SEED = 1968
# The least that a run must compare; of any other counted call, LEAST.
LEAST = 200
MINIMA = {
    "lookups": 20_000,
    "ends": 2_000,
    "damaged files": 2_000,
    "damaged grid inputs": 300,
    "call lists": 300,
    "grid cells": 10_000,
    "esri texts by program": LEAST,
    "esri cells": 10_000,
    "rows": 1_500,
    "row cells": 5_000,
    "held row cells": 4_000,
    "held row cells that are free": LEAST,
    "pairs": LEAST,
    "pair answers": 1_500,
    "pair answers that are free": 500,
    "pair cells": 2_500,
    "pair cells that are free": 400,
}
MINIMA |= {each.counted: LEAST for each in operations.TABLE if each.counted not in ("", *MINIMA)}

Command = Sequence[str]


class Programs(NamedTuple):
    grid: Command
    replay: Command
    esri: Command


class Found(Exception):
    """A difference with the input that shows it, in a form to read and in the files at `paths`."""

    def __init__(self, kind: str, difference: Difference, shown: list[str], *paths: str) -> None:
        super().__init__(kind, difference)
        self.kind = kind
        self.difference = difference
        self.shown = shown
        self.paths = paths


def check_journal(journal: Journal, command: Command, seconds: int, counts: Counter[str]) -> Run:
    """Gives what the program wrote."""
    run = run_program(command, journals.encode(journal), seconds)
    check_replies(journal, run, counts)
    row_checks.check_rows(journal, run, counts)
    return run


def shorten(
    journal: Journal, difference: Difference, command: Command, seconds: int
) -> tuple[Journal, Difference]:
    """The calls up to the failing one; without those that only ask, if it fails then too.

    What a row is held against can be a grid, so that these are tried to be kept as well.
    """
    if difference.at is None:
        return journal, difference
    *before, failing = journal.calls[: difference.at + 1]
    for kept in ("", "g"):
        needed = [call for call in before if call.operation.followed or call.letter in kept]
        short = Journal(journal.kind, [*needed, failing])
        try:
            check_journal(short, command, seconds, Counter())
        except Difference as again:
            return short, again
    return Journal(journal.kind, [*before, failing]), difference


def keep(data: bytes, suffix: str) -> str:
    """Write the input that shows a difference; gives its path."""
    handle, path = tempfile.mkstemp(suffix, "shepard-difference-")
    with open(handle, "wb") as file:
        file.write(data)
    return path


def shown_calls(calls: Iterable[Call]) -> list[str]:
    return [protocol.describe(call) for call in calls]


def found_in_journal(
    journal: Journal, difference: Difference, command: Command, seconds: int
) -> Found:
    journal, difference = shorten(journal, difference, command, seconds)
    shown = shown_calls(journal.calls)
    if journal.bad:
        shown.append("bad end " + protocol.hexadecimal(journal.bad))
    return Found(journal.kind, difference, shown, keep(journals.encode(journal), ".journal"))


def found_in_input(test: GridInput, difference: Difference, program: str) -> Found:
    shown = [f"input of {program} {protocol.hexadecimal(test.data)}"]
    return Found(test.kind, difference, shown, keep(test.data, ".survey"))


def check_pair(pair: Pair, command: Command, seconds: int, counts: Counter[str]) -> None:
    one, other = (check_journal(each, command, seconds, counts) for each in pair.journals())
    pair_checks.check_pair(pair, (one, other), counts)


def shorten_pair(
    pair: Pair, difference: Difference, command: Command, seconds: int
) -> tuple[Pair, Difference]:
    """The one question; without calls that only ask, if the two journals differ then too."""
    assert difference.at is not None
    upto = pair._replace(asked=pair.asked[: difference.at + 1])
    one, other = ([call for call in calls if call.operation.followed] for calls in pair[1:3])
    asked = upto.asked[-1:]
    for short in (Pair(pair.kind, one, other, asked), pair._replace(asked=asked)):
        try:
            check_pair(short, command, seconds, Counter())
        except Difference as again:
            return short, again
    return upto, difference


def found_in_pair(pair: Pair, difference: Difference, command: Command, seconds: int) -> Found:
    """Both journals are shown and kept."""
    pair, difference = shorten_pair(pair, difference, command, seconds)
    shown = ["the first journal:", *shown_calls(pair.one), "the second journal:"]
    shown += [*shown_calls(pair.other), "both then:", *shown_calls(pair.asked)]
    paths = [keep(journals.encode(each), ".journal") for each in pair.journals()]
    return Found(pair.kind, difference, shown, *paths)


def run_journal(test: Journal, command: Command, seconds: int, counts: Counter[str]) -> Run:
    try:
        return check_journal(test, command, seconds, counts)
    except Difference as difference:
        raise found_in_journal(test, difference, command, seconds) from None


def run_pair(test: Pair, command: Command, seconds: int, counts: Counter[str]) -> None:
    """Each journal by itself, and the one against the other."""
    one, other = (run_journal(each, command, seconds, counts) for each in test.journals())
    try:
        pair_checks.check_pair(test, (one, other), counts)
    except Difference as difference:
        raise found_in_pair(test, difference, command, seconds) from None


def run_input(test: GridInput, programs: Programs, seconds: int, counts: Counter[str]) -> None:
    """Both programs that read such an input are put to it."""
    for name, command, check in (
        ("shepard_grid", programs.grid, check_grid_file),
        ("shepard_esri", programs.esri, check_esri_text),
    ):
        try:
            check(test, run_program(command, test.data, seconds), counts)
        except Difference as difference:
            raise found_in_input(test, difference, name) from None


def run_tests(tests: Iterable[Test], programs: Programs, seconds: int = SECONDS) -> Counter[str]:
    """The numbers of what was compared; Found comes out at the first difference."""
    counts: Counter[str] = Counter()
    for test in tests:
        if isinstance(test, Journal):
            run_journal(test, programs.replay, seconds, counts)
        elif isinstance(test, Pair):
            run_pair(test, programs.replay, seconds, counts)
        else:
            run_input(test, programs, seconds, counts)
    return counts


def report(found: Found) -> str:
    lines = [f"difference in a test of the kind: {found.kind}", *found.shown]
    lines += [f"expected: {found.difference.expected}", f"came:     {found.difference.came}"]
    return "\n".join([*lines, *(f"input kept in {path}" for path in found.paths)])


def too_few(counts: Counter[str]) -> list[str]:
    return [f"{name} below {least}" for name, least in MINIMA.items() if counts[name] < least]


def main(arguments: list[str]) -> int:
    parser = argparse.ArgumentParser(description=__doc__)
    parser.add_argument("grid_program")
    parser.add_argument("replay_program")
    parser.add_argument("esri_program")
    parser.add_argument("--seed", type=int, default=SEED)
    options = parser.parse_args(arguments)
    commands = (options.grid_program, options.replay_program, options.esri_program)
    sample = GridInput("sample survey", SAMPLE.read_bytes())
    tests = [sample, *generator.make(Random(options.seed))]
    try:
        counts = run_tests(tests, Programs(*([command] for command in commands)))
    except Found as found:
        print(report(found))
        return 1
    missing = too_few(counts)
    print(", ".join([f"{name} {counts[name]}" for name in MINIMA] + missing))
    return 1 if missing else 0


if __name__ == "__main__":
    sys.exit(main(sys.argv[1:]))
