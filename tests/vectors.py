"""Runs the rows of vectors.txt through shepard_replay and compares what comes, line by line."""

from __future__ import annotations

import argparse
import sys
from collections.abc import Iterator, Sequence
from itertools import zip_longest
from pathlib import Path
from typing import NamedTuple

import protocol
import vector_rows
from programs import excerpt, run_program
from protocol import Call
from vector_rows import Unreadable

TABLE = Path(__file__).with_name("vectors.txt")
CONTINUES = "then "
NONE = "no line"


class Row(NamedTuple):
    """Where a row stands, its left side, its lines, those under it included, and its calls."""

    number: int
    left: str
    lines: list[str]
    calls: list[Call]


# Reading the table.


def paragraphs(text: str) -> Iterator[list[tuple[int, str]]]:
    """The lines between empty ones, with their numbers; comments are left out."""
    lines: list[tuple[int, str]] = []
    for number, line in enumerate([*text.split("\n"), ""], 1):
        if line.strip():
            lines += [(number, line)] if not line.startswith("#") else []
        elif lines:
            yield lines
            lines = []


def read_row(number: int, line: str) -> Row:
    left, colon, _ = line.rpartition(": ")
    if not colon:
        raise Unreadable(f"{number}: {line}: no colon")
    try:
        return Row(number, left, [line], vector_rows.calls_of(left))
    except Unreadable as reason:
        raise Unreadable(f"{number}: {line}: {reason}") from None


def read_rows(lines: Sequence[tuple[int, str]]) -> list[Row]:
    """The rows of a section; an indented line belongs to the row above it."""
    rows: list[Row] = []
    for number, line in lines:
        if not line.startswith(" "):
            rows.append(read_row(number, line))
        elif rows:
            rows[-1].lines.append(line)
        else:
            raise Unreadable(f"{number}: {line}: no row above it")
    return rows


def read_table(text: str) -> list[list[Row]]:
    """The rows from one fresh survey to the next."""
    groups: list[list[Row]] = []
    for (_, heading), *lines in paragraphs(text):
        if not heading.startswith(CONTINUES) or not groups:
            groups.append([])
        groups[-1] += read_rows(lines)
    return groups


# Running it.


def lines_of(calls: Sequence[Call], came: Iterator[str]) -> list[list[str]]:
    """What came for each call."""
    wanted = [2 if call.operation.lent else 1 for call in calls]
    return [[next(came, "nothing") for _ in range(count)] for count in wanted]


def row_differences(row: Row, came: Iterator[str]) -> Iterator[str]:
    for lines in lines_of(row.calls, came):
        shown = vector_rows.shown(row.left, lines)
        wrong = [pair for pair in zip_longest(row.lines, shown) if pair[0] != pair[1]]
        for expected, found in wrong:
            yield f"line {row.number}: expected {expected or NONE}\n  came {found or NONE}"
        if wrong:
            return


def group_differences(rows: list[Row], command: Sequence[str]) -> Iterator[str]:
    calls = [call for row in rows for call in row.calls]
    run = run_program(command, b"".join(map(protocol.encode, calls)))
    *lines, unended = run.output.decode("ascii", "replace").split("\n")
    came = iter(lines)
    for row in rows:
        yield from row_differences(row, came)
    rest = [*came, unended]
    if rest != [""]:
        joined = "\n".join(rest)
        yield f"after line {rows[-1].number}: came {excerpt(joined)!r}"
    if run.trouble:
        yield f"lines {rows[0].number} to {rows[-1].number}{run.trouble}"


def differences(text: str, command: Sequence[str]) -> list[str]:
    try:
        groups = read_table(text)
    except Unreadable as reason:
        return [f"line {reason}"]
    return [each for rows in groups for each in group_differences(rows, command)]


def count_rows(text: str) -> int:
    return sum(map(len, read_table(text)))


def main(arguments: list[str]) -> int:
    parser = argparse.ArgumentParser(description=__doc__)
    parser.add_argument("replay_program")
    options = parser.parse_args(arguments)
    text = TABLE.read_text(encoding="utf-8")
    found = differences(text, [options.replay_program])
    print("\n".join(found) if found else f"{count_rows(text)} rows came as the table has them")
    return 1 if found else 0


if __name__ == "__main__":
    sys.exit(main(sys.argv[1:]))
