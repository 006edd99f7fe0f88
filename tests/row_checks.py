"""Holds the rows of a grid being filled against the same grid made in one go."""

from __future__ import annotations

from collections import Counter
from collections.abc import Iterator
from typing import NamedTuple

import exact_files
import mixed_calls
import pair_surveys
from checks import Difference
from exact import Point
from exact_files import Grid
from exact_survey import Survey
from journals import Journal
from programs import Run, excerpt
from protocol import Call

REFUSED = "refused"


class Row(NamedTuple):
    """A row of a grid and the points it is of: what settles its cells."""

    points: tuple[Point, ...]
    grid: Grid
    number: int


class Came(NamedTuple):
    """The cells that came for a row, the position of the call, and whether it filled that row."""

    row: Row
    cells: list[str]
    at: int
    filled: bool


def accepted_calls(journal: Journal, run: Run) -> Iterator[tuple[int, Call, list[str]]]:
    """Each accepted call with its position and what its lines show, of a sound run."""
    lines = iter(run.output.decode("ascii", "replace").split("\n"))
    for at, call in enumerate(journal.calls):
        reply = next(lines)
        lent = next(lines) if call.operation.lent else ""
        if not reply.startswith(REFUSED):
            yield at, call, [reply, lent]


def cells_of(line: str, grid: Grid, number: int) -> list[str]:
    """The cells of a row in a line of values, of which the first ones are those of row 0."""
    return line.split(" ")[1:][number * grid.columns : (number + 1) * grid.columns]


def rows_that_came(journal: Journal, run: Run) -> Iterator[Came]:
    """The rows of grids made in one go, and those filled one by one."""
    survey, begun = Survey(), None
    for at, call, (reply, lent) in accepted_calls(journal, run):
        if call.operation.alters:
            mixed_calls.follow(survey, call)
        if call.letter == "b":
            begun = tuple(survey.points()), Grid(*call.numbers)
        elif call.letter == "g":
            points, grid = tuple(survey.points()), Grid(*call.numbers[:6])
            for number in range(grid.rows):
                yield Came(Row(points, grid, number), cells_of(lent, grid, number), at, False)
        elif call.letter == "r" and begun:
            number = int(reply.split(" ")[1])
            yield Came(Row(*begun, number), cells_of(lent, begun[1], 0), at, True)


def count_held(counts: Counter[str], row: Row) -> None:
    survey = Survey()
    survey.replace(row.points)
    lookups = survey.exact_row(row.grid, row.number)
    counts["held row cells"] += len(lookups)
    counts["held row cells that are free"] += sum(map(pair_surveys.is_free, lookups))


def check_cells(one: Came, other: Came) -> None:
    """Hold the cells of a row that came twice against each other."""
    locations = exact_files.row_locations(one.row.grid, one.row.number)
    for (x, y), first, second in zip(locations, one.cells, other.cells, strict=True):
        if first != second:
            expected = f"as in call {one.at + 1}: {first} at {x} {y}"
            raise Difference(expected, f"{second} in {excerpt(' '.join(other.cells))}", other.at)


def check_rows(journal: Journal, run: Run, counts: Counter[str]) -> None:
    """Hold the rows of a run, which is sound by itself, to what came of the same grid before.

    Its cells are the same numbers, also where either of two may come.
    """
    if not any(call.letter == "r" for call in journal.calls):
        return
    seen: dict[Row, Came] = {}
    for came in rows_that_came(journal, run):
        first = seen.setdefault(came.row, came)
        if first.filled or came.filled:
            check_cells(first, came)
            if first is not came:
                count_held(counts, came.row)
