"""Works out, from documents 01 and 02 alone, what the survey calls and the programs give."""

from __future__ import annotations

from collections.abc import Iterable
from struct import unpack
from typing import NamedTuple

import exact
import exact_esri
import exact_files
import metric
import outcomes
from exact import (
    GREATEST_VALUE,
    LEAST_VALUE,
    MOST_NEIGHBOURS,
    MOST_POINTS,
    Ends,
    Lookup,
    Point,
    Refused,
)
from exact_files import GREATEST_FILE, GRID_NUMBERS_BYTES, RECORD_BYTES, TRAILER_BYTES, Grid
from metric import Location
from outcomes import ACCEPTED, Choice, Outcome


def check_location(x: int, y: int) -> None:
    if not exact.on_domain(x, y):
        raise Refused(1)


def check_value(z: int) -> None:
    if not LEAST_VALUE <= z <= GREATEST_VALUE:
        raise Refused(2)


def check_lent(lent: int, needed: int) -> None:
    if lent < needed:
        raise Refused(8)


def answer(lookup: Lookup) -> Choice:
    return Choice(tuple(exact.permitted_answers(lookup)), exact.nearest_answer(lookup))


def two_bytes(number: int) -> bytes:
    return number.to_bytes(2, "big", signed=True)


def answer_bytes(lookup: Lookup) -> Choice:
    permitted = exact.permitted_answers(lookup)
    return Choice(tuple(map(two_bytes, permitted)), two_bytes(exact.nearest_answer(lookup)))


def answer_text(lookup: Lookup) -> Choice:
    permitted = exact.permitted_answers(lookup)
    nearest = exact_esri.decimal(exact.nearest_answer(lookup))
    return Choice(tuple(map(exact_esri.decimal, permitted)), nearest)


def found(lookup: Lookup, neighbours: tuple[exact.Neighbour, ...] = ()) -> Outcome:
    return Outcome((answer(lookup), len(lookup.neighbours), lookup.radius), neighbours)


class Filling(NamedTuple):
    """A grid being filled: the survey as it was at the begin, and the row to come next."""

    begun: Survey
    grid: Grid
    row: int


class Survey:
    """The points present; a call either acts or raises Refused and alters nothing.

    A call's method bears its name in operations.TABLE. What a call lends is told by its length.
    Beside the points there is at most one grid being filled.
    """

    def __init__(self) -> None:
        self.metric = metric.PLAIN
        self.filling: Filling | None = None
        self.replace([])

    def replace(self, points: Iterable[tuple[int, int, int]]) -> None:
        self.values: dict[Location, int] = {(x, y): z for x, y, z in points}
        self.altered()

    def altered(self) -> None:
        """Forget what was worked out from the points before."""
        self.ordered: list[Point] | None = None
        self.ends: Ends | None = None
        self.lookups: dict[Location, Lookup] = {}

    def copy(self) -> Survey:
        """Another survey with the same points and no grid being filled."""
        other = Survey()
        other.metric = self.metric
        other.replace(self.points())
        return other

    def points(self) -> list[Point]:
        """The points present, by ascending x, then y."""
        if self.ordered is None:
            self.ordered = [Point(x, y, z) for (x, y), z in sorted(self.values.items())]
        return self.ordered

    def exact_ends(self) -> Ends:
        if self.ends is None:
            self.ends = exact.ends(self.points())
        return self.ends

    def exact_lookup(self, x: int, y: int) -> Lookup:
        check_location(x, y)
        self.check_any()
        if (x, y) not in self.lookups:
            initial = self.exact_ends().initial_radius
            self.lookups[x, y] = exact.look_up(self.points(), initial, (x, y), self.metric)
        return self.lookups[x, y]

    def exact_cells(self, grid: Grid) -> list[Lookup]:
        return [self.exact_lookup(x, y) for x, y in exact_files.grid_locations(grid)]

    def exact_row(self, grid: Grid, row: int) -> list[Lookup]:
        return [self.exact_lookup(x, y) for x, y in exact_files.row_locations(grid, row)]

    def check_taken(self, x: int, y: int) -> None:
        if (x, y) not in self.values:
            raise Refused(4)

    def check_any(self) -> None:
        if not self.values:
            raise Refused(6)

    def check_filling(self) -> Filling:
        """The grid being filled, which has a row to come."""
        if self.filling is None or self.filling.row == self.filling.grid.rows:
            raise Refused(17)
        return self.filling

    # The calls.

    def add(self, x: int, y: int, z: int) -> Outcome:
        check_location(x, y)
        check_value(z)
        if (x, y) in self.values:
            raise Refused(3)
        if len(self.values) == MOST_POINTS:
            raise Refused(5)
        self.values[x, y] = z
        self.altered()
        return ACCEPTED

    def change(self, x: int, y: int, z: int) -> Outcome:
        check_location(x, y)
        check_value(z)
        self.check_taken(x, y)
        self.values[x, y] = z
        self.altered()
        return ACCEPTED

    def drop(self, x: int, y: int) -> Outcome:
        check_location(x, y)
        self.check_taken(x, y)
        del self.values[x, y]
        self.altered()
        return ACCEPTED

    def clear(self) -> Outcome:
        self.replace([])
        return ACCEPTED

    def load(self, data: bytes) -> Outcome:
        self.replace(exact_files.read_survey_file(data))
        return ACCEPTED

    def write(self, lent: int) -> Outcome:
        data = exact_files.survey_file(self.points())
        check_lent(lent, len(data))
        return Outcome((len(data),), (data,))

    def lookup(self, x: int, y: int) -> Outcome:
        return found(self.exact_lookup(x, y))

    def lookup_with_neighbours(self, x: int, y: int, lent: int) -> Outcome:
        lookup = self.exact_lookup(x, y)
        check_lent(lent, MOST_NEIGHBOURS)
        return found(lookup, lookup.neighbours)

    def grid(self, grid: Grid, lent: int) -> Outcome:
        exact_files.check_grid(grid)
        self.check_any()
        check_lent(lent, grid.columns * grid.rows)
        cells = tuple(map(answer, self.exact_cells(grid)))
        return Outcome((len(cells),), cells)

    def grid_file(self, grid: Grid, lent: int) -> Outcome:
        length = exact_files.grid_file_length(grid)
        exact_files.check_grid(grid)
        self.check_any()
        check_lent(lent, length)
        cells = map(answer_bytes, self.exact_cells(grid))
        return Outcome((length,), (*cells, exact_files.grid_trailer(grid)))

    def read_ends(self) -> Outcome:
        return Outcome(self.exact_ends())

    def esri_text(self, grid: Grid, lent: int) -> Outcome:
        """8 comes from here where not even the shortest of the permitted texts would fit."""
        exact_files.check_grid(grid)
        exact_esri.check_steps(grid)
        self.check_any()
        cells = list(map(answer_text, self.exact_cells(grid)))
        outcome = Outcome(filled=exact_esri.text(grid, cells), measured=True)
        check_lent(lent, outcomes.filled_units(outcome)[0])
        return outcome

    def begin_grid(self, grid: Grid) -> Outcome:
        exact_files.check_grid(grid)
        self.check_any()
        self.filling = Filling(self.copy(), grid, 0)
        return ACCEPTED

    def next_row(self, lent: int) -> Outcome:
        """The row's number and its cells, of the survey as it was at the begin."""
        begun, grid, row = filling = self.check_filling()
        check_lent(lent, grid.columns)
        cells = tuple(map(answer, begun.exact_row(grid, row)))
        self.filling = filling._replace(row=row + 1)
        return Outcome((row, len(cells)), cells)


def program_input(data: bytes) -> tuple[Survey, Grid]:
    """The survey and the grid of a program's whole input; the grid's own rules are not tried."""
    survey = Survey()
    survey.load(data)
    preamble = len(data) - TRAILER_BYTES - RECORD_BYTES * len(survey.values)
    if preamble < GRID_NUMBERS_BYTES:
        raise Refused(7)
    return survey, Grid(*unpack(">6H", data[:GRID_NUMBERS_BYTES]))


def grid_program(data: bytes) -> Outcome:
    """The grid file, from the whole input."""
    survey, grid = program_input(data)
    return survey.grid_file(grid, GREATEST_FILE)


def esri_program(data: bytes) -> Outcome:
    """The Esri text, from the whole input; it has room for every text."""
    survey, grid = program_input(data)
    return survey.esri_text(grid, GREATEST_FILE)
