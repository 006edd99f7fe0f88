"""Plants faults in survey calls and grids."""

from __future__ import annotations

from collections.abc import Callable

import exact
import exact_files
import exact_survey
from exact import Lookup
from exact_files import Grid
from exact_survey import Survey
from faults import fault
from outcomes import Outcome


@fault("load clears", "damaged files")
def load_clears() -> None:
    right = exact_survey.Survey.load

    def wrong(self: Survey, data: bytes) -> Outcome:
        self.clear()
        return right(self, data)

    exact_survey.Survey.load = wrong


@fault("load merges", "mixed calls")
def load_merges() -> None:
    right = exact_survey.Survey.load

    def wrong(self: Survey, data: bytes) -> Outcome:
        before = [(*location, z) for location, z in self.values.items()]
        outcome = right(self, data)
        self.replace(before + self.points())
        return outcome

    exact_survey.Survey.load = wrong


@fault("6 before 7", "grids")
def six_before_seven() -> None:
    right = exact_survey.Survey.grid, exact_survey.Survey.grid_file

    def first(call: Callable[[Survey, Grid, int], Outcome]) -> Callable[..., Outcome]:
        def wrong(self: Survey, grid: Grid, lent: int) -> Outcome:
            self.check_any()
            return call(self, grid, lent)

        return wrong

    exact_survey.Survey.grid, exact_survey.Survey.grid_file = first(right[0]), first(right[1])


@fault("8 before 6", "mixed calls")
def eight_before_six() -> None:
    right = exact_survey.Survey.lookup_with_neighbours

    def wrong(self: Survey, x: int, y: int, lent: int) -> Outcome:
        exact_survey.check_location(x, y)
        exact_survey.check_lent(lent, exact.MOST_NEIGHBOURS)
        return right(self, x, y, lent)

    exact_survey.Survey.lookup_with_neighbours = wrong


@fault("8 before 6 in grids", "grids")
def eight_before_six_in_grids() -> None:
    right = exact_survey.Survey.grid_file

    def wrong(self: Survey, grid: Grid, lent: int) -> Outcome:
        exact_files.check_grid(grid)
        exact_survey.check_lent(lent, exact_files.grid_file_length(grid))
        return right(self, grid, lent)

    exact_survey.Survey.grid_file = wrong


@fault("cells by columns", "grids")
def cells_by_columns() -> None:
    right = exact_files.grid_locations
    exact_files.grid_locations = lambda grid: sorted(right(grid))


@fault("last wraps", "grids")
def last_wraps() -> None:
    """The last column and row are worked out in 16 bits."""

    def wrong(grid: Grid) -> None:
        last_x = (grid.x0 + (grid.columns - 1) * grid.step_x) % 65_536
        last_y = (grid.y0 + (grid.rows - 1) * grid.step_y) % 65_536
        steps = min(grid.step_x, grid.step_y) >= 1
        sides = 1 <= min(grid.columns, grid.rows) and max(grid.columns, grid.rows) <= 64
        if not (steps and sides and exact.on_domain(last_x, last_y)):
            raise exact.Refused(7)

    exact_files.check_grid = wrong


@fault("full at 255", "full survey")
def full_at_255() -> None:
    right = exact_survey.Survey.add

    def wrong(self: Survey, x: int, y: int, z: int) -> Outcome:
        outcome = right(self, x, y, z)
        if len(self.values) == exact.MOST_POINTS:
            self.drop(x, y)
            raise exact.Refused(5)
        return outcome

    exact_survey.Survey.add = wrong


@fault("5 before 3", "full survey")
def five_before_three() -> None:
    right = exact_survey.Survey.add

    def wrong(self: Survey, x: int, y: int, z: int) -> Outcome:
        exact_survey.check_location(x, y)
        exact_survey.check_value(z)
        if len(self.values) == exact.MOST_POINTS:
            raise exact.Refused(5)
        return right(self, x, y, z)

    exact_survey.Survey.add = wrong


@fault("4 before 2", "full survey")
def four_before_two() -> None:
    right = exact_survey.Survey.change

    def wrong(self: Survey, x: int, y: int, z: int) -> Outcome:
        exact_survey.check_location(x, y)
        self.check_taken(x, y)
        return right(self, x, y, z)

    exact_survey.Survey.change = wrong


@fault("low bits", "lookups")
def low_bits() -> None:
    """The coordinates of a lookup are cut to 16 bits."""
    right = exact_survey.Survey.exact_lookup

    def wrong(self: Survey, x: int, y: int) -> Lookup:
        return right(self, x % 65_536, y % 65_536)

    exact_survey.Survey.exact_lookup = wrong
