"""Plants faults in grids that are filled row by row.

Of the last ones every cell is permitted, so that only the same grid made in one go shows them.
"""

from __future__ import annotations

from collections.abc import Callable, Sequence
from struct import unpack

import exact
import exact_files
import exact_survey
import stand_ins
from exact_files import Grid
from exact_survey import Filling, Survey
from faults import Plant, fault
from faults_replies import tail
from operations import Operation
from outcomes import ACCEPTED, Choice, Outcome, Unit
from protocol import Call

ROWS, FREE, MIXED = "rows", "free rows", "mixed calls"
# The faults that no reply shows by itself.
HIDDEN: list[str] = []

# Gives the survey that a row is worked out of, from the one present and the grid being filled.
Source = Callable[[Survey, Filling], Survey]
# Gives the grid being filled, from the survey, the one before and what would be right.
Begin = Callable[[Survey, Filling, Filling], Filling]

# What a row is worked out of.


def rows_of(source: Source) -> Plant:
    """Rows are worked out of another survey than that of the begin."""

    def plant() -> None:
        right = Survey.next_row

        def wrong(self: Survey, lent: int) -> Outcome:
            kept = self.filling
            if kept is None:
                return right(self, lent)
            self.filling = kept._replace(begun=source(self, kept))
            try:
                return right(self, lent)
            finally:
                self.filling = self.filling._replace(begun=kept.begun)

        exact_survey.Survey.next_row = wrong

    return plant


def present(survey: Survey, filling: Filling) -> Survey:
    """The survey as it is now, where it has points."""
    return survey.copy() if survey.values else filling.begun


def with_present_radius(survey: Survey, filling: Filling) -> Survey:
    other, radius = filling.begun.copy(), survey.exact_ends().initial_radius
    other.ends = other.exact_ends()._replace(initial_radius=radius)
    return other


def with_present_values(survey: Survey, filling: Filling) -> Survey:
    """The locations of the begin, with the values that are there now."""
    other, begun = Survey(), filling.begun.values.items()
    other.replace((*at, survey.values.get(at, z)) for at, z in begun)
    return other


def without_dropped(survey: Survey, filling: Filling) -> Survey:
    """The points of the begin that are not dropped since, where there are any."""
    other, begun = Survey(), filling.begun.values.items()
    other.replace((*at, z) for at, z in begun if at in survey.values)
    return other if other.values else filling.begun


def with_added(survey: Survey, filling: Filling) -> Survey:
    """The points of the begin, and those added since."""
    other = Survey()
    both = survey.values | filling.begun.values
    other.replace((*at, z) for at, z in both.items())
    return other


fault("rows of the survey as it is now", ROWS)(rows_of(present))
fault("rows of the survey as it is now, in mixed calls", MIXED)(rows_of(present))
fault("rows with R0 as it is now", ROWS)(rows_of(with_present_radius))
fault("rows with the values as they are now", ROWS)(rows_of(with_present_values))
fault("rows without the points dropped since", ROWS)(rows_of(without_dropped))
fault("rows with the points added since", ROWS)(rows_of(with_added))


@fault("rows of the survey at the first row", ROWS)
def rows_of_the_survey_at_the_first_row() -> None:
    """The survey is taken when the first row is filled, not at the begin."""
    right = Survey.next_row

    def wrong(self: Survey, lent: int) -> Outcome:
        filling = self.filling
        if filling is not None and filling.row == 0:
            self.filling = filling._replace(begun=present(self, filling))
        return right(self, lent)

    exact_survey.Survey.next_row = wrong


@fault("points of the begin come back", ROWS)
def points_of_the_begin_come_back() -> None:
    """An accepted row leaves the survey as it was at the begin."""
    right = Survey.next_row

    def wrong(self: Survey, lent: int) -> Outcome:
        outcome = right(self, lent)
        self.replace(self.filling.begun.points())
        return outcome

    exact_survey.Survey.next_row = wrong


# Begins.


def begun_as(other: Begin) -> Plant:
    """An accepted begin in the place of another leaves another grid being filled."""

    def plant() -> None:
        right = Survey.begin_grid

        def wrong(self: Survey, grid: Grid) -> Outcome:
            before = self.filling
            outcome = right(self, grid)
            if before is not None:
                self.filling = other(self, before, self.filling)
            return outcome

        exact_survey.Survey.begin_grid = wrong

    return plant


def unfinished(filling: Filling) -> bool:
    return filling.row < filling.grid.rows


def kept_unfinished(survey: Survey, before: Filling, begun: Filling) -> Filling:
    return before if unfinished(before) else begun


def survey_kept_unfinished(survey: Survey, before: Filling, begun: Filling) -> Filling:
    return begun._replace(begun=before.begun) if unfinished(before) else begun


def kept_if_the_same(survey: Survey, before: Filling, begun: Filling) -> Filling:
    return before if before.grid == begun.grid else begun


fault("begun at the old row", ROWS)(begun_as(lambda survey, old, new: new._replace(row=old.row)))
fault("begun again at the old row, in mixed calls", MIXED)(
    begun_as(lambda survey, old, new: new._replace(row=min(old.row, new.grid.rows)))
)
fault("old grid kept where it is not finished", ROWS)(begun_as(kept_unfinished))
fault("old survey kept where the grid is not finished", ROWS)(begun_as(survey_kept_unfinished))
fault("old survey kept for good", ROWS)(
    begun_as(lambda survey, old, new: new._replace(begun=old.begun))
)
fault("same six numbers go on", ROWS)(begun_as(kept_if_the_same))


@fault("row 0 counted at the begin", ROWS)
def row_counted_at_the_begin() -> None:
    """A begin fills nothing, and row 0 counts as filled."""
    right = Survey.begin_grid

    def wrong(self: Survey, grid: Grid) -> Outcome:
        outcome = right(self, grid)
        self.filling = self.filling._replace(row=1)
        return outcome

    exact_survey.Survey.begin_grid = wrong


@fault("points go with the begin", ROWS)
def points_go_with_the_begin() -> None:
    """The points move to the grid being filled."""
    right = Survey.begin_grid

    def wrong(self: Survey, grid: Grid) -> Outcome:
        outcome = right(self, grid)
        self.replace([])
        return outcome

    exact_survey.Survey.begin_grid = wrong


@fault("begin: 6 before 7", ROWS)
def begin_six_before_seven() -> None:
    right = Survey.begin_grid

    def wrong(self: Survey, grid: Grid) -> Outcome:
        self.check_any()
        return right(self, grid)

    exact_survey.Survey.begin_grid = wrong


def begun_with(*checks: Callable[[Survey, Grid], None]) -> Plant:
    """A begin is refused for fewer reasons."""

    def plant() -> None:
        def wrong(self: Survey, grid: Grid) -> Outcome:
            for check in checks:
                check(self, grid)
            self.filling = Filling(self.copy(), grid, 0)
            return ACCEPTED

        exact_survey.Survey.begin_grid = wrong

    return plant


def check_numbers(survey: Survey, grid: Grid) -> None:
    exact_files.check_grid(grid)


def check_columns(survey: Survey, grid: Grid) -> None:
    """The rules of one row alone."""
    exact_files.check_grid(grid._replace(rows=min(grid.rows, 1)))


fault("begin without 6", ROWS)(begun_with(check_numbers))
fault("begin with 7 of the first row only", ROWS)(
    begun_with(check_columns, lambda survey, grid: survey.check_any())
)


def refused_begin(number: int, left: Callable[[Filling, Survey, Grid], Filling | None]) -> Plant:
    """A begin that is refused with the number alters the grid being filled."""

    def plant() -> None:
        right = Survey.begin_grid

        def wrong(self: Survey, grid: Grid) -> Outcome:
            try:
                return right(self, grid)
            except exact.Refused as refusal:
                if refusal.number == number and self.filling is not None:
                    self.filling = left(self.filling, self, grid)
                raise

        exact_survey.Survey.begin_grid = wrong

    return plant


def restarted_where_finished(filling: Filling, survey: Survey, grid: Grid) -> Filling:
    return filling if unfinished(filling) else filling._replace(row=0)


for number in (6, 7):
    fault(f"begin refused with {number} drops the grid", ROWS)(
        refused_begin(number, lambda filling, survey, grid: None)
    )
    fault(f"begin refused with {number} replaces the six numbers", ROWS)(
        refused_begin(number, lambda filling, survey, grid: filling._replace(grid=grid))
    )
    fault(f"begin refused with {number} starts at row 0", ROWS)(
        refused_begin(number, lambda filling, survey, grid: filling._replace(row=0))
    )
    fault(f"begin refused with {number} starts a filled grid again", ROWS)(
        refused_begin(number, restarted_where_finished)
    )
fault("begin refused with 7 takes the survey", ROWS)(
    refused_begin(7, lambda filling, survey, grid: filling._replace(begun=present(survey, filling)))
)
fault("begin refused with 7 drops the grid, in mixed calls", MIXED)(
    refused_begin(7, lambda filling, survey, grid: None)
)

# Refusals of rows.


def row_first(check: Callable[[Survey, int], None]) -> Plant:
    """A row is refused for a reason before all others."""

    def plant() -> None:
        right = Survey.next_row

        def wrong(self: Survey, lent: int) -> Outcome:
            check(self, lent)
            return right(self, lent)

        exact_survey.Survey.next_row = wrong

    return plant


def lent_after_the_last(survey: Survey, lent: int) -> None:
    exact_survey.check_lent(lent, survey.filling.grid.columns if survey.filling else 0)


def lent_with_none_begun(survey: Survey, lent: int) -> None:
    if survey.filling is None:
        exact_survey.check_lent(lent, 1)


def lent_for(needed: Callable[[Grid], int]) -> Callable[[Survey, int], None]:
    def check(survey: Survey, lent: int) -> None:
        exact_survey.check_lent(lent, needed(survey.check_filling().grid))

    return check


def any_while_filling(survey: Survey, lent: int) -> None:
    survey.check_filling()
    survey.check_any()


def last_but_one(survey: Survey, lent: int) -> None:
    _, grid, row = survey.check_filling()
    if 0 < row == grid.rows - 1:
        raise exact.Refused(17)


fault("8 before 17 after the last row", ROWS)(row_first(lent_after_the_last))
fault("8 before 17 with no grid begun", ROWS)(row_first(lent_with_none_begun))
fault("8 by columns and rows", ROWS)(row_first(lent_for(lambda grid: grid.columns * grid.rows)))
fault("8 by rows", ROWS)(row_first(lent_for(lambda grid: grid.rows)))
fault("8 with the columns lent", ROWS)(row_first(lent_for(lambda grid: grid.columns + 1)))
fault("6 from a row after a clear", ROWS)(row_first(any_while_filling))
fault("6 before 17", ROWS)(row_first(lambda survey, lent: survey.check_any()))
fault("17 for the last row", ROWS)(row_first(last_but_one))


@fault("no 17 after the last row", ROWS)
def no_refusal_after_the_last_row() -> None:
    """Rows go on where they stay in the domain."""

    def wrong(self: Survey) -> Filling:
        filling = self.filling
        if filling is None or filling.grid.y0 + filling.row * filling.grid.step_y > 4095:
            raise exact.Refused(17)
        return filling

    exact_survey.Survey.check_filling = wrong


@fault("row 0 again after the last row", ROWS)
def row_0_again_after_the_last_row() -> None:
    right = Survey.next_row

    def wrong(self: Survey, lent: int) -> Outcome:
        if self.filling is not None and not unfinished(self.filling):
            self.filling = self.filling._replace(row=0)
        return right(self, lent)

    exact_survey.Survey.next_row = wrong


@fault("refused row passed over", ROWS)
def refused_row_passed_over() -> None:
    """A row refused with 8 counts as filled."""
    right = Survey.next_row

    def wrong(self: Survey, lent: int) -> Outcome:
        try:
            return right(self, lent)
        except exact.Refused as refusal:
            if refusal.number == 8:
                self.filling = self.filling._replace(row=self.filling.row + 1)
            raise

    exact_survey.Survey.next_row = wrong


def refused_row_fills(number: int) -> Plant:
    """A row that is refused with the number leaves a cell in what was lent."""

    def plant() -> None:
        right = stand_ins.act

        def wrong(survey: Survey, call: Call, lent: list[Unit]) -> str:
            try:
                return right(survey, call, lent)
            except exact.Refused as refusal:
                if call.letter == "r" and refusal.number == number and lent:
                    lent[0] = 0
                raise

        stand_ins.act = wrong

    return plant


fault("8 that fills", ROWS)(refused_row_fills(8))
fault("17 that fills", ROWS)(refused_row_fills(17))

# Calls between rows.


def left_by(call: str, left: Callable[[Filling], Filling | None]) -> Plant:
    """An accepted call alters the grid being filled."""

    def plant() -> None:
        right = getattr(Survey, call)

        def wrong(self: Survey, *given: object) -> Outcome:
            outcome = right(self, *given)
            if self.filling is not None:
                self.filling = left(self.filling)
            return outcome

        setattr(Survey, call, wrong)

    return plant


for call in ("add", "change", "drop", "clear", "load", "grid", "esri_text"):
    name = call.replace("_", " ")
    fault(f"grid ended by an accepted {name}", ROWS)(left_by(call, lambda filling: None))
fault("grid started again by a load", ROWS)(left_by("load", lambda each: each._replace(row=0)))
fault("row passed over by a lookup", ROWS)(
    left_by("lookup", lambda each: each._replace(row=min(each.row + 1, each.grid.rows)))
)
fault("grid ended by an accepted clear, in mixed calls", MIXED)(
    left_by("clear", lambda filling: None)
)


@fault("grid ended by a refused load", ROWS)
def grid_ended_by_a_refused_load() -> None:
    right = Survey.load

    def wrong(self: Survey, data: bytes) -> Outcome:
        try:
            return right(self, data)
        except exact.Refused:
            self.filling = None
            raise

    exact_survey.Survey.load = wrong


@fault("grid made in one go takes the place", ROWS)
def grid_made_in_one_go_takes_the_place() -> None:
    """A grid leaves its six numbers to the one being filled."""
    right = Survey.grid

    def wrong(self: Survey, grid: Grid, lent: int) -> Outcome:
        outcome = right(self, grid, lent)
        if self.filling is not None:
            self.filling = self.filling._replace(grid=grid)
        return outcome

    exact_survey.Survey.grid = wrong


# The reply, and the lent cells.


def told(alter: Callable[[Survey, tuple[int, int], int], tuple[int, int]]) -> Plant:
    """The reply tells other numbers than the row's and that of its cells."""

    def plant() -> None:
        right = Survey.next_row

        def wrong(self: Survey, lent: int) -> Outcome:
            outcome = right(self, lent)
            return outcome._replace(numbers=alter(self, outcome.numbers, lent))

        exact_survey.Survey.next_row = wrong

    return plant


fault("rows counted from 1", ROWS)(told(lambda survey, numbers, lent: (numbers[0] + 1, numbers[1])))
fault("rows left are told", ROWS)(
    told(lambda survey, numbers, lent: (survey.filling.grid.rows - 1 - numbers[0], numbers[1]))
)
fault("lent cells are told", ROWS)(told(lambda survey, numbers, lent: (numbers[0], lent)))
fault("rows for columns are told", ROWS)(
    told(lambda survey, numbers, lent: (numbers[0], survey.filling.grid.rows))
)
fault("tail of a row", ROWS)(tail("r"))


def filled_as(put: Callable[[list[Unit], Sequence[Unit]], None]) -> Plant:
    """A row's cells are put otherwise into what is lent."""

    def plant() -> None:
        right = stand_ins.fill

        def wrong(operation: Operation, lent: list[Unit], cells: Sequence[Unit]) -> None:
            if operation.letter == "r":
                put(lent, cells)
            else:
                right(operation, lent, cells)

        stand_ins.fill = wrong

    return plant


def at_the_end(lent: list[Unit], cells: Sequence[Unit]) -> None:
    lent[len(lent) - len(cells) :] = cells


def all_of_it(lent: list[Unit], cells: Sequence[Unit]) -> None:
    lent[:] = [cells[at % len(cells)] for at in range(len(lent))]


def last_left_out(lent: list[Unit], cells: Sequence[Unit]) -> None:
    lent[: len(cells) - 1] = cells[:-1]


fault("cells at the end of the lent ones", ROWS)(filled_as(at_the_end))
fault("all lent cells filled", ROWS)(filled_as(all_of_it))
fault("last cell left out", ROWS)(filled_as(last_left_out))


@fault("cells where the whole grid has them", ROWS)
def cells_where_the_whole_grid_has_them() -> None:
    """A row goes behind the rows before it, where so many cells are lent."""
    right = stand_ins.act

    def wrong(survey: Survey, call: Call, lent: list[Unit]) -> str:
        reply = right(survey, call, lent)
        if call.letter == "r":
            row, columns = map(int, reply.split(" ")[1:])
            cells, rest = lent[:columns], lent[columns:]
            if len(lent) >= (row + 1) * columns:
                lent[:] = rest[: row * columns] + cells + rest[row * columns :]
        return reply

    stand_ins.act = wrong


@fault("rows filled from the highest y", ROWS)
def rows_filled_from_the_highest_y() -> None:
    right = Survey.exact_row
    exact_survey.Survey.exact_row = lambda self, grid, row: right(self, grid, grid.rows - 1 - row)


@fault("rows filled from the greatest x", ROWS)
def rows_filled_from_the_greatest_x() -> None:
    right = Survey.exact_row
    exact_survey.Survey.exact_row = lambda self, grid, row: right(self, grid, row)[::-1]


@fault("row above the limit", "bad journal")
def row_above_the_limit() -> None:
    """How many cells a row may be lent is not limited."""
    right = stand_ins.decode

    def wrong(data: bytes, at: int) -> tuple[Call, int] | None:
        decoded = right(data, at)
        if decoded is None and data[at : at + 1] == b"r" and at + 5 <= len(data):
            return Call("r", unpack(">I", data[at + 1 : at + 5])), at + 5
        return decoded

    stand_ins.decode = wrong


@fault("begin cut off", "bad journal")
def begin_cut_off() -> None:
    """A begin at the journal's end that lacks bytes is passed over."""
    right = stand_ins.replay

    def wrong(data: bytes) -> bytes:
        output = right(data)
        cut = any(data[-length : -length + 1] == b"b" for length in range(1, 13))
        return output.removesuffix(b"bad journal\n") if cut else output

    stand_ins.replay = wrong


# Free cells.


def hidden(name: str) -> Callable[[Plant], Plant]:
    """Enters a fault as one that only the same grid made in one go shows."""
    HIDDEN.append(name)
    return fault(name, FREE)


def free_cells(upper: Callable[[Survey, Outcome, int], int]) -> Plant:
    """A row's free cells are the upper or the lower ones as a number is odd or even."""

    def plant() -> None:
        right = Survey.next_row

        def wrong(self: Survey, lent: int) -> Outcome:
            outcome = right(self, lent)
            odd = upper(self, outcome, lent)
            cells = (each._replace(preferred=sided(each, odd)) for each in outcome.filled)
            return outcome._replace(filled=tuple(cells))

        exact_survey.Survey.next_row = wrong

    return plant


def sided(cell: Choice, number: int) -> Unit:
    return cell.options[number % len(cell.options)]


hidden("free cells of rows rounded down")(free_cells(lambda survey, outcome, lent: 0))
hidden("free cells of rows rounded up")(free_cells(lambda survey, outcome, lent: 1))
hidden("free cells by the number of the row")(
    free_cells(lambda survey, outcome, lent: outcome.numbers[0])
)
hidden("free cells by the values as they are now")(
    free_cells(lambda survey, outcome, lent: sum(survey.values.values()))
)
hidden("free cells by how many are lent")(free_cells(lambda survey, outcome, lent: lent))


@hidden("free cells of rows rounded the other way")
def free_cells_rounded_the_other_way() -> None:
    """Of two permitted answers a row has the one that the grid made in one go has not."""
    right = Survey.next_row

    def wrong(self: Survey, lent: int) -> Outcome:
        outcome = right(self, lent)
        cells = (
            each._replace(preferred=sided(each, each.options.index(each.preferred) + 1))
            for each in outcome.filled
        )
        return outcome._replace(filled=tuple(cells))

    exact_survey.Survey.next_row = wrong
