"""Plants faults in the Esri text, its refusals and the program that writes it."""

from __future__ import annotations

from collections.abc import Callable, Sequence
from struct import unpack

import exact
import exact_esri
import exact_files
import exact_survey
import outcomes
import stand_ins
from exact_esri import Cell
from exact_files import Grid
from exact_survey import Survey
from faults import Plant, fault
from faults_replies import tail
from outcomes import Outcome, Unit
from protocol import Call
from random_calls import SHORTEST_TEXT

# The text.


def header_with(alter: Callable[[bytes], bytes]) -> Plant:
    """The header's lines are altered."""

    def plant() -> None:
        right = exact_esri.header
        exact_esri.header = lambda grid: alter(right(grid))

    return plant


def header_of(alter: Callable[[Grid], Grid]) -> Plant:
    """The header is that of another grid."""

    def plant() -> None:
        right = exact_esri.header
        exact_esri.header = lambda grid: right(alter(grid))

    return plant


def without_no_data(header: bytes) -> bytes:
    return header[: header.index(b"NODATA_value")]


def x_and_y_swapped(grid: Grid) -> Grid:
    return grid._replace(x0=grid.y0, y0=grid.x0)


def sides_swapped(grid: Grid) -> Grid:
    return grid._replace(columns=grid.rows, rows=grid.columns)


def last_row(grid: Grid) -> Grid:
    return grid._replace(y0=grid.y0 + (grid.rows - 1) * grid.step_y)


fault("NODATA_value missing", "esri texts")(header_with(without_no_data))
fault("keywords in lower case", "esri inputs")(header_with(bytes.lower))
fault("xllcorner", "esri inputs")(header_with(lambda text: text.replace(b"center", b"corner")))
fault("two spaces in the header", "esri texts")(
    header_with(lambda text: text.replace(b" ", b"  "))
)
fault("x and y swapped in the header", "esri texts")(header_of(x_and_y_swapped))
fault("columns and rows swapped in the header", "esri inputs")(header_of(sides_swapped))
fault("y of the first line", "esri inputs")(header_of(last_row))


def line_with(alter: Callable[[list[Cell]], list[Cell]]) -> Plant:
    """What stands between and behind a row's cells is altered."""

    def plant() -> None:
        right = exact_esri.line
        exact_esri.line = lambda cells: alter(right(cells))

    return plant


def parted_by(text: bytes) -> Plant:
    return line_with(lambda line: [text if each == b" " else each for each in line])


fault("space at the line's end", "esri texts")(line_with(lambda line: [*line[:-1], b" ", b"\n"]))
fault("space at the line's start", "esri inputs")(line_with(lambda line: [b" ", *line]))
fault("carriage returns", "esri inputs")(line_with(lambda line: [*line[:-1], b"\r\n"]))
fault("parted by two spaces", "esri texts")(parted_by(b"  "))
fault("parted by a tab", "esri inputs")(parted_by(b"\t"))
fault("all rows on one line", "esri texts")(line_with(lambda line: [*line[:-1], b" "]))


@fault("no line feed at the end", "esri texts")
def no_line_feed_at_the_end() -> None:
    right = exact_esri.text
    exact_esri.text = lambda grid, cells: right(grid, cells)[:-1]


@fault("empty line at the end", "esri inputs")
def empty_line_at_the_end() -> None:
    right = exact_esri.text
    exact_esri.text = lambda grid, cells: (*right(grid, cells), b"\n")


def rows_with(alter: Callable[[list[Sequence[Cell]]], list[Sequence[Cell]]]) -> Plant:
    def plant() -> None:
        right = exact_esri.rows
        exact_esri.rows = lambda grid, cells: alter(right(grid, cells))

    return plant


fault("rows from the lowest y", "esri texts")(rows_with(lambda rows: rows[::-1]))
fault("rows from the greatest x", "esri inputs")(rows_with(lambda rows: [r[::-1] for r in rows]))


def cells_as(decimal: Callable[[int], str]) -> Plant:
    """A cell's answer is put as another text."""

    def plant() -> None:
        exact_esri.decimal = lambda answer: decimal(answer).encode()

    return plant


right_decimal = exact_esri.decimal


def sign_of_whole_part(answer: int) -> str:
    """The sign is put only where the whole part is not 0."""
    text = right_decimal(answer).decode()
    return text.removeprefix("-") if abs(answer) < 256 else text


def decimals_by_floor(answer: int) -> str:
    """The decimals of a negative answer are those above the next lower whole number."""
    sign = "-" if answer < 0 else ""
    return f"{sign}{abs(answer) // 256}.{answer % 256 * 390_625:08}"


def floored(answer: int) -> str:
    """The whole part of a negative answer is the next lower whole number."""
    return f"{answer // 256}.{answer % 256 * 390_625:08}"


def signed_zero(answer: int) -> str:
    return right_decimal(answer).decode() if answer else "-0.00000000"


def no_zeros_before(answer: int) -> str:
    """The decimals are put as a whole number, without the zeros before it."""
    whole, _, decimals = right_decimal(answer).decode().partition(".")
    return f"{whole}.{int(decimals)}"


fault("sign lost at a half", "esri texts")(cells_as(sign_of_whole_part))
fault("decimals by floor", "esri texts")(cells_as(decimals_by_floor))
fault("whole part by floor", "esri inputs")(cells_as(floored))
fault("zero with a sign", "esri texts")(cells_as(signed_zero))
fault("no zeros before", "esri texts")(cells_as(no_zeros_before))
fault("seven decimals", "esri texts")(cells_as(lambda answer: right_decimal(answer).decode()[:-1]))
fault("nine decimals", "esri inputs")(cells_as(lambda answer: right_decimal(answer).decode() + "0"))
fault("plus signs", "esri inputs")(
    cells_as(lambda answer: "+" * (answer > 0) + right_decimal(answer).decode())
)
fault("no zeros behind", "esri inputs")(
    cells_as(lambda answer: right_decimal(answer).decode().rstrip("0"))
)

# Refusals.


def first(check: Callable[[Survey, Grid, int], None]) -> Plant:
    """A check is made before all others."""

    def plant() -> None:
        right = exact_survey.Survey.esri_text

        def wrong(self: Survey, grid: Grid, lent: int) -> Outcome:
            check(self, grid, lent)
            return right(self, grid, lent)

        exact_survey.Survey.esri_text = wrong

    return plant


def any_after_grid(survey: Survey, grid: Grid, lent: int) -> None:
    exact_files.check_grid(grid)
    survey.check_any()


def lent_after_grid(survey: Survey, grid: Grid, lent: int) -> None:
    exact_files.check_grid(grid)
    exact_survey.check_lent(lent, SHORTEST_TEXT)


def lent_after_steps(survey: Survey, grid: Grid, lent: int) -> None:
    exact_files.check_grid(grid)
    exact_esri.check_steps(grid)
    exact_survey.check_lent(lent, SHORTEST_TEXT)


fault("16 after 6", "esri texts")(first(any_after_grid))
fault("16 after 6 in the program", "unlike steps")(first(any_after_grid))
fault("16 before 7", "esri texts")(first(lambda survey, grid, lent: exact_esri.check_steps(grid)))
fault("16 before 7 in the program", "unlike steps")(
    first(lambda survey, grid, lent: exact_esri.check_steps(grid))
)
fault("8 before 16", "esri texts")(first(lent_after_grid))
fault("8 before 6 in texts", "esri texts")(first(lent_after_steps))


def steps_checked(where: Callable[[Grid], bool]) -> Plant:
    """16 is given only to some grids."""

    def plant() -> None:
        right = exact_esri.check_steps

        def wrong(grid: Grid) -> None:
            if where(grid):
                right(grid)

        exact_esri.check_steps = wrong

    return plant


fault("no 16", "esri texts")(steps_checked(lambda grid: False))
fault("no 16 of one cell", "esri texts")(steps_checked(lambda grid: grid.columns * grid.rows > 1))
fault("no 16 of one row", "esri texts")(steps_checked(lambda grid: grid.rows > 1))
fault("no 16 of one column", "esri texts")(steps_checked(lambda grid: grid.columns > 1))


def room_for(needed: Callable[[int], int]) -> Plant:
    """8 goes by another length than that of the text."""

    def plant() -> None:
        right = exact_survey.Survey.esri_text

        def wrong(self: Survey, grid: Grid, lent: int) -> Outcome:
            outcome = right(self, grid, lent)
            exact_survey.check_lent(lent, needed(outcomes.preferred_units(outcome)))
            return outcome

        exact_survey.Survey.esri_text = wrong

    return plant


fault("8 at the exact length", "esri texts")(room_for(lambda length: length + 1))
fault("8 above 57,344 bytes", "widest esri texts")(
    room_for(lambda length: length if length <= 57_344 else 65_537)
)


@fault("cut where short", "esri texts")
def cut_where_short() -> None:
    """Of a text that is too long for the lent bytes, as much as fits is written."""
    right = stand_ins.act

    def wrong(survey: Survey, call: Call, lent: list[Unit]) -> str:
        try:
            return right(survey, call, lent)
        except exact.Refused as refusal:
            if refusal.number != 8 or call.letter != "p":
                raise
            longer = lent + [b"\xa5"] * 65_536
            reply = right(survey, call._replace(numbers=(*call.numbers[:6], 65_536)), longer)
            lent[:] = longer[: len(lent)]
            return reply

    stand_ins.act = wrong


@fault("8 that writes", "esri texts")
def eight_that_writes() -> None:
    """A text refused with 8 leaves its first byte in what was lent."""
    right = stand_ins.act

    def wrong(survey: Survey, call: Call, lent: list[Unit]) -> str:
        try:
            return right(survey, call, lent)
        except exact.Refused as refusal:
            if refusal.number == 8 and call.letter == "p" and lent:
                lent[0] = b"n"
            raise

    stand_ins.act = wrong


# The reply and the lent bytes.

fault("tail of esri text", "esri texts")(tail("p"))


def length_told(alter: Callable[[int], int]) -> Plant:
    """The reply tells another length than that of the text."""

    def plant() -> None:
        right = stand_ins.act

        def wrong(survey: Survey, call: Call, lent: list[Unit]) -> str:
            reply = right(survey, call, lent)
            length = int(reply.split()[1]) if call.letter == "p" else 0
            return f"wrote {alter(length)}" if length else reply

        stand_ins.act = wrong

    return plant


fault("length one short", "esri texts")(length_told(lambda length: length - 1))
fault("length in 15 bits", "widest esri texts")(length_told(lambda length: length % 32_768))


@fault("length of another rounding", "free lengths")
def length_of_another_rounding() -> None:
    """The length that is told is permitted, but is not that of the text that came."""
    right = stand_ins.act

    def wrong(survey: Survey, call: Call, lent: list[Unit]) -> str:
        reply = right(survey, call, lent)
        if call.letter != "p":
            return reply
        grid = exact_files.Grid(*call.numbers[:6])
        lengths = outcomes.filled_units(survey.esri_text(grid, call.lent))
        other = [each for each in lengths if each <= call.lent and reply != f"wrote {each}"]
        return f"wrote {other[0]}" if other else reply

    stand_ins.act = wrong


@fault("points lost by a text", "mixed calls")
def points_lost_by_a_text() -> None:
    """An accepted text drops the last point, unless it is the only one."""
    right = exact_survey.Survey.esri_text

    def wrong(self: Survey, grid: Grid, lent: int) -> Outcome:
        outcome = right(self, grid, lent)
        if len(self.values) > 1:
            self.drop(*self.points()[-1][:2])
        return outcome

    exact_survey.Survey.esri_text = wrong


# The program.


@fault("16 before 9", "damaged grid inputs")
def steps_before_file() -> None:
    """The Esri program meets 16 before 9 to 15."""
    right = exact_survey.esri_program

    def wrong(data: bytes) -> Outcome:
        if len(data) >= 12:
            exact_esri.check_steps(Grid(*unpack(">6H", data[:12])))
        return right(data)

    exact_survey.esri_program = wrong


@fault("short preamble passes in the Esri program", "short preambles")
def short_preamble_passes() -> None:
    """The Esri program takes its six numbers from the records where the preamble is short."""
    right = exact_survey.esri_program

    def wrong(data: bytes) -> Outcome:
        try:
            return right(data)
        except exact.Refused as refusal:
            if refusal.number != 7:
                raise
            survey = exact_survey.Survey()
            survey.load(data)
            return survey.esri_text(Grid(*unpack(">6H", data[:12])), 65_536)

    exact_survey.esri_program = wrong


@fault("refusal without a line feed", "empty surveys")
def refusal_without_a_line_feed() -> None:
    right = stand_ins.esri

    def wrong(data: bytes) -> bytes:
        output = right(data)
        return output[:-1] if output.startswith(b"refused") else output

    stand_ins.esri = wrong
