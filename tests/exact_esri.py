"""Lays out the Esri ASCII text of a grid and its cells, from document 02's §2 alone."""

from __future__ import annotations

from collections.abc import Sequence

from exact import Refused
from exact_files import Grid
from outcomes import Choice, Unit

# A cell's decimals, as text, in each way in which its answer may be rounded.
Cell = Unit | Choice

SPACE, LINE_FEED = b" ", b"\n"
NO_DATA = -9999
DECIMALS = 8


def check_steps(grid: Grid) -> None:
    """Refusal 16."""
    if grid.step_x != grid.step_y:
        raise Refused(16)


def header(grid: Grid) -> bytes:
    """The six lines before the rows."""
    numbers = {
        "ncols": grid.columns,
        "nrows": grid.rows,
        "xllcenter": grid.x0,
        "yllcenter": grid.y0,
        "cellsize": grid.step_x,
        "NODATA_value": NO_DATA,
    }
    return b"".join(
        keyword.encode() + SPACE + str(number).encode() + LINE_FEED
        for keyword, number in numbers.items()
    )


def decimal(answer: int) -> bytes:
    """256ths as a sign if negative, a whole part, a point and eight decimals, without loss."""
    whole, part = divmod(abs(answer), 256)
    sign = "-" if answer < 0 else ""
    return f"{sign}{whole}.{part * 10**DECIMALS // 256:0{DECIMALS}}".encode()


def rows(grid: Grid, cells: Sequence[Cell]) -> list[Sequence[Cell]]:
    """The cells of each row, from the highest y down, x ascending within a row."""
    starts = range(0, len(cells), grid.columns)
    return [cells[start : start + grid.columns] for start in reversed(starts)]


def line(cells: Sequence[Cell]) -> list[Cell]:
    """A row's cells, parted by one space, and a line feed."""
    parted = [each for cell in cells for each in (cell, SPACE)]
    return [*parted[:-1], LINE_FEED]


def text(grid: Grid, cells: Sequence[Cell]) -> tuple[Cell, ...]:
    """The whole text, from the cells as a grid has them."""
    lines = map(line, rows(grid, cells))
    return header(grid), *(each for one in lines for each in one)
