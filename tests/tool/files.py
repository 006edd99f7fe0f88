"""Surveys and grid files for tests, and a reader of grid files by the text of docs/METHOD.md."""

from __future__ import annotations

from collections.abc import Iterable, Sequence
from struct import pack, unpack
from typing import NamedTuple

import tool  # noqa: F401  It puts tests/ on the path.
from texts import steps

import exact_files
from exact import Point, Refused

FOUR = [Point(100, 200, -3), Point(900, 250, -11), Point(1800, 2100, -30), Point(3900, 1200, -64)]
FOUR_GRID = (0, 0, 1000, 1000, 5, 3)
EIGHT = [
    Point(83, 59, -12),
    Point(95, 50, -6),
    Point(97, 59, -20),
    Point(98, 50, -7),
    Point(101, 49, -9),
    Point(102, 33, -15),
    Point(104, 46, -14),
    Point(109, 53, -17),
]
EIGHT_GRID = (98, 50, 2, 9, 2, 2)
NO_POINT = bytes.fromhex("0000 00000000 0000 524C5331")

GRID_FILE_LENGTHS = {2 * columns * rows + 20 for columns in range(1, 65) for rows in range(1, 65)}


class GridFile(NamedTuple):
    numbers: tuple[int, ...]
    cells: tuple[int, ...]


def survey(points: Iterable[Sequence[int]], numbers: Sequence[int] = (), before: bytes = b"") -> bytes:
    """A survey file of points in any order, with a grid's six numbers and further bytes before its records."""
    ordered = sorted(Point(*point) for point in points)
    return pack(f">{len(numbers)}H", *numbers) + before + exact_files.survey_file(ordered)


def table(points: Iterable[Sequence[int]]) -> str:
    """The points as lines of x,y,z."""
    return "".join(f"{x},{y},{z}\n" for x, y, z in points)


def exported(points: Iterable[Sequence[int]]) -> str:
    """What export writes of the points."""
    return "x,y,z\n" + table(sorted(tuple(point) for point in points))


def made_grid_file(numbers: Sequence[int], cells: Sequence[int]) -> bytes:
    return pack(f">{len(cells)}h", *cells) + pack(">6HI", *numbers, 2 * len(cells)) + b"RLG1"


def is_proper(numbers: Sequence[int]) -> bool:
    """Whether six numbers keep the rules of a grid."""
    try:
        exact_files.check_grid(exact_files.Grid(*numbers))
    except Refused:
        return False
    return True


def read_grid_file(data: bytes) -> GridFile:
    """The grid of a grid file, or the first of refusals 9, 10, 7 and 12."""
    if len(data) not in GRID_FILE_LENGTHS:
        raise Refused(9)
    if data[-4:] != b"RLG1":
        raise Refused(10)
    *numbers, back = unpack(">6HI", data[-20:-4])
    if not is_proper(numbers):
        raise Refused(7)
    if not back == 2 * numbers[4] * numbers[5] == len(data) - 20:
        raise Refused(12)
    return GridFile(tuple(numbers), unpack(f">{back // 2}h", data[:back]))


def locations(numbers: Sequence[int]) -> list[tuple[int, int]]:
    """Where a grid's cells stand, in the file's order."""
    return exact_files.grid_locations(exact_files.Grid(*numbers))


def csv_of(data: bytes) -> str:
    """A grid file's cells as lines of y and cells, below a line of each column's x."""
    grid = read_grid_file(data)
    x0, y0, step_x, step_y, columns, rows = grid.numbers
    lines = [["y\\x", *(str(x0 + step_x * column) for column in range(columns))]]
    for row in range(rows):
        cells = grid.cells[row * columns : (row + 1) * columns]
        lines.append([str(y0 + step_y * row), *map(steps, cells)])
    return "".join(",".join(line) + "\n" for line in lines)
