"""Writes and reads the survey file, and lays out a grid and its file, from document 01 alone."""

from __future__ import annotations

from collections.abc import Iterable
from struct import pack, unpack
from typing import NamedTuple

import exact
from exact import GREATEST_COORDINATE, MOST_POINTS, Point, Refused
from metric import Location

RECORD_BYTES = 5
TRAILER_BYTES = 12
GREATEST_FILE = 65_536
SURVEY_MAGIC = bytes.fromhex("524c5331")
GRID_MAGIC = bytes.fromhex("524c4731")
GRID_NUMBERS_BYTES = 12
GRID_TRAILER_BYTES = 20
GREATEST_SIDE = 64

# Survey file.


def survey_file(points: Iterable[Point]) -> bytes:
    """The bytes that writing gives, from points by ascending x, then y."""
    records = [pack(">HHb", *point) for point in points]
    body = b"".join(records)
    return body + pack(">HIH", len(records), len(body), sum(body) % 65_536) + SURVEY_MAGIC


def check_trailer(data: bytes) -> bytes:
    """Refusals 9 to 13; gives the bytes of the records."""
    if not TRAILER_BYTES <= len(data) <= GREATEST_FILE:
        raise Refused(9)
    before, trailer = data[:-TRAILER_BYTES], data[-TRAILER_BYTES:]
    count, back, total = unpack(">HIH", trailer[:8])
    if trailer[8:] != SURVEY_MAGIC:
        raise Refused(10)
    if count > MOST_POINTS:
        raise Refused(11)
    if back != RECORD_BYTES * count or back > len(before):
        raise Refused(12)
    body = before[len(before) - back :]
    if sum(body) % 65_536 != total:
        raise Refused(13)
    return body


def read_survey_file(data: bytes) -> list[Point]:
    """The points of a file, or the first of refusals 9 to 15."""
    body = check_trailer(data)
    points: list[Point] = []
    for start in range(0, len(body), RECORD_BYTES):
        point = Point(*unpack(">HHb", body[start : start + RECORD_BYTES]))
        if not exact.on_domain(point.x, point.y):
            raise Refused(14)
        if points and point[:2] <= points[-1][:2]:
            raise Refused(15)
        points.append(point)
    return points


# Grid.


class Grid(NamedTuple):
    x0: int
    y0: int
    step_x: int
    step_y: int
    columns: int
    rows: int


def check_grid(grid: Grid) -> None:
    """Refusal 7."""
    proper = (
        min(grid.step_x, grid.step_y) >= 1
        and 1 <= grid.columns <= GREATEST_SIDE
        and 1 <= grid.rows <= GREATEST_SIDE
        and grid.x0 + (grid.columns - 1) * grid.step_x <= GREATEST_COORDINATE
        and grid.y0 + (grid.rows - 1) * grid.step_y <= GREATEST_COORDINATE
    )
    if not proper:
        raise Refused(7)


def row_locations(grid: Grid, row: int) -> list[Location]:
    """Those of one row, x ascending; rows are counted from 0, y ascending."""
    y = grid.y0 + row * grid.step_y
    return [(grid.x0 + column * grid.step_x, y) for column in range(grid.columns)]


def grid_locations(grid: Grid) -> list[Location]:
    """Row by row."""
    return [location for row in range(grid.rows) for location in row_locations(grid, row)]


def grid_file_length(grid: Grid) -> int:
    return 2 * grid.columns * grid.rows + GRID_TRAILER_BYTES


def grid_trailer(grid: Grid) -> bytes:
    """What follows the cells in a grid file."""
    return pack(">6HI", *grid, 2 * grid.columns * grid.rows) + GRID_MAGIC
