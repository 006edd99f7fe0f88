"""Reads what shepard_esri writes back as decimals, and holds it to what shepard_grid writes.

    python3 tests/read_back.py GRID_PROGRAM ESRI_PROGRAM

Both are run on the sample survey and on inputs made here. The text is read with fractions alone.
"""

from __future__ import annotations

import argparse
import sys
from collections.abc import Sequence
from fractions import Fraction
from pathlib import Path
from random import Random
from struct import pack, unpack
from typing import NamedTuple

import damage
import free_rounding
from programs import run_program

SAMPLE = Path(__file__).parent.parent / "sample" / "worn_drive.rls"
TRAILER_BYTES = 20
KEYWORDS = ("ncols", "nrows", "xllcenter", "yllcenter", "cellsize", "NODATA_value")
NO_DATA = -9999

Numbers = Sequence[int]
Points = Sequence[tuple[int, int, int]]


class Differs(Exception):
    """Where a text is not what the grid file says."""


class GridFile(NamedTuple):
    """A grid's six numbers, and its cells in 256ths, row by row, y ascending."""

    numbers: Numbers
    rows: list[Numbers]


# The inputs.


def made(numbers: Numbers, points: Points) -> bytes:
    return damage.assemble(pack(">6H", *numbers), damage.records_of(points))


def checkered(values: tuple[int, int]) -> Points:
    """25 points over the domain, of two values by turns."""
    return [(1000 * x, 1000 * y, values[(x + y) % 2]) for x in range(5) for y in range(5)]


def inputs() -> dict[str, bytes]:
    free_points, free_numbers = free_rounding.make(Random(1), 7)
    return {
        "the sample survey": SAMPLE.read_bytes(),
        "the whole case": made((0, 0, 1, 1, 2, 1), [(3, 0, -7)]),
        "cells from -1 to 0": made((0, 0, 125, 125, 20, 20), checkered((-1, 0))),
        "cells from -128 to 127": made((0, 0, 65, 65, 64, 64), checkered((-128, 127))),
        "one row": made((31, 1999, 64, 64, 64, 1), checkered((-9, 10))),
        "one column": made((1999, 4095 - 63 * 60, 60, 60, 1, 64), checkered((99, -100))),
        "cells free to be rounded": made(free_numbers, free_points),
    }


# Reading.


def read_grid_file(data: bytes) -> GridFile:
    cells, trailer = data[:-TRAILER_BYTES], data[-TRAILER_BYTES:]
    if len(trailer) < TRAILER_BYTES:
        raise Differs(f"no grid file came: {data!r}")
    *numbers, back = unpack(">6HI", trailer[:-4])
    columns, rows = numbers[4:]
    if trailer[-4:] != b"RLG1" or not len(cells) == back == 2 * columns * rows > 0:
        raise Differs(f"no grid file came: {data[:80]!r}")
    answers = unpack(f">{columns * rows}h", cells)
    starts = range(0, columns * rows, columns)
    return GridFile(numbers, [answers[start : start + columns] for start in starts])


def number(word: str, where: str) -> Fraction:
    try:
        return Fraction(word)
    except (ValueError, ZeroDivisionError):
        raise Differs(f"{where}: {word!r} is no number") from None


def text_lines(text: bytes) -> list[str]:
    lines = text.decode("ascii", "replace").split("\n")
    if lines.pop() or len(lines) < len(KEYWORDS):
        raise Differs(f"no whole text came: {text[-80:]!r}")
    return lines


# Comparing.


def check_header(lines: Sequence[str], numbers: Numbers) -> None:
    x0, y0, step_x, step_y, columns, rows = numbers
    if step_x != step_y:
        raise Differs(f"there is a text though the steps are {step_x} and {step_y}")
    right = (columns, rows, x0, y0, step_x, NO_DATA)
    for keyword, line, value in zip(KEYWORDS, lines, right):
        first, _, word = line.partition(" ")
        if first != keyword or number(word, keyword) != value:
            raise Differs(f"{keyword}: the text has {line!r}, the grid file {value}")


def check_row(line: str, cells: Numbers, row: int) -> None:
    words = line.split()
    if len(words) != len(cells):
        raise Differs(f"row {row}: {len(words)} cells in the text, {len(cells)} in the grid file")
    for column, (word, cell) in enumerate(zip(words, cells)):
        where = f"row {row}, column {column}"
        if number(word, where) != Fraction(cell, 256):
            raise Differs(f"{where}: {word} in the text, {cell}/256 in the grid file")


def count_agreeing(grid_file: bytes, text: bytes) -> int:
    """How many cells agree, which are all; Differs comes out otherwise. Row 0 has the least y."""
    grid, lines = read_grid_file(grid_file), text_lines(text)
    check_header(lines, grid.numbers)
    in_text = lines[len(KEYWORDS) :]
    if len(in_text) != len(grid.rows):
        raise Differs(f"{len(in_text)} rows in the text, {len(grid.rows)} in the grid file")
    for row in reversed(range(len(grid.rows))):
        check_row(in_text[len(grid.rows) - 1 - row], grid.rows[row], row)
    return sum(map(len, grid.rows))


def written(program: str, data: bytes) -> bytes:
    run = run_program([program], data)
    if run.trouble:
        raise Differs(f"{program}{run.trouble}")
    return run.output


def main(arguments: list[str]) -> int:
    parser = argparse.ArgumentParser(description=__doc__.partition("\n")[0])
    parser.add_argument("grid_program")
    parser.add_argument("esri_program")
    options = parser.parse_args(arguments)
    cells = 0
    for name, data in inputs().items():
        try:
            grid_file = written(options.grid_program, data)
            cells += count_agreeing(grid_file, written(options.esri_program, data))
        except Differs as reason:
            print(f"{name}: {reason}")
            return 1
    print(f"{cells} cells of {len(inputs())} grids are read back as the grid files have them")
    return 0


if __name__ == "__main__":
    sys.exit(main(sys.argv[1:]))
