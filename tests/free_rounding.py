"""Makes surveys with grids whose cells may be rounded either way."""

from __future__ import annotations

from random import Random

from exact import Point
from grids import Numbers, grid_of

# Of two points in one direction the weights are as the inverse squares of the distances. Where
# these are as 5 to 113, a step of the far value moves the mean by nearly 1/512, half of a 256th.
NEAR, FAR = 5, 113
LEAST_SCALE, GREATEST_SCALE = 8, 4095 // FAR
# How many steps to the side a cell may be without leaving the midpoint.
ASIDE = 2
# The near and the far value: most of the answers between which they leave the choice differ in
# their text's length.
VALUES = ((0, -1), (10, 9), (100, 99), (-10, -9), (-100, -99), (0, -1), (0, 1), (-1, 0))


def make(rng: Random, index: int) -> tuple[list[Point], Numbers]:
    """Two points, their values in turn, and a grid with one row or column free to be rounded."""
    scale, sign = rng.randint(LEAST_SCALE, GREATEST_SCALE), rng.choice((-1, 1))
    start, centre = rng.randint(0, 4095 - FAR * scale), rng.randint(ASIDE, 4095 - ASIDE)
    first = start if sign > 0 else 4095 - start
    values = zip((NEAR, FAR), VALUES[index % len(VALUES)])
    points = [(first + sign * away * scale, centre, z) for away, z in values]
    along = first, 1, rng.randint(1, min(3, 4096 - first))
    across = centre - ASIDE, 1, rng.randint(1, 2 * ASIDE + 1)
    if rng.randrange(2):
        return [Point(x, y, z) for x, y, z in points], grid_of(along, across)
    return [Point(x, y, z) for y, x, z in points], grid_of(across, along)
