"""Makes random grids, proper ones and ones that break a rule."""

from __future__ import annotations

from collections.abc import Sequence
from random import Random

from exact import Point

# Start, step and count along one axis; and a grid's six numbers.
Side = tuple[int, int, int]
Numbers = tuple[int, int, int, int, int, int]

COUNTS = (1, 1, 2, 3, 3, 4, 6, 9)


def proper_step(rng: Random, count: int) -> int:
    """One with which so many fit on the domain; of one alone any does."""
    if count == 1:
        return rng.choice((1, 4096, 65_535))
    return rng.choice((1, 1, 2, 7, rng.randint(1, 4095 // (count - 1))))


def side_with(rng: Random, step: int, count: int) -> Side:
    """The last on the domain, often on its last line."""
    last = 4095 - (count - 1) * step
    return rng.choice((0, last, rng.randint(0, last))), step, count


def proper_side(rng: Random) -> Side:
    count = rng.choice(COUNTS)
    return side_with(rng, proper_step(rng, count), count)


def single_side(rng: Random) -> Side:
    return side_with(rng, proper_step(rng, 1), 1)


def full_side(rng: Random) -> Side:
    step = rng.choice((1, 65))
    return rng.randint(0, 4095 - 63 * step), step, 64


def improper_side(rng: Random) -> Side:
    """One rule broken; some ends come back onto the domain in 16 bits."""
    start, step, count = proper_side(rng)
    return rng.choice(
        (
            (start, 0, count),
            (start, step, 0),
            (0, 1, 65),
            (0, 0, 0),
            (start, step, 65_535),
            (4096 - (count - 1) * min(step, 100), min(step, 100), count),
            (4096, step, 1),
            (65_535, 1, 1),
            (65_535, 1, 2),
            (0, 4096, 17),
            (0, 32_768, 3),
            (65_535, 65_535, 65_535),
            (start, 65_535, 2),
        )
    )


def grid_of(across: Side, down: Side) -> Numbers:
    return across[0], down[0], across[1], down[1], across[2], down[2]


def proper_grid(rng: Random) -> Numbers:
    if rng.randrange(60) == 0:
        return grid_of(full_side(rng), proper_side(rng))
    if rng.randrange(60) == 0:
        return grid_of(proper_side(rng), full_side(rng))
    return grid_of(proper_side(rng), proper_side(rng))


def like_grid(rng: Random) -> Numbers:
    """A proper grid with two steps alike."""
    columns, rows = rng.choice(COUNTS), rng.choice(COUNTS)
    step = proper_step(rng, max(columns, rows))
    return grid_of(side_with(rng, step, columns), side_with(rng, step, rows))


def widest_grid(rng: Random) -> Numbers:
    """64 columns and 64 rows, with two steps alike, and every number as long as it can be."""
    step = rng.randint(10, 49)
    start = rng.randint(1000, 4095 - 63 * step)
    return grid_of((start, step, 64), (4095 - 63 * step, step, 64))


def unlike_grid(rng: Random) -> Numbers:
    """A proper grid with two steps that differ, often of one column, one row or one cell."""
    sides = (proper_side, single_side)
    numbers = grid_of(rng.choice(sides)(rng), rng.choice(sides)(rng))
    return numbers if numbers[2] != numbers[3] else unlike_grid(rng)


def improper_grid(rng: Random) -> Numbers:
    return grid_of(
        *rng.choice(
            (
                (improper_side(rng), proper_side(rng)),
                (proper_side(rng), improper_side(rng)),
                (improper_side(rng), improper_side(rng)),
            )
        )
    )


def improper_unlike_grid(rng: Random) -> Numbers:
    """One that breaks a rule, with two steps that differ."""
    numbers = improper_grid(rng)
    return numbers if numbers[2] != numbers[3] else improper_unlike_grid(rng)


def side_near(rng: Random, at: int, step: int) -> Side:
    count = rng.randint(1, 5)
    return max(0, min(at - step, 4095 - (count - 1) * step)), step, count


def grid_near(rng: Random, points: Sequence[Point]) -> Numbers:
    """A proper grid around a point, so that near points shape the cells."""
    x, y, _ = rng.choice(points)
    return grid_of(side_near(rng, x, rng.randint(1, 3)), side_near(rng, y, rng.randint(1, 3)))


def like_grid_near(rng: Random, points: Sequence[Point]) -> Numbers:
    """A proper grid around a point, with two steps alike."""
    (x, y, _), step = rng.choice(points), rng.randint(1, 3)
    return grid_of(side_near(rng, x, step), side_near(rng, y, step))
