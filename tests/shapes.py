"""Makes whole locations on lines, in bands, near circles, on lattices and in slivers."""

from __future__ import annotations

from collections.abc import Callable
from functools import cache
from math import isqrt
from random import Random

from exact import GREATEST_COORDINATE
from metric import Location, Offset

# Steps of a line in x and y, and those of a lattice.
SLANTS = ((1, 1), (1, 2), (3, 2), (5, 7), (1, 40), (16, 15))
LATTICE_STEPS = ((1, 0), (1, 0), (1, 1), (2, 1), (3, 0), (20, 30), (64, 0))
RADII = (60, 300, 1000, 2047)
# In an eighth of a circle dx goes from 0 to seven tenths of the radius. Of each of so many parts
# one offset is taken, with its reflections.
PARTS = 32


def rising_or_falling(rng: Random, locations: list[Location]) -> list[Location]:
    """The locations as they are, or with y taken from the other end of the domain."""
    if rng.randrange(2):
        return locations
    return [(x, GREATEST_COORDINATE - y) for x, y in locations]


def slanted_line(rng: Random) -> list[Location]:
    """Evenly spaced locations of a rising or a falling line."""
    right, up = rng.sample(rng.choice(SLANTS), 2)
    most = GREATEST_COORDINATE // max(right, up)
    count = min(most, rng.choice((8, 40, most)))
    left = rng.randint(0, GREATEST_COORDINATE - count * right)
    low = rng.randint(0, GREATEST_COORDINATE - count * up)
    rising = [(left + step * right, low + step * up) for step in range(count + 1)]
    return rising_or_falling(rng, rising)


def band(rng: Random, count: int) -> list[Location]:
    """Along a diagonal, at times closer in its middle: much less than the rectangle is enclosed."""
    length, spread, drawn = rng.randint(900, 3800), rng.randint(20, 250), rng.choice((1, 2, 4))
    left, low = (rng.randint(0, GREATEST_COORDINATE - length - 1) for _ in range(2))
    found = set()
    for _ in range(count):
        along = sum(rng.randint(spread, length - spread) for _ in range(drawn)) // drawn
        aside = rng.randint(-spread, spread)
        found.add((left + along + aside, low + along - aside + rng.randrange(2)))
    return rising_or_falling(rng, sorted(found))


def box(rng: Random, count: int) -> list[Location]:
    """Anywhere in an upright rectangle."""
    wide, high = rng.randint(400, 1900), rng.randint(400, 1900)
    left = rng.randint(0, GREATEST_COORDINATE - wide)
    low = rng.randint(0, GREATEST_COORDINATE - high)
    drawn = [(left + rng.randint(0, wide), low + rng.randint(0, high)) for _ in range(count)]
    return sorted(set(drawn))


@cache
def near_circle(radius: int) -> list[Offset]:
    """256 offsets around a circle, of its parts each the nearest to it, from within."""
    height: Callable[[int], int] = lambda dx: isqrt(radius**2 - dx**2)
    part = radius * 7 // 10 // PARTS
    found = []
    for start in range(1, PARTS * part + 1, part):
        dx = max(range(start, start + part), key=lambda each: each**2 + height(each) ** 2)
        for one, other in ((dx, height(dx)), (height(dx), dx)):
            found += [(one, other), (one, -other), (-one, other), (-one, -other)]
    return found


def filled_lattice(rng: Random) -> list[Location]:
    """Every node of an upright or slanted lattice with up to 256 nodes."""
    right, up = rng.choice(LATTICE_STEPS)
    across, down = rng.choice(((4, 4), (5, 3), (7, 9), (16, 16)))
    wide, high = (across - 1) * right + (down - 1) * up, (across - 1) * up + (down - 1) * right
    left = rng.randint(0, GREATEST_COORDINATE - wide) + (down - 1) * up
    low = rng.randint(0, GREATEST_COORDINATE - high)
    return [
        (left + i * right - j * up, low + i * up + j * right)
        for i in range(across)
        for j in range(down)
    ]


def sliver(rng: Random) -> list[Location]:
    """Few nodes of a lattice slanted by steps of area 1, so that the polygon is tiny or thin."""
    right, up = rng.choice((0, 0, 1, 3, 30)), rng.choice((0, 0, 1, 3, 30))
    along, aside = (1 + right * up, up), (right, 1)
    across, down = min(rng.choice((2, 2, 3, 4, 12)), 4000 // along[0]), rng.choice((2, 2, 3))
    nodes = [(i, j) for i in range(across) for j in range(down)]
    kept = rng.sample(nodes, min(len(nodes), rng.choice((3, 3, 4, 5, 6, 9, 20))))
    wide, high = (across * along[axis] + down * aside[axis] for axis in (0, 1))
    left = rng.randint(0, GREATEST_COORDINATE - wide)
    low = rng.randint(0, GREATEST_COORDINATE - high)
    drawn = [
        (left + i * along[0] + j * aside[0], low + i * along[1] + j * aside[1]) for i, j in kept
    ]
    return rising_or_falling(rng, drawn)
