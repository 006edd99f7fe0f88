"""Makes surveys with locations where a lookup's answer may be rounded either way."""

from __future__ import annotations

from collections.abc import Iterable, Sequence
from functools import cache
from random import Random
from typing import NamedTuple

import exact
import surveys
from exact import GREATEST_VALUE, LEAST_VALUE, Lookup, Neighbour, Point
from metric import PLAIN, Location, Offset
from surveys import Made, gather

# About one in 128 draws of values is free.
TRIES = 1500
# The values of a survey are of so many from the least one on; two that make a midpoint differ by
# four times an odd number.
BAND = 30
DIFFERENCES = (-20, -12, -4, 4)


class Opposed(NamedTuple):
    """Two points on opposite sides, at distances with which their factors s are as odd numbers.

    The two numbers make 16, and all other neighbours are on a ring: their distance is R, their
    weight 0. Each of the two weights is then twice an odd number of 4,096ths, and values that
    differ by four times an odd number have their mean at a midpoint between two 256ths.
    """

    near: int
    far: int
    squared_ring: int
    ring_scale: int = 1


# Both of them inverse, which any wider ring leaves them; then with the far one tapered.
INVERSE = tuple(Opposed(near, 16 - near, 5525) for near in (1, 3, 5, 7))
OPPOSED = INVERSE + (Opposed(4, 30, 25, 9), Opposed(12, 26, 169, 3), Opposed(9, 35, 25, 9))
WIDEST_INVERSE = 3 * 15
# How many groups are side by side, the greatest scale of so many, and how far apart they are at
# scale 1, so that the nearest points of each centre are its own.
GROUPS = ((3, 5), (2, 6), (3, 5), (1, 9))
APART = 160


def survey_lookup(points: Sequence[Point], at: Location) -> Lookup:
    return exact.look_up(sorted(points), exact.initial_radius(points), at, PLAIN)


def is_free(lookup: Lookup) -> bool:
    """Whether either of two answers may come."""
    return len(exact.permitted_answers(lookup)) > 1


# Exact midpoints.


@cache
def ring_offsets(squared: int) -> list[Offset]:
    return surveys.circle(squared)


def some_least(rng: Random) -> int:
    """The least of a band, which leaves room for lesser and for greater values."""
    return rng.randint(LEAST_VALUE + 1, GREATEST_VALUE - BAND)


def some_value(rng: Random, least: int) -> int:
    return least + rng.randrange(BAND)


def opposed_points(
    rng: Random, centre: Location, kind: Opposed, scale: int, least: int
) -> list[Point]:
    x, y = centre
    right, up = rng.choice(((1, 0), (-1, 0), (0, 1), (0, -1)))
    value = rng.randint(least + 20, least + BAND - 5)
    one, other = rng.sample((value, value + rng.choice(DIFFERENCES)), 2)
    return [
        Point(x + scale * kind.near * right, y + scale * kind.near * up, one),
        Point(x - scale * kind.far * right, y - scale * kind.far * up, other),
    ]


def points_around(
    rng: Random, centre: Location, offsets: Iterable[Offset], least: int
) -> list[Point]:
    return [Point(centre[0] + dx, centre[1] + dy, some_value(rng, least)) for dx, dy in offsets]


def group(rng: Random, centre: Location, scale: int, least: int) -> list[Point]:
    """Two opposed points and a ring."""
    kind = rng.choice(OPPOSED)
    offsets = ring_offsets(kind.squared_ring)
    kept = rng.sample(offsets, min(len(offsets), rng.choice((9, 10, 12, 14))))
    reach = scale * kind.ring_scale
    ring = points_around(rng, centre, [(reach * dx, reach * dy) for dx, dy in kept], least)
    return opposed_points(rng, centre, kind, scale, least) + ring


def side_by_side(rng: Random, index: int) -> tuple[list[Point], list[Location]]:
    """Groups and their centres: four are chosen there, or ten where far corners widen R0.

    The last one chosen ties with others, which are not chosen.
    """
    side, greatest = GROUPS[index // 2 % len(GROUPS)]
    scale = rng.randint(1, greatest)
    left, low = (rng.randint(2, surveys.SIDE - 2 - scale * APART * side) for _ in range(2))
    least = some_least(rng)
    steps = [scale * (APART * each + APART // 2) for each in range(side)]
    centres = [(left + right, low + up) for right in steps for up in steps]
    points = [point for centre in centres for point in group(rng, centre, scale, least)]
    corners = surveys.FAR_CORNERS if index % 2 else ()
    return points + points_around(rng, (0, 0), corners, least), centres


def all_turns(offsets: Iterable[Offset]) -> list[Offset]:
    turned = {(i * dx, j * dy) for dx, dy in offsets for i in (-1, 1) for j in (-1, 1)}
    return sorted(turned | {(dy, dx) for dx, dy in turned})


def within_initial_radius(rng: Random) -> tuple[list[Point], list[Location]]:
    """A centre with five to ten points within R0, all but two at it, and some one 256th beyond."""
    while True:
        within, beyond = rng.randint(3, 8), rng.randint(1, 4)
        count = 2 + within + beyond + len(surveys.FAR_CORNERS)
        radius = exact.radius_of_area(2 * exact.GREATEST_COORDINATE**2, count)
        at, past = (all_turns(surveys.offsets_at(each)) for each in (radius, radius + 1))
        if len(at) >= within and len(past) >= beyond:
            break
    reach = radius // 256 + 1
    x, y = (rng.randint(reach, surveys.SIDE - 1 - reach) for _ in range(2))
    least = some_least(rng)
    scale = rng.randint(1, reach // WIDEST_INVERSE - 1)
    points = opposed_points(rng, (x, y), rng.choice(INVERSE), scale, least)
    around = rng.sample(at, within) + rng.sample(past, beyond)
    points += points_around(rng, (x, y), around, least)
    return points + points_around(rng, (0, 0), surveys.FAR_CORNERS, least), [(x, y)]


def midpoints(rng: Random, index: int) -> tuple[list[Point], list[Location]]:
    """A survey, and locations where the exact mean is a midpoint; each rule in turn."""
    if index % 3 == 2:
        return within_initial_radius(rng)
    return side_by_side(rng, index // 3 * 2 + index % 3)


# Values that make an answer free.


def crowd(rng: Random) -> Made:
    """More than eleven points close together, and far corners: the nearest ten are chosen."""
    x, y = rng.randint(500, 3500), rng.randint(500, 3500)
    reach = rng.choice((4, 30, 200))
    draw = lambda: (x + rng.randint(-reach, reach), y + rng.randint(-reach, reach))
    locations = gather(rng.randint(12, 30), draw) + list(surveys.FAR_CORNERS)
    return locations, [draw() for _ in range(6)]


def free_values(rng: Random, lookup: Lookup, at: Location, least: int) -> list[int] | None:
    """Values for the neighbours that leave the answer free, if some are found."""
    neighbours = lookup.neighbours
    if all(each.kind in (exact.COINCIDENT, exact.EDGE) for each in neighbours):
        return None
    weights = exact.weights(neighbours, lookup.radius, at, PLAIN)
    total = sum(weights)
    for _ in range(TRIES):
        values = [some_value(rng, least) for _ in neighbours]
        rest = 256 * sum(weight * z for weight, z in zip(weights, values)) % total
        if 128 * abs(2 * rest - total) <= total:
            return values
    return None


def locations_of(neighbours: Iterable[Neighbour]) -> set[Location]:
    return {neighbour[:2] for neighbour in neighbours}


def freed(
    rng: Random, at_first: Iterable[Point], locations: Iterable[Location], most: int
) -> tuple[list[Point], list[Location]]:
    """The points with values of a band, and up to so many locations whose answers are free.

    No point is a neighbour at two of the locations, and at least one at none of them; where there
    is more than one location, half of the points.
    """
    least = some_least(rng)
    points = [point._replace(z=some_value(rng, least)) for point in at_first]
    values = {point[:2]: point.z for point in points}
    taken: set[Location] = set()
    kept: list[Location] = []
    for at in locations:
        lookup = survey_lookup(points, at)
        chosen = locations_of(lookup.neighbours)
        room = len(points) // 2 if kept else len(points) - 1
        if len(kept) == most or taken & chosen or len(taken | chosen) > room:
            continue
        found = free_values(rng, lookup, at, least)
        if found is not None:
            values |= zip((each[:2] for each in lookup.neighbours), found)
            taken |= chosen
            kept.append(at)
    return [Point(*point[:2], values[point[:2]]) for point in points], kept
