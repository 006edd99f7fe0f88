"""Works out in whole numbers and fractions, from documents 01 and 02 alone, lookups and ends."""

from __future__ import annotations

from collections.abc import Iterable, Sequence
from fractions import Fraction
from math import isqrt, lcm
from typing import NamedTuple

import exact_polygon
from metric import Location, Metric, Offset

GREATEST_COORDINATE = 4095
LEAST_VALUE, GREATEST_VALUE = -128, 127
MOST_POINTS = 256
FEWEST_NEIGHBOURS, MOST_NEIGHBOURS = 4, 10
LAST_REFUSAL = 17

COINCIDENT, INVERSE, TAPERED, EDGE = 0, 1, 2, 3


class Refused(Exception):
    """A refused call: nothing but its number comes out, and nothing is altered."""

    def __init__(self, number: int) -> None:
        super().__init__(number)
        self.number = number


class Point(NamedTuple):
    x: int
    y: int
    z: int


class Ends(NamedTuple):
    """The rectangle around a survey's points, their least and greatest value, and R0."""

    least_x: int
    greatest_x: int
    least_y: int
    greatest_y: int
    least_z: int
    greatest_z: int
    initial_radius: int


class Neighbour(NamedTuple):
    x: int
    y: int
    z: int
    distance: int
    kind: int


class Lookup(NamedTuple):
    mean: Fraction
    radius: int
    neighbours: tuple[Neighbour, ...]


# A point with its d² first, and one with its D last.
Ordered = tuple[int, int, int, int]
Candidate = tuple[int, int, int, int]


def on_domain(x: int, y: int) -> bool:
    return 0 <= x <= GREATEST_COORDINATE and 0 <= y <= GREATEST_COORDINATE


# Distance and search radius, in 256ths of a step.


def distance(squared: int) -> int:
    """D, from d²."""
    return isqrt(65_536 * squared)


def extent(points: Sequence[Point]) -> list[int]:
    """The least and the greatest x, then those of y, then those of z."""
    return [end(axis) for axis in zip(*points) for end in (min, max)]


def twice_area(points: Iterable[Point]) -> int:
    """2A, a whole number; A is the area of the convex polygon around the points."""
    return exact_polygon.twice_area(point[:2] for point in points)


def radius_of_area(twice: int, count: int) -> int:
    """R0, from 2A and N. The root of the whole quotient is that of the quotient, rounded down."""
    return isqrt(65_536 * 7 * 113 * twice // (2 * 355 * count))


def initial_radius(points: Sequence[Point]) -> int:
    """R0."""
    return radius_of_area(twice_area(points), len(points))


def ends(points: Sequence[Point]) -> Ends:
    """What a survey holds beside its points: zeros where there are none."""
    if not points:
        return Ends(*[0] * len(Ends._fields))
    return Ends(*extent(points), initial_radius(points))


# Who is chosen.


def in_order(points: Sequence[Point], at: Location, metric: Metric) -> list[Ordered]:
    """All points as (d², x, y, z), by d², then x, then y."""
    return sorted([(metric.squared_distance(at, (x, y)), x, y, z) for x, y, z in points])


def choose(
    points: Sequence[Point], initial: int, at: Location, metric: Metric
) -> tuple[list[Candidate], int]:
    """The neighbours as (x, y, z, D), in order of choice, and the radius R."""
    first = in_order(points, at, metric)[: MOST_NEIGHBOURS + 1]
    candidates = [(x, y, z, distance(squared)) for squared, x, y, z in first]
    distances = [candidate[3] for candidate in candidates]
    if distances[0] == 0:
        return candidates[:1], 0
    if len(points) <= FEWEST_NEIGHBOURS:
        return candidates, 0
    # Eleven stands for eleven or more: the rules ask no further.
    within = sum(each <= initial for each in distances)
    if within <= FEWEST_NEIGHBOURS:
        return candidates[:FEWEST_NEIGHBOURS], distances[FEWEST_NEIGHBOURS]
    if within <= MOST_NEIGHBOURS:
        return candidates[:within], initial
    return candidates[:MOST_NEIGHBOURS], distances[MOST_NEIGHBOURS]


# Influence and mean.


def influence_kind(away: int, radius: int, present: int) -> int:
    """The kind of a neighbour's influence; `present` counts the points of the whole survey."""
    if away == 0:
        return COINCIDENT
    if present <= FEWEST_NEIGHBOURS or 3 * away <= radius:
        return INVERSE
    return TAPERED if away < radius else EDGE


def factor(neighbour: Neighbour, radius: int) -> tuple[int, int]:
    """s as a numerator and a denominator."""
    if neighbour.kind == INVERSE:
        return 1, neighbour.distance
    if neighbour.kind == TAPERED:
        return 27 * (radius - neighbour.distance) ** 2, 4 * radius**3
    return 0, 1


def factors(neighbours: Sequence[Neighbour], radius: int) -> list[int]:
    """Every s times one common denominator, which the mean divides out again."""
    fractions = [factor(neighbour, radius) for neighbour in neighbours]
    common = lcm(*(bottom for _, bottom in fractions))
    return [top * (common // bottom) for top, bottom in fractions]


def offset(neighbour: Neighbour, at: Location) -> Offset:
    return neighbour.x - at[0], neighbour.y - at[1]


def cosine_gap(one: Neighbour, other: Neighbour, at: Location, metric: Metric) -> int:
    """|1 - cos| times the two distances: |D_i D_j - 65,536 g|."""
    inner = metric.inner_product(offset(one, at), offset(other, at))
    return abs(one.distance * other.distance - 65_536 * inner)


def others(count: int, own: int) -> Iterable[int]:
    """The positions of the neighbours that enter the directional term of the one at `own`."""
    return [position for position in range(count) if position != own]


def weights(
    neighbours: Sequence[Neighbour], radius: int, at: Location, metric: Metric
) -> list[int]:
    """Every s²(1 + t) times one common number, which the mean divides out again."""
    s = factors(neighbours, radius)
    total = sum(s)
    common = lcm(*(neighbour.distance for neighbour in neighbours))
    inverse = [common // neighbour.distance for neighbour in neighbours]
    result = []
    for i, neighbour in enumerate(neighbours):
        # t is `directional` over total × common².
        directional = inverse[i] * sum(
            s[j] * inverse[j] * cosine_gap(neighbour, neighbours[j], at, metric)
            for j in others(len(neighbours), i)
        )
        result.append(s[i] ** 2 * (total * common**2 + directional))
    return result


def exact_mean(
    neighbours: Sequence[Neighbour], radius: int, at: Location, metric: Metric
) -> Fraction:
    if neighbours[0].kind == COINCIDENT:
        return Fraction(neighbours[0].z)
    if all(neighbour.kind == EDGE for neighbour in neighbours):
        return Fraction(sum(neighbour.z for neighbour in neighbours), len(neighbours))
    w = weights(neighbours, radius, at, metric)
    return Fraction(sum(each * neighbour.z for each, neighbour in zip(w, neighbours)), sum(w))


def look_up(points: Sequence[Point], initial: int, at: Location, metric: Metric) -> Lookup:
    """The lookup at a location, over a survey's points and their R0."""
    chosen, radius = choose(points, initial, at, metric)
    neighbours = tuple(
        Neighbour(*each, influence_kind(each[3], radius, len(points))) for each in chosen
    )
    return Lookup(exact_mean(neighbours, radius, at, metric), radius, neighbours)


# The answer.


def permitted_answers(lookup: Lookup) -> range:
    """All a with |256 a - 65,536 mean| ≤ 129, within 256 × least and greatest chosen value."""
    top, bottom = lookup.mean.numerator, lookup.mean.denominator
    values = [neighbour.z for neighbour in lookup.neighbours]
    low = -((129 * bottom - 65_536 * top) // (256 * bottom))
    high = (129 * bottom + 65_536 * top) // (256 * bottom)
    return range(max(low, 256 * min(values)), min(high, 256 * max(values)) + 1)


def nearest_answer(lookup: Lookup) -> int:
    """The nearest 256th, a half upwards."""
    top, bottom = lookup.mean.numerator, lookup.mean.denominator
    return (512 * top + bottom) // (2 * bottom)
