"""Works out the convex polygon around locations: every pair of them is tried as an edge."""

from __future__ import annotations

from collections.abc import Iterable, Sequence
from functools import lru_cache
from itertools import permutations

from metric import Location

Edge = tuple[Location, Location]


def cross(one: Location, other: Location) -> int:
    return one[0] * other[1] - other[0] * one[1]


def turn(start: Location, end: Location, at: Location) -> int:
    """Above 0 where `at` is left of the line from `start` to `end`, 0 on it, below 0 right of it."""
    return cross(start, end) + cross(end, at) + cross(at, start)


def first_outside(start: Location, end: Location, locations: Sequence[Location]) -> int | None:
    """The position of the first that is right of the line, or on it beyond `start` or `end`."""
    (x0, y0), (x1, y1) = start, end
    right, up = x1 - x0, y1 - y0
    for position, (x, y) in enumerate(locations):
        side = right * (y - y0) - up * (x - x0)
        if side < 0 or (side == 0 and (x - x0) * (x - x1) + (y - y0) * (y - y1) > 0):
            return position
    return None


def outermost(locations: Iterable[Location]) -> list[Location]:
    """All but those with others in each of their four quadrants, which are no corners."""
    kept = set()
    for right, up in ((1, 1), (1, -1), (-1, 1), (-1, -1)):
        reached = None
        for far, high in sorted(((right * x, up * y) for x, y in locations), reverse=True):
            if reached is None or high > reached:
                reached = high
                kept.add((right * far, up * high))
    return sorted(kept)


@lru_cache(16_384)
def edges(locations: tuple[Location, ...]) -> tuple[Edge, ...]:
    """The pairs with no location right of the line from the one to the other, or on it beyond them.

    Locations on one line have two edges, to and fro.
    """
    tried = list(locations)
    found = []
    for start, end in permutations(outermost(locations), 2):
        outside = first_outside(start, end, tried)
        if outside is None:
            found.append((start, end))
        elif outside > 0:
            # It is often outside of the next pair as well, so it is tried first.
            tried.insert(0, tried.pop(outside))
    return tuple(found)


def corners(locations: Iterable[Location]) -> list[Location]:
    """Where edges meet; of fewer than two locations these themselves."""
    distinct = tuple(sorted(set(locations)))
    return [start for start, _ in edges(distinct)] or list(distinct)


def twice_area(locations: Iterable[Location]) -> int:
    """A whole number; 0 where the locations are on one line."""
    return sum(cross(start, end) for start, end in edges(tuple(sorted(set(locations)))))
