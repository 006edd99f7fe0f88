"""Whether a location lies outside the convex polygon around points, by that polygon itself."""

from __future__ import annotations

from collections.abc import Iterable, Sequence

Location = tuple[int, int]


def side(one: Location, other: Location, at: Location) -> int:
    """Above 0 where the location is left of the way from one to the other, 0 where it is on its line."""
    return (other[0] - one[0]) * (at[1] - one[1]) - (other[1] - one[1]) * (at[0] - one[0])


def chain(ordered: Iterable[Location]) -> list[Location]:
    """One half of the polygon, without its last corner."""
    corners: list[Location] = []
    for location in ordered:
        while len(corners) > 1 and side(corners[-2], corners[-1], location) <= 0:
            corners.pop()
        corners.append(location)
    return corners[:-1]


def polygon(locations: Iterable[Location]) -> list[Location]:
    """The corners, anticlockwise; two where all locations are on a line, one where there is one."""
    ordered = sorted(set(locations))
    if len(ordered) == 1:
        return ordered
    return chain(ordered) + chain(reversed(ordered))


def between(one: Location, other: Location, at: Location) -> bool:
    """Whether a location on the line through two is from the one to the other."""
    return all(min(a, b) <= c <= max(a, b) for a, b, c in zip(one, other, at))


def is_outside(at: Location, points: Sequence[Sequence[int]]) -> bool:
    """On an edge or a corner is not outside."""
    corners = polygon((point[0], point[1]) for point in points)
    if len(corners) == 1:
        return at != corners[0]
    if len(corners) == 2:
        return side(*corners, at) != 0 or not between(*corners, at)
    return any(side(one, other, at) < 0 for one, other in zip(corners, corners[1:] + corners[:1]))
