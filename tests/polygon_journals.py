"""Makes lists of calls in which corners of the polygon come and go, and the ends are read."""

from __future__ import annotations

from collections.abc import Iterable
from math import gcd
from random import Random

import ends_journals
import exact_polygon
import mixed_calls
import surveys
from exact_polygon import Edge
from exact_survey import Survey
from metric import Location
from mixed_calls import Scene
from protocol import Call
from random_calls import entry, with_ends

KINDS = (
    surveys.lattice,
    surveys.filled,
    surveys.thin,
    surveys.on_circle,
    surveys.two_lines,
    surveys.thin,
    surveys.uniform,
    surveys.line,
    surveys.lattice,
)
POOLS = (3, 4, 6, 12, 40)


def edges_of(scene: Scene) -> tuple[Edge, ...]:
    return exact_polygon.edges(tuple(sorted(scene.survey.values)))


def add(rng: Random, scene: Scene, locations: Iterable[Location]) -> Call:
    """One of the locations that is on the domain and missing; without such one, any of the pool."""
    present = scene.survey.values
    missing = [each for each in surveys.keep_on_domain(locations) if each not in present]
    x, y = rng.choice(missing or [point[:2] for point in scene.pool])
    return Call("a", (x, y, rng.randint(-128, 127)))


def add_near(rng: Random, scene: Scene) -> Call:
    """Of the pool, or near one of it."""
    near = [surveys.location_near(rng, scene.pool) for _ in range(2)]
    return add(rng, scene, near + [point[:2] for point in rng.choices(scene.pool, k=4)])


def add_outside(rng: Random, scene: Scene) -> Call:
    """A new corner: a little outside an edge, or so far that other corners are cut off."""
    (x0, y0), (x1, y1) = rng.choice(edges_of(scene))
    right, up, part = x1 - x0, y1 - y0, rng.choice((20, 3, 1))
    return add(rng, scene, [(x0 + right // 2 + up // part, y0 + up // 2 - right // part)])


def add_inside(rng: Random, scene: Scene) -> Call:
    """Between three of the points."""
    three = rng.sample(sorted(scene.survey.values), 3)
    return add(rng, scene, [(sum(x for x, _ in three) // 3, sum(y for _, y in three) // 3)])


def on_line(edge: Edge, beyond: bool) -> list[Location]:
    """Locations on an edge's line, few steps from its start: beyond its ends or between them."""
    (x0, y0), (x1, y1) = edge
    parts = gcd(x1 - x0, y1 - y0)
    right, up = (x1 - x0) // parts, (y1 - y0) // parts
    steps = (-2, -1, parts + 1, parts + 3) if beyond else range(1, min(parts, 6))
    return [(x0 + step * right, y0 + step * up) for step in steps]


def add_on_edge(rng: Random, scene: Scene) -> Call:
    return add(rng, scene, [each for edge in edges_of(scene) for each in on_line(edge, False)])


def add_on_prolonged_edge(rng: Random, scene: Scene) -> Call:
    return add(rng, scene, [each for edge in edges_of(scene) for each in on_line(edge, True)])


def drop_corner(rng: Random, scene: Scene) -> Call:
    return Call("d", rng.choice(exact_polygon.corners(scene.survey.values)))


def drop_other(rng: Random, scene: Scene) -> Call:
    """A point that is no corner, if there is one."""
    corners = exact_polygon.corners(scene.survey.values)
    others = sorted(set(scene.survey.values) - set(corners))
    return Call("d", rng.choice(others or corners))


def change(rng: Random, scene: Scene) -> Call:
    return Call("c", (*rng.choice(sorted(scene.survey.values)), rng.randint(-128, 127)))


MAKERS = (add_outside,) * 3 + (add_inside,) * 2 + (add_on_edge,) * 3
MAKERS += (add_on_prolonged_edge,) * 2 + (add_near,) + (change,) * 2
MAKERS += (drop_corner,) * 5 + (drop_other,) * 2
MAKERS += (ends_journals.refused, mixed_calls.mixed_load)


def polygon_journal(rng: Random, index: int) -> list[Call]:
    """Where fewer than three points are present, another one comes."""
    pool, _ = surveys.make(rng, KINDS[index % len(KINDS)])
    scene = Scene(pool[: rng.choice(POOLS)], Survey())
    calls = entry(rng, scene.pool) if rng.randrange(4) else []
    for call in calls:
        mixed_calls.follow(scene.survey, call)
    for _ in range(36):
        makers = MAKERS if len(scene.survey.values) >= 3 else (add_near,)
        calls.append(rng.choice(makers)(rng, scene))
        mixed_calls.follow(scene.survey, calls[-1])
    return with_ends(calls)
