"""Makes lists of calls in which the ends are read after every other call."""

from __future__ import annotations

from random import Random

import mixed_calls
import surveys
from exact import Point
from exact_survey import Survey
from grids import improper_grid, like_grid, proper_grid, unlike_grid
from mixed_calls import WRONG_VALUES, Scene
from protocol import Call
from random_calls import entry, with_ends

# Most of these have several points at an edge of their rectangle.
KINDS = (
    surveys.lattice,
    surveys.uniform,
    surveys.corners,
    surveys.ring,
    surveys.column,
    surveys.corners,
    surveys.lattice,
    surveys.row,
)
# How many locations recur: few, so that surveys of none to four points are common.
POOLS = (2, 4, 6, 12, 30)


def at_an_end(rng: Random, scene: Scene, axes: tuple[int, ...]) -> Point:
    """A point with the least or the greatest number of an axis, alone or beside others."""
    points = scene.survey.points() or scene.pool
    axis = rng.choice(axes)
    end = rng.choice((min, max))(point[axis] for point in points)
    return rng.choice([point for point in points if point[axis] == end])


def add(rng: Random, scene: Scene) -> Call:
    """A point that is missing, if one is."""
    missing = [point for point in scene.pool if point[:2] not in scene.survey.values]
    return Call("a", rng.choice(missing or scene.pool))


def change(rng: Random, scene: Scene) -> Call:
    """The least or the greatest value, which moves inward or outward."""
    return Call("c", (*at_an_end(rng, scene, (2,))[:2], rng.randint(-128, 127)))


def drop(rng: Random, scene: Scene) -> Call:
    """A point that is at an edge of the rectangle."""
    return Call("d", at_an_end(rng, scene, (0, 1))[:2])


def refused(rng: Random, scene: Scene) -> Call:
    """A call that is refused; only an add to a survey without points can be accepted."""
    x, y = rng.randrange(surveys.SIDE), rng.randrange(surveys.SIDE)
    off, wrong, z = surveys.off_domain(rng), rng.choice(WRONG_VALUES), rng.choice((-128, 127))
    taken = at_an_end(rng, scene, (0, 1, 2))[:2]
    calls = [Call("a", (*off, z)), Call("a", (x, y, wrong)), Call("a", (*taken, z))]
    calls += [Call("c", (*off, z)), Call("c", (*taken, wrong)), Call("c", (x, y, z))]
    calls += [Call("d", off), Call("d", (x, y)), Call("w", (11,))]
    calls += [Call("q", off), Call("n", (*off, 10)), Call("n", (x, y, 9))]
    for letter in "gf":
        calls += [Call(letter, (*improper_grid(rng), 0)), Call(letter, (*proper_grid(rng), 0))]
    calls += [Call("p", (*make(rng), 0)) for make in (improper_grid, unlike_grid, like_grid)]
    if not scene.survey.values:
        calls += [Call("q", (x, y)), Call("n", (x, y, 10))]
    return rng.choice(calls)


MAKERS = (add,) * 6 + (change,) * 3 + (drop,) * 3 + (refused,) * 6 + (mixed_calls.mixed_load,)


def ends_journal(rng: Random, index: int) -> list[Call]:
    """Every other list has clears as well. Accepted lookups are left to other lists."""
    pool, _ = surveys.make(rng, KINDS[index % len(KINDS)])
    scene = Scene(pool[: rng.choice(POOLS)], Survey())
    makers = MAKERS + (mixed_calls.mixed_clear,) * (index % 2)
    calls = entry(rng, scene.pool) if rng.randrange(4) else []
    for call in calls:
        mixed_calls.follow(scene.survey, call)
    for _ in range(36):
        calls.append(rng.choice(makers)(rng, scene))
        mixed_calls.follow(scene.survey, calls[-1])
    return [Call("e")] + with_ends(calls)
