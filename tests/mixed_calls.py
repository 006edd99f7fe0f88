"""Makes lists of all calls over a small pool of locations."""

from __future__ import annotations

from collections.abc import Callable, Sequence
from contextlib import suppress
from random import Random
from typing import NamedTuple

import damage
import exact
import exact_files
import protocol
import surveys
from exact import Point
from exact_survey import Survey
from grids import (
    grid_near,
    improper_grid,
    like_grid,
    like_grid_near,
    proper_grid,
    unlike_grid,
)
from metric import Location
from protocol import Call
from random_calls import (
    ANY_SURVEY,
    esri_call,
    grid_calls,
    lent_about,
    lookup_call,
    row_call,
)

WRONG_VALUES = (-129, 128, 255, 256, 300, -256, 2**31 - 1, -(2**31))


class Scene(NamedTuple):
    """The locations that recur, and the survey, with its grid, as the calls so far leave it."""

    pool: Sequence[Point]
    survey: Survey


def mixed_location(rng: Random, scene: Scene) -> Location:
    """Present, or of the pool, or off the domain."""
    if rng.randrange(14) == 0:
        return surveys.off_domain(rng)
    if scene.survey.values and rng.randrange(3):
        return rng.choice(sorted(scene.survey.values))
    return rng.choice(scene.pool)[:2]


def mixed_value(rng: Random) -> int:
    if rng.randrange(10) == 0:
        return rng.choice(WRONG_VALUES)
    return rng.choice((-128, 127, rng.randint(-128, 127)))


def mixed_add(rng: Random, scene: Scene) -> Call:
    return Call("a", (*mixed_location(rng, scene), mixed_value(rng)))


def mixed_change(rng: Random, scene: Scene) -> Call:
    return Call("c", (*mixed_location(rng, scene), mixed_value(rng)))


def mixed_drop(rng: Random, scene: Scene) -> Call:
    return Call("d", mixed_location(rng, scene))


def mixed_clear(rng: Random, scene: Scene) -> Call:
    return Call("k")


def mixed_load(rng: Random, scene: Scene) -> Call:
    points = rng.sample(scene.pool, rng.randint(1, len(scene.pool)))
    if rng.randrange(2):
        return protocol.load(damage.damage(rng, damage.random_preamble(rng), points), True)
    if rng.randrange(4) == 0:
        points = []
    return protocol.load(damage.sound_file(rng, points))


def mixed_write(rng: Random, scene: Scene) -> Call:
    needed = len(exact_files.survey_file(scene.survey.points()))
    return Call("w", (lent_about(rng, needed, ANY_SURVEY),))


def mixed_lookup(rng: Random, scene: Scene) -> Call:
    """With neighbours or without."""
    if rng.randrange(2):
        return lookup_call(rng, mixed_location(rng, scene))
    return lookup_call(rng, surveys.location_near(rng, scene.pool))


def mixed_grid(rng: Random, scene: Scene) -> Call:
    """A grid or its file."""
    numbers = rng.choice((proper_grid, improper_grid))(rng)
    return grid_calls(rng, numbers)[0]


def mixed_ends(rng: Random, scene: Scene) -> Call:
    return Call("e")


def mixed_esri(rng: Random, scene: Scene) -> Call:
    others = [maker(rng) for maker in (like_grid, unlike_grid, improper_grid)]
    near = [like_grid_near(rng, scene.pool) for _ in range(3)]
    return esri_call(rng, scene.survey, rng.choice(near + others))


def mixed_begin(rng: Random, scene: Scene) -> Call:
    near = [grid_near(rng, scene.pool) for _ in range(2)]
    return Call("b", rng.choice([*near, proper_grid(rng), improper_grid(rng)]))


def mixed_row(rng: Random, scene: Scene) -> Call:
    return row_call(rng, scene.survey)


class Generator(NamedTuple):
    """How often a call comes, what makes it, and whether only every other list has it."""

    share: int
    make: Callable[[Random, Scene], Call]
    seldom: bool = False


GENERATORS = {
    "a": Generator(10, mixed_add),
    "c": Generator(2, mixed_change),
    "d": Generator(2, mixed_drop),
    "l": Generator(1, mixed_load),
    "w": Generator(2, mixed_write),
    "q": Generator(3, mixed_lookup),
    "n": Generator(3, mixed_lookup),
    "g": Generator(1, mixed_grid),
    "f": Generator(1, mixed_grid),
    "e": Generator(4, mixed_ends),
    "p": Generator(2, mixed_esri),
    "b": Generator(2, mixed_begin),
    "r": Generator(5, mixed_row),
    "k": Generator(1, mixed_clear, seldom=True),
}


def follow(survey: Survey, call: Call) -> None:
    """Do what a call does to the points present and to the grid being filled."""
    with suppress(exact.Refused):
        if call.operation.followed:
            protocol.perform(survey, call)


def calls_on_none(rng: Random) -> list[Call]:
    """Calls that a survey without points refuses, for several reasons at once."""
    calls = [Call("n", (*surveys.off_domain(rng), 9)), Call("q", (4095, 4095))]
    calls += [Call("n", (0, 7, lent)) for lent in (0, 9, 10)]
    calls += [Call(letter, (*improper_grid(rng), 0)) for letter in "gfp"]
    calls += [Call(letter, (*proper_grid(rng), lent)) for letter in "gf" for lent in (0, 4096)]
    calls += [Call("p", (*maker(rng), 0)) for maker in (like_grid, unlike_grid)]
    calls += [Call("b", maker(rng)) for maker in (improper_grid, proper_grid)]
    calls += [Call("r", (lent,)) for lent in (0, 64)]
    return rng.sample(calls, 5)


def mixed_journal(rng: Random, index: int) -> list[Call]:
    """All calls over a small pool of locations, so that taken and missing ones recur."""
    pool, _ = surveys.make(rng, surveys.KINDS[index % len(surveys.KINDS)])
    scene = Scene(pool[:30], Survey())
    makers = [
        each.make
        for each in GENERATORS.values()
        for _ in range(each.share)
        if index % 2 or not each.seldom
    ]
    calls = calls_on_none(rng)
    for _ in range(rng.randint(20, 90)):
        calls.append(rng.choice(makers)(rng, scene))
        follow(scene.survey, calls[-1])
    return calls
