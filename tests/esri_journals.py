"""Makes lists of calls in which grids are written as Esri texts."""

from __future__ import annotations

from collections.abc import Sequence
from random import Random

import free_rounding
import outcomes
import surveys
from exact import Point
from exact_files import Grid
from exact_survey import Survey
from grids import (
    Numbers,
    grid_near,
    improper_grid,
    improper_unlike_grid,
    like_grid,
    like_grid_near,
    unlike_grid,
    widest_grid,
)
from operations import BYTES
from protocol import Call
from random_calls import LONGEST_TEXT, entry, esri_call, grid_calls, with_ends


def survey_of(points: Sequence[Point]) -> Survey:
    survey = Survey()
    survey.replace(points)
    return survey


def numbers_near(rng: Random, points: Sequence[Point]) -> Numbers:
    """Most often a grid that has a text."""
    near = [like_grid_near(rng, points) for _ in range(5)]
    others = [maker(rng) for maker in (like_grid, unlike_grid, improper_grid)]
    return rng.choice([*near, grid_near(rng, points), *others])


def esri_journal(rng: Random, index: int) -> list[Call]:
    """Texts of no points, then of a survey; the ends are read after each."""
    points, _ = surveys.make(rng, surveys.KINDS[index % len(surveys.KINDS)])
    if index % 3:
        points = surveys.with_narrow_values(rng, points)
    none, survey = Survey(), survey_of(points)
    grids = [improper_unlike_grid(rng), unlike_grid(rng), like_grid(rng)]
    calls = [esri_call(rng, none, numbers) for numbers in grids]
    present = [esri_call(rng, survey, numbers_near(rng, points)) for _ in range(8)]
    return with_ends(calls) + entry(rng, points) + with_ends(present)


def widest_esri_journal(rng: Random, index: int) -> list[Call]:
    """64 columns and 64 rows of cells as long as can be, lent too little, enough and the most."""
    points, _ = surveys.make(rng, (surveys.single, surveys.ring)[index % 2])
    points = [point._replace(z=rng.randint(-128, -101)) for point in points]
    numbers = widest_grid(rng)
    lents = (LONGEST_TEXT - 1, LONGEST_TEXT, (LONGEST_TEXT + 1, BYTES.most)[index % 2])
    return entry(rng, points) + with_ends([Call("p", (*numbers, lent)) for lent in lents])


def free_journal(rng: Random, index: int) -> list[Call]:
    """Texts whose length hangs on the rounding, lent about the least and the greatest of them."""
    points, numbers = free_rounding.make(rng, index)
    outcome = survey_of(points).esri_text(Grid(*numbers), BYTES.most)
    lengths = outcomes.filled_units(outcome)
    least, greatest = lengths[0], lengths[-1]
    lents = [0, least - 1, least, (least + greatest) // 2, greatest - 1, greatest, greatest + 1]
    calls = [Call("p", (*numbers, lent)) for lent in rng.sample([*lents, BYTES.most], 8)]
    return entry(rng, points) + calls + grid_calls(rng, numbers)
