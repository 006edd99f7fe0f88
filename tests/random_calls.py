"""Makes random calls: lookups, grids, rows, texts, and those that bring given points."""

from __future__ import annotations

from collections.abc import Iterable, Sequence
from random import Random

import damage
import outcomes
import protocol
import surveys
from exact import Point, Refused
from exact_files import Grid
from exact_survey import Survey
from grids import Numbers
from metric import Location
from operations import BYTES, CELLS
from protocol import Call

# Enough lent bytes for the file of any survey, and for that of any grid.
ANY_SURVEY = 256 * 5 + 12
ANY_GRID = 2 * 64 * 64 + 20
# The shortest Esri text, and the longest: 64 × 64 cells of a sign and three digits, numbers of the
# origin with four digits and a step with two.
SHORTEST_TEXT = 81
LONGEST_TEXT = 79 + 64 * 64 * 14


def lookup_call(rng: Random, location: Location) -> Call:
    """With neighbours or without, most often lent enough records."""
    if rng.randrange(2):
        return Call("q", location)
    return Call("n", (*location, rng.choice((10, 10, 10, 10, 11, 32, 0, 9))))


def lookup_calls(
    rng: Random, points: Sequence[Point], aimed: Iterable[Location], count: int
) -> list[Call]:
    calls = [lookup_call(rng, location) for location in aimed]
    while len(calls) < count:
        if rng.randrange(25):
            location = surveys.location_near(rng, points)
        else:
            location = surveys.off_domain(rng)
        calls.append(lookup_call(rng, location))
    return calls


def with_ends(calls: Iterable[Call]) -> list[Call]:
    """Each call, and the ends read after it."""
    return [each for call in calls for each in (call, Call("e"))]


def entry(rng: Random, points: Sequence[Point]) -> list[Call]:
    """Calls after which the points are present, straight or by detours."""
    if rng.randrange(4) == 0:
        return [protocol.load(damage.sound_file(rng, points))]
    calls = []
    for point in points:
        detour = rng.randrange(10)
        if detour == 0:
            calls.append(Call("a", (point.x, point.y, rng.randint(-128, 127))))
            calls.append(Call("c", point))
        elif detour == 1:
            calls += [Call("a", point), Call("d", point[:2]), Call("a", point)]
        else:
            calls.append(Call("a", point))
    return calls


def lent_about(rng: Random, needed: int, most: int) -> int:
    """How much is lent: the exact need, one less, one more, none, or more."""
    choices = (needed, needed, needed + 1, needed + 9, needed - 1, 0)
    return min(max(rng.choice(choices), 0), most)


def grid_calls(rng: Random, numbers: Numbers) -> list[Call]:
    """The grid and its file, each lent about what it needs."""
    cells = min(numbers[4] * numbers[5], 4096)
    grid = Call("g", (*numbers, lent_about(rng, cells, CELLS.most)))
    file = Call("f", (*numbers, lent_about(rng, 2 * cells + 20, BYTES.most)))
    return rng.sample((grid, file), rng.choice((1, 2, 2)))


def row_call(rng: Random, survey: Survey) -> Call:
    """The next row, lent about what it needs, at times the most; with none to come, any number."""
    columns = survey.filling.grid.columns if survey.filling else rng.randint(0, 9)
    if rng.randrange(30) == 0:
        return Call("r", (CELLS.most,))
    return Call("r", (lent_about(rng, columns, CELLS.most),))


def esri_length(survey: Survey, numbers: Numbers) -> int:
    """The length of a grid's Esri text, or that of the shortest where it is refused."""
    try:
        return outcomes.preferred_units(survey.esri_text(Grid(*numbers), BYTES.most))
    except Refused:
        return SHORTEST_TEXT


def esri_call(rng: Random, survey: Survey, numbers: Numbers) -> Call:
    """The Esri text, lent about what it needs, at times the most that may be lent."""
    if rng.randrange(12) == 0:
        return Call("p", (*numbers, BYTES.most))
    return Call("p", (*numbers, lent_about(rng, esri_length(survey, numbers), BYTES.most)))
