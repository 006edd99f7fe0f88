"""Makes pairs of journals: the same locations, other values, and the same questions to both."""

from __future__ import annotations

from collections import Counter
from collections.abc import Callable, Collection, Iterable, Sequence
from random import Random
from typing import NamedTuple

import damage
import exact
import exact_files
import mixed_calls
import pair_surveys
import protocol
import surveys
from exact import GREATEST_VALUE, LEAST_VALUE, Point
from exact_files import Grid
from exact_survey import Survey
from grids import Numbers, Side, grid_of
from journals import Journal
from metric import PLAIN, Location
from protocol import Call
from random_calls import entry

# The calls to one survey, those to the other, and the questions that follow both.
Parts = tuple[list[Call], list[Call], list[Call]]
# More than an Esri text needs before its cells, and for each of them.
TEXT_HEAD, TEXT_CELL = 90, 14


class Pair(NamedTuple):
    """Two lists of calls that leave points at the same locations, and what is asked after each."""

    kind: str
    one: list[Call]
    other: list[Call]
    asked: list[Call]

    def journals(self) -> tuple[Journal, Journal]:
        one, other = (Journal(self.kind, calls + self.asked) for calls in self[1:3])
        return one, other


# Other values.


def another_value(rng: Random, z: int, manner: int) -> int:
    """A value that is not z: the least, the greatest, one beside it, or any."""
    wanted = (LEAST_VALUE, GREATEST_VALUE, z + rng.choice((-1, 1)), rng.randint(-128, 127))[manner]
    return wanted if wanted != z and LEAST_VALUE <= wanted <= GREATEST_VALUE else -1 - z


def with_altered(
    rng: Random, points: Iterable[Point], altered: Collection[Location]
) -> list[Point]:
    """The points with another value at each of the altered locations."""
    manner = rng.choice((0, 0, 1, 1, 2, 3, 4))
    return [
        point._replace(z=another_value(rng, point.z, manner if manner < 4 else rng.randrange(4)))
        if point[:2] in altered
        else point
        for point in points
    ]


# Ways to the other survey: calls after which `new` is present. `old` has the same locations.

Way = Callable[[Random, Sequence[Point], Sequence[Point]], list[Call]]


def differing(rng: Random, old: Iterable[Point], new: Iterable[Point]) -> list[Point]:
    """The points of `new` that are not in `old`, in a random order."""
    return rng.sample(kept := sorted(set(new) - set(old)), len(kept))


def shuffled(rng: Random, points: Sequence[Point]) -> list[Point]:
    return rng.sample(points, len(points))


def by_adds(rng: Random, old: Sequence[Point], new: Sequence[Point]) -> list[Call]:
    """Added from the start, in another order."""
    return [Call("a", point) for point in shuffled(rng, new)]


def by_change(rng: Random, old: Sequence[Point], new: Sequence[Point]) -> list[Call]:
    return entry(rng, old) + [Call("c", point) for point in differing(rng, old, new)]


def by_drop_and_add(rng: Random, old: Sequence[Point], new: Sequence[Point]) -> list[Call]:
    again = [(Call("d", point[:2]), Call("a", point)) for point in differing(rng, old, new)]
    return entry(rng, old) + [call for both in again for call in both]


def by_load(rng: Random, old: Sequence[Point], new: Sequence[Point]) -> list[Call]:
    """After adds of the old ones, or of none."""
    before = [Call("a", point) for point in shuffled(rng, old)] if rng.randrange(3) else []
    return before + [protocol.load(damage.sound_file(rng, new))]


def by_load_and_change(rng: Random, old: Sequence[Point], new: Sequence[Point]) -> list[Call]:
    changes = [Call("c", point) for point in differing(rng, old, new)]
    return [protocol.load(damage.sound_file(rng, old)), *changes]


def by_clear(rng: Random, old: Sequence[Point], new: Sequence[Point]) -> list[Call]:
    return [*by_adds(rng, new, old), Call("k"), *by_adds(rng, old, new)]


WAYS: tuple[Way, ...] = (
    by_change,
    by_adds,
    by_drop_and_add,
    by_load,
    by_load_and_change,
    by_clear,
)


# Calls that alter nothing.


def idle_call(rng: Random, survey: Survey, points: Sequence[Point]) -> Call:
    """A refused call, or a question, of a survey that holds some of the points."""
    absent = sorted({point[:2] for point in points} - set(survey.values))
    taken = sorted(survey.values) or [(4096, 0)]
    missing = rng.choice(absent or [surveys.off_domain(rng)])
    return rng.choice(
        (
            Call("a", (*rng.choice(taken), rng.randint(-128, 127))),
            Call("a", (*surveys.off_domain(rng), 5)),
            Call("a", (*missing, 128)),
            Call("c", (*missing, 127)),
            Call("c", (*rng.choice(taken), -129)),
            Call("d", missing if absent else (0, 4096)),
            protocol.load(damage.sound_file(rng, points)[:-1]),
            Call("q", surveys.location_near(rng, points)),
            Call("n", (*surveys.location_near(rng, points), 10)),
            Call("e"),
        )
    )


def with_idle(rng: Random, calls: Iterable[Call], points: Sequence[Point]) -> list[Call]:
    """The calls with others, which alter nothing, among them and behind them."""
    survey, made = Survey(), []
    share = rng.choice((3, 8))
    for call in calls:
        made.append(call)
        mixed_calls.follow(survey, call)
        if rng.randrange(share) == 0 and len(made) < 90:
            made.append(idle_call(rng, survey, points))
    return [*made, idle_call(rng, survey, points)]


def ways_to(
    rng: Random, index: int, points: Sequence[Point], altered: Collection[Location]
) -> tuple[list[Call], list[Call]]:
    """The calls to the points, and those to the points with other values, each in its own way."""
    new = with_altered(rng, points, altered)
    one = by_adds(rng, new, points) if rng.randrange(2) else entry(rng, points)
    other = WAYS[index % len(WAYS)](rng, points, new)
    idle = rng.randrange(4)
    if idle in (1, 3):
        one = with_idle(rng, one, points)
    if idle in (2, 3):
        other = with_idle(rng, other, points)
    return (one, other) if rng.randrange(4) else (other, one)


# Questions.


def lookups_at(rng: Random, at: Location) -> list[Call]:
    """A lookup, and one with neighbours."""
    return [Call("q", at), Call("n", (*at, rng.choice((10, 10, 11, 32))))]


def cells_of(numbers: Numbers) -> list[Location]:
    return exact_files.grid_locations(Grid(*numbers))


def grids_with(rng: Random, numbers: Numbers) -> list[Call]:
    """The grid, its file and its Esri text, each lent what it needs or more."""
    cells, more = numbers[4] * numbers[5], rng.choice((0, 0, 3))
    text = TEXT_HEAD + TEXT_CELL * cells
    needed = (("g", cells), ("f", exact_files.grid_file_length(Grid(*numbers))), ("p", text))
    return [Call(letter, (*numbers, lent + more)) for letter, lent in needed]


def side_at(rng: Random, at: int, step: int) -> Side:
    """Up to three in a row, one of which is there."""
    before = rng.randrange(2) if at >= step else 0
    start = at - before * step
    most = 1 + (surveys.SIDE - 1 - start) // step
    return start, step, rng.randint(1 + before, min(3, most))


def grid_at(rng: Random, at: Location) -> Numbers:
    """A grid of one cell or few, one of them at the location."""
    step = rng.choice((1, 1, 2))
    return grid_of(side_at(rng, at[0], step), side_at(rng, at[1], step))


def chosen_at(points: Sequence[Point], locations: Iterable[Location]) -> list[set[Location]]:
    """The locations of the neighbours at each location."""
    present, initial = sorted(points), exact.initial_radius(points)
    chosen = [exact.choose(present, initial, at, PLAIN)[0] for at in locations]
    return [{candidate[:2] for candidate in each} for each in chosen]


def never_chosen(points: Sequence[Point], locations: Iterable[Location]) -> list[Location]:
    """The locations of the points that are neighbours nowhere."""
    chosen = set().union(*chosen_at(points, locations))
    return sorted({point[:2] for point in points} - chosen)


def seldom_chosen(rng: Random, chosen: Sequence[set[Location]]) -> list[Location]:
    """One or two of the points that are neighbours at few of the locations, but at some."""
    times = Counter(at for each in chosen for at in each)
    ordered = sorted(times, key=lambda at: (times[at], at))
    few = ordered[: max(1, len(ordered) // 3)]
    return rng.sample(few, min(len(few), rng.choice((1, 1, 2))))


# Pairs.


def survey_with_five(rng: Random, index: int) -> tuple[list[Point], list[Location]]:
    """Five points or more, every fourth time a crowd, and at least one location to aim at."""
    kind = surveys.KINDS[index % len(surveys.KINDS)] if index % 4 else pair_surveys.crowd
    for _ in range(20):
        points, aimed = surveys.make(rng, kind)
        if len(points) >= 5:
            return points, aimed or [surveys.location_near(rng, points)]
    return survey_with_five(rng, index + 1)


def locations_asked(
    rng: Random, points: Sequence[Point], aimed: Sequence[Location], count: int
) -> list[Location]:
    """One that is aimed at, then locations close to it, at a point and anywhere."""
    first = rng.choice(aimed)
    near = [(first[0] + rng.randint(-2, 2), first[1] + rng.randint(-2, 2)) for _ in range(count)]
    others = [*surveys.keep_on_domain(near), rng.choice(points)[:2]]
    others += [surveys.location_near(rng, points) for _ in range(count // 2)]
    return [first, *rng.sample(others, min(count - 1, len(others)))]


def lookup_pair(rng: Random, index: int) -> Parts:
    """One location, or several, and all they do not choose; or many, and few points altered."""
    points, aimed = survey_with_five(rng, index)
    count = (1, 3, 24)[(index + index // len(WAYS)) % 3]
    locations = locations_asked(rng, points, aimed, count)
    unchosen = never_chosen(points, locations)
    if count == 24 or not unchosen:
        altered = seldom_chosen(rng, chosen_at(points, locations))
    else:
        altered = unchosen
    asked = [call for at in locations for call in lookups_at(rng, at)]
    if count == 1:
        asked += grids_with(rng, grid_at(rng, locations[0]))
    return *ways_to(rng, index, points, altered), asked


def some_of(rng: Random, locations: list[Location]) -> list[Location]:
    """All of them, most often; or one, or several."""
    count = rng.choice((len(locations), len(locations), 1, rng.randint(1, len(locations))))
    return rng.sample(locations, count)


def lookups_among(
    rng: Random, locations: Iterable[Location], altered: Sequence[Location]
) -> list[Call]:
    """Lookups at the locations, some of them after one at an altered point, which differs."""
    calls = []
    for at in locations:
        before = lookups_at(rng, rng.choice(altered))
        calls += rng.choice(([], before[:1], before[1:])) + lookups_at(rng, at)
    return calls


def midpoint_pair(rng: Random, index: int) -> Parts:
    """Answers at midpoints; what is altered ties with the last chosen, or is far off."""
    points, locations = pair_surveys.midpoints(rng, index)
    altered = some_of(rng, never_chosen(points, locations))
    asked = lookups_among(rng, locations, altered)
    asked += grids_with(rng, (*rng.choice(locations), 1, 1, 1, 1))
    return *ways_to(rng, index // 2, points, altered), asked


def free_pair(rng: Random, index: int) -> Parts:
    """Answers within the free part about a midpoint, in surveys of every kind."""
    points, aimed = survey_with_five(rng, index)
    near = [surveys.location_near(rng, points) for _ in range(6)]
    tried = rng.sample(aimed, min(len(aimed), 6)) + near
    points, locations = pair_surveys.freed(rng, points, tried, 3)
    locations = locations or [rng.choice(tried)]
    unchosen = never_chosen(points, locations)
    altered = some_of(rng, unchosen) if unchosen else [points[0][:2]]
    asked = lookups_among(rng, locations, altered)
    asked += grids_with(rng, grid_at(rng, locations[0]))
    return *ways_to(rng, index, points, altered), asked


def grid_over(rng: Random, points: Sequence[Point]) -> Numbers:
    """A grid with two steps alike from the points' least corner on, over many of them."""
    xs, ys = [point.x for point in points], [point.y for point in points]
    columns, rows = rng.randint(3, 6), rng.randint(3, 6)
    most = min((surveys.SIDE - 1 - min(xs)) // columns, (surveys.SIDE - 1 - min(ys)) // rows)
    wide = max((max(xs) - min(xs)) // columns, (max(ys) - min(ys)) // rows, 1)
    step = min(wide, most)
    if step < 1:
        return min(xs), min(ys), 1, 1, 1, 1
    return min(xs), min(ys), step, step, columns, rows


def grid_pair(rng: Random, index: int) -> Parts:
    """Some of the cells choose the altered points, which are few; of the others some are free."""
    points, _ = survey_with_five(rng, index)
    numbers = grid_over(rng, points)
    cells = cells_of(numbers)
    chosen = chosen_at(points, cells)
    altered = seldom_chosen(rng, chosen)
    at_altered = [bool(each & set(altered)) for each in chosen]
    # Those first that come after a cell which the alteration moves.
    order = sorted(range(len(cells)), key=lambda each: not (each and at_altered[each - 1]))
    others = [cells[each] for each in order if not at_altered[each]]
    points, free = pair_surveys.freed(rng, points, others, 3)
    asked = grids_with(rng, numbers) + lookups_among(rng, free, altered)
    return *ways_to(rng, index, points, altered), asked
