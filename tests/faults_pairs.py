"""Plants faults by which values of points that are not chosen have a say.

Of the first ones every answer is permitted, so that only two journals together show them.
"""

from __future__ import annotations

from collections.abc import Callable, Sequence
from fractions import Fraction
from math import floor

import exact
import exact_files
import exact_survey
import stand_ins
from exact import COINCIDENT, EDGE, INVERSE, Lookup, Neighbour, Ordered, Point
from exact_survey import Survey
from faults import Plant, fault
from metric import Location, Metric
from outcomes import Outcome, Unit
from protocol import Call

LookUp = Callable[[Sequence[Point], int, Location, Metric], Lookup]
# Gives, from a lookup and all values, the nearest point's first, the value to count from.
Origin = Callable[[Lookup, Sequence[int]], int]
# A number of the whole survey, even or odd.
Number = Callable[[Sequence[Point]], int]

LOOKUPS, GRIDS = "pairs of lookups", "pairs of grids"
MIDPOINTS, FREE = "pairs of midpoints", "pairs of free answers"
# The faults that no single journal shows.
HIDDEN: list[str] = []


def hidden(name: str, shown_by: str) -> Callable[[Plant], Plant]:
    """Enters a fault as one of them."""
    HIDDEN.append(name)
    return fault(name, shown_by)


def with_answer(lookup: Lookup, answer: int) -> Lookup:
    """The lookup with a mean to which the answer is the nearest 256th."""
    return lookup._replace(mean=Fraction(answer, 256))


# Answers in 64-bit floats, as document 01 describes them.


def float_factor(neighbour: Neighbour, radius: int) -> float:
    if neighbour.kind == INVERSE:
        return 1.0 / neighbour.distance
    rest = float(radius - neighbour.distance)
    return 27.0 * (rest * rest) / (4.0 * (float(radius) * radius * radius))


def float_weights(lookup: Lookup, at: Location, metric: Metric) -> list[float]:
    neighbours = lookup.neighbours
    factors = [float_factor(each, lookup.radius) for each in neighbours]
    total = 0.0
    for each in factors:
        total += each
    made = []
    for own, one in enumerate(neighbours):
        directional = 0.0
        for position in exact.others(len(neighbours), own):
            other = neighbours[position]
            gap = float(exact.cosine_gap(one, other, at, metric))
            directional += factors[position] * (gap / (float(one.distance) * other.distance))
        made.append(factors[own] * factors[own] * (1.0 + directional / total))
    return made


def float_answer(lookup: Lookup, at: Location, metric: Metric, origin: int) -> int:
    """The nearest 256th, with values counted from the origin, up or down."""
    if all(each.kind == EDGE for each in lookup.neighbours):
        weights = [1.0] * len(lookup.neighbours)
    else:
        weights = float_weights(lookup, at, metric)
    weight_sum, value_sum = 0.0, 0.0
    for weight, neighbour in zip(weights, lookup.neighbours):
        weight_sum += weight
        value_sum += weight * (neighbour.z - origin)
    return 256 * origin + floor(256.0 * (value_sum / weight_sum) + 0.5)


def float_look_up(right: LookUp, origin: Origin) -> LookUp:
    """Lookups whose answers are worked out in floats."""

    def look_up(points: Sequence[Point], initial: int, at: Location, metric: Metric) -> Lookup:
        lookup = right(points, initial, at, metric)
        if lookup.neighbours[0].kind == COINCIDENT:
            return lookup
        by_distance = [each[3] for each in exact.in_order(points, at, metric)]
        return with_answer(lookup, float_answer(lookup, at, metric, origin(lookup, by_distance)))

    return look_up


def from_origin(origin: Origin) -> Plant:
    def plant() -> None:
        exact.look_up = float_look_up(exact.look_up, origin)

    return plant


def least_chosen(lookup: Lookup, values: Sequence[int]) -> int:
    """The sound one."""
    return min(neighbour.z for neighbour in lookup.neighbours)


ORIGINS: dict[str, Origin] = {
    "least value of all points": lambda lookup, values: min(values),
    "greatest value of all points": lambda lookup, values: max(values),
    "least value of the eleven nearest": lambda lookup, values: min(values[:11]),
    "mean value of all points": lambda lookup, values: sum(values) // len(values),
    "value of the farthest point": lambda lookup, values: values[-1],
}
for name, origin in ORIGINS.items():
    hidden(name, MIDPOINTS)(from_origin(origin))


# Free answers that hang on the whole survey.


def sided_look_up(right: LookUp, number: Number) -> LookUp:
    """Lookups whose free answers are the lower or the upper one as a number is even or odd."""

    def look_up(points: Sequence[Point], initial: int, at: Location, metric: Metric) -> Lookup:
        lookup = right(points, initial, at, metric)
        permitted = exact.permitted_answers(lookup)
        return with_answer(lookup, permitted[number(points) % len(permitted)])

    return look_up


def sided(number: Number) -> Plant:
    def plant() -> None:
        exact.look_up = sided_look_up(exact.look_up, number)

    return plant


def values(points: Sequence[Point]) -> list[int]:
    return [point.z for point in points]


def checksum(points: Sequence[Point]) -> int:
    """The sum in the survey file's trailer."""
    return int.from_bytes(exact_files.survey_file(points)[-6:-4], "big")


def values_above_0(points: Sequence[Point]) -> int:
    return sum(z > 0 for z in values(points))


def sum_of_values(points: Sequence[Point]) -> int:
    return sum(values(points))


hidden("free by the sum of all values", FREE)(sided(sum_of_values))
hidden("free by the values above 0", FREE)(sided(values_above_0))
hidden("free by the checksum", FREE)(sided(checksum))
hidden("free by the kept least value", FREE)(sided(lambda points: min(values(points))))
hidden("free by the kept greatest value", FREE)(sided(lambda points: max(values(points))))


@hidden("free by the first left out", MIDPOINTS)
def free_by_first_left_out() -> None:
    """Free answers are the lower or the upper one by the first value that is not chosen."""
    right = exact.look_up

    def wrong(points: Sequence[Point], initial: int, at: Location, metric: Metric) -> Lookup:
        lookup = right(points, initial, at, metric)
        beyond = exact.in_order(points, at, metric)[len(lookup.neighbours) :]
        permitted = exact.permitted_answers(lookup)
        return with_answer(lookup, permitted[(beyond[0][3] if beyond else 0) % len(permitted)])

    exact.look_up = wrong


@hidden("free by the number of calls", FREE)
def free_by_number_of_calls() -> None:
    """Free answers are the lower or the upper one by how often the survey was altered."""
    altered, right = Survey.altered, exact.look_up
    times = 0

    def counted(self: Survey) -> None:
        nonlocal times
        times += 1
        altered(self)

    exact_survey.Survey.altered = counted
    exact.look_up = lambda *given: sided_look_up(right, lambda points: times)(*given)


def sided_by_before(told: Callable[[Lookup], int]) -> Plant:
    """Free answers are the lower or the upper one by what the lookup before tells."""

    def plant() -> None:
        right, before = exact.look_up, 0

        def wrong(points: Sequence[Point], initial: int, at: Location, metric: Metric) -> Lookup:
            nonlocal before
            kept = before
            lookup = sided_look_up(right, lambda points: kept)(points, initial, at, metric)
            before = told(lookup)
            return lookup

        exact.look_up = wrong

    return plant


def last_chosen_value(lookup: Lookup) -> int:
    return lookup.neighbours[-1].z


def whole_steps(lookup: Lookup) -> int:
    return exact.nearest_answer(lookup) // 256


hidden("free by the answer before", FREE)(sided_by_before(whole_steps))
hidden("free by the value chosen before", MIDPOINTS)(sided_by_before(last_chosen_value))
hidden("free by the cell before", GRIDS)(sided_by_before(whole_steps))


def sided_in(method: str) -> Plant:
    """Free answers hang on all values in one call only."""

    def plant() -> None:
        right = getattr(Survey, method)

        def wrong(self: Survey, *given: object) -> Outcome:
            kept, exact.look_up = exact.look_up, sided_look_up(exact.look_up, sum_of_values)
            self.lookups = {}
            try:
                return right(self, *given)
            finally:
                exact.look_up, self.lookups = kept, {}

        setattr(Survey, method, wrong)

    return plant


hidden("free lookups by all values", MIDPOINTS)(sided_in("lookup"))
hidden("free lookups with neighbours by all values", MIDPOINTS)(sided_in("lookup_with_neighbours"))
hidden("free cells by all values", GRIDS)(sided_in("grid"))
hidden("free cells of files by all values", GRIDS)(sided_in("grid_file"))
hidden("free cells of texts by all values", GRIDS)(sided_in("esri_text"))


# Faults that hang on values where the choice goes by locations alone.


@fault("ties by value", MIDPOINTS)
def ties_by_value() -> None:
    in_order = exact.in_order

    def wrong(points: Sequence[Point], at: Location, metric: Metric) -> list[Ordered]:
        ordered = in_order(points, at, metric)
        return sorted(ordered, key=lambda each: (each[0], each[3], each[1], each[2]))

    exact.in_order = wrong


@fault("greatest values left out", LOOKUPS)
def greatest_values_left_out() -> None:
    """R0 is worked out without the points of the greatest value."""
    right = exact.initial_radius

    def wrong(points: Sequence[Point]) -> int:
        greatest = max(values(points))
        return right([point for point in points if point.z < greatest] or points)

    exact.initial_radius = wrong


@fault("number of unlike values", LOOKUPS)
def number_of_unlike_values() -> None:
    """R0 counts points of one value once."""

    def wrong(points: Sequence[Point]) -> int:
        return exact.radius_of_area(exact.twice_area(points), len(set(values(points))))

    exact.initial_radius = wrong


@fault("least value in edge records", MIDPOINTS)
def least_value_in_edge_records() -> None:
    """A neighbour without weight is recorded with the kept least value."""
    right = Survey.lookup_with_neighbours

    def wrong(self: Survey, x: int, y: int, lent: int) -> Outcome:
        outcome, least = right(self, x, y, lent), self.exact_ends().least_z
        shown = (each._replace(z=least) if each.kind == EDGE else each for each in outcome.filled)
        return outcome._replace(filled=tuple(shown))

    exact_survey.Survey.lookup_with_neighbours = wrong


@fault("radius of unlike value", LOOKUPS)
def radius_of_unlike_value() -> None:
    """R is of the first one left out whose value is not that of the last chosen."""
    right = exact.choose

    def wrong(
        points: Sequence[Point], initial: int, at: Location, metric: Metric
    ) -> tuple[list[exact.Candidate], int]:
        chosen, radius = right(points, initial, at, metric)
        beyond = exact.in_order(points, at, metric)[len(chosen) :]
        unlike = [each[0] for each in beyond if each[3] != chosen[-1][2]]
        if radius in (0, initial) or not unlike:
            return chosen, radius
        return chosen, exact.distance(unlike[0])

    exact.choose = wrong


@fault("value of the first add", GRIDS)
def value_of_first_add() -> None:
    """A location keeps the value that it was first added with, also where it is added again."""
    add, first = Survey.add, {}

    def wrong(self: Survey, x: int, y: int, z: int) -> Outcome:
        outcome = add(self, x, y, z)
        first.setdefault((x, y), z)
        return outcome

    def points(self: Survey) -> list[Point]:
        return [Point(*at, first.get(at, z)) for at, z in sorted(self.values.items())]

    exact_survey.Survey.add = wrong
    exact_survey.Survey.points = points


@fault("grid before the last change", GRIDS)
def grid_before_last_change() -> None:
    """A grid's cells are those of the survey before its last change."""
    change, act, before = Survey.change, stand_ins.act, {}

    def changed(self: Survey, x: int, y: int, z: int) -> Outcome:
        kept = dict(self.values)
        outcome = change(self, x, y, z)
        before[tuple(sorted(self.values.items()))] = kept
        return outcome

    def wrong(survey: Survey, call: Call, lent: list[Unit]) -> str:
        kept = before.get(tuple(sorted(survey.values.items())))
        if call.letter not in "gfp" or kept is None:
            return act(survey, call, lent)
        stale = Survey()
        stale.replace([(*at, z) for at, z in kept.items()])
        return act(stale, call, lent)

    exact_survey.Survey.change = changed
    stand_ins.act = wrong
