"""Plants faults in the choice of neighbours and in the mean."""

from __future__ import annotations

from collections.abc import Sequence
from fractions import Fraction
from math import isqrt

import exact
import exact_files
import exact_survey
import surveys
from exact import Candidate, Lookup, Neighbour, Ordered, Point
from exact_survey import Survey
from faults import fault
from metric import Location, Metric


@fault("ties by entry", "lookups")
def ties_by_entry() -> None:
    """Points are kept and taken in order of entry; only the file is sorted."""
    survey_file, in_order = exact_files.survey_file, exact.in_order

    def by_entry(self: Survey) -> list[Point]:
        return [Point(x, y, z) for (x, y), z in self.values.items()]

    def by_distance(points: Sequence[Point], at: Location, metric: Metric) -> list[Ordered]:
        rank = {point[:2]: index for index, point in enumerate(points)}
        return sorted(in_order(points, at, metric), key=lambda each: (each[0], rank[each[1:3]]))

    exact_survey.Survey.points = by_entry
    exact_files.survey_file = lambda points: survey_file(sorted(points))
    exact.in_order = by_distance


@fault("ties by y", "lookups")
def ties_by_y() -> None:
    in_order = exact.in_order

    def wrong(points: Sequence[Point], at: Location, metric: Metric) -> list[Ordered]:
        return sorted(in_order(points, at, metric), key=lambda each: (each[0], each[2], each[1]))

    exact.in_order = wrong


@fault("radius of last", "lookups")
def radius_of_last() -> None:
    choose = exact.choose

    def wrong(
        points: Sequence[Point], initial: int, at: Location, metric: Metric
    ) -> tuple[list[Candidate], int]:
        chosen, radius = choose(points, initial, at, metric)
        return chosen, radius if radius in (0, initial) else chosen[-1][3]

    exact.choose = wrong


@fault("first n", "lookups")
def first_n() -> None:
    """At most four within R0: only those are chosen, if there is one."""
    choose = exact.choose

    def wrong(
        points: Sequence[Point], initial: int, at: Location, metric: Metric
    ) -> tuple[list[Candidate], int]:
        chosen, radius = choose(points, initial, at, metric)
        within = sum(each[3] <= initial for each in chosen)
        return chosen[: max(within, 1)] if radius else chosen, radius

    exact.choose = wrong


@fault("last bit of distance", "lookups")
def last_bit_of_distance() -> None:
    """The last bit of D is lost."""
    exact.distance = lambda squared: isqrt(65_536 * squared) & ~1


@fault("first bit of distance", "lookups")
def first_bit_of_distance() -> None:
    """The first bit of D is lost where it has 21, as of the farthest points."""
    exact.distance = lambda squared: isqrt(65_536 * squared) % 2**20


@fault("greater square", "lookups")
def greater_square() -> None:
    """A bit of D is kept where its square is greater by one."""
    exact.distance = lambda squared: isqrt(65_536 * squared + (squared > 0))


@fault("radius by pi", "lookups")
def radius_by_pi() -> None:
    exact.radius_of_area = surveys.radius_by_pi


@fault("within strictly", "lookups")
def within_strictly() -> None:
    """D < R0 is counted, not D ≤ R0; the radius stays R0."""
    choose = exact.choose

    def wrong(
        points: Sequence[Point], initial: int, at: Location, metric: Metric
    ) -> tuple[list[Candidate], int]:
        chosen, radius = choose(points, initial - 1, at, metric)
        return chosen, initial if radius == initial - 1 else radius

    exact.choose = wrong


@fault("third strictly", "lookups")
def third_strictly() -> None:
    """Inverse where 3D < R, tapered where 3D = R."""
    kind = exact.influence_kind

    def wrong(away: int, radius: int, present: int) -> int:
        at_third = present > 4 and 3 * away == radius > 0
        return exact.TAPERED if at_third else kind(away, radius, present)

    exact.influence_kind = wrong


@fault("four present tapered", "lookups")
def four_present_tapered() -> None:
    """Four points or fewer get no rule of their own: R is 0, and all come out as edges."""
    kind = exact.influence_kind
    exact.influence_kind = lambda away, radius, present: kind(away, radius, 5)


@fault("own cosine", "lookups")
def own_cosine() -> None:
    exact.others = lambda count, own: range(count)


@fault("no bars", "lookups")
def no_bars() -> None:
    def wrong(one: Neighbour, other: Neighbour, at: Location, metric: Metric) -> int:
        inner = metric.inner_product(exact.offset(one, at), exact.offset(other, at))
        return one.distance * other.distance - 65_536 * inner

    exact.cosine_gap = wrong


@fault("no directional term", "lookups")
def no_directional_term() -> None:
    exact.others = lambda count, own: []


@fault("edges mean nothing", "examples")
def edges_mean_nothing() -> None:
    """Where all are edges, the mean comes out as 0."""
    exact_mean = exact.exact_mean

    def wrong(
        neighbours: Sequence[Neighbour], radius: int, at: Location, metric: Metric
    ) -> Fraction:
        edges = all(each.kind == exact.EDGE for each in neighbours)
        return Fraction(0) if edges else exact_mean(neighbours, radius, at, metric)

    exact.exact_mean = wrong


@fault("answer plus one", "whole case")
def answer_plus_one() -> None:
    nearest = exact.nearest_answer
    exact.nearest_answer = lambda lookup: nearest(lookup) + 1


@fault("answer floored", "grid inputs")
def answer_floored() -> None:
    def wrong(lookup: Lookup) -> int:
        return 256 * lookup.mean.numerator // lookup.mean.denominator

    exact.nearest_answer = wrong
