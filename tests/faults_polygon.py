"""Plants faults in the polygon around a survey's points, from which R0 comes."""

from __future__ import annotations

from collections.abc import Callable, Iterable, Sequence

import exact
import exact_polygon
from exact import Ends, Lookup, Point
from exact_polygon import cross, turn, twice_area
from exact_survey import Survey
from faults import Plant, fault
from metric import Location, Metric
from outcomes import Outcome
from surveys import rectangle_radius, twice_rectangle

# Twice an area, from the locations by x, then y.
Area = Callable[[Sequence[Location]], int]
# Takes a location in at the end of one side of the polygon.
TakeIn = Callable[[list[Location], Location], None]


def by_area(area: Area) -> Plant:
    """R0 comes from another area."""

    def plant() -> None:
        exact.twice_area = lambda points: area(sorted({point[:2] for point in points}))

    return plant


def enclosed(locations: Sequence[Location]) -> int:
    """Within the lines from each location to the next, and from the last to the first."""
    following = [*locations[1:], *locations[:1]]
    return abs(sum(cross(one, other) for one, other in zip(locations, following)))


# Another area.


def outermost(locations: Sequence[Location]) -> int:
    """Only those of the least and greatest x and y are corners."""
    by_y = sorted(locations, key=lambda each: each[1])
    return enclosed([locations[0], by_y[0], locations[-1], by_y[-1]])


def lower_side(locations: Sequence[Location]) -> int:
    """Between the lower side and the line that joins its ends."""
    edges = exact_polygon.edges(tuple(locations))
    below = sum(cross(start, end) for start, end in edges if start < end)
    return below + cross(locations[-1], locations[0])


def without_full_edges(locations: Sequence[Location]) -> int:
    """A point on an edge is taken as outside of it, so that there is no edge."""
    edges = exact_polygon.edges(tuple(locations))
    on_line = lambda edge: sum(turn(*edge, each) == 0 for each in locations)
    return abs(sum(cross(*edge) for edge in edges if on_line(edge) == 2))


fault("rectangle in lookups and ends", "lookups")(by_area(twice_rectangle))
fault("rectangle in grid files", "grid inputs")(by_area(twice_rectangle))
fault("rectangle around one line", "lookups")(
    by_area(lambda locations: twice_area(locations) or twice_rectangle(locations))
)
fault("outermost in x and y alone", "lookups")(by_area(outermost))
fault("lower side twice", "polygon")(by_area(lambda locations: 2 * lower_side(locations)))
fault("upper side left out", "polygon")(by_area(lower_side))
fault("edges with points on them left out", "lookups")(by_area(without_full_edges))
fault("half of an odd area dropped", "polygon")(
    by_area(lambda locations: 2 * (twice_area(locations) // 2))
)
fault("area in 24 bits", "lookups")(by_area(lambda locations: twice_area(locations) % 2**24))
fault("survey's order taken as the polygon's", "polygon")(by_area(enclosed))


# A side that is drawn from location to location.


def last_turn(side: Sequence[Location], at: Location) -> int:
    return turn(*side[-2:], at) if len(side) > 1 else 1


def cut_all(side: list[Location], at: Location) -> None:
    """As is right: all are cut off that are no corners with the new location."""
    while last_turn(side, at) <= 0:
        side.pop()
    side.append(at)


def cut_one(side: list[Location], at: Location) -> None:
    """At most one is cut off."""
    if last_turn(side, at) <= 0:
        side.pop()
    side.append(at)


def leave_in_line(side: list[Location], at: Location) -> None:
    """A location in line with the last two is left out, though it lies beyond them."""
    while last_turn(side, at) < 0:
        side.pop()
    if last_turn(side, at):
        side.append(at)


def slope(start: Location, end: Location) -> int:
    """Rounded down to a whole number; that of an upright line is greater than any other."""
    return (end[1] - start[1]) // (end[0] - start[0]) if end[0] != start[0] else 4096


def cut_by_slopes(side: list[Location], at: Location) -> None:
    """Turns are told by slopes that are rounded."""
    while len(side) > 1 and slope(side[-1], at) <= slope(*side[-2:]):
        side.pop()
    side.append(at)


def side_of(locations: Iterable[Location], take_in: TakeIn) -> list[Location]:
    side: list[Location] = []
    for location in locations:
        take_in(side, location)
    return side


def by_sides(take_in: TakeIn) -> Area:
    """Within the lower side, and the upper one, which goes back."""

    def area(locations: Sequence[Location]) -> int:
        return enclosed(side_of(locations, take_in) + side_of(reversed(locations), take_in))

    return area


fault("one cut off at most", "polygon")(by_area(by_sides(cut_one)))
fault("corner in line left out", "polygon")(by_area(by_sides(leave_in_line)))
fault("slopes rounded", "polygon")(by_area(by_sides(cut_by_slopes)))


# The area or the number of another moment.


def with_radius(survey: Survey, twice: int, count: int) -> Ends:
    """A survey's ends, with the R0 of another area or number."""
    return survey.exact_ends()._replace(initial_radius=exact.radius_of_area(twice, count))


@fault("polygon kept over a drop", "polygon")
def kept_over_a_drop() -> None:
    """R0 is worked out for one point fewer, from the area before."""
    right = Survey.drop

    def wrong(self: Survey, x: int, y: int) -> Outcome:
        before = exact.twice_area(self.points())
        outcome = right(self, x, y)
        if self.values:
            self.ends = with_radius(self, before, len(self.values))
        return outcome

    Survey.drop = wrong


def renewed_with_the_rectangle(call: str) -> Plant:
    """A call that does not move the rectangle leaves the area as it was."""

    def plant() -> None:
        right = getattr(Survey, call)

        def wrong(self: Survey, *arguments: int) -> Outcome:
            ends, before = self.exact_ends(), exact.twice_area(self.points())
            outcome = right(self, *arguments)
            if self.exact_ends()[:4] == ends[:4] and self.values:
                self.ends = with_radius(self, before, len(self.values))
            return outcome

        setattr(Survey, call, wrong)

    return plant


for call in ("add", "drop"):
    name = f"polygon kept where the rectangle is, over {call}s"
    fault(name, "polygon")(renewed_with_the_rectangle(call))


@fault("order of entry taken as the polygon's", "polygon")
def order_of_entry() -> None:
    right = Survey.exact_ends

    def wrong(self: Survey) -> Ends:
        if not self.values:
            return right(self)
        twice = enclosed(list(self.values))
        return right(self)._replace(initial_radius=exact.radius_of_area(twice, len(self.values)))

    Survey.exact_ends = wrong


@fault("change counted as an add", "polygon")
def change_counted_as_an_add() -> None:
    """A change of a value moves R0."""
    right = Survey.change

    def wrong(self: Survey, x: int, y: int, z: int) -> Outcome:
        outcome = right(self, x, y, z)
        self.ends = with_radius(self, exact.twice_area(self.points()), len(self.values) + 1)
        return outcome

    Survey.change = wrong


@fault("corners counted", "lookups")
def corners_counted() -> None:
    """N is the number of the polygon's corners."""

    def wrong(points: Sequence[Point]) -> int:
        count = len(exact_polygon.corners(point[:2] for point in points))
        return exact.radius_of_area(exact.twice_area(points), count)

    exact.initial_radius = wrong


# R0 of the rectangle in one of its two uses.


@fault("rectangle in lookups alone", "lookups")
def rectangle_in_lookups_alone() -> None:
    right = exact.look_up

    def wrong(points: Sequence[Point], initial: int, at: Location, metric: Metric) -> Lookup:
        return right(points, rectangle_radius([point[:2] for point in points]), at, metric)

    exact.look_up = wrong


@fault("rectangle in ends alone", "polygon")
def rectangle_in_ends_alone() -> None:
    def wrong(self: Survey) -> Outcome:
        radius = rectangle_radius(list(self.values)) if self.values else 0
        return Outcome(self.exact_ends()._replace(initial_radius=radius))

    Survey.read_ends = wrong
