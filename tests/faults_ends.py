"""Plants faults in the ends that a survey holds."""

from __future__ import annotations

from collections.abc import Callable, Sequence

import exact
from exact import Ends, Lookup, Point
from exact_survey import Survey
from faults import Plant, fault
from outcomes import Outcome

RECTANGLE, VALUES, RADIUS = Ends._fields[:4], Ends._fields[4:6], Ends._fields[6:]


def kept_over(call: str, names: Sequence[str]) -> Plant:
    """An accepted call leaves some of the ends as they were."""

    def plant() -> None:
        right = getattr(Survey, call)

        def wrong(self: Survey, *arguments: object) -> Outcome:
            before = self.exact_ends()
            outcome = right(self, *arguments)
            self.ends = self.exact_ends()._replace(
                **{name: getattr(before, name) for name in names}
            )
            return outcome

        setattr(Survey, call, wrong)

    return plant


fault("R0 kept over a drop", "ends")(kept_over("drop", RADIUS))
fault("R0 kept over a load", "ends")(kept_over("load", RADIUS))
fault("R0 kept over an add", "ends")(kept_over("add", RADIUS))
fault("values kept over a change", "ends")(kept_over("change", VALUES))
fault("values kept over a drop", "ends")(kept_over("drop", VALUES))
fault("ends kept over a clear", "ends")(kept_over("clear", Ends._fields))


@fault("ends kept over the last drop", "ends")
def ends_kept_over_the_last_drop() -> None:
    """Where no point is left, the ends are not renewed."""
    right = Survey.drop

    def wrong(self: Survey, x: int, y: int) -> Outcome:
        before = self.exact_ends()
        outcome = right(self, x, y)
        if not self.values:
            self.ends = before
        return outcome

    Survey.drop = wrong


def widened(before: Ends, now: Ends, names: Sequence[str]) -> Ends:
    """The ends of now, save that some of them do not come inward."""
    outer = {name: min if name.startswith("least") else max for name in names}
    return now._replace(
        **{name: outer[name](getattr(before, name), getattr(now, name)) for name in names}
    )


def only_widened(names: Sequence[str]) -> Plant:
    """Adds, changes and drops move some of the ends outward only; R0 is right."""

    def widening(right: Callable[..., Outcome]) -> Callable[..., Outcome]:
        def wrong(self: Survey, *arguments: int) -> Outcome:
            before = self.exact_ends() if self.values else None
            outcome = right(self, *arguments)
            if before is not None:
                self.ends = widened(before, self.exact_ends(), names)
            return outcome

        return wrong

    def plant() -> None:
        for call in ("add", "change", "drop"):
            setattr(Survey, call, widening(getattr(Survey, call)))

    return plant


fault("rectangle only grows", "ends")(only_widened(RECTANGLE))
fault("values only widen", "ends")(only_widened(VALUES))


@fault("zeros taken in", "ends")
def zeros_taken_in() -> None:
    """The first add widens the zeros of the empty survey."""
    right = Survey.add

    def wrong(self: Survey, x: int, y: int, z: int) -> Outcome:
        first = not self.values
        outcome = right(self, x, y, z)
        if first:
            self.ends = widened(exact.ends([]), self.exact_ends(), RECTANGLE + VALUES)
        return outcome

    Survey.add = wrong


@fault("R0 of few points is 0", "ends")
def radius_of_few_points() -> None:
    """With four points or fewer, for which no lookup asks it, R0 is not worked out."""
    right = exact.ends

    def wrong(points: Sequence[Point]) -> Ends:
        few = len(points) <= exact.FEWEST_NEIGHBOURS
        return right(points)._replace(initial_radius=0) if few else right(points)

    exact.ends = wrong


@fault("x and y exchanged", "ends")
def x_and_y_exchanged() -> None:
    right = exact.ends

    def wrong(points: Sequence[Point]) -> Ends:
        least_x, greatest_x, least_y, greatest_y, *rest = right(points)
        return Ends(least_y, greatest_y, least_x, greatest_x, *rest)

    exact.ends = wrong


@fault("y of the first and last", "ends")
def y_of_the_first_and_last() -> None:
    """The ends of y are taken, as those of x may be, from the first and the last point."""
    right = exact.ends

    def wrong(points: Sequence[Point]) -> Ends:
        low, high = (points[0].y, points[-1].y) if points else (0, 0)
        return right(points)._replace(least_y=low, greatest_y=high)

    exact.ends = wrong


def renewed_by(call: str, number: int) -> Plant:
    """An add or a change that is refused with the number renews the ends with its point."""

    def plant() -> None:
        right = getattr(Survey, call)

        def wrong(self: Survey, x: int, y: int, z: int) -> Outcome:
            try:
                return right(self, x, y, z)
            except exact.Refused as refusal:
                if refusal.number == number:
                    self.ends = exact.ends([*self.points(), Point(x, y, z)])
                raise

        setattr(Survey, call, wrong)

    return plant


for number in (1, 2, 3):
    fault(f"ends renewed by an add with refusal {number}", "ends")(renewed_by("add", number))
fault("ends renewed by an add with refusal 5", "full survey")(renewed_by("add", 5))
for number in (1, 2, 4):
    fault(f"ends renewed by a change with refusal {number}", "ends")(renewed_by("change", number))


@fault("ends cleared by a refused load", "ends")
def ends_cleared_by_a_refused_load() -> None:
    right = Survey.load

    def wrong(self: Survey, data: bytes) -> Outcome:
        try:
            return right(self, data)
        except exact.Refused:
            self.ends = exact.ends([])
            raise

    Survey.load = wrong


@fault("R kept as R0", "mixed calls")
def radius_kept_as_initial() -> None:
    """A lookup leaves its own radius in the place of R0."""
    right = Survey.exact_lookup

    def wrong(self: Survey, x: int, y: int) -> Lookup:
        lookup = right(self, x, y)
        self.ends = self.exact_ends()._replace(initial_radius=lookup.radius)
        return lookup

    Survey.exact_lookup = wrong
