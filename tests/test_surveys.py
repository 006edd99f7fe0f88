"""Shows that the kinds of random surveys are what they say they are."""

from __future__ import annotations

import unittest
from collections import Counter
from collections.abc import Callable, Iterator
from math import isqrt
from random import Random

import exact
import exact_polygon
import shapes
import surveys
from metric import Location
from surveys import Made

COUNT = 60


def made(kind: Callable[[Random], Made]) -> Iterator[Made]:
    rng = Random(41)
    return (kind(rng) for _ in range(COUNT))


def radius_of(locations: list[Location]) -> int:
    return exact.initial_radius(surveys.points_at(locations))


def distances(locations: list[Location], at: Location) -> list[int]:
    return [exact.distance((x - at[0]) ** 2 + (y - at[1]) ** 2) for x, y in locations]


def in_line(locations: list[Location], one: Location, other: Location) -> list[Location]:
    return [at for at in locations if exact_polygon.turn(one, other, at) == 0]


class Distances(unittest.TestCase):
    def test_offsets(self) -> None:
        """Against every offset up to 40 steps."""
        reach = range(41)
        for away in [*range(700), *range(5000, 5200), 10_000]:
            plain = [(dx, dy) for dx in reach for dy in reach if dx <= dy]
            right = [each for each in plain if distances([each], (0, 0)) == [away]]
            self.assertEqual(surveys.offsets_at(away), right)

    def test_within(self) -> None:
        rng = Random(43)
        locations = [(rng.randrange(50), rng.randrange(50)) for _ in range(40)]
        for radius in (0, 256, 362, 361, 1280, 1279, 5000):
            counted = sum(away <= radius for away in distances(locations, (25, 25)))
            self.assertEqual(surveys.within(locations, radius, (25, 25)), counted)


class Radii(unittest.TestCase):
    """Where lookups are aimed by R0."""

    def test_thresholds(self) -> None:
        met = Counter()
        for locations, aimed in made(surveys.thresholds):
            radius = radius_of(locations)
            for at in aimed:
                found = distances(locations, at)
                self.assertGreaterEqual(sum(away <= radius + 1 for away in found), 5)
                met.update(away - radius for away in found)
                met.update(f"third {3 * away - radius}" for away in found)
        for what in (0, 1, -1, "third 0", "third 1", "third 2", "third -1"):
            self.assertGreater(met[what], 5, what)

    def test_limits(self) -> None:
        met = Counter()
        for locations, aimed in made(surveys.limits):
            radius, wider = radius_of(locations), surveys.rectangle_radius(locations)
            for at in aimed:
                count = sum(away <= radius for away in distances(locations, at))
                met[count] += 1
                self.assertGreater(sum(away <= wider for away in distances(locations, at)), count)
        self.assertEqual(set(met), {4, 5, 10, 11})
        self.assertGreater(min(met.values()), 50)

    def test_counted(self) -> None:
        """All close points are within R0, and no far corner is."""
        met = Counter()
        for locations, aimed in made(surveys.counted):
            close = [each for each in locations if each not in surveys.FAR_CORNERS]
            self.assertGreaterEqual(len(locations) - len(close), 3)
            self.assertEqual(surveys.within(locations, radius_of(locations), aimed[0]), len(close))
            met[len(close)] += 1
        for count in (3, 4, 5, 10, 11, 12):
            self.assertGreater(met[count], 0, count)

    def test_ring(self) -> None:
        """With far corners all others are within R0."""
        widened = 0
        for locations, aimed in made(surveys.ring):
            ring = [each for each in locations if each not in surveys.FAR_CORNERS]
            self.assertEqual(len(set(distances(ring, aimed[0]))), 1)
            if len(ring) < len(locations):
                self.assertEqual(surveys.within(ring, radius_of(locations), aimed[0]), len(ring))
                widened += 1
        self.assertGreater(widened, 20)

    def test_by_pi(self) -> None:
        met = Counter()
        for locations, aimed in made(surveys.by_pi):
            radius, twice = radius_of(locations), exact_polygon.twice_area(locations)
            met["differs"] += surveys.radius_by_pi(twice, len(locations)) != radius
            met["asked"] += any(5 <= surveys.within(locations, radius, at) <= 10 for at in aimed)
        self.assertGreater(met["differs"], COUNT - 5)
        self.assertGreater(met["asked"], COUNT - 5)


class Polygons(unittest.TestCase):
    def test_one_line(self) -> None:
        for kind in (surveys.line, surveys.column, surveys.row, surveys.single):
            for locations, _ in made(kind):
                self.assertEqual(exact_polygon.twice_area(locations), 0)
        slanted = [locations for locations, _ in made(surveys.line) if len(locations) > 1]
        self.assertTrue(all(surveys.rectangle_radius(locations) for locations in slanted))

    def test_two_lines(self) -> None:
        """Of any three points two are on one of them, and the rest is on the other."""
        enclosing = 0
        for locations, _ in made(surveys.two_lines):
            if len(locations) > 4:
                one, other, third = locations[:3]
                pairs = ((one, other), (one, third), (other, third))
                rests = [set(locations) - set(in_line(locations, *pair)) for pair in pairs]
                areas = [exact_polygon.twice_area(rest) for rest in rests]
                self.assertEqual(min(areas), 0)
                enclosing += radius_of(locations) > 0
        self.assertGreater(enclosing, 20)

    def test_on_circle(self) -> None:
        met = Counter()
        for locations, aimed in made(surveys.on_circle):
            (x, y), *_ = aimed
            squares = [(px - x) ** 2 + (py - y) ** 2 for px, py in locations]
            radius = max(map(isqrt, squares)) + 1
            self.assertGreater(min(squares), (radius - 3) ** 2)
            met[len(locations)] += 1
            met["mostly corners"] += 2 * len(exact_polygon.corners(locations)) > len(locations)
        self.assertGreater(met[256], 20)
        self.assertGreater(met["mostly corners"], 20)

    def test_offsets_near_a_circle(self) -> None:
        for radius in shapes.RADII:
            offsets = shapes.near_circle(radius)
            self.assertEqual((len(offsets), len(set(offsets))), (256, 256))
            self.assertLessEqual(max(dx**2 + dy**2 for dx, dy in offsets), radius**2)

    def test_filled(self) -> None:
        for locations, _ in made(surveys.filled):
            edges = exact_polygon.edges(tuple(locations))
            self.assertEqual(len(edges), 4)
            for edge in edges:
                self.assertGreaterEqual(len(in_line(locations, *edge)), 3)

    def test_thin(self) -> None:
        met = Counter()
        for locations, _ in made(surveys.thin):
            twice = exact_polygon.twice_area(locations)
            self.assertLess(twice, 50)
            met["least" if twice == 1 else "odd" if twice % 2 else "even"] += 1
            met["far"] += max(max(each) - min(each) for each in zip(*locations)) > 100
        for what in ("least", "odd", "even", "far"):
            self.assertGreater(met[what], 5, what)

    def test_clusters(self) -> None:
        """Most points have another one near."""
        for locations, _ in made(surveys.clusters):
            if len(locations) > 12:
                near = [min(distances(sorted({*locations} - {at}), at)) for at in locations]
                self.assertLess(sorted(near)[len(near) // 2], 256 * 300)

    def test_on_the_domain(self) -> None:
        for kind in surveys.KINDS:
            for locations, aimed in made(kind):
                self.assertEqual(len(set(locations)), len(locations))
                self.assertEqual(surveys.keep_on_domain(locations + aimed), locations + aimed)
                self.assertLessEqual(len(locations), exact.MOST_POINTS)


if __name__ == "__main__":
    unittest.main()
