"""Holds look to the lookups of shepard_replay, to the method's examples and to a polygon of its own."""

from __future__ import annotations

import unittest
from collections.abc import Sequence
from itertools import product
from random import Random

import files
import hull
import lookups
from texts import refused
from tool import SAMPLE, SEED, ToolTest

import exact
import exact_files
import exact_survey
import surveys
from exact import Point

WORKED_OUT = """\
at (100, 50): 1600 cycles, 200 hours
answer -8.3046875 steps (-2126/256)
radius 9.484375 steps (2428/256)
by 6 points:
     x     y     z  distance        kind
   101    49    -9  1.4140625       inverse
    98    50    -7  2               inverse
    95    50    -6  5               tapered
   104    46   -14  5.65625         tapered
    97    59   -20  9.484375        edge
   109    53   -17  9.484375        edge
"""
README_LOOK = """\
at (1000, 1000): 16000 cycles, 4000 hours
answer -15.87890625 steps (-4065/256)
radius 0 steps (0/256)
by 4 points:
     x     y     z  distance        kind
   900   250   -11  756.63671875    inverse
"""
# A point at each corner of a square, and one inside.
SQUARE = [(10, 10, 0), (10, 20, 0), (20, 10, 0), (20, 20, 0), (14, 13, 0)]


def outside_by_lines(at: tuple[int, int], points: Sequence[Sequence[int]]) -> bool:
    """The text's rule in whole numbers, of a location at which no point is."""
    offsets = [(x - at[0], y - at[1]) for x, y, *_ in points]
    if (0, 0) in offsets:
        return False

    def parts(one: tuple[int, int], other: tuple[int, int]) -> bool:
        cross = one[0] * other[1] - one[1] * other[0]
        return cross > 0 or cross == 0 and one[0] * other[0] + one[1] * other[1] > 0

    return any(all(parts(one, other) for other in offsets) for one in offsets)


class Look(ToolTest):
    def assert_looks(self, points: Sequence[Point], locations: Sequence[tuple[int, int]]) -> None:
        data = files.survey(points)
        self.put("f.rls", data)
        for (x, y), wanted in zip(locations, lookups.expected(points, data, locations)):
            self.assert_ran(f"look f.rls {x} {y}", 0, wanted)

    def test_worked_out_by_hand(self) -> None:
        """The lookup of docs/METHOD.md."""
        self.put("f.rls", files.survey(files.EIGHT))
        self.assert_ran("look f.rls 100 50", 0, WORKED_OUT)
        self.assert_ran("look - 100 50", 0, WORKED_OUT, data=files.survey(files.EIGHT))

    def test_four_points(self) -> None:
        """The survey of README.md, whose radius is 0."""
        self.put("f.rls", files.survey(files.FOUR, files.FOUR_GRID))
        self.assert_looks(files.FOUR, [(1000, 1000), (0, 0), (4095, 4095)])
        lines = self.run_tool("look f.rls 1000 1000").output.decode().splitlines()
        self.assertEqual(lines[:6], README_LOOK.splitlines()[:6])

    def test_at_a_point(self) -> None:
        self.put("f.rls", files.survey(files.EIGHT))
        said = "at (98, 50): 1568 cycles, 200 hours\nanswer -7 steps (-1792/256)\nradius 0 steps (0/256)\nby 1 point:\n"
        said += "     x     y     z  distance        kind\n    98    50    -7  0               coincident\n"
        self.assert_ran("look f.rls 98 50", 0, said)

    def test_one_point(self) -> None:
        """It parts every other location from itself, but not its own."""
        self.put("f.rls", files.survey([(3000, 7, -7)]))
        ran = self.run_tool("look f.rls 0 4095").output.decode()
        self.assertTrue(ran.endswith("  3000     7    -7  5070.671875     inverse\n" + lookups.OUTSIDE), ran)
        self.assert_looks([Point(3000, 7, -7)], [(3000, 7), (3000, 8), (2999, 7), (0, 0)])

    def test_surveys_of_every_kind(self) -> None:
        rng = Random(SEED)
        for kind in surveys.KINDS:
            points, aimed = surveys.make(rng, kind)
            near = [surveys.location_near(rng, points) for _ in range(8)]
            self.assert_looks(points, near + aimed[:4])

    def test_sample(self) -> None:
        rng, points = Random(SEED), exact_files.read_survey_file(SAMPLE.read_bytes())
        self.assert_looks(points, [(rng.randrange(4096), rng.randrange(4096)) for _ in range(40)])

    def test_answers_are_permitted(self) -> None:
        """The answers that look shows are those that exact fractions allow."""
        survey, rng = exact_survey.Survey(), Random(SEED)
        survey.replace(files.EIGHT)
        self.put("f.rls", files.survey(files.EIGHT))
        for _ in range(20):
            x, y = surveys.location_near(rng, files.EIGHT)
            line = self.run_tool(f"look f.rls {x} {y}").output.decode().splitlines()[1]
            answer = int(line.partition("(")[2].partition("/")[0])
            self.assertIn(answer, exact.permitted_answers(survey.exact_lookup(x, y)))

    def test_numbers_as_in_a_table(self) -> None:
        self.put("f.rls", files.survey(files.EIGHT))
        self.assert_ran("look f.rls +100 050", 0, WORKED_OUT)
        self.assert_ran(f"look f.rls {'0' * 40}100 +{'0' * 40}50", 0, WORKED_OUT)

    def test_off_the_domain(self) -> None:
        for data in (files.survey(files.FOUR), files.NO_POINT):
            self.put("f.rls", data)
            for location in ("4096 0", "0 4096", "4294967296 0", "0 123456789012345678901234567890", "65536 65536"):
                self.assert_ran(f"look f.rls {location}", 1, errors=f"f.rls: {refused(1)}\n")
            self.assert_ran("look f.rls -1 0", 1, errors=f"f.rls: {refused(1)}\n")
            self.assert_ran("look -- f.rls -1 0", 1, errors=f"f.rls: {refused(1)}\n")
            self.assert_ran("look -- f.rls 0 -4294967296", 1, errors=f"f.rls: {refused(1)}\n")

    def test_no_point(self) -> None:
        self.put("f.rls", files.NO_POINT)
        self.assert_ran("look f.rls 0 0", 1, errors=f"f.rls: {refused(6)}\n")

    def test_refused_and_grid_files(self) -> None:
        self.put("f.rls", files.survey(files.FOUR)[1:])
        self.assert_ran("look f.rls 0 0", 1, errors=f"f.rls: {refused(12)}\n")
        self.put("f.rlg", files.made_grid_file((0, 0, 1, 1, 1, 1), [5]))
        self.assert_ran("look f.rlg 0 0", 1, errors="f.rlg: it is a grid file, not a survey\n")

    def test_a_changed_number_is_noticed(self) -> None:
        """Another value of one point, or another place of it, is another text."""
        for other in (files.EIGHT[0]._replace(z=-13), files.EIGHT[0]._replace(x=89)):
            self.put("f.rls", files.survey([other, *files.EIGHT[1:]]))
            wanted = lookups.expected(files.EIGHT, files.survey(files.EIGHT), [(92, 58)])
            with self.assertRaises(AssertionError):
                self.assert_ran("look f.rls 92 58", 0, wanted[0])


class Outside(ToolTest):
    """The last line, around squares, lines and points."""

    def assert_outside(self, points: Sequence[Sequence[int]], locations: Sequence[tuple[int, int]]) -> None:
        """In one run of edit, whose lookups are the same."""
        self.put("f.rls", files.survey(points))
        script = "".join(f"look {x} {y}\n" for x, y in locations)
        ran = self.run_tool("edit f.rls", script.encode())
        shown = ran.output.decode().split("at (")[1:]
        self.assertEqual((ran.status, len(shown)), (0, len(locations)), ran.errors)
        for at, text in zip(locations, shown):
            self.assertEqual(text.endswith("\n" + lookups.OUTSIDE), hull.is_outside(at, points), (at, points))

    def test_a_square(self) -> None:
        self.assert_outside(SQUARE, list(product(range(8, 23), repeat=2)))

    def test_points_on_a_line(self) -> None:
        around = list(product(range(0, 14), repeat=2))
        for points in ([(4, 4), (8, 8)], [(4, 6), (6, 7), (10, 9)], [(5, 2), (5, 9)], [(2, 5), (3, 5), (9, 5)]):
            self.assert_outside([(x, y, 0) for x, y in points], around)

    def test_one_point(self) -> None:
        self.assert_outside([(5, 5, 0)], list(product(range(3, 8), repeat=2)))

    def test_random_points(self) -> None:
        rng = Random(SEED)
        for _ in range(30):
            side = rng.choice((4, 8, 40, 4096))
            draw = lambda: (rng.randrange(side), rng.randrange(side))
            points = [(x, y, 0) for x, y in surveys.gather(rng.choice((2, 3, 4, 7, 30)), draw)]
            self.assert_outside(points, [draw() for _ in range(60)])

    def test_the_polygon_and_the_rule_agree(self) -> None:
        """Two ways to tell what is outside, so that a wrong one would show."""
        rng = Random(SEED)
        for _ in range(300):
            points = [(rng.randrange(6), rng.randrange(6)) for _ in range(rng.randint(1, 6))]
            for at in product(range(-1, 7), repeat=2):
                self.assertEqual(hull.is_outside(at, points), outside_by_lines(at, points), (at, points))

    def test_a_wrong_polygon_is_noticed(self) -> None:
        with self.assertRaises(AssertionError):
            self.put("g.rls", files.survey(SQUARE[:3]))
            ran = self.run_tool("look g.rls 20 20").output.decode()
            self.assertEqual(ran.endswith(lookups.OUTSIDE), hull.is_outside((20, 20), SQUARE))


if __name__ == "__main__":
    unittest.main()
