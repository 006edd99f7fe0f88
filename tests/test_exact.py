"""Holds the exact-fraction program to the documents' numbers, a slower mean and a slower area."""

from __future__ import annotations

import contextlib
import unittest
from collections.abc import Callable, Iterable, Sequence
from fractions import Fraction
from itertools import combinations
from random import Random
from struct import pack
from unittest import mock

import damage
import exact
import exact_esri
import exact_files
import exact_polygon
import exact_survey
import faults_polygon
import free_rounding
import grid_inputs
import grids
import journals
import metric
import mixed_calls
import outcomes
import permitted
import protocol
import random_calls
import stand_ins
import surveys
from exact import Lookup, Neighbour
from exact_files import Grid
from exact_survey import Survey
from metric import Location, Offset


def survey_of(points: Iterable[tuple[int, int, int]]) -> Survey:
    survey = Survey()
    for point in points:
        survey.add(*point)
    return survey


def example(number: int) -> Lookup:
    points, location = journals.EXAMPLES[number]
    return survey_of(points).exact_lookup(*location)


def answers(lookup: Lookup) -> list[int]:
    return list(exact.permitted_answers(lookup))


def kinds(lookup: Lookup) -> set[int]:
    return {neighbour.kind for neighbour in lookup.neighbours}


def plain_mean(neighbours: Sequence[Neighbour], radius: int, x: int, y: int) -> Fraction:
    """The exact mean in fractions throughout, with no common denominator drawn out."""
    s = [Fraction(*exact.factor(neighbour, radius)) for neighbour in neighbours]
    weights = []
    for i, one in enumerate(neighbours):
        term = Fraction(0)
        for j, other in enumerate(neighbours):
            if j != i:
                inner = (one.x - x) * (other.x - x) + (one.y - y) * (other.y - y)
                term += s[j] * abs(1 - Fraction(65_536 * inner, one.distance * other.distance))
        weights.append(s[i] ** 2 * (1 + term / sum(s)))
    return sum(weight * each.z for weight, each in zip(weights, neighbours)) / sum(weights)


class Doubled(metric.Metric):
    def squared_distance(self, one: Location, other: Location) -> int:
        return 4 * super().squared_distance(one, other)

    def inner_product(self, one: Offset, other: Offset) -> int:
        return 4 * super().inner_product(one, other)


class RefusalCase(unittest.TestCase):
    def assert_refused(
        self, number: int, call: Callable[..., object], *arguments: object
    ) -> None:
        with self.assertRaises(exact.Refused) as caught:
            call(*arguments)
        self.assertEqual(caught.exception.number, number)


class Examples(RefusalCase):
    def test_distances(self) -> None:
        self.assertEqual([exact.distance(squared) for squared in (0, 1, 2)], [0, 256, 362])
        self.assertEqual(exact.distance(2 * 4095**2), 1_482_548)

    def test_one_point(self) -> None:
        points, location = journals.EXAMPLES[0]
        survey = survey_of(points)
        rng = Random(7)
        elsewhere = [(rng.randrange(4096), rng.randrange(4096)) for _ in range(200)]
        for x, y in [location, points[0][:2], (0, 0), (4095, 0), (4095, 4095), *elsewhere]:
            self.assertEqual(answers(survey.exact_lookup(x, y)), [-1792])

    def test_two_points(self) -> None:
        self.assertEqual(answers(example(1)), [4608])
        self.assertEqual(example(2).mean, Fraction(70, 3))
        self.assertEqual(answers(example(2)), [5973])
        self.assertEqual(answers(example(3)), [1280])

    def test_two_points_without_directional_terms(self) -> None:
        with mock.patch.object(exact, "others", lambda count, own: []):
            self.assertEqual(answers(example(1)), [4608])
            self.assertEqual(answers(example(2)), [4608])

    def test_five_points(self) -> None:
        lookup = example(4)
        self.assertEqual((len(lookup.neighbours), lookup.radius), (4, 1280))
        self.assertEqual(kinds(lookup), {exact.EDGE})
        self.assertEqual(answers(lookup), [6272])

    def test_twelve_points(self) -> None:
        points, _ = journals.EXAMPLES[5]
        self.assertEqual(len(points), 12)
        self.assertEqual(exact.initial_radius(survey_of(points).points()), 948)
        lookup = example(5)
        self.assertEqual((len(lookup.neighbours), lookup.radius), (4, 1280))
        self.assertEqual(kinds(lookup), {exact.EDGE})
        self.assertEqual(answers(lookup), [640])

    def test_kinds(self) -> None:
        found = [exact.influence_kind(away, 1708, 5) for away in (569, 570, 1707, 1708)]
        self.assertEqual(found, [exact.INVERSE, exact.TAPERED, exact.TAPERED, exact.EDGE])

    def test_limits(self) -> None:
        survey = survey_of([(4095, 0, 127)])
        self.assert_refused(1, survey.add, 4096, 0, 127)
        self.assert_refused(2, survey.add, 1, 1, 128)
        for y in range(255):
            survey.add(9, y, 0)
        self.assert_refused(5, survey.add, 9, 255, 0)

    def test_no_records(self) -> None:
        survey = survey_of([(1, 1, 1)])
        survey.load(exact_files.survey_file([]))
        self.assert_refused(6, survey.lookup, 0, 0)

    def test_whole_case(self) -> None:
        output = "F900 F900 0000 0000 0001 0001 0002 0001 00000004 524C4731"
        case = grid_inputs.whole_case(Random(0), 0)
        pieces = permitted.file_pieces(exact_survey.grid_program(case))
        self.assertEqual(permitted.permitted_text(pieces), bytes.fromhex(output).hex())
        self.assertEqual(stand_ins.grid(case), bytes.fromhex(output))


class Mean(unittest.TestCase):
    def test_against_plain_fractions(self) -> None:
        rng = Random(11)
        compared = 0
        for kind in surveys.KINDS:
            points, aimed = surveys.make(rng, kind)
            survey = survey_of(points)
            for x, y in aimed[:4] + [surveys.location_near(rng, points) for _ in range(4)]:
                lookup = survey.exact_lookup(x, y)
                if kinds(lookup) & {exact.INVERSE, exact.TAPERED}:
                    plain = plain_mean(lookup.neighbours, lookup.radius, x, y)
                    self.assertEqual(lookup.mean, plain)
                    compared += 1
        self.assertGreater(compared, 60)

    def test_goes_by_the_metric(self) -> None:
        """Doubled distances over points are plain distances over points twice as far apart."""
        rng = Random(13)
        for kind in surveys.KINDS:
            points, _ = surveys.make(rng, kind)
            x, y = surveys.location_near(rng, points)
            far = [exact.Point(2 * px, 2 * py, z) for px, py, z in points]
            initial = exact.initial_radius(far)
            plain = exact.look_up(far, initial, (2 * x, 2 * y), metric.PLAIN)
            doubled = exact.look_up(points, initial, (x, y), Doubled())
            self.assertEqual((doubled.mean, doubled.radius), (plain.mean, plain.radius))
            found = [(2 * each.x, 2 * each.y, *each[2:]) for each in doubled.neighbours]
            self.assertEqual(found, list(plain.neighbours))

    def test_either_side_of_a_midpoint(self) -> None:
        """Within 1/65,536 of a midpoint both neighbouring 256ths are permitted, farther off one."""
        ends = tuple(exact.Neighbour(0, 0, z, 256, exact.INVERSE) for z in (0, 1))
        for off, allowed in ((-2, [3]), (-1, [3, 4]), (0, [3, 4]), (1, [3, 4]), (2, [4])):
            lookup = exact.Lookup(Fraction(256 * 3 + 128 + off, 65_536), 0, ends)
            self.assertEqual(answers(lookup), allowed)


def by_slices(locations: Sequence[Location]) -> Fraction:
    """Twice the area, slice by slice between neighbouring x, by the heights of all lines there."""

    def height(at: int) -> Fraction:
        ys = [Fraction(y) for x, y in locations if x == at]
        for (x0, y0), (x1, y1) in combinations(sorted(locations), 2):
            if x0 < at < x1:
                ys.append(y0 + Fraction((y1 - y0) * (at - x0), x1 - x0))
        return max(ys) - min(ys)

    xs = sorted({x for x, _ in locations})
    return sum(
        ((right - left) * (height(left) + height(right)) for left, right in zip(xs, xs[1:])),
        Fraction(0),
    )


class Polygon(unittest.TestCase):
    """Document 02's §4: the convex polygon around the points."""

    FIVE, TWELVE = ([point[:2] for point in journals.EXAMPLES[each][0]] for each in (4, 5))

    def assert_polygon(
        self, locations: Sequence[Location], twice: int, corners: Iterable[Location]
    ) -> None:
        """In any order of the locations."""
        for each in (locations, locations[::-1], sorted(locations)):
            self.assertEqual(exact_polygon.twice_area(each), twice)
            self.assertEqual(sorted(exact_polygon.corners(each)), sorted(corners))

    def test_none_one_and_two(self) -> None:
        self.assert_polygon([], 0, [])
        self.assert_polygon([(5, 7)], 0, [(5, 7)])
        self.assert_polygon([(0, 0), (4095, 4095)], 0, [(0, 0), (4095, 4095)])

    def test_one_line(self) -> None:
        for right, up in ((1, 0), (0, 1), (1, 1), (3, 2), (2, 3), (1, -1), (5, -2)):
            line = [(600 + right * each, 600 + up * each) for each in (0, 7, 1, 200, 30, 2)]
            self.assert_polygon(line, 0, [line[0], line[3]])
            self.assertEqual(exact.initial_radius(surveys.points_at(line)), 0)

    def test_beside_a_line(self) -> None:
        """One point beside many of one line."""
        line = [(3 * each, 2 * each) for each in range(100)]
        self.assert_polygon([*line, (1, 1)], 99, [line[0], line[-1], (1, 1)])
        self.assert_polygon([*line, (2, 1)], 99, [line[0], line[-1], (2, 1)])

    def test_points_on_edges(self) -> None:
        corners = [(0, 0), (6, 0), (0, 6)]
        self.assert_polygon([*corners, (2, 0), (5, 0), (0, 3), (3, 3), (4, 2), (1, 1)], 36, corners)

    def test_prolonged_edge(self) -> None:
        """With a location on its line, an edge ends there."""
        self.assert_polygon([(0, 0), (6, 0), (0, 6), (8, 0)], 48, [(0, 0), (8, 0), (0, 6)])
        self.assert_polygon([(0, 0), (6, 0), (0, 6), (-2, 8)], 48, [(0, 0), (6, 0), (-2, 8)])

    def test_full_squares(self) -> None:
        """Upright, and slanted by (2, 1), whose square has an area of 5 a node."""
        upright = [(x, y) for x in range(16) for y in range(16)]
        self.assert_polygon(upright, 450, [(0, 0), (15, 0), (0, 15), (15, 15)])
        slanted = [(2 * i - j, i + 2 * j) for i in range(16) for j in range(16)]
        self.assert_polygon(slanted, 5 * 450, [(0, 0), (30, 15), (-15, 30), (15, 45)])

    def test_odd(self) -> None:
        """The least polygon, and one of which R0 would differ without the half."""
        self.assert_polygon([(3, 1), (4, 0), (3, 0)], 1, [(3, 1), (4, 0), (3, 0)])
        self.assertEqual(exact.radius_of_area(1, 3), 156)
        self.assert_polygon([(0, 0), (5, 0), (0, 3)], 15, [(0, 0), (5, 0), (0, 3)])
        self.assertEqual((exact.radius_of_area(15, 3), exact.radius_of_area(14, 3)), (604, 583))

    def test_slivers(self) -> None:
        """Along a diagonal, and along an edge of the domain."""
        for three, twice in (
            ([(0, 0), (4095, 4094), (4094, 4093)], 1),
            ([(0, 0), (4095, 1), (2047, 1)], 2048),
        ):
            self.assert_polygon(three, twice, three)

    def test_whole_domain(self) -> None:
        around = [(x, y) for x in (0, 4095) for y in (0, 4095)]
        self.assert_polygon([*around, (1, 1), (4094, 2), (0, 2048)], 2 * 4095**2, around)
        self.assertEqual(exact.initial_radius(surveys.points_at(around)), 782_416)
        self.assert_polygon(around[:3], 4095**2, around[:3])
        self.assertEqual(exact.initial_radius(surveys.points_at(around[:3])), 638_840)

    def test_five_and_twelve_points(self) -> None:
        self.assert_polygon(self.FIVE, 110, self.FIVE)
        self.assertEqual(exact.initial_radius(surveys.points_at(self.FIVE)), 1267)
        self.assert_polygon(self.TWELVE, 148, self.TWELVE)
        self.assertEqual(exact.initial_radius(surveys.points_at(self.TWELVE)), 948)

    def test_equal_locations(self) -> None:
        self.assert_polygon([(0, 0), (6, 0), (6, 0), (0, 6), (0, 0)], 36, [(0, 0), (6, 0), (0, 6)])

    def test_encloses_all(self) -> None:
        """Corners are points of the survey, each of two edges, and none lies right of an edge."""
        rng = Random(29)
        for kind in surveys.KINDS:
            locations = sorted(point[:2] for point in surveys.make(rng, kind)[0])
            edges = exact_polygon.edges(tuple(locations))
            starts, ends = ([edge[each] for edge in edges] for each in (0, 1))
            self.assertEqual(sorted(starts), sorted(ends))
            self.assertEqual(len(set(starts)), len(edges))
            self.assertLessEqual(set(starts), set(locations))
            for edge in edges:
                self.assertGreaterEqual(min(exact_polygon.turn(*edge, at) for at in locations), 0)

    def test_against_slices(self) -> None:
        rng = Random(31)
        for _ in range(300):
            wide, high = rng.randint(1, 9), rng.randint(1, 9)
            draw = lambda: (rng.randrange(wide), rng.randrange(high))
            locations = surveys.gather(rng.randint(1, 9), draw)
            self.assertEqual(exact_polygon.twice_area(locations), by_slices(locations))

    def test_against_sides(self) -> None:
        """The faults of a side are in what is planted: without one the area is the same."""
        rng = Random(37)
        by_sides = faults_polygon.by_sides(faults_polygon.cut_all)
        for _ in range(4):
            for kind in surveys.KINDS:
                locations = sorted(point[:2] for point in surveys.make(rng, kind)[0])
                self.assertEqual(exact_polygon.twice_area(locations), by_sides(locations))


class InitialRadius(unittest.TestCase):
    def test_is_the_greatest(self) -> None:
        """By the inequality with both sides taken twice, of one point to 256."""
        rng = Random(17)
        made = [surveys.make(rng, kind)[0] for kind in surveys.KINDS]
        around = [exact.Point(x, y, 0) for x in (0, 4095) for y in (0, 4095)]
        for points in [*made, around, around[:1], around[:2], around[:3], around[::3]]:
            radius, most = exact.initial_radius(points), 65_536 * 7 * 113 * exact.twice_area(points)
            self.assertLessEqual(radius**2 * 355 * len(points) * 2, most)
            self.assertGreater((radius + 1) ** 2 * 355 * len(points) * 2, most)


class Ends(RefusalCase):
    """Document 02's §1: the rectangle, the least and greatest value, and R0, which is §4's."""

    def assert_ends(self, survey: Survey, *expected: int) -> None:
        self.assertEqual(survey.read_ends().numbers, expected)

    def assert_zeros(self, survey: Survey) -> None:
        self.assert_ends(survey, 0, 0, 0, 0, 0, 0, 0)

    def test_no_points(self) -> None:
        survey = Survey()
        self.assert_zeros(survey)
        self.assert_refused(1, survey.add, 4096, 1, 1)
        self.assert_zeros(survey)
        survey.add(3, 7, -7)
        survey.drop(3, 7)
        self.assert_zeros(survey)
        survey.add(3, 7, -7)
        survey.clear()
        self.assert_zeros(survey)
        survey.add(3, 7, -7)
        survey.load(exact_files.survey_file([]))
        self.assert_zeros(survey)

    def test_one_point(self) -> None:
        """No area and no R0; one of value 0 in the origin has the ends of no points."""
        self.assert_ends(survey_of([(3, 7, -7)]), 3, 3, 7, 7, -7, -7, 0)
        self.assert_ends(survey_of([(4095, 0, 127)]), 4095, 4095, 0, 0, 127, 127, 0)
        self.assert_zeros(survey_of([(0, 0, 0)]))

    def test_two_to_four_points(self) -> None:
        """The roots of 65,536 × 791 × 4,095² / 355 by six and by four, that is by 2N and by N."""
        survey = survey_of([(0, 0, -128), (4095, 4095, 127)])
        self.assert_ends(survey, 0, 4095, 0, 4095, -128, 127, 0)
        survey.add(0, 4095, 1)
        self.assert_ends(survey, 0, 4095, 0, 4095, -128, 127, 638_840)
        survey.add(4095, 0, 2)
        self.assert_ends(survey, 0, 4095, 0, 4095, -128, 127, 782_416)
        self.assert_ends(survey_of([(3, 1, 7), (4, 0, 8)]), 3, 4, 0, 1, 7, 8, 0)
        self.assert_ends(survey_of([(3, 1, 7), (4, 0, 8), (3, 0, 9)]), 3, 4, 0, 1, 7, 9, 156)

    def test_points_on_a_line(self) -> None:
        for points, _ in journals.EXAMPLES[1:4]:
            (left, _, low), (right, _, high) = points
            self.assert_ends(survey_of(points), left, right, 0, 0, low, high, 0)

    def test_five_and_twelve_points(self) -> None:
        five, twelve = journals.EXAMPLES[4][0], journals.EXAMPLES[5][0]
        self.assert_ends(survey_of(five), 95, 105, 95, 105, 0, 98, 1267)
        self.assert_ends(survey_of(twelve), 95, 105, 95, 105, 1, 12, 948)

    def test_drop_of_a_corner(self) -> None:
        """The rectangle's edge stays where another point holds it, while the polygon shrinks."""
        survey = survey_of([(0, 0, 1), (10, 0, 2), (0, 10, 3), (10, 10, 4), (5, 20, 5)])
        self.assert_ends(survey, 0, 10, 0, 20, 1, 5, 2093)
        survey.drop(0, 0)
        self.assert_ends(survey, 0, 10, 0, 20, 2, 5, 1910)
        survey.drop(5, 20)
        self.assert_ends(survey, 0, 10, 0, 10, 2, 4, 1560)
        survey.drop(10, 0)
        self.assert_ends(survey, 0, 10, 10, 10, 3, 4, 0)

    def test_points_that_are_no_corners(self) -> None:
        """Inside, on an edge, and on a prolonged one, where the area grows."""
        survey = survey_of([(0, 0, 1), (12, 0, 2), (0, 12, 3)])
        self.assert_ends(survey, 0, 12, 0, 12, 1, 3, 1872)
        survey.add(3, 3, 4)
        self.assert_ends(survey, 0, 12, 0, 12, 1, 4, 1621)
        survey.add(6, 6, 5)
        self.assert_ends(survey, 0, 12, 0, 12, 1, 5, 1450)
        survey.add(0, 13, 6)
        self.assert_ends(survey, 0, 12, 0, 13, 1, 6, 1377)
        survey.drop(0, 12)
        self.assert_ends(survey, 0, 12, 0, 13, 1, 6, 1509)
        survey.drop(0, 0)
        self.assert_ends(survey, 0, 12, 0, 13, 2, 6, 1215)

    def test_change_inward(self) -> None:
        survey = survey_of([(0, 0, -128), (10, 10, 5), (20, 0, 127)])
        self.assert_ends(survey, 0, 20, 0, 10, -128, 127, 2206)
        survey.change(0, 0, 6)
        self.assert_ends(survey, 0, 20, 0, 10, 5, 127, 2206)
        survey.change(20, 0, 4)
        self.assert_ends(survey, 0, 20, 0, 10, 4, 6, 2206)

    def test_refused_calls_keep_them(self) -> None:
        survey = survey_of([(10, 20, -3), (30, 50, 4), (40, 20, 9)])
        held = (10, 40, 20, 50, -3, 9, 4680)
        self.assert_ends(survey, *held)
        for number, call, arguments in (
            (1, survey.add, (0, 4096, 100)),
            (2, survey.add, (0, 0, 128)),
            (3, survey.add, (30, 50, -100)),
            (1, survey.change, (4096, 0, -100)),
            (2, survey.change, (30, 50, -129)),
            (4, survey.change, (0, 0, -100)),
            (1, survey.drop, (4096, 20)),
            (4, survey.drop, (10, 50)),
            (9, survey.load, (b"",)),
            (10, survey.load, (bytes(12),)),
            (8, survey.write, (1,)),
        ):
            self.assert_refused(number, call, *arguments)
            self.assert_ends(survey, *held)

    def test_load_and_full_survey(self) -> None:
        survey = survey_of([(4095, 4095, 127)])
        survey.load(exact_files.survey_file([exact.Point(i, i, i - 128) for i in range(256)]))
        self.assert_ends(survey, 0, 255, 0, 255, -128, 127, 0)
        self.assert_refused(5, survey.add, 4095, 0, 0)
        self.assert_ends(survey, 0, 255, 0, 255, -128, 127, 0)
        survey.drop(255, 255)
        self.assert_ends(survey, 0, 254, 0, 254, -128, 126, 0)
        survey.add(4095, 0, 0)
        self.assert_ends(survey, 0, 4095, 0, 254, -128, 126, 17_223)

    def test_after_every_call(self) -> None:
        """They are those of a fresh survey to which the same points were added."""
        rng = Random(19)
        compared = 0
        for index in range(len(surveys.KINDS)):
            survey = Survey()
            for call in mixed_calls.mixed_journal(rng, index):
                with contextlib.suppress(exact.Refused):
                    protocol.perform(survey, call)
                again = survey_of(reversed(survey.points()))
                self.assert_ends(survey, *again.read_ends().numbers)
                compared += 1
        self.assertGreater(compared, 500)


class EsriTexts(RefusalCase):
    """Document 02's §2: the text, its length, and 16 after 7 and before 6."""

    WHOLE_CASE = (
        b"ncols 2\nnrows 1\nxllcenter 0\nyllcenter 0\ncellsize 1\nNODATA_value -9999\n"
        b"-7.00000000 -7.00000000\n"
    )

    def text(self, survey: Survey, *numbers: int) -> bytes:
        """The text of a grid of which no cell may be rounded either way."""
        outcome = survey.esri_text(Grid(*numbers), 65_536)
        self.assertTrue(outcome.measured)
        self.assertEqual(len(outcomes.filled_units(outcome)), 1)
        return b"".join(outcomes.preferred(each) for each in outcome.filled)

    def rows(self, survey: Survey, *numbers: int) -> list[str]:
        return self.text(survey, *numbers).decode().split("\n")[6:-1]

    def test_whole_case(self) -> None:
        self.assertEqual(self.text(survey_of([(3, 0, -7)]), 0, 0, 1, 1, 2, 1), self.WHOLE_CASE)
        case = grid_inputs.whole_case(Random(0), 0)
        self.assertEqual(stand_ins.esri(case), self.WHOLE_CASE)
        pieces = permitted.text_pieces(exact_survey.esri_program(case))
        self.assertEqual(permitted.permitted_text(pieces), self.WHOLE_CASE.decode())

    def test_decimals(self) -> None:
        for answer, decimals in (
            (0, "0.00000000"),
            (1, "0.00390625"),
            (-1, "-0.00390625"),
            (16, "0.06250000"),
            (128, "0.50000000"),
            (-128, "-0.50000000"),
            (255, "0.99609375"),
            (-255, "-0.99609375"),
            (256, "1.00000000"),
            (-256, "-1.00000000"),
            (-320, "-1.25000000"),
            (-1792, "-7.00000000"),
            (5973, "23.33203125"),
            (2559, "9.99609375"),
            (2560, "10.00000000"),
            (-25_600, "-100.00000000"),
            (-32_768, "-128.00000000"),
            (32_512, "127.00000000"),
        ):
            self.assertEqual(exact_esri.decimal(answer).decode(), decimals)

    def test_every_answer_is_read_back(self) -> None:
        for answer in range(-32_768, 32_513):
            decimals = exact_esri.decimal(answer).decode()
            self.assertRegex(decimals, r"\A-?(0|[1-9][0-9]{0,2})\.[0-9]{8}\Z")
            self.assertEqual(Fraction(decimals), Fraction(answer, 256))
            self.assertEqual(decimals.startswith("-"), answer < 0)

    def test_highest_y_first(self) -> None:
        points = [(10 + 3 * x, 20 + 3 * y, 10 * y + x) for x in range(3) for y in range(4)]
        rows = self.rows(survey_of(points), 10, 20, 3, 3, 3, 4)
        expected = [[10 * y + x for x in range(3)] for y in (3, 2, 1, 0)]
        self.assertEqual(rows, [" ".join(f"{z}.00000000" for z in row) for row in expected])

    def test_halves_and_256ths(self) -> None:
        half = survey_of([(0, 0, 0), (10, 0, -1)])
        self.assertEqual(self.rows(half, 0, 0, 5, 5, 3, 1), ["0.00000000 -0.50000000 -1.00000000"])
        self.assertEqual(self.rows(half, 5, 0, 1, 1, 1, 2), ["-0.50000000"] * 2)
        small = survey_of([(1, 0, 0), (16, 0, 1)])
        self.assertEqual(self.rows(small, 0, 0, 1, 1, 2, 1), ["0.00390625 0.00000000"])
        small.change(16, 0, -1)
        self.assertEqual(self.rows(small, 0, 0, 1, 1, 2, 1), ["-0.00390625 0.00000000"])

    def test_shortest_and_longest(self) -> None:
        shortest = self.text(survey_of([(3, 0, 7)]), 0, 0, 1, 1, 1, 1)
        self.assertEqual(len(shortest), random_calls.SHORTEST_TEXT)
        widest = grids.widest_grid(Random(0))
        longest = self.text(survey_of([(3, 0, -128)]), *widest)
        self.assertEqual(len(longest), random_calls.LONGEST_TEXT)
        self.assertEqual((longest.count(b"\n"), longest.count(b" ")), (70, 6 + 64 * 63))
        single = self.text(survey_of([(3, 0, 7)]), 4095, 4094, 65_535, 65_535, 1, 1)
        self.assertIn(b"\nxllcenter 4095\nyllcenter 4094\ncellsize 65535\n", single)

    def test_order_of_refusals(self) -> None:
        none, one = Survey(), survey_of([(3, 0, -7)])
        proper, unlike = Grid(0, 0, 1, 1, 2, 1), Grid(0, 0, 1, 2, 1, 1)
        for survey in (none, one):
            self.assert_refused(7, survey.esri_text, Grid(0, 0, 0, 1, 1, 1), 0)
            self.assert_refused(7, survey.esri_text, Grid(0, 0, 1, 2, 65, 1), 65_536)
            self.assert_refused(16, survey.esri_text, unlike, 0)
            self.assert_refused(16, survey.esri_text, unlike, 65_536)
            self.assert_refused(16, survey.esri_text, Grid(0, 0, 2, 1, 1, 2), 65_536)
        self.assert_refused(6, none.esri_text, proper, 0)
        self.assert_refused(8, one.esri_text, proper, 0)
        self.assert_refused(8, one.esri_text, proper, 93)
        one.esri_text(proper, 94)

    def test_order_of_refusals_of_the_program(self) -> None:
        records = damage.records_of([(3, 0, -7)])
        unlike = pack(">6H", 0, 0, 1, 2, 1, 1)
        for number, data in (
            (9, b""),
            (10, unlike),
            (13, damage.assemble(unlike, records, total=0)),
            (15, damage.assemble(unlike, records + records)),
            (7, damage.assemble(unlike[:11], records)),
            (7, damage.assemble(pack(">6H", 0, 0, 1, 2, 0, 1), records)),
            (16, damage.assemble(unlike, records)),
            (16, damage.assemble(unlike, [])),
            (6, damage.assemble(pack(">6H", 0, 0, 1, 1, 1, 1), [])),
        ):
            self.assert_refused(number, exact_survey.esri_program, data)
            self.assertEqual(stand_ins.esri(data), f"refused {number}\n".encode())

    def test_of_either_rounding(self) -> None:
        """Between 0 and -1/256 at the midpoint; 8 is certain only below the shorter text."""
        survey, grid = survey_of([(100, 0, 0), (2260, 0, -1)]), Grid(0, 0, 1, 1, 1, 1)
        self.assertEqual(answers(survey.exact_lookup(0, 0)), [-1, 0])
        outcome = survey.esri_text(grid, 81)
        self.assertEqual(outcomes.filled_units(outcome), [81, 82])
        self.assert_refused(8, survey.esri_text, grid, 80)

    def test_made_to_be_rounded_either_way(self) -> None:
        rng = Random(23)
        for index in range(100):
            points, numbers = free_rounding.make(rng, index)
            cells = survey_of(points).exact_cells(Grid(*numbers))
            free = sum(len(answers(lookup)) == 2 for lookup in cells)
            self.assertIn(free, (numbers[4], numbers[5]))


class Files(RefusalCase):
    def test_written_and_read(self) -> None:
        rng = Random(5)
        for kind in surveys.KINDS:
            points, _ = surveys.make(rng, kind)
            data = exact_files.survey_file(survey_of(points).points())
            self.assertEqual(exact_files.read_survey_file(b"preamble" + data), sorted(points))

    def test_order_of_refusals(self) -> None:
        survey = survey_of([(1, 1, 1)])
        self.assert_refused(1, survey.add, 4096, 0, 128)
        self.assert_refused(2, survey.add, 1, 1, 128)
        self.assert_refused(3, survey.add, 1, 1, 0)
        self.assert_refused(2, survey.change, 2, 2, -129)
        self.assert_refused(4, survey.change, 2, 2, 0)
        self.assert_refused(4, survey.drop, 2, 2)
        survey.drop(1, 1)
        self.assert_refused(1, survey.lookup_with_neighbours, 0, 4096, 0)
        self.assert_refused(6, survey.lookup_with_neighbours, 0, 0, 0)
        self.assert_refused(7, survey.grid, exact_files.Grid(0, 0, 0, 1, 1, 1), 0)
        self.assert_refused(6, survey.grid, exact_files.Grid(0, 0, 1, 1, 1, 1), 0)
        self.assert_refused(8, survey.write, 11)


if __name__ == "__main__":
    unittest.main()
