"""Reads the maps that picture draws as XML, and finds cells, points and names in them."""

from __future__ import annotations

import os
import unittest
from collections import Counter, defaultdict
from collections.abc import Callable, Iterable, Sequence
from random import Random
from xml.etree import ElementTree

import files
from drawing import SVG, Shape, shapes
from texts import BROKEN_FRONT, GRID_RULES, TOO_FEW_BYTES, grid_of, refused, six, steps
from tool import SAMPLE, SEED, ToolTest, grid_file

import exact
import exact_files
import surveys

HOSTILE = ("a&b<c>.rls", "'\"&amp;.rls", "]]>.rls", "a\x01b\x1f.rls", "x--><script>.rls", "é€𝄞.rls")
ODD_GRIDS = (
    (98, 50, 1, 1, 1, 1),
    (4095, 4095, 65535, 65535, 1, 1),
    (0, 0, 65, 1, 64, 1),
    (5, 0, 1, 65, 1, 64),
    (0, 0, 1, 65, 64, 64),
    (0, 0, 4095, 1, 2, 2),
)

Element = ElementTree.Element
# A value as it is shown, and where.
Wanted = tuple[str, tuple[int, int]]


def left_over(shown: Iterable[Shape], wanted: Iterable[Wanted]) -> tuple[Counter[Wanted], Counter[Wanted]]:
    """The wanted values that are not shown at their place, and the shown ones that are not wanted."""
    there = Counter((shape.value, (shape.cycles // 16, shape.hours // 4)) for shape in shown)
    needed = Counter(wanted)
    return needed - there, there - needed


def line_through(ends: Sequence[tuple[float, float]]) -> Callable[[float], float]:
    """The straight line through the least and the greatest of some pairs."""
    (low, first), (high, last) = min(ends), max(ends)
    return lambda at: first + (at - low) * (last - first) / (high - low)


def all_text(root: Element) -> str:
    return " ".join(root.itertext())


def nearest(at: tuple[int, int], points: Sequence[Sequence[int]]) -> int:
    """The distance to the nearest point, in 256ths."""
    return exact.distance(min((x - at[0]) ** 2 + (y - at[1]) ** 2 for x, y, *_ in points))


class PictureTest(ToolTest):
    def picture(self, data: bytes, numbers: Sequence[int], words: str = "", name: str = "f.rls") -> Element:
        """The map of a file, which is told to have the shape of the grid."""
        self.put(name, data)
        said = f"m.svg: {grid_of(numbers, 'a map')}\n"
        self.assert_ran(["picture", name, "-o", "m.svg", *words.split()], 0, said)
        return self.read("m.svg")

    def read(self, name: str) -> Element:
        root = ElementTree.fromstring(self.bytes_of(name))
        self.assertEqual(root.tag, SVG + "svg")
        return root

    def assert_cells(
        self, root: Element, numbers: Sequence[int], values: Sequence[int], points: Sequence[Sequence[int]] = ()
    ) -> None:
        """Each cell has a shape with a title, each of these points has one, and nothing else has."""
        cells = [(steps(value), at) for at, value in zip(files.locations(numbers), values, strict=True)]
        marks = [(str(z), (x, y)) for x, y, z in points]
        self.assertEqual(left_over(shapes(root), cells + marks), (Counter(), Counter()))

    def assert_named(self, root: Element) -> None:
        text = all_text(root)
        self.assertIn("cycles", text)
        self.assertIn("hours", text)


class Maps(PictureTest):
    def assert_answers(self, points: Sequence[Sequence[int]], numbers: Sequence[int], words: str = "") -> None:
        """The map of a survey whose points are all on it."""
        data = files.survey(points, numbers)
        root = self.picture(data, numbers, words)
        self.assert_cells(root, numbers, files.read_grid_file(grid_file(numbers, data)).cells, points)
        self.assert_named(root)

    def test_answers(self) -> None:
        points = [(100, 200, -77), (900, 250, 113), (1800, 2100, -30), (3900, 1200, -64), (3000, 1300, 5)]
        self.assert_answers(points, files.FOUR_GRID)
        self.assert_answers(points, files.FOUR_GRID, "--of answer")
        self.assert_answers(files.FOUR, files.FOUR_GRID)

    def test_support(self) -> None:
        root = self.picture(files.survey(files.FOUR, files.FOUR_GRID), files.FOUR_GRID, "--of support")
        values = [nearest(at, files.FOUR) for at in files.locations(files.FOUR_GRID)]
        self.assert_cells(root, files.FOUR_GRID, values, files.FOUR)
        self.assert_named(root)

    def test_values_of_points_are_written(self) -> None:
        """As text beside the point, not in its title alone."""
        points = [(100, 200, -77), (900, 250, 113), (3900, 1200, -64)]
        root = self.picture(files.survey(points, files.FOUR_GRID), files.FOUR_GRID)
        written = {(element.text or "").strip() for element in root.iter(SVG + "text")}
        self.assertLessEqual({"-77", "113", "-64"}, written)

    def test_answer_is_what_is_shown_where_nothing_is_said(self) -> None:
        self.put("f.rls", files.survey(files.FOUR, files.FOUR_GRID))
        plain = self.run_tool("picture f.rls -o -")
        self.assertEqual((plain.status, plain.errors), (0, b""))
        self.assertEqual(self.run_tool("picture f.rls -o - --of answer"), plain)
        self.assertNotEqual(self.run_tool("picture f.rls -o - --of support"), plain)

    def assert_colours(self, root: Element, cells: Sequence[int]) -> None:
        """One value has one colour, and the least and the greatest have unlike ones."""
        colours: dict[str, set[str]] = defaultdict(set)
        for shape in shapes(root):
            colours[shape.value].add(shape.colour)
        shown = [colours[steps(value)] for value in sorted(set(cells))]
        self.assertEqual({len(each) for each in shown}, {1})
        self.assertNotEqual(shown[0], shown[-1])

    def test_colours(self) -> None:
        numbers = (7, 11, 60, 60, 64, 64)
        made = grid_file(numbers, SAMPLE.read_bytes())
        self.assert_colours(self.picture(made, numbers, name="f.rlg"), files.read_grid_file(made).cells)
        far = (1000, 1000, 40, 40, 64, 64)
        root = self.picture(files.survey([(3, 5, -7)], far), far, "--of support")
        self.assert_colours(root, [nearest(at, [(3, 5)]) for at in files.locations(far)])

    def test_sample(self) -> None:
        data, numbers = SAMPLE.read_bytes(), (0, 0, 65, 65, 64, 64)
        points = exact_files.read_survey_file(data)
        root = self.picture(data, numbers)
        self.assert_cells(root, numbers, files.read_grid_file(grid_file(numbers, data)).cells, points)
        root = self.picture(data, numbers, "--of support")
        self.assert_cells(root, numbers, [nearest(at, points) for at in files.locations(numbers)], points)

    def test_a_grid_file(self) -> None:
        """Its cells alone: there are no points."""
        made = grid_file(files.FOUR_GRID, files.survey(files.FOUR))
        root = self.picture(made, files.FOUR_GRID, name="f.rlg")
        self.assert_cells(root, files.FOUR_GRID, files.read_grid_file(made).cells)
        self.assert_named(root)
        self.put("old.svg", "old")
        errors = "f.rlg: a grid file has no points to measure from\n"
        self.assert_ran("picture f.rlg -o old.svg --of support", 2, errors=errors)
        self.assertEqual(self.bytes_of("old.svg"), b"old")

    def test_odd_grids(self) -> None:
        """Every cell is there, and no more points than the survey has."""
        for numbers in ODD_GRIDS:
            made = grid_file(numbers, files.survey(files.EIGHT))
            self.assert_cells(self.picture(made, numbers, name="f.rlg"), numbers, files.read_grid_file(made).cells)
            for kind in ("answer", "support"):
                root = self.picture(files.survey(files.EIGHT), numbers, f"--of {kind} --grid {six(numbers)}")
                shown = len(list(shapes(root))) - numbers[4] * numbers[5]
                self.assertIn(shown, range(len(files.EIGHT) + 1), (numbers, kind))

    def test_flat_grids(self) -> None:
        """All cells alike, and the ends of what a cell may be."""
        for cells in ([0] * 4, [-32_768] * 4, [32_767] * 4, [-32_768, 32_767, 0, -1]):
            numbers = (0, 0, 1, 1, 2, 2)
            root = self.picture(files.made_grid_file(numbers, cells), numbers, name="f.rlg")
            self.assert_cells(root, numbers, cells)
            self.assertNotRegex(self.bytes_of("m.svg").decode(), r"(?i)[\s\"(]-?(nan|inf)[\s\",)]")

    def test_full_and_single_surveys(self) -> None:
        rng, numbers = Random(SEED), (0, 0, 585, 585, 8, 8)
        for kind in (surveys.crowded, surveys.single, surveys.column, surveys.corners):
            self.assert_answers(surveys.make(rng, kind)[0], numbers)

    def test_places(self) -> None:
        """Cells and points are drawn where their titles say: more wear is further right, more rest is higher."""
        for numbers in (files.FOUR_GRID, (0, 0, 65, 65, 64, 64), (0, 0, 1000, 10, 4, 64), (90, 40, 5, 4, 5, 6)):
            for points in (files.FOUR, files.EIGHT):
                drawn = list(shapes(self.picture(files.survey(points, numbers), numbers)))
                across = line_through([(shape.cycles, shape.centre[0]) for shape in drawn])
                down = line_through([(shape.hours, shape.centre[1]) for shape in drawn])
                self.assertLess(across(0), across(1))
                self.assertGreater(down(0), down(1))
                for shape in drawn:
                    self.assertAlmostEqual(shape.centre[0], across(shape.cycles), delta=1, msg=shape)
                    self.assertAlmostEqual(shape.centre[1], down(shape.hours), delta=1, msg=shape)

    def test_sizes(self) -> None:
        """Every size and place of a rectangle is a plain number, and no size is negative."""
        root = self.picture(files.survey(files.FOUR, files.FOUR_GRID), files.FOUR_GRID)
        for element in root.iter(SVG + "rect"):
            for name in ("x", "y", "width", "height"):
                value = element.get(name, "0")
                self.assertRegex(value, r"^-?[0-9.]+%?$")
                self.assertFalse(name in ("width", "height") and value.startswith("-"))

    def test_a_missing_cell_is_noticed(self) -> None:
        """So are a changed value, a cell at another place, and a point that is not told."""
        data = files.survey(files.FOUR, files.FOUR_GRID)
        root = self.picture(data, files.FOUR_GRID)
        cells = files.read_grid_file(grid_file(files.FOUR_GRID, data)).cells
        wrong = ([*cells[1:], 31_337], [*cells[1:], cells[0]])
        for values, points in ((wrong[0], files.FOUR), (wrong[1], files.FOUR), (cells, files.FOUR[1:]), (cells, [])):
            with self.assertRaises(AssertionError):
                self.assert_cells(root, files.FOUR_GRID, values, points)


class Names(PictureTest):
    def test_hostile_names(self) -> None:
        for name in HOSTILE:
            root = self.picture(files.survey(files.FOUR, files.FOUR_GRID), files.FOUR_GRID, name=name)
            self.assertEqual([each for each in root.iter() if "script" in str(each.tag)], [], name)

    def test_a_name_that_is_no_utf_8(self) -> None:
        name = os.fsdecode(b"\xff&.rls")
        self.put(name, files.survey(files.FOUR, files.FOUR_GRID))
        ran = self.run_tool(["picture", name, "-o", "m.svg"])
        self.assertEqual((ran.status, ran.errors), (0, b""))
        self.read("m.svg")

    def test_standard_input_and_output(self) -> None:
        data = files.survey(files.FOUR, files.FOUR_GRID)
        ran = self.run_tool("picture - -o -", data)
        self.assertEqual((ran.status, ran.errors), (0, b""))
        self.assertEqual(ElementTree.fromstring(ran.output).tag, SVG + "svg")


class RefusedMaps(ToolTest):
    def assert_refused(self, data: bytes, told: str, words: str = "") -> None:
        self.put("f.rls", data)
        self.put("m.svg", "old")
        for kind in ("answer", "support"):
            self.assert_ran(f"picture f.rls -o m.svg --of {kind} {words}", 1, errors=f"f.rls: {told}\n")
            self.assertEqual(self.bytes_of("m.svg"), b"old")

    def test_grids_and_points(self) -> None:
        self.assert_refused(files.survey(files.FOUR), f"refused 7: {TOO_FEW_BYTES}")
        self.assert_refused(files.survey(files.FOUR, (0,) * 6), f"refused 7: {BROKEN_FRONT}")
        self.assert_refused(files.survey(files.FOUR), f"refused 7: {GRID_RULES}", "--grid 0,0,1,1,65,1")
        self.assert_refused(files.survey([], files.FOUR_GRID), refused(6))
        self.assert_refused(files.survey(files.FOUR)[1:], refused(12))

    def test_a_grid_file_with_another_grid(self) -> None:
        self.put("f.rlg", files.made_grid_file((0, 0, 1, 1, 1, 1), [5]))
        ran = self.run_tool("picture f.rlg -o m.svg --grid 0,0,1,1,1,2")
        self.assertEqual((ran.status, ran.output), (2, b""))
        self.assertEqual(self.names(), ["f.rlg"])


if __name__ == "__main__":
    unittest.main()
