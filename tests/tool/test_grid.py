"""Holds the grid files, Esri texts and tables of grid to the proved programs."""

from __future__ import annotations

import unittest
from collections.abc import Sequence
from fractions import Fraction
from random import Random

import files
from texts import BROKEN_FRONT, GRID_RULES, TOO_FEW_BYTES, grid_of, refused, six
from tool import SAMPLE, SEED, ToolTest, esri_text, grid_file

import damage
import exact_files
import grids
import surveys
from exact import Refused

NARROW_GRIDS = ((0, 0, 65, 65, 64, 1), (2000, 0, 65, 65, 1, 64), (4095, 4095, 65535, 65535, 1, 1), (7, 9, 1, 1, 1, 1))


def cells_of(text: bytes) -> tuple[list[int], list[int], list[int]]:
    """Each column's x, each row's y, and all cells in 256ths, of a table of cells."""
    first, *lines = text.decode("ascii").split("\n")
    corner, *across = first.split(",")
    assert corner == "y\\x" and lines.pop() == "", text
    rows = [line.split(",") for line in lines]
    assert all(len(row) == 1 + len(across) for row in rows), text
    cells = [256 * Fraction(cell) for row in rows for cell in row[1:]]
    assert all(cell.denominator == 1 for cell in cells), text
    return list(map(int, across)), [int(row[0]) for row in rows], list(map(int, cells))


class GridTest(ToolTest):
    def assert_grid(self, data: bytes, numbers: Sequence[int], words: str) -> None:
        """A grid file and a table of the survey in f.rls; an Esri text where its steps are alike."""
        self.put("f.rls", data)
        wanted, shape = grid_file(numbers, data), grid_of(numbers)
        self.assert_written(f"grid f.rls -o o.rlg {words}", f"o.rlg: {shape}\n", "o.rlg", wanted)
        self.assert_written(f"grid f.rls -o o.csv {words}", f"o.csv: {shape}\n", "o.csv", files.csv_of(wanted).encode())
        self.assert_read_back(wanted)
        if numbers[2] == numbers[3]:
            text = esri_text(numbers, data)
            self.assert_written(f"grid f.rls -o o.asc {words}", f"o.asc: {shape}\n", "o.asc", text)
        else:
            self.assert_ran(f"grid f.rls -o p.asc {words}", 1, errors=f"f.rls: {refused(16)}\n")
            self.assertNotIn("p.asc", self.names())

    def assert_read_back(self, wanted: bytes) -> None:
        """The table in o.csv has the cells of a grid file."""
        (x0, y0, step_x, step_y, columns, rows), cells = files.read_grid_file(wanted)
        across = [x0 + step_x * column for column in range(columns)]
        down = [y0 + step_y * row for row in range(rows)]
        self.assertEqual(cells_of(self.bytes_of("o.csv")), (across, down, list(cells)))


class Grids(GridTest):
    def test_readme(self) -> None:
        data = files.survey(files.FOUR, files.FOUR_GRID)
        self.assert_grid(data, files.FOUR_GRID, "")
        table = self.bytes_of("o.csv").decode().split("\n")
        self.assertEqual(table[0], "y\\x,0,1000,2000,3000,4000")
        self.assertEqual(table[2], "1000,-9.83203125,-15.87890625,-27.10546875,-48.16796875,-63.03515625")

    def test_sample(self) -> None:
        self.assert_grid(SAMPLE.read_bytes(), (0, 0, 65, 65, 64, 64), "")

    def test_own_grids(self) -> None:
        rng = Random(SEED)
        for kind in surveys.KINDS:
            points, _ = surveys.make(rng, kind)
            for numbers in (grids.grid_near(rng, points), grids.like_grid_near(rng, points)):
                before = damage.random_preamble(rng)
                self.assert_grid(files.survey(points, numbers, before), numbers, "")

    def test_grids_of_the_command_line(self) -> None:
        """They come before the survey's own, and need none."""
        rng = Random(SEED)
        for kind in surveys.KINDS:
            points, _ = surveys.make(rng, kind)
            numbers = rng.choice((grids.proper_grid, grids.like_grid))(rng)
            own = rng.choice(((), (0, 0, 1, 1, 2, 2), (0, 0, 0, 0, 0, 0)))
            self.assert_grid(files.survey(points, own), numbers, f"--grid {six(numbers)}")

    def test_narrow_grids(self) -> None:
        for numbers in NARROW_GRIDS:
            self.assert_grid(files.survey(files.EIGHT, numbers), numbers, "")

    def test_a_changed_cell_is_noticed(self) -> None:
        other = files.survey([files.FOUR[0]._replace(z=-4), *files.FOUR[1:]])
        self.put("f.rls", files.survey(files.FOUR, files.FOUR_GRID))
        wanted = grid_file(files.FOUR_GRID, other)
        with self.assertRaises(AssertionError):
            self.assert_written("grid f.rls -o o.rlg", "o.rlg: a grid of 5 columns and 3 rows\n", "o.rlg", wanted)
        with self.assertRaises(AssertionError):
            self.run_tool("grid f.rls -o o.csv")
            self.assert_read_back(wanted)


class Forms(ToolTest):
    def setUp(self) -> None:
        super().setUp()
        self.put("f.rls", files.survey(files.FOUR, files.FOUR_GRID))
        self.rlg = grid_file(files.FOUR_GRID, files.survey(files.FOUR))
        self.forms = {
            "rlg": self.rlg,
            "csv": files.csv_of(self.rlg).encode(),
            "esri": esri_text(files.FOUR_GRID, files.survey(files.FOUR)),
        }

    def test_ending_decides(self) -> None:
        endings = {"rlg": "o.rlg o csv asc o.csv.x", "csv": "o.csv .csv o.asc.csv", "esri": "o.asc o.csv.asc"}
        for form, names in endings.items():
            for name in names.split():
                said = f"{name}: a grid of 5 columns and 3 rows\n"
                self.assert_written(f"grid f.rls -o {name}", said, name, self.forms[form])

    def test_form_given(self) -> None:
        for form, wanted in self.forms.items():
            for name in ("o.rlg", "o.csv", "o.asc"):
                said = f"{name}: a grid of 5 columns and 3 rows\n"
                self.assert_written(f"grid f.rls --as={form} -o {name}", said, name, wanted)

    def test_standard_output_and_input(self) -> None:
        data = self.bytes_of("f.rls")
        self.assert_ran("grid f.rls -o -", 0, self.rlg)
        for form, wanted in self.forms.items():
            self.assert_ran(f"grid f.rls -o - --as {form}", 0, wanted)
            self.assert_ran(f"grid - -o - --as {form}", 0, wanted, data=data)

    def test_a_grid_file(self) -> None:
        self.put("g.rlg", self.rlg)
        self.assert_ran("grid g.rlg -o -", 0, self.rlg)
        self.assert_ran("grid g.rlg -o - --as csv", 0, self.forms["csv"])
        self.assert_written("grid g.rlg -o h.rlg", "h.rlg: a grid of 5 columns and 3 rows\n", "h.rlg", self.rlg)

    def test_a_grid_file_is_no_survey(self) -> None:
        self.put("g.rlg", self.rlg)
        own = "g.rlg: it is a grid file and has its own grid\n"
        self.assert_ran("grid g.rlg -o o --grid 0,0,1,1,1,1", 2, errors=own)
        self.assert_ran("grid g.rlg -o o --grid 0,0,1000,1000,5,3", 2, errors=own)
        esri = "g.rlg: an Esri ASCII grid is made from a survey\n"
        self.assert_ran("grid g.rlg -o o.asc", 2, errors=esri)
        self.assert_ran("grid g.rlg -o - --as esri", 2, errors=esri)
        self.assertEqual(self.names(), ["f.rls", "g.rlg"])

    def test_one_column_and_row(self) -> None:
        self.assert_ran("grid f.rls -o o --grid 1,1,1,1,1,1", 0, "o: a grid of 1 column and 1 row\n")
        self.assert_ran("grid f.rls -o o --grid 1,1,1,1,2,1", 0, "o: a grid of 2 columns and 1 row\n")
        self.assert_ran("grid f.rls -o o --grid 1,1,1,1,1,64", 0, "o: a grid of 1 column and 64 rows\n")


class RefusedGrids(ToolTest):
    def assert_refused(self, data: bytes, told: str, words: str = "") -> None:
        """For every form, and the old file stays."""
        self.put("f.rls", data)
        self.put("o", b"old")
        for form in ("rlg", "csv", "esri"):
            self.assert_ran(f"grid f.rls -o o --as {form} {words}", 1, errors=f"f.rls: {told}\n")
            self.assertEqual(self.bytes_of("o"), b"old")

    def test_too_few_bytes(self) -> None:
        for before in (b"", bytes(1), bytes(11)):
            for points in (files.FOUR, []):
                self.assert_refused(files.survey(points, (), before), f"refused 7: {TOO_FEW_BYTES}")

    def test_rules(self) -> None:
        rng = Random(SEED)
        for index in range(40):
            numbers = grids.improper_grid(rng)
            points = files.FOUR if index % 2 else []
            self.assert_refused(files.survey(points, numbers), f"refused 7: {BROKEN_FRONT}")
            words = f"--grid {six(numbers)}"
            self.assert_refused(files.survey(points, files.FOUR_GRID), f"refused 7: {GRID_RULES}", words)

    def test_no_point(self) -> None:
        self.assert_refused(files.survey([], files.FOUR_GRID), refused(6))
        self.assert_refused(files.NO_POINT, refused(6), "--grid 0,0,1,1,1,1")

    def test_steps_that_differ_come_before_no_point(self) -> None:
        for points in (files.FOUR, []):
            self.put("f.rls", files.survey(points, (0, 0, 1, 2, 1, 1)))
            self.assert_ran("grid f.rls -o o.asc", 1, errors=f"f.rls: {refused(16)}\n")
        self.assert_ran("grid f.rls -o o.csv", 1, errors=f"f.rls: {refused(6)}\n")

    def test_damaged_files(self) -> None:
        """The file's own refusal comes before its grid's."""
        rng, numbers = Random(SEED), (0, 0, 1, 1, 1, 1)
        for _ in range(60):
            data = damage.damage(rng, damage.random_preamble(rng), damage.few_points(rng))
            if data.endswith(b"RLG1"):
                continue
            ran = self.run_tool(f"grid - -o - --grid {six(numbers)}", data)
            try:
                points = exact_files.read_survey_file(data)
            except Refused as refusal:
                self.assertEqual((ran.status, ran.output), (1, b""))
                self.assertIn(f": refused {refusal.number}: ".encode(), ran.errors)
            else:
                wanted = (0, grid_file(numbers, files.survey(points))) if points else (1, b"")
                self.assertEqual((ran.status, ran.output), wanted)

    def test_damaged_grid_files(self) -> None:
        sound = files.made_grid_file((0, 0, 1, 1, 2, 3), [1, 2, 3, 4, 5, 6])
        self.put("g.rlg", sound[:-5] + b"\x0d" + sound[-4:])
        errors = "g.rlg: refused 12: its back distance or its length does not go with its six numbers\n"
        self.assert_ran("grid g.rlg -o o.csv", 1, errors=errors)


if __name__ == "__main__":
    unittest.main()
