"""Holds diff to cells that shepard_grid works out."""

from __future__ import annotations

import unittest
from collections.abc import Sequence
from random import Random

import files
from texts import BROKEN_FRONT, NEITHER_MAGIC, REFUSALS, TOO_FEW_BYTES, grid_file_refused, refused, six, steps
from tool import SAMPLE, SEED, ToolTest, grid_file

import exact_files
import grids
import surveys

HEADER = "x,y,before,after,change\n"


def difference(before: bytes, after: bytes) -> tuple[int, str]:
    """The status and the text of two grid files over one grid."""
    numbers, old = files.read_grid_file(before)
    new = files.read_grid_file(after).cells
    rows = [(at, a, b) for at, a, b in zip(files.locations(numbers), old, new) if a != b]
    if not rows:
        return 0, f"none of {len(old)} cells differs\n"
    lines = [f"{x},{y},{steps(a)},{steps(b)},{steps(b - a)}\n" for (x, y), a, b in rows]
    (x, y), a, b = max(rows, key=lambda row: abs(row[2] - row[1]))
    verb = "differs" if len(rows) == 1 else "differ"
    last = f"{len(rows)} of {len(old)} cells {verb}, the greatest change is {steps(b - a)} steps at ({x}, {y})\n"
    return 1, HEADER + "".join(lines) + last


class DiffTest(ToolTest):
    def assert_differ(self, one: bytes, other: bytes, before: bytes, after: bytes, *words: str) -> None:
        """Two files, and the grid files that they stand for."""
        self.put("a", one)
        self.put("b", other)
        status, text = difference(before, after)
        self.assert_ran(["diff", "a", "b", *words], status, text)


class Diff(DiffTest):
    def test_by_hand(self) -> None:
        numbers = (650, 1300, 65, 10, 2, 2)
        one = files.made_grid_file(numbers, [256, 512, -128, 0])
        other = files.made_grid_file(numbers, [256, 511, 512, -640])
        self.put("a", one)
        self.put("b", other)
        text = HEADER + "715,1300,2,1.99609375,-0.00390625\n650,1310,-0.5,2,2.5\n715,1310,0,-2.5,-2.5\n"
        self.assert_ran("diff a b", 1, text + "3 of 4 cells differ, the greatest change is 2.5 steps at (650, 1310)\n")
        self.assert_ran("diff a a", 0, "none of 4 cells differs\n")
        self.assert_differ(one, other, one, other)

    def test_one_cell(self) -> None:
        one = files.made_grid_file((7, 8, 1, 1, 1, 1), [-32_768])
        other = files.made_grid_file((7, 8, 1, 1, 1, 1), [32_767])
        self.put("a", one)
        self.put("b", other)
        text = HEADER + "7,8,-128,127.99609375,255.99609375\n"
        last = "1 of 1 cells differs, the greatest change is 255.99609375 steps at (7, 8)\n"
        self.assert_ran("diff a b", 1, text + last)
        self.assert_ran("diff b a", 1, HEADER + "7,8,127.99609375,-128,-255.99609375\n" + last.replace("is ", "is -"))

    def test_surveys_with_their_own_grids(self) -> None:
        rng = Random(SEED)
        for kind in surveys.KINDS:
            points, _ = surveys.make(rng, kind)
            numbers = grids.grid_near(rng, points)
            x, y, z = points[0]
            one = files.survey(points, numbers)
            other = files.survey([*points[1:], (x, y, z - 1 if z > 0 else z + 1)], numbers)
            self.assert_differ(one, other, grid_file(numbers, one), grid_file(numbers, other))
            self.assert_differ(one, one, grid_file(numbers, one), grid_file(numbers, one))

    def test_a_survey_and_a_grid_file(self) -> None:
        """The survey is worked out over the grid file's grid, whatever its own is."""
        numbers = (0, 0, 500, 400, 8, 9)
        for own in ((), files.FOUR_GRID, numbers, (0,) * 6):
            data = files.survey(files.FOUR, own)
            made = grid_file(numbers, data)
            changed = made[:5] + bytes([made[5] ^ 1]) + made[6:]
            self.assert_differ(data, made, made, made)
            self.assert_differ(data, changed, made, changed)
            self.assert_differ(changed, data, changed, made)

    def test_a_grid_of_the_command_line(self) -> None:
        """It comes before the surveys' own."""
        numbers = (10, 20, 300, 200, 9, 7)
        for own, others in (((), ()), (files.FOUR_GRID, files.EIGHT_GRID), (files.FOUR_GRID, ())):
            one, other = files.survey(files.FOUR, own), files.survey(files.FOUR[1:], others)
            cells = grid_file(numbers, one), grid_file(numbers, other)
            self.assert_differ(one, other, *cells, "--grid", six(numbers))
            self.assert_differ(cells[0], other, *cells, "--grid", six(numbers))

    def test_sample(self) -> None:
        data = SAMPLE.read_bytes()
        points = exact_files.read_survey_file(data)
        numbers = (0, 0, 65, 65, 64, 64)
        other = files.survey(points[:-1], numbers)
        self.assert_differ(data, other, grid_file(numbers, data), grid_file(numbers, other))
        self.assert_differ(data, data, grid_file(numbers, data), grid_file(numbers, data))

    def test_standard_input(self) -> None:
        data = files.survey(files.FOUR, files.FOUR_GRID)
        self.put("a", data)
        self.assert_ran("diff a -", 0, "none of 15 cells differs\n", data=data)
        self.assert_ran("diff - a", 0, "none of 15 cells differs\n", data=data)

    def test_the_first_of_the_greatest(self) -> None:
        numbers = (0, 0, 1, 1, 4, 1)
        self.put("a", files.made_grid_file(numbers, [0, 0, 0, 0]))
        self.put("b", files.made_grid_file(numbers, [1, -5, 5, -5]))
        last = self.run_tool("diff a b").output.decode().splitlines()[-1]
        self.assertEqual(last, "4 of 4 cells differ, the greatest change is -0.01953125 steps at (1, 0)")

    def test_random_grid_files(self) -> None:
        rng = Random(SEED)
        for _ in range(60):
            numbers = grids.proper_grid(rng)
            cells = [rng.randint(-32_768, 32_767) for _ in range(numbers[4] * numbers[5])]
            altered = [rng.randint(-32_768, 32_767) if rng.randrange(3) == 0 else cell for cell in cells]
            one, other = files.made_grid_file(numbers, cells), files.made_grid_file(numbers, altered)
            self.assert_differ(one, other, one, other)

    def test_a_changed_cell_is_noticed(self) -> None:
        one = files.made_grid_file((0, 0, 1, 1, 2, 1), [5, 6])
        other = files.made_grid_file((0, 0, 1, 1, 2, 1), [5, 7])
        with self.assertRaises(AssertionError):
            self.assert_differ(one, one, one, other)
        with self.assertRaises(AssertionError):
            self.assert_differ(one, other, one, one)


class Unlike(DiffTest):
    def assert_unlike(self, one: Sequence[int], other: Sequence[int]) -> None:
        errors = f"a and b have unlike grids: {six(one)} and {six(other)}\n"
        self.assert_ran("diff a b", 2, errors=errors)

    def test_grid_files(self) -> None:
        one, other = (0, 0, 65, 65, 2, 3), (0, 0, 64, 64, 2, 3)
        self.put("a", files.made_grid_file(one, [0] * 6))
        self.put("b", files.made_grid_file(other, [0] * 6))
        self.assert_unlike(one, other)

    def test_surveys(self) -> None:
        self.put("a", files.survey(files.FOUR, files.FOUR_GRID))
        self.put("b", files.survey(files.FOUR, files.EIGHT_GRID))
        self.assert_unlike(files.FOUR_GRID, files.EIGHT_GRID)

    def test_a_grid_file_and_the_command_line(self) -> None:
        self.put("a", files.made_grid_file((0, 0, 65, 65, 1, 1), [0]))
        self.put("b", files.survey(files.FOUR))
        errors = "a and --grid have unlike grids: 0,0,65,65,1,1 and 0,0,64,64,1,1\n"
        for words in ("diff a b --grid 0,0,64,64,1,1", "diff b a --grid 0,0,64,64,1,1", "diff a a --grid 0,0,64,64,1,1"):
            self.assert_ran(words, 2, errors=errors)


class RefusedDiffs(ToolTest):
    def setUp(self) -> None:
        super().setUp()
        self.put("good", files.survey(files.FOUR, files.FOUR_GRID))
        self.put("good.rlg", files.made_grid_file(files.FOUR_GRID, [0] * 15))

    def test_refused_files(self) -> None:
        self.put("bad", files.survey(files.FOUR)[:-4] + b"RLS2")
        self.put("bad.rlg", files.made_grid_file((0, 0, 1, 1, 2, 3), [0] * 5))
        for words in ("diff bad good", "diff good bad", "diff good.rlg bad"):
            ran = self.run_tool(words)
            self.assertEqual((ran.status, ran.output), (1, b""))
            self.assertEqual(ran.errors, f"bad: refused 10: {NEITHER_MAGIC}\n".encode())
        self.assert_ran("diff good bad.rlg", 1, errors=f"bad.rlg: {grid_file_refused(12)}\n")

    def test_no_point(self) -> None:
        self.put("none", files.survey([], files.FOUR_GRID))
        self.assert_ran("diff good none", 1, errors=f"none: {refused(6)}\n")
        self.assert_ran("diff none good.rlg", 1, errors=f"none: {refused(6)}\n")

    def test_grids(self) -> None:
        self.put("bare", files.survey(files.FOUR))
        self.put("rule", files.survey(files.FOUR, (0, 0, 0, 1, 1, 1)))
        self.assert_ran("diff bare bare", 1, errors=f"bare: refused 7: {TOO_FEW_BYTES}\n")
        self.assert_ran("diff good bare", 1, errors=f"bare: refused 7: {TOO_FEW_BYTES}\n")
        self.assert_ran("diff bare good", 1, errors=f"bare: refused 7: {TOO_FEW_BYTES}\n")
        self.assert_ran("diff rule rule", 1, errors=f"rule: refused 7: {BROKEN_FRONT}\n")
        self.assert_ran("diff good rule", 1, errors=f"rule: refused 7: {BROKEN_FRONT}\n")
        ran = self.run_tool("diff bare bare --grid 0,0,0,1,1,1")
        self.assertEqual((ran.status, ran.output, ran.errors), (1, b"", f"bare: refused 7: {REFUSALS[7]}\n".encode()))

    def test_files_that_cannot_be_read(self) -> None:
        errors = "none: No such file or directory (os error 2)\n"
        self.assert_ran("diff none good", 2, errors=errors)
        self.assert_ran("diff good none", 2, errors=errors)


if __name__ == "__main__":
    unittest.main()
