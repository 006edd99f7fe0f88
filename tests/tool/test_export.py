"""Exports surveys, and holds import and export to one another."""

from __future__ import annotations

import unittest
from random import Random

import files
from texts import refused, six
from tool import SAMPLE, SEED, ToolTest

import damage
import exact_files
import surveys


class Export(ToolTest):
    def assert_exports(self, data: bytes, wanted: str) -> None:
        """To standard output, to a file, and from standard input."""
        self.put("f.rls", data)
        self.assert_ran("export f.rls", 0, wanted)
        self.assert_ran("export -", 0, wanted, data=data)
        self.assert_written("export f.rls -o o.csv", "", "o.csv", wanted.encode())

    def test_points_by_x_then_y(self) -> None:
        points = [(5, 9, 1), (5, 10, -128), (4, 4095, 127), (4095, 0, 0), (0, 0, -1)]
        wanted = "x,y,z\n0,0,-1\n4,4095,127\n5,9,1\n5,10,-128\n4095,0,0\n"
        self.assert_exports(files.survey(points), wanted)

    def test_no_points(self) -> None:
        self.assert_exports(files.NO_POINT, "x,y,z\n")

    def test_what_stands_before_the_records_plays_no_part(self) -> None:
        for before in (b"\0", b"x,y,z\n", bytes(12), bytes(1000), files.survey(files.EIGHT)):
            self.assert_exports(files.survey(files.FOUR, (), before), files.exported(files.FOUR))

    def test_full_survey(self) -> None:
        points = [(x, y, x + y - 128) for x in range(16) for y in range(16)]
        self.assert_exports(files.survey(points), files.exported(points))

    def test_sample(self) -> None:
        data = SAMPLE.read_bytes()
        self.assert_exports(data, files.exported(exact_files.read_survey_file(data)))

    def test_refused(self) -> None:
        """Nothing is written, and the old file stays."""
        self.put("f.rls", files.survey(files.FOUR)[:-1] + b"2")
        self.put("o.csv", "old")
        for words in ("export f.rls", "export f.rls -o o.csv"):
            self.assert_ran(words, 1, errors=f"f.rls: {refused(10)}\n")
        self.assertEqual(self.bytes_of("o.csv"), b"old")

    def test_a_grid_file(self) -> None:
        self.put("f.rlg", files.made_grid_file((0, 0, 1, 1, 1, 1), [5]))
        ran = self.run_tool("export f.rlg")
        self.assertEqual((ran.status, ran.output, ran.errors.count(b"\n")), (1, b"", 1))
        self.assertTrue(ran.errors.startswith(b"f.rlg: "), ran.errors)


class ThereAndBack(ToolTest):
    """Import of an export is the survey; export of an import is the sorted table."""

    def assert_back(self, data: bytes, numbers: tuple[int, ...] = ()) -> None:
        self.put("f.rls", data)
        ran = self.run_tool("export f.rls -o t.csv")
        self.assertEqual(ran, (0, b"", b""))
        with_grid = ["--grid", six(numbers)] if numbers else []
        ran = self.run_tool(["import", "t.csv", "-o", "back.rls", *with_grid])
        self.assertEqual((ran.status, ran.errors), (0, b""))
        self.assertEqual(self.bytes_of("back.rls"), data)

    def test_surveys_of_every_kind(self) -> None:
        rng = Random(SEED)
        for kind in surveys.KINDS:
            points, _ = surveys.make(rng, kind)
            self.assert_back(files.survey(points))
            self.assert_back(files.survey(points, files.FOUR_GRID), files.FOUR_GRID)

    def test_files_with_other_bytes_in_front(self) -> None:
        """The file's own bytes come back, without what stood before its records."""
        rng = Random(SEED)
        for _ in range(20):
            points = damage.few_points(rng)
            self.put("f.rls", damage.sound_file(rng, points))
            text = self.run_tool("export f.rls").output
            self.assert_ran("import - -o -", 0, files.survey(points), data=text)

    def test_sample(self) -> None:
        numbers = (0, 0, 65, 65, 64, 64)
        self.assert_back(files.survey(exact_files.read_survey_file(SAMPLE.read_bytes()), numbers), numbers)

    def test_a_changed_byte_is_noticed(self) -> None:
        data = bytearray(files.survey(files.FOUR, files.FOUR_GRID))
        data[1] ^= 1
        with self.assertRaises(AssertionError):
            self.assert_back(bytes(data), files.FOUR_GRID)


if __name__ == "__main__":
    unittest.main()
