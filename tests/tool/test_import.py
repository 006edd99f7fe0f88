"""Imports tables in every spelling, and tables with every kind of bad line."""

from __future__ import annotations

import unittest
from itertools import product
from random import Random

import files
import tables
from tables import NEEDED, Table
from texts import REFUSALS, six, survey_of
from tool import SEED, ToolTest

BOM = b"\xef\xbb\xbf"
SEPARATORS = (",", ";", "\t", " ", " , ", "  ", " ;  ", " \t ")
HEADERS = (
    b"x,y,z",
    b"X;Y;Z",
    b"wear\trest\tshift",
    b'"x","y","z"',
    b"# x y z",
    b"#x,y,z",
    b"#",
    b"x",
    b"a b c d e f",
    b"x,,",
)


class Spelling(ToolTest):
    """The same points in another spelling are the same file."""

    def assert_imports(self, text: bytes, points: list[tuple[int, int, int]]) -> None:
        self.put("t.csv", text)
        said = f"f.rls: {survey_of(len(points))}\n"
        self.assert_written("import t.csv -o f.rls", said, "f.rls", files.survey(points))

    def test_separators_ends_and_marks(self) -> None:
        points = [(100, 200, -3), (1800, 2100, 30), (0, 4095, 127)]
        for separator, end, mark, header, last in product(
            SEPARATORS, (b"\n", b"\r\n"), (b"", BOM), (b"", b"x,y,z"), (True, False)
        ):
            lines = [header] * bool(header) + [separator.join(map(str, point)).encode() for point in points]
            self.assert_imports(mark + end.join(lines) + end * last, points)

    def test_quotes(self) -> None:
        for line in ('"100","200","-3"', '100,"200",-3', '"100";"200";-3', '"100"\t200\t-3', '"100" "200" "-3"'):
            self.assert_imports(line.encode(), [(100, 200, -3)])
            self.assert_imports(f'  {line} \r\n"7","8","9"'.encode(), [(100, 200, -3), (7, 8, 9)])
        self.assert_imports(b' "100" , "200" , "+3" \n', [(100, 200, 3)])

    def test_spaces_around_a_field(self) -> None:
        self.assert_imports(b"  100 ,200   ,  -3  \n", [(100, 200, -3)])
        self.assert_imports(b"   100     200 -3\n", [(100, 200, -3)])

    def test_each_line_has_its_own_separator(self) -> None:
        self.assert_imports(b"1,2,3\n4;5;6\n7\t8\t9\n10 11 12\n", [(1, 2, 3), (4, 5, 6), (7, 8, 9), (10, 11, 12)])

    def test_signs_and_zeros(self) -> None:
        self.assert_imports(b"+1,+2,+3\n", [(1, 2, 3)])
        self.assert_imports(b"0001,00,-007\n", [(1, 0, -7)])
        self.assert_imports(b"0" * 60 + b"1,+" + b"0" * 60 + b",-" + b"0" * 60 + b"128\n", [(1, 0, -128)])
        self.assert_imports(b"-0,-0,-0\n", [(0, 0, 0)])

    def test_ends_of_the_domain(self) -> None:
        corners = [(x, y, z) for (x, y), z in zip(product((0, 4095), repeat=2), (-128, 127, 0, -1))]
        self.assert_imports(files.table(corners).encode(), corners)

    def test_blank_lines_are_passed_over(self) -> None:
        self.assert_imports(b"\n  \n\r\n   \r\n1,2,3\n\n \n4,5,6\n\n\n", [(1, 2, 3), (4, 5, 6)])

    def test_order_of_lines_plays_no_part(self) -> None:
        points = [(x, y, x - y) for x in range(5) for y in range(5)]
        self.assert_imports(files.table(Random(SEED).sample(points, 25)).encode(), points)

    def test_one_point_and_256(self) -> None:
        self.assert_imports(b"7 8 9", [(7, 8, 9)])
        points = [(16 * x, y, 1) for x in range(16) for y in range(16)]
        self.assert_imports(files.table(points).encode(), points)

    def test_headers(self) -> None:
        for header, before in product(HEADERS, (b"", b"\n  \r\n", BOM)):
            self.assert_imports(before + header + b"\n1,2,3\n", [(1, 2, 3)])

    def test_standard_input(self) -> None:
        points = [(1, 2, 3), (4, 5, 6)]
        said, data = "f.rls: a survey of 2 points\n", b"x,y,z\r\n4,5,6\r\n1,2,3"
        self.assert_written("import - -o f.rls", said, "f.rls", files.survey(points), data)


class Headers(ToolTest):
    """What is no header is a bad line."""

    def test_first_lines_that_are_no_header(self) -> None:
        for line, reason in (
            ("x,2,3", "x is no whole number"),
            ("x,y,3", "x is no whole number"),
            ('"x","2"', f"2 fields {NEEDED}"),
            ("# 3 points", "x is no whole number"),
            ("_x,y,z", "x is no whole number"),
            ('"1x",y,z', "x is no whole number"),
            (".,y,z", "x is no whole number"),
            ("1,y,z", "y is no whole number"),
            ("point 7", f"2 fields {NEEDED}"),
        ):
            self.put("t.csv", line + "\n1,2,3\n")
            errors = f"line 1: {line}: {reason}\nt.csv: 1 bad line, nothing is written\n"
            self.assert_ran("import t.csv -o f.rls", 1, errors=errors)

    def test_a_second_header(self) -> None:
        self.put("t.csv", "x,y,z\nx,y,z\n1,2,3\n# end\n")
        errors = f"line 2: x,y,z: x is no whole number\nline 4: # end: 2 fields {NEEDED}\n"
        self.assert_ran("import t.csv -o f.rls", 1, errors=errors + "t.csv: 2 bad lines, nothing is written\n")
        self.assertEqual(self.names(), ["t.csv"])

    def test_a_header_after_a_point(self) -> None:
        self.put("t.csv", "1,2,3\nx,y,z\n")
        errors = "line 2: x,y,z: x is no whole number\nt.csv: 1 bad line, nothing is written\n"
        self.assert_ran("import t.csv -o f.rls", 1, errors=errors)


class BadLines(ToolTest):
    def assert_told(self, table: Table, end: bytes = b"\n") -> None:
        """With and without --skip-bad, over an old file and over none."""
        self.put("t.csv", table.text(end))
        for old in (None, b"the old file"):
            if old is not None:
                self.put("f.rls", old)
            self.assert_ran("import t.csv -o f.rls", 1, errors=table.messages("t.csv", False))
            self.assertEqual((self.folder / "f.rls").exists(), old is not None)
            if old is not None:
                self.assertEqual(self.bytes_of("f.rls"), old)
        said = f"f.rls: {survey_of(len(table.points()))}\n"
        self.assert_ran("import t.csv -o f.rls --skip-bad", 0, said, table.messages("t.csv", True))
        self.assertEqual(self.bytes_of("f.rls"), table.file())

    def test_every_kind_in_one_table(self) -> None:
        table = tables.of_every_kind(Random(SEED))
        self.assertGreaterEqual(len(table.lines), 300)
        self.assertEqual(len(table.points()), 256)
        self.assert_told(table)

    def test_every_kind_with_other_line_ends(self) -> None:
        self.assert_told(tables.of_every_kind(Random(SEED + 1)), b"\r\n")

    def test_every_kind_alone(self) -> None:
        """Each bad line between two good ones, as a table of one bad line."""
        for line, reason in tables.BAD_LINES:
            table = Table()
            table.point(1000, 1000, 3)
            table.bad(line, reason)
            table.point(1001, 1001, 3)
            self.put("t.csv", table.text())
            self.assert_ran("import t.csv -o f.rls", 1, errors=table.messages("t.csv", False))
            self.assertEqual(self.names(), ["t.csv"], line)

    def test_every_kind_is_there(self) -> None:
        """The table has each reason that the tool gives."""
        told = "".join(tables.of_every_kind(Random(SEED)).told)
        fixed = [f"{axis} is no whole number" for axis in "xyz"] + [REFUSALS[number] for number in (1, 2, 5)]
        for reason in fixed + [f": 1 field {NEEDED}", f": 4 fields {NEEDED}", f": {REFUSALS[3]} (line "]:
            self.assertIn(reason, told)

    def test_twice(self) -> None:
        """The line of the point that is there, blank lines and headers counted."""
        table = Table()
        table.passed_over(b"x,y,z")
        table.passed_over(b"")
        for point in ((5, 6, 7), (5, 6, 7), (6, 5, 7), (5, 6, 8), (6, 5, 7), (5, 6, 128)):
            table.point(*point)
        self.assertEqual(table.told[0], "line 4: 5,6,7: a point is there already (line 3)\n")
        self.assert_told(table)

    def test_more_than_256(self) -> None:
        table = Table()
        for y in range(260):
            table.point(y % 7, y, 0)
        table.point(0, 0, 1)
        self.assertEqual(table.told[0], "line 257: 4,256,0: 256 points are present\n")
        self.assertEqual(table.told[4], "line 261: 0,0,1: a point is there already (line 1)\n")
        self.assert_told(table)

    def test_long_texts_are_cut(self) -> None:
        """80 characters are told, of 81 the first 77; they are characters, not bytes."""
        for letter in ("y", "é", "€", "𝄞"):
            for length in (79, 80, 81, 500):
                line = "1," + letter * (length - 4) + ",3"
                told = line if length <= 80 else line[:77] + "..."
                self.put("t.csv", "0,0,0\n" + line + "\n")
                errors = f"line 2: {told}: y is no whole number\nt.csv: 1 bad line, nothing is written\n"
                self.assert_ran("import t.csv -o f.rls", 1, errors=errors)

    def test_spaces_around_a_line_are_not_told(self) -> None:
        self.put("t.csv", "0,0,0\n    1,  2   \r\n")
        errors = f"line 2: 1,  2: 2 fields {NEEDED}\nt.csv: 1 bad line, nothing is written\n"
        self.assert_ran("import t.csv -o f.rls", 1, errors=errors)

    def test_a_mark_is_no_part_of_the_first_line(self) -> None:
        self.put("t.csv", BOM + b"1,2\n3,4,5\n")
        errors = f"line 1: 1,2: 2 fields {NEEDED}\nt.csv: 1 bad line, nothing is written\n"
        self.assert_ran("import t.csv -o f.rls", 1, errors=errors)

    def test_last_line_without_its_end(self) -> None:
        self.put("t.csv", "1,2,3\n4,5")
        errors = f"line 2: 4,5: 2 fields {NEEDED}\nt.csv: 1 bad line, nothing is written\n"
        self.assert_ran("import t.csv -o f.rls", 1, errors=errors)

    def test_a_survey_file_as_a_table(self) -> None:
        """It is told as bad lines, and nothing is written."""
        self.put("t.csv", files.survey(files.FOUR, files.FOUR_GRID))
        ran = self.run_tool("import t.csv -o f.rls")
        self.assertEqual((ran.status, ran.output), (1, b""))
        self.assertTrue(ran.errors.endswith(b"nothing is written\n"), ran.errors)
        self.assertTrue(ran.errors.isascii() and b"\x00" not in ran.errors, ran.errors)
        self.assertEqual(self.names(), ["t.csv"])

    def test_a_changed_message_is_noticed(self) -> None:
        table = tables.of_every_kind(Random(SEED))
        table.told[17] = table.told[17].replace("line ", "lime ", 1)
        with self.assertRaises(AssertionError):
            self.assert_told(table)

    def test_a_changed_point_is_noticed(self) -> None:
        table = tables.of_every_kind(Random(SEED))
        point = table.points()[100]
        table.survey.change(point.x, point.y, -1 - point.z)
        with self.assertRaises(AssertionError):
            self.assert_told(table)


class NoTable(ToolTest):
    """What has no points, or is no table at all."""

    def assert_no_points(self, text: bytes, words: str = "") -> None:
        self.put("t.csv", text)
        self.put("f.rls", b"old")
        self.assert_ran(f"import t.csv -o f.rls {words}", 1, errors="t.csv: it has no points\n")
        self.assertEqual(self.bytes_of("f.rls"), b"old")

    def test_no_points(self) -> None:
        for text in (b"", b"\n", b"  \r\n\n", b"x,y,z\n", b"x,y,z", BOM, BOM + b"x\r\n", b"# nothing\n\n \n"):
            self.assert_no_points(text)
            self.assert_no_points(text, "--skip-bad")

    def test_only_bad_lines(self) -> None:
        self.put("t.csv", "x,y,z\n1,2\n")
        told = f"line 2: 1,2: 2 fields {NEEDED}\n"
        self.assert_ran("import t.csv -o f.rls", 1, errors=told + "t.csv: 1 bad line, nothing is written\n")
        ran = self.run_tool("import t.csv -o f.rls --skip-bad")
        self.assertEqual((ran.status, ran.output), (1, b""))
        self.assertTrue(ran.errors.startswith(told.encode()), ran.errors)
        self.assertTrue(ran.errors.endswith(b"\nt.csv: it has no points\n"), ran.errors)
        self.assertEqual(self.names(), ["t.csv"])

    def test_utf_16(self) -> None:
        for mark, code in ((b"\xff\xfe", "utf-16-le"), (b"\xfe\xff", "utf-16-be")):
            for text in ("1,2,3\r\n", ""):
                self.put("t.csv", mark + text.encode(code))
                errors = "t.csv: it is UTF-16 text; save it as UTF-8 or ASCII\n"
                self.assert_ran("import t.csv -o f.rls", 1, errors=errors)
                self.assert_ran("import t.csv -o f.rls --skip-bad", 1, errors=errors)
        self.assertEqual(self.names(), ["t.csv"])

    def test_length(self) -> None:
        """16 MiB are a table, one byte more is none."""
        text = b"1,2,3\n" + b" " * (2**24 - 6)
        self.put("t.csv", text)
        self.assert_ran("import t.csv -o f.rls", 0, "f.rls: a survey of 1 point\n")
        self.put("t.csv", text + b" ")
        self.assert_ran("import t.csv -o g.rls", 1, errors="t.csv: it is too long for a table\n")
        self.assert_ran("import /dev/zero -o g.rls", 1, errors="/dev/zero: it is too long for a table\n")
        self.assertEqual(self.names(), ["f.rls", "t.csv"])


class WithGrid(ToolTest):
    def setUp(self) -> None:
        super().setUp()
        self.put("t.csv", files.table(files.FOUR))

    def test_its_numbers_stand_first(self) -> None:
        for numbers in (files.FOUR_GRID, (0, 0, 65, 65, 64, 64), (4095, 4095, 65535, 65535, 1, 1), (0, 7, 1, 2, 1, 64)):
            wanted = files.survey(files.FOUR, numbers)
            said = "f.rls: a survey of 4 points\n"
            self.assert_written(f"import t.csv -o f.rls --grid {six(numbers)}", said, "f.rls", wanted)

    def test_leading_zeros(self) -> None:
        words = "import t.csv -o f.rls --grid 00,000,01,0000000000000000000001,1,1"
        wanted = files.survey(files.FOUR, (0, 0, 1, 1, 1, 1))
        self.assert_written(words, "f.rls: a survey of 4 points\n", "f.rls", wanted)

    def test_a_grid_that_breaks_a_rule(self) -> None:
        for numbers in (
            (0, 0, 0, 1, 1, 1),
            (0, 0, 1, 0, 1, 1),
            (0, 0, 1, 1, 0, 1),
            (0, 0, 1, 1, 1, 0),
            (0, 0, 1, 1, 65, 1),
            (0, 0, 1, 1, 1, 65),
            (4096, 0, 1, 1, 1, 1),
            (0, 0, 4096, 1, 2, 1),
            (0, 0, 32768, 1, 3, 1),
            (65535, 65535, 65535, 65535, 65535, 65535),
        ):
            ran = self.run_tool(f"import t.csv -o f.rls --grid {six(numbers)}")
            self.assertEqual((ran.status, ran.output), (1, b""), numbers)
            self.assertEqual(ran.errors.decode(), f"f.rls: refused 7: {REFUSALS[7]}\n", numbers)
            self.assertEqual(self.names(), ["t.csv"])


if __name__ == "__main__":
    unittest.main()
