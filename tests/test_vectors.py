"""Shows that the table of the documents' rows holds, and that its runner fails where it must."""

from __future__ import annotations

import contextlib
import io
import sys
import tempfile
import unittest
from collections.abc import Sequence
from pathlib import Path
from unittest import mock

import stand_ins
import vector_rows
import vectors
from operations import BY_LETTER
from programs import Run

FAKES = str(Path(__file__).with_name("fakes.py"))
FEWEST_ROWS = 1000
TWO = "two points\nadd 3 0 0: ok\nadd 6 0 90: ok\n"
LOOKUP = "lookup 0 0: found 4608 2 0\n"
HEADER = "  ncols 1\n  nrows 1\n  xllcenter 3\n  yllcenter 0\n  cellsize 1\n  NODATA_value -9999\n"
TEXT = f"esri text 3 0 1 1 1 1 into 83: length 81\n{HEADER}  0.00000000\n  left 2*a5\n"


def by_stand_in(command: Sequence[str], data: bytes) -> Run:
    return Run(stand_ins.replay(data), "")


@mock.patch.object(vectors, "run_program", by_stand_in)
class Table(unittest.TestCase):
    def setUp(self) -> None:
        self.text = vectors.TABLE.read_text(encoding="utf-8")

    def test_is_what_the_exact_fraction_program_gives(self) -> None:
        self.assertEqual(vectors.differences(self.text, []), [])
        self.assertGreaterEqual(vectors.count_rows(self.text), FEWEST_ROWS)

    def test_has_rows_of_every_call(self) -> None:
        rows = [row for group in vectors.read_table(self.text) for row in group]
        self.assertEqual({call.letter for row in rows for call in row.calls}, set(BY_LETTER))

    def test_every_line_is_held_to(self) -> None:
        """With each line's end altered, each line is told, the indented ones too."""
        altered = []
        lines = 0
        for before, line in zip(["", *self.text.split("\n")], self.text.split("\n")):
            row = bool(line and before) and not line.startswith("#")
            lines += row
            altered.append(line + "0" if row else line)
        self.assertEqual(len(vectors.differences("\n".join(altered), [])), lines)


@mock.patch.object(vectors, "run_program", by_stand_in)
class Rows(unittest.TestCase):
    def assert_wrong(self, rows: str, expected: str) -> None:
        found = vectors.differences(TWO + rows, [])
        self.assertEqual(len(found), 1, found)
        self.assertIn(expected, found[0])

    def test_right(self) -> None:
        rows = LOOKUP + "lookup with neighbours 0 0: found 4608 2 0\n"
        rows += "  neighbour 3 0 0: distance 768 kind 1\n"
        rows += "  neighbour 6 0 90: distance 1536 kind 1\n"
        self.assertEqual(vectors.differences(TWO + rows, []), [])
        self.assertEqual(vectors.differences(TWO + "\nthen more\n" + rows, []), [])
        self.assertEqual(vectors.differences(TWO + "read ends: ends 3 6 0 0 0 90 0\n", []), [])

    def test_wrong_right_side(self) -> None:
        self.assert_wrong("lookup 0 0: found 4607 2 0\n", "line 4: expected lookup 0 0: found 4607")
        self.assert_wrong("add 3 0 0: ok\n", "came add 3 0 0: refused 3")
        self.assert_wrong("write into 3: refused 8, bytes a5a500\n", "came write into 3: refused 8")
        self.assert_wrong("add 2 0 0 to 4 0 0: ok\n", "refused 3")
        self.assert_wrong("read ends: ends 3 6 0 0 0 90 1\n", "came read ends: ends 3 6 0 0 0 90 0")

    def test_wrong_neighbours(self) -> None:
        row = "lookup with neighbours 3 0: found 0 1 0\n"
        self.assert_wrong(row, "came   neighbour 3 0 0: distance 0 kind 0")
        right = row + "  neighbour 3 0 0: distance 0 kind 0\n"
        self.assert_wrong(right + "  neighbour 6 0 90: distance 768 kind 1\n", "came no line")

    def test_texts(self) -> None:
        self.assertEqual(vectors.differences(TWO + TEXT, []), [])
        self.assert_wrong(TEXT.replace("length 81", "length 82"), "length 81")
        self.assert_wrong(TEXT.replace("0.00000000", "-0.00000000"), "came   0.00000000")
        self.assert_wrong(TEXT.replace("left 2*a5", "left 1*a5"), "came   left 2*a5")
        self.assert_wrong(TEXT.replace("  left 2*a5\n", ""), "expected no line")
        refused = "esri text 3 0 1 1 1 1 into 80: refused 8\n"
        self.assert_wrong(refused, "came   left 80*a5")
        self.assertEqual(vectors.differences(TWO + refused + "  left 80*a5\n", []), [])

    def test_rows_of_a_grid(self) -> None:
        begin = "begin grid 3 0 3 1 2 2: ok\n"
        row = "next row into 3: row 0 2, list 0 23040 -23131\n"
        self.assertEqual(vectors.differences(TWO + begin + row, []), [])
        self.assert_wrong(row, "came next row into 3: refused 17, list -23131 -23131 -23131")
        self.assert_wrong(begin + row.replace("row 0", "row 1"), "came next row into 3: row 0 2")
        self.assert_wrong(begin + row.replace("0 23040", "23040 0"), "list 0 23040 -23131")
        self.assert_wrong(begin + "next row into 1: refused 8, list 0\n", "list -23131")
        self.assert_wrong("begin grid 3 0 0 1 2 2: ok\n", "came begin grid 3 0 0 1 2 2: refused 7")
        self.assertEqual(vectors.differences(TWO + begin + "\nthen more\n" + row, []), [])
        self.assert_wrong(begin + "\nanother\n" + row, "refused 17")

    def test_another_survey(self) -> None:
        """A section without "then" starts from a fresh survey."""
        self.assert_wrong("\nanother\n" + LOOKUP, "came lookup 0 0: refused 6")

    def test_unreadable_left_sides(self) -> None:
        wrong = (
            "ad 1 2 3",
            "add 1 2",
            "add 1 2 3 4",
            "add 1 2 x",
            "add 1 2 4294967296",
            "add 1 2 3 to 9 3 3",
            "clear 5",
            "read",
            "read ends 5",
            "read ends into 5",
            "load",
            "load 0g",
            "load 123",
            "load 1,2,300",
            "load 1,2,3..9,3,3",
            "write",
            "write 5",
            "write into 65537",
            "write into",
            "lookup with neighbours 0 0 into 33",
            "grid 0 0 1 1 1 into 2",
            "esri 0 0 1 1 1 1 into 2",
            "esri text 0 0 1 1 1 into 2",
            "esri text 0 0 1 1 1 1",
            "esri text 0 0 1 1 1 1 into 65537",
            "begin 0 0 1 1 1 1",
            "begin grid 0 0 1 1 1",
            "begin grid 0 0 1 1 1 1 into 2",
            "begin grid 0 0 1 1 1 65536",
            "next row",
            "next row 1",
            "next row into",
            "next row 1 into 2",
            "next row into 8193",
        )
        for left in wrong:
            with self.subTest(left=left):
                self.assert_wrong(f"{left}: ok\n", f"line 4: {left}: ok: ")
        self.assert_wrong("lookup 1 1\n", "no colon")
        self.assertIn("no row above", vectors.differences("heading\n  neighbour\n", [])[0])

    def test_a_program_that_writes_too_little_or_too_much(self) -> None:
        with mock.patch.object(vectors, "run_program", lambda *_: Run(b"ok\n", "")):
            self.assertIn("came add 6 0 90: nothing", vectors.differences(TWO, [])[0])
        with mock.patch.object(vectors, "run_program", lambda *_: Run(b"ok\nok", "")):
            self.assertEqual(len(vectors.differences(TWO, [])), 2)
        with mock.patch.object(vectors, "run_program", lambda *_: Run(b"ok\nok\nok\n", "")):
            self.assertEqual(vectors.differences(TWO, []), ["after line 3: came 'ok\\n'"])
        with mock.patch.object(vectors, "run_program", lambda *_: Run(b"ok\nok\n", "; trouble")):
            self.assertEqual(vectors.differences(TWO, []), ["lines 2 to 3; trouble"])


class Texts(unittest.TestCase):
    def assert_shown(self, reply: str, lent: str, *below: str) -> None:
        lines = vector_rows.shown("esri text 0 0 1 1 1 1 into 9", [reply, lent])
        self.assertEqual(lines[1:], list(below))

    def test_what_no_sound_program_writes(self) -> None:
        self.assert_shown("wrote 3", "bytes 610a62", "  a", "  'b' without a line feed")
        self.assert_shown("wrote 4", "bytes 6120090aa500", "  a \\t", "  left a500")
        self.assert_shown("wrote 3", "bytes a50d0a", "  \\xa5\\r")
        self.assert_shown("wrote 2", "bytes 0a0a", "  ", "  ")
        self.assert_shown("wrote 9", "bytes 610a", "  a")
        self.assert_shown("refused 8", "bytes 6ea5", "  left 6ea5")
        self.assert_shown("refused 8", "bytes")
        self.assert_shown("refused 8", "bytes 6g", "  bytes 6g")
        self.assert_shown("nothing", "nothing", "  nothing")


class Files(unittest.TestCase):
    def test_parts(self) -> None:
        call = vector_rows.calls_of("load 2*00 ff 1,2,-3 4,5,6..6,5,6 0c0d, two bytes: and more")[0]
        records = "0001 0002 fd 0004 0005 06 0005 0005 06 0006 0005 06"
        self.assertEqual(call.file, bytes.fromhex("0000 ff" + records + "0c0d"))


class CommandLine(unittest.TestCase):
    def run_main(self, fault: str, table: str) -> tuple[int, str]:
        """The exit status and the output on a table, with a program that has a fault or none."""
        output = io.StringIO()
        with tempfile.TemporaryDirectory() as folder:
            program, rows = Path(folder, "replay"), Path(folder, "rows")
            program.write_text(f"#!/bin/sh\nexec '{sys.executable}' '{FAKES}' replay {fault}\n")
            program.chmod(0o700)
            rows.write_text(table)
            with contextlib.redirect_stdout(output), mock.patch.object(vectors, "TABLE", rows):
                status = vectors.main([str(program)])
        return status, output.getvalue()

    def test_sound(self) -> None:
        said = "3 rows came as the table has them\n"
        self.assertEqual(self.run_main("", TWO + LOOKUP), (0, said))

    def test_faulty_program(self) -> None:
        status, text = self.run_main("--fault 'answer plus one'", TWO + LOOKUP)
        self.assertEqual(status, 1)
        self.assertIn("came lookup 0 0: found 4609 2 0", text)

    def test_unreadable(self) -> None:
        status, text = self.run_main("", TWO + "look 0 0: found 4608 2 0\n")
        self.assertEqual(status, 1)
        self.assertIn("line 4: look 0 0: found 4608 2 0: no call has this name", text)


if __name__ == "__main__":
    unittest.main()
