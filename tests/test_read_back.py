"""Shows that read_back.py passes sound programs and tells a text that is not the grid's."""

from __future__ import annotations

import contextlib
import io
import unittest
from collections.abc import Callable, Sequence
from functools import cache
from unittest import mock

import exact
import read_back
import stand_ins
from programs import Run

# What stands in for a program; the sound ones work out an input once.
Program = Callable[[bytes], bytes]
sound_grid, sound_esri = cache(stand_ins.grid), cache(stand_ins.esri)


def changed(old: bytes, new: bytes) -> Program:
    """A text in which the first of some bytes is another."""
    return lambda data: sound_esri(data).replace(old, new, 1)


def with_rows(alter: Callable[[list[bytes]], list[bytes]]) -> Program:
    """A text whose rows are altered."""

    def program(data: bytes) -> bytes:
        lines = sound_esri(data).split(b"\n")
        return b"\n".join(lines[:6] + alter(lines[6:-1]) + [b""])

    return program


class ReadBack(unittest.TestCase):
    def run_main(self, esri: Program, grid: Program = sound_grid) -> tuple[int, str]:
        """The exit status and the output, with stand-ins for the programs."""
        programs = {"grid": grid, "esri": esri}

        def run(command: Sequence[str], data: bytes) -> Run:
            return Run(programs[command[0]](data), "")

        output = io.StringIO()
        with mock.patch.object(read_back, "run_program", run), contextlib.redirect_stdout(output):
            return read_back.main(["grid", "esri"]), output.getvalue()

    def assert_told(self, told: str, esri: Program, grid: Program = sound_grid) -> None:
        status, output = self.run_main(esri, grid)
        self.assertEqual(status, 1, told)
        self.assertIn(told, output)
        self.assertEqual(output.count("\n"), 1)

    def test_sound(self) -> None:
        said = "8730 cells of 7 grids are read back as the grid files have them\n"
        self.assertEqual(self.run_main(sound_esri), (0, said))

    def test_inputs(self) -> None:
        """All signs and lengths of cells are among them, and rows that differ from below."""
        texts = {name: sound_esri(data) for name, data in read_back.inputs().items()}
        cells = b"\n".join(texts.values()).split()
        self.assertEqual({len(cell) for cell in cells if b"." in cell}, {10, 11, 12, 13})
        for cell in (b"-0.50000000", b"0.00000000", b"-1.00000000", b"-128.00000000"):
            self.assertIn(cell, cells)
        self.assertTrue(any(cell.startswith(b"-0.") for cell in texts["one row"].split()))
        rows = texts["cells from -128 to 127"].split(b"\n")[6:-1]
        self.assertEqual((len(rows), len(rows[0].split())), (64, 64))
        self.assertNotEqual(rows, rows[::-1])

    def test_rows_in_another_order(self) -> None:
        self.assert_told("row 63, column 0: ", with_rows(lambda rows: rows[::-1]))
        turned = with_rows(lambda rows: [b" ".join(row.split()[::-1]) for row in rows])
        self.assert_told("the sample survey: row 63, column 0: ", turned)

    def test_a_lost_sign(self) -> None:
        told = "the whole case: row 0, column 0: 7.00000000 in the text"
        self.assert_told(told, changed(b"\n-7.00000000", b"\n7.00000000"))
        lost = lambda data: sound_esri(data).replace(b"-0.", b"0.")
        self.assert_told(": row ", lost)

    def test_two_ways_to_round(self) -> None:
        """Either may come, but a grid file and a text of the same grid have the same one."""
        up = lambda lookup: exact.permitted_answers(lookup)[-1]
        down = lambda lookup: exact.permitted_answers(lookup)[0]
        free = {name: data for name, data in read_back.inputs().items() if "rounded" in name}
        with mock.patch.object(exact, "nearest_answer", up):
            text = {data: stand_ins.esri(data) for data in free.values()}
        with mock.patch.object(exact, "nearest_answer", down):
            file = {data: stand_ins.grid(data) for data in free.values()}
        with mock.patch.object(read_back, "inputs", lambda: free):
            self.assert_told("cells free to be rounded: row ", text.get, file.get)

    def test_a_digit(self) -> None:
        told = "row 0, column 1: -7.00000001 in the text, -1792/256 in the grid file"
        self.assert_told(told, changed(b" -7.00000000\n", b" -7.00000001\n"))
        self.assert_told("row 0, column 1: ", changed(b" -7.00000000\n", b" -7.0000000O\n"))
        self.assert_told("row 0, column 1: ", changed(b" -7.00000000\n", b" -7/0\n"))

    def test_shapes(self) -> None:
        self.assert_told("63 rows in the text, 64 in", with_rows(lambda rows: rows[1:]))
        self.assert_told("65 rows in the text, 64 in", with_rows(lambda rows: rows + rows[:1]))
        fewer = with_rows(lambda rows: [b" ".join(row.split()[1:]) for row in rows])
        self.assert_told("row 63: 63 cells in the text, 64 in the grid file", fewer)

    def test_header(self) -> None:
        self.assert_told("ncols: the text has 'ncols 63'", changed(b"ncols 64", b"ncols 63"))
        self.assert_told("nrows: the text has 'nrows 1'", changed(b"nrows 64", b"nrows 1"))
        self.assert_told("xllcenter: ", changed(b"xllcenter 31", b"xllcenter 1999"))
        self.assert_told("yllcenter: ", changed(b"yllcenter 1999", b"yllcenter 31"))
        self.assert_told("cellsize: ", changed(b"cellsize 65", b"cellsize 64"))
        self.assert_told("NODATA_value: ", changed(b"-9999", b"9999"))
        self.assert_told("NODATA_value: ", changed(b"NODATA_value -9999\n", b""))
        self.assert_told("xllcenter: ", changed(b"xllcenter", b"xllcorner"))

    def test_no_text_or_no_grid_file(self) -> None:
        self.assert_told("no whole text came", lambda data: sound_esri(data)[:-1])
        self.assert_told("no whole text came", lambda data: b"refused 16\n")
        self.assert_told("no whole text came", lambda data: b"")
        self.assert_told("no grid file came", sound_esri, lambda data: b"refused 6\n")
        self.assert_told("no grid file came", sound_esri, lambda data: sound_grid(data)[1:])

    def test_a_program_that_is_missing(self) -> None:
        output = io.StringIO()
        with contextlib.redirect_stdout(output):
            self.assertEqual(read_back.main(["no-such-program", "no-such-program"]), 1)
        self.assertIn("No such file", output.getvalue())


if __name__ == "__main__":
    unittest.main()
