"""Holds python/shepard.py to README.md and examples/table.out, through a shared object made from the static library.

    python3 -m unittest discover -s tests/python

The static library is the one that `build.sh` writes, or that of the folder which SHEPARD_LIB_DIR names.
"""

from __future__ import annotations

import doctest
import os
import shutil
import subprocess
import sys
import tempfile
import unittest
from collections.abc import Callable, Iterator
from pathlib import Path

ROOT = Path(__file__).parent.parent.parent
sys.path.insert(0, str(ROOT / "python"))

import shepard  # noqa: E402

FOUR = [(100, 200, -3), (900, 250, -11), (1800, 2100, -30), (3900, 1200, -64)]
SURVEY_FILE = bytes.fromhex(
    "0064 00C8 FD 0384 00FA F5 0708 0834 E2 0F3C 04B0 C0 0004 00000014 078B 524C5331"
)
GRID = shepard.Grid(0, 0, 1000, 1000, 5, 3)
GRID_FILE = bytes.fromhex(
    "fc25 f4e0 e9e6 d8a0 ce0c f62b f01f e4e5 cfd5 c0f7 eda7 e6f0 e1ba d46c c83d"
    "0000 0000 03e8 03e8 0005 0003 0000001e 524c4731"
)
ESRI_ROWS = """\
-18.34765625 -25.06250000 -30.27343750 -43.57812500 -55.76171875
-9.83203125 -15.87890625 -27.10546875 -48.16796875 -63.03515625
-3.85546875 -11.12500000 -22.10156250 -39.37500000 -49.95312500
"""


def make_shared_object(folder: Path) -> Path:
    """By the command of the module's docstring."""
    static = Path(os.environ.get("SHEPARD_LIB_DIR", ROOT / "target" / "staticlib")) / "libshepard.a"
    shared = folder / "libshepard.so"
    whole = ["-Wl,--whole-archive", str(static), "-Wl,--no-whole-archive"]
    subprocess.run(["gcc", "-shared", "-o", str(shared), *whole], check=True)
    return shared


def setUpModule() -> None:
    folder = tempfile.TemporaryDirectory()
    unittest.addModuleCleanup(folder.cleanup)
    os.environ["SHEPARD_LIBRARY"] = str(make_shared_object(Path(folder.name)))


def four() -> shepard.Survey:
    survey = shepard.Survey()
    for x, y, z in FOUR:
        survey.add(x, y, z)
    return survey


def table_lines() -> Iterator[str]:
    """What examples/table.c writes."""
    survey = four()
    try:
        survey.add(100, 200, 0)
    except shepard.Refused as refused:
        yield f"twice at one location: {refused}"
    yield f"a survey of {len(survey)} points"
    for x, y, z in survey.points():
        yield f"  ({x}, {y}) value {z}"
    found, neighbours = survey.lookup_neighbours(1000, 1000)
    yield f"at (1000, 1000): {found.answer / 256:.3f} steps, by {found.count} points"
    for x, y, z, distance, kind in neighbours:
        kind_number = shepard.KINDS.index(kind)
        yield f"  ({x}, {y}) value {z}, {distance / 256:.2f} off, kind {kind_number}"
    file = survey.grid_file(GRID)
    yield f"grid file of {len(file)} bytes"
    (x0, y0, step_x, step_y, columns, rows), cells = shepard.read_grid_file(file)
    yield f"{columns} columns and {rows} rows from ({x0}, {y0}), steps of {step_x} and {step_y}"
    for row in range(rows):
        yield "".join(f"{cell / 256:8.3f}" for cell in cells[row * columns : (row + 1) * columns])
    try:
        shepard.read_grid_file(file[:-1])
    except shepard.Refused as refused:
        yield f"a byte short: {refused}"
    text = survey.esri(GRID)
    yield f"Esri ASCII grid of {len(text)} bytes"
    yield from text.splitlines()


class Values(unittest.TestCase):
    def test_table(self) -> None:
        self.assertEqual(list(table_lines()), (ROOT / "examples" / "table.out").read_text().splitlines())

    def test_the_example_of_the_module(self) -> None:
        self.assertEqual(doctest.testmod(shepard)[0], 0)

    def test_survey_file(self) -> None:
        self.assertEqual(four().as_file(), SURVEY_FILE)
        self.assertEqual(shepard.Survey.from_file(b"preamble" + SURVEY_FILE).points(), FOUR)

    def test_edits(self) -> None:
        survey = shepard.Survey.from_file(SURVEY_FILE)
        survey.change(900, 250, -12)
        survey.drop(100, 200)
        survey.add(0, 4095, 127)
        self.assertEqual(survey.points(), [(0, 4095, 127), (900, 250, -12), *FOUR[2:]])
        survey.clear()
        self.assertEqual((len(survey), survey.points()), (0, []))

    def test_lookups(self) -> None:
        survey = four()
        self.assertEqual(survey.lookup(1000, 1000), (-4065, 4, 0))
        self.assertEqual(survey.lookup_neighbours(900, 250), ((-2816, 1, 0), [(900, 250, -11, 0, "coincident")]))
        columns = [(x, y) for y in range(0, 3000, 1000) for x in range(0, 5000, 1000)]
        self.assertEqual([found.answer for found in survey.lookup_many(columns)], survey.grid(GRID))
        self.assertEqual(survey.lookup_many([]), [])

    def test_kinds(self) -> None:
        survey = shepard.Survey.from_file(
            bytes.fromhex(
                "0053003BF4 005F0032FA 0061003BEC 00620032F9 00650031F7 00660021F1 0068002EF2 006D0035EF"
                "0008 00000028 0C40 524C5331"
            )
        )
        found, neighbours = survey.lookup_neighbours(100, 50)
        self.assertEqual(found, (-2126, 6, 2428))
        self.assertEqual(neighbours[0], (101, 49, -9, 362, "inverse"))
        self.assertEqual([each.kind for each in neighbours[2:]], ["tapered", "tapered", "edge", "edge"])

    def test_grids(self) -> None:
        survey = four()
        self.assertEqual(survey.grid_file(GRID), GRID_FILE)
        self.assertEqual(survey.grid(GRID)[6], -4065)
        self.assertTrue(survey.esri(GRID).endswith("NODATA_value -9999\n" + ESRI_ROWS))
        read = shepard.read_grid_file(GRID_FILE)
        self.assertEqual((read.grid, read.cells), (GRID, survey.grid(GRID)))


class Refusals(unittest.TestCase):
    def assert_refused(self, number: int, call: Callable[..., object], *arguments: object) -> None:
        with self.assertRaises(shepard.Refused) as caught:
            call(*arguments)
        self.assertEqual(caught.exception.number, number)

    def test_of_calls(self) -> None:
        survey, empty = four(), shepard.Survey()
        for off in (4096, -1, 2**32 + 100, 2**70):
            self.assert_refused(1, survey.add, off, 200, 0)
            self.assert_refused(1, survey.lookup, 100, off)
            self.assert_refused(1, survey.lookup_many, [(100, 200), (off, 0)])
        for out in (128, -129, 2**32, -(2**70)):
            self.assert_refused(2, survey.change, 100, 200, out)
        self.assert_refused(3, survey.add, 100, 200, 0)
        self.assert_refused(4, survey.drop, 100, 201)
        self.assert_refused(6, empty.lookup, 0, 0)
        self.assert_refused(6, empty.grid, GRID)
        self.assert_refused(7, survey.grid_file, GRID._replace(columns=65))
        self.assert_refused(16, survey.esri, GRID._replace(step_x=999))
        self.assertEqual(survey.points(), FOUR)

    def test_a_full_survey(self) -> None:
        survey = shepard.Survey()
        for i in range(256):
            survey.add(i, i, 0)
        self.assert_refused(5, survey.add, 300, 300, 0)
        self.assertEqual(len(survey.as_file()), shepard.FILE_MOST)

    def test_of_survey_files(self) -> None:
        swapped = SURVEY_FILE[5:10] + SURVEY_FILE[:5] + SURVEY_FILE[10:]
        far = bytes.fromhex("1000 0000 00 0001 00000005 0010 524C5331")
        files = {
            9: SURVEY_FILE[-11:],
            10: SURVEY_FILE[:-1] + b"2",
            11: SURVEY_FILE[:-12] + b"\1\1" + SURVEY_FILE[-10:],
            12: SURVEY_FILE[1:],
            13: b"\0" + bytes([SURVEY_FILE[1] + 1]) + SURVEY_FILE[2:],
            14: far,
            15: swapped,
        }
        for number, file in files.items():
            self.assert_refused(number, shepard.Survey.from_file, file)

    def test_of_grid_files(self) -> None:
        files = {
            9: GRID_FILE[1:],
            10: GRID_FILE[:-4] + b"RLS1",
            7: GRID_FILE[:-16] + b"\0\0" + GRID_FILE[-14:],
            12: GRID_FILE[:-5] + b"\x1f" + GRID_FILE[-4:],
        }
        for number, file in files.items():
            self.assert_refused(number, shepard.read_grid_file, file)

    def test_text(self) -> None:
        with self.assertRaisesRegex(shepard.Refused, "^refused 6: no point is present$"):
            shepard.Survey().lookup(0, 0)
        with self.assertRaisesRegex(shepard.Refused, "^refused 10: its last four bytes are not RLG1$"):
            shepard.read_grid_file(GRID_FILE[:-1] + b"2")

    def test_what_is_no_number_of_the_library(self) -> None:
        with self.assertRaises(ValueError):
            four().grid(GRID._replace(step_x=65536, columns=1))
        with self.assertRaises(TypeError):
            four().lookup(1.5, 0)  # type: ignore[arg-type]
        with self.assertRaises(TypeError):
            shepard.Survey.from_file(12)  # type: ignore[arg-type]


class Finding(unittest.TestCase):
    def run_in(self, folder: str) -> subprocess.CompletedProcess[str]:
        """A lookup by the module as it lies in the folder, with no SHEPARD_LIBRARY."""
        code = "import shepard; s = shepard.Survey(); s.add(3, 0, -7); print(s.lookup(0, 0).answer)"
        shutil.copy(ROOT / "python" / "shepard.py", folder)
        others = {name: value for name, value in os.environ.items() if name != "SHEPARD_LIBRARY"}
        environment = {**others, "PYTHONPATH": folder, "PYTHONDONTWRITEBYTECODE": "1"}
        return subprocess.run([sys.executable, "-c", code], env=environment, capture_output=True, text=True)

    def test_beside_the_module(self) -> None:
        with tempfile.TemporaryDirectory() as folder:
            shutil.copy(os.environ["SHEPARD_LIBRARY"], folder)
            self.assertEqual(self.run_in(folder).stdout, "-1792\n")

    def test_nowhere(self) -> None:
        with tempfile.TemporaryDirectory() as folder:
            self.assertIn("no library, the head of shepard.py says how it is made", self.run_in(folder).stderr)


if __name__ == "__main__":
    unittest.main()
