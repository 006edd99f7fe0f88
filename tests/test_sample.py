"""Holds the shipped sample survey to the script that makes it."""

from __future__ import annotations

import subprocess
import sys
import tempfile
import unittest
from pathlib import Path

import exact_files
import exact_survey

SAMPLE = Path(__file__).parent.parent / "sample"


class Sample(unittest.TestCase):
    def test_is_what_the_script_makes(self) -> None:
        with tempfile.TemporaryDirectory() as folder:
            made = Path(folder) / "made.rls"
            subprocess.run([sys.executable, SAMPLE / "make_sample.py", made], check=True)
            self.assertEqual(made.read_bytes(), (SAMPLE / "worn_drive.rls").read_bytes())

    def test_has_200_points_and_a_proper_grid(self) -> None:
        data = (SAMPLE / "worn_drive.rls").read_bytes()
        self.assertEqual(len(exact_files.read_survey_file(data)), 200)
        length = exact_survey.grid_program(data).numbers[0]
        self.assertEqual(length, 2 * 64 * 64 + exact_files.GRID_TRAILER_BYTES)


if __name__ == "__main__":
    unittest.main()
