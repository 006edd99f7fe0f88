"""Holds the stored tests of the programs to documents 01 and 02."""

from __future__ import annotations

import unittest
from collections import Counter
from collections.abc import Callable
from pathlib import Path

import checks
import exact
import exact_survey
import journals
import permitted
import stored_journal
from operations import BY_LETTER
from outcomes import Outcome
from programs import Run

CRATES = Path(__file__).parent.parent / "crates"


class StoredJournal(unittest.TestCase):
    def setUp(self) -> None:
        self.stored = CRATES / "shepard_replay"
        self.journal = stored_journal.make()

    def test_input_is_the_list(self) -> None:
        self.assertEqual((self.stored / "stdin").read_bytes(), journals.encode(self.journal))

    def test_output_is_permitted(self) -> None:
        run = Run((self.stored / "stdout").read_bytes(), "")
        checks.check_replies(self.journal, run, Counter())

    def test_every_call_is_made(self) -> None:
        self.assertEqual({call.letter for call in self.journal.calls}, set(BY_LETTER))

    def test_every_refusal_is_met(self) -> None:
        replies = (self.stored / "stdout").read_text().split("\n")
        for number in range(1, exact.LAST_REFUSAL + 1):
            self.assertIn(f"refused {number}", replies)


class StoredInputs(unittest.TestCase):
    def assert_permitted(self, name: str, program: Callable[[bytes], Outcome]) -> None:
        stored = CRATES / name
        pieces = permitted.file_pieces(program((stored / "stdin").read_bytes()))
        self.assertIsNone(permitted.mismatch(pieces, (stored / "stdout").read_bytes().hex()))

    def test_grid_file_is_permitted(self) -> None:
        self.assert_permitted("shepard_grid", exact_survey.grid_program)

    def test_esri_text_is_permitted(self) -> None:
        self.assert_permitted("shepard_esri", exact_survey.esri_program)


if __name__ == "__main__":
    unittest.main()
