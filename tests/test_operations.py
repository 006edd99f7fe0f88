"""Holds the table of operations to what else a call needs."""

from __future__ import annotations

import unittest

import bad_journals
import exact_survey
import protocol
import stand_ins
from mixed_calls import GENERATORS
from operations import BY_LETTER, TABLE


class Table(unittest.TestCase):
    def test_letters_differ(self) -> None:
        self.assertEqual(len(BY_LETTER), len(TABLE))

    def test_the_exact_survey_has_every_call(self) -> None:
        for operation in TABLE:
            self.assertTrue(hasattr(exact_survey.Survey, operation.method), operation.name)

    def test_mixed_calls_have_every_call(self) -> None:
        self.assertEqual(set(GENERATORS), set(BY_LETTER))

    def test_calls_that_are_followed(self) -> None:
        """Edits alter the points, begins and rows the grid being filled; all others only ask."""
        alters = "".join(each.letter for each in TABLE if each.alters)
        fills = "".join(each.letter for each in TABLE if each.fills)
        self.assertEqual((alters, fills), ("acdkl", "br"))
        self.assertEqual("".join(each.letter for each in TABLE if each.followed), "acdklbr")

    def test_encoded_and_decoded(self) -> None:
        for operation in TABLE:
            call = bad_journals.small_call(operation, 9)
            data = protocol.encode(call)
            self.assertEqual(stand_ins.decode(data, 0), (call, len(data)))


if __name__ == "__main__":
    unittest.main()
