"""Shows that the comparison passes sound programs and catches each planted fault."""

from __future__ import annotations

import contextlib
import io
import pathlib
import sys
import tempfile
import unittest
from collections import Counter
from collections.abc import Callable, Iterator
from functools import cache
from random import Random
from unittest import mock

import checks
import compare
import exact
import exact_polygon
import exact_survey
import generator
import grid_inputs
import journals
import operations
import pair_checks
import permitted
import protocol
import row_checks
import stand_ins
from exact import Lookup
from fakes import FAULTS
from generator import Test
from grid_inputs import GridInput
from journals import Journal
from metric import Location
from operations import BYTES
from pair_journals import Pair
from permitted import Expected
from programs import Run
from random_calls import LONGEST_TEXT

FAKES = str(pathlib.Path(__file__).with_name("fakes.py"))
# The parts of a whole run that sound and faulty programs are put to; a faulty one stops early.
SOUND_PART, FAULTY_PART = 16, 4
SECONDS = 20
SHORT_SECONDS = 2
FEWEST_FAULTS = 236
ESRI_KINDS = ("esri texts", "widest esri texts", "free lengths")
ENDS_KINDS = ("ends", "polygon")
# What each call can be refused with.
REFUSALS = {
    "add": (1, 2, 3, 5),
    "change": (1, 2, 4),
    "drop": (1, 4),
    "load": range(9, 16),
    "write": (8,),
    "lookup": (1, 6),
    "lookup with neighbours": (1, 6, 8),
    "grid": (7, 6, 8),
    "grid file": (7, 6, 8),
    "esri text": (7, 16, 6, 8),
    "begin grid": (7, 6),
    "next row": (17, 8),
}


def command(program: str, fault: str | None = None) -> list[str]:
    return [sys.executable, FAKES, program] + (["--fault", fault] if fault else [])


def programs(fault: str | None = None) -> compare.Programs:
    return compare.Programs(*(command(name, fault) for name in compare.Programs._fields))


@cache
def part_of_run(divisor: int) -> list[Test]:
    return generator.make(Random(compare.SEED), divisor)


def moves_of(before: tuple[Location, ...], after: tuple[Location, ...]) -> Iterator[str]:
    """What a call does to the polygon around the locations."""
    old, new = (set(exact_polygon.corners(each)) for each in (before, after))
    area, renewed = exact_polygon.twice_area(before), exact_polygon.twice_area(after)
    if renewed % 2:
        yield "with an odd area"
    if renewed == 1:
        yield "with the least area"
    if renewed == 0:
        yield "to no area" if area else "on one line"
    for at in set(after) - set(before) if area else ():
        in_line = any(exact_polygon.turn(*edge, at) == 0 for edge in exact_polygon.edges(before))
        if renewed == area:
            yield "on an edge" if in_line else "inside"
        else:
            yield "on a prolonged edge" if in_line else "outside"
    for at in set(before) - set(after):
        yield "of a corner" if at in old else "of another"
    for word, corners in (("lost", old - new), ("gained", new - old)):
        if corners:
            yield f"with {'one corner' if len(corners) == 1 else 'more corners'} {word}"


class SoundPrograms(unittest.TestCase):
    def test_pass(self) -> None:
        tests = part_of_run(SOUND_PART)
        counts = compare.run_tests(tests, programs(), SECONDS)
        for name in compare.MINIMA:
            self.assertGreater(counts[name], 0, name)


class Faults(unittest.TestCase):
    def test_are_no_fewer(self) -> None:
        self.assertGreaterEqual(len(FAULTS), FEWEST_FAULTS)

    def test_each_is_caught(self) -> None:
        tests = part_of_run(FAULTY_PART)
        for name, fault in FAULTS.items():
            with self.subTest(fault=name):
                self.assert_caught([test for test in tests if test.kind == fault.shown_by], name)

    def assert_caught(self, tests: list[Test], fault: str) -> None:
        seconds = SHORT_SECONDS if fault == "hang" else SECONDS
        with self.assertRaises(compare.Found) as caught:
            compare.run_tests(tests, programs(fault), seconds)
        for path in map(pathlib.Path, caught.exception.paths):
            self.assertTrue(path.exists())
            path.unlink()


class FreeRounding(unittest.TestCase):
    """Two points between whose values a mean is so near a midpoint that 0 and -1 may come."""

    POINTS = (protocol.Call("a", (100, 0, 0)), protocol.Call("a", (2260, 0, -1)))
    HEADER = "ncols 1\nnrows 1\nxllcenter 0\nyllcenter 0\ncellsize 1\nNODATA_value -9999\n"
    SHORT, LONG = f"{HEADER}0.00000000\n".encode(), f"{HEADER}-0.00390625\n".encode()

    def passes(self, lent: int, reply: str, filled: bytes, tail: int) -> bool:
        """Whether these may come: a reply, and a line of so many filled and untouched bytes."""
        call = protocol.Call("p", (0, 0, 1, 1, 1, 1, lent))
        line = "bytes " + filled.hex() + "a5" * tail
        output = f"ok\nok\n{reply}\n{line}\n".encode()
        try:
            checks.check_replies(Journal("free", [*self.POINTS, call]), Run(output, ""), Counter())
        except checks.Difference:
            return False
        return True

    def test_either_text_with_its_own_length(self) -> None:
        self.assertEqual((len(self.SHORT), len(self.LONG)), (81, 82))
        for lent in (82, 83, 100):
            self.assertTrue(self.passes(lent, "wrote 81", self.SHORT, lent - 81))
            self.assertTrue(self.passes(lent, "wrote 82", self.LONG, lent - 82))
            self.assertFalse(self.passes(lent, "refused 8", b"", lent))

    def test_the_length_of_the_other_text(self) -> None:
        for lent in (82, 83, 100):
            self.assertFalse(self.passes(lent, "wrote 82", self.SHORT, lent - 81))
            self.assertFalse(self.passes(lent, "wrote 81", self.LONG, lent - 82))
            self.assertFalse(self.passes(lent, "wrote 82", self.SHORT, lent - 82))
            self.assertFalse(self.passes(lent, "wrote 81", self.LONG, lent - 81))

    def test_no_other_text_or_length(self) -> None:
        other = f"{self.HEADER}0.00390625\n".encode()
        self.assertFalse(self.passes(100, "wrote 81", other, 19))
        for length in (80, 83, 8, 811):
            self.assertFalse(self.passes(100, f"wrote {length}", self.SHORT, 19))

    def test_at_the_margin(self) -> None:
        """With 81 bytes lent the short text fits; a program that means the long one refuses."""
        self.assertTrue(self.passes(81, "wrote 81", self.SHORT, 0))
        self.assertTrue(self.passes(81, "refused 8", b"", 81))
        self.assertFalse(self.passes(81, "refused 8", b"n", 80))
        self.assertFalse(self.passes(81, "wrote 82", self.LONG, 0))
        self.assertFalse(self.passes(81, "wrote 81", self.LONG, 0))
        self.assertFalse(self.passes(81, "refused 6", b"", 81))

    def test_below_it(self) -> None:
        self.assertTrue(self.passes(80, "refused 8", b"", 80))
        self.assertFalse(self.passes(80, "wrote 81", self.SHORT, 0))

    def test_counted_as_it_came(self) -> None:
        """Where both may come, a refusal is no text that was compared."""
        call = protocol.Call("p", (0, 0, 1, 1, 1, 1, 81))
        journal = Journal("free", [*self.POINTS, call])
        for reply, line, texts in (("wrote 81", self.SHORT.hex(), 1), ("refused 8", "a5" * 81, 0)):
            counts = Counter()
            output = f"ok\nok\n{reply}\nbytes {line}\n".encode()
            checks.check_replies(journal, Run(output, ""), counts)
            self.assertEqual((counts["esri texts"], counts["esri cells"]), (texts, texts))

    def test_all_told(self) -> None:
        """A difference names every permitted reply."""
        output = b"ok\nok\nwrote 80\nbytes " + self.SHORT.hex().encode() + b"\n"
        call = protocol.Call("p", (0, 0, 1, 1, 1, 1, 81))
        with self.assertRaises(checks.Difference) as caught:
            checks.check_replies(Journal("free", [*self.POINTS, call]), Run(output, ""), Counter())
        self.assertEqual(caught.exception.expected, "(wrote 81 or refused 8)")

    def assert_rounding_passes(self, nearest: Callable[[Lookup], int]) -> None:
        """Put in place of the nearest answer, in all tests but the widest."""
        for test in [each for each in part_of_run(SOUND_PART) if "widest" not in each.kind]:
            if isinstance(test, Journal | Pair):
                listed = [test] if isinstance(test, Journal) else test.journals()
                with mock.patch.object(exact, "nearest_answer", nearest):
                    runs = [Run(stand_ins.replay(journals.encode(each)), "") for each in listed]
                for each, run in zip(listed, runs):
                    checks.check_replies(each, run, Counter())
                    row_checks.check_rows(each, run, Counter())
                if isinstance(test, Pair):
                    pair_checks.check_pair(test, runs, Counter())
            else:
                with mock.patch.object(exact, "nearest_answer", nearest):
                    runs = Run(stand_ins.grid(test.data), ""), Run(stand_ins.esri(test.data), "")
                checks.check_grid_file(test, runs[0], Counter())
                checks.check_esri_text(test, runs[1], Counter())

    def test_programs_that_round_up_or_down_pass(self) -> None:
        self.assert_rounding_passes(lambda lookup: exact.permitted_answers(lookup)[0])
        self.assert_rounding_passes(lambda lookup: exact.permitted_answers(lookup)[-1])


class Report(unittest.TestCase):
    def test_shows_the_shortened_journal(self) -> None:
        """The lookup before the failing call is left out, and the kept journal fails again."""
        calls = [
            protocol.Call("a", (3, 0, 0)),
            protocol.Call("q", (3, 0)),
            protocol.Call("a", (6, 0, 90)),
            protocol.Call("q", (0, 1)),
            protocol.Call("k"),
        ]
        with self.assertRaises(compare.Found) as caught:
            compare.run_tests([Journal("report", calls)], programs("answer floored"), SECONDS)
        found = caught.exception
        path = pathlib.Path(found.paths[0])
        kept = b"".join(map(protocol.encode, [calls[0], calls[2], calls[3]]))
        self.assertEqual(path.read_bytes(), kept)
        path.unlink()
        self.assertEqual(found.shown, ["add 3 0 0", "add 6 0 90", "lookup 0 1"])
        for text in ("add 6 0 90", "expected: found ", "came:     found ", str(path)):
            self.assertIn(text, compare.report(found))

    def test_names_the_program(self) -> None:
        """An input is put to both programs that read it; a text is told on one line."""
        test = GridInput("report", grid_inputs.whole_case(Random(0), 0))
        for fault, name, told in (
            ("seven decimals", "shepard_esri", "NODATA_value -9999\\n-7.00000000 -7.00000000\\n"),
            ("answer plus one", "shepard_grid", "f900f90000000000000100010002000100000004524c4731"),
        ):
            with self.assertRaises(compare.Found) as caught:
                compare.run_tests([test], programs(fault), SECONDS)
            pathlib.Path(caught.exception.paths[0]).unlink()
            self.assertEqual(caught.exception.shown, [f"input of {name} {test.data.hex()}"])
            self.assertIn(told, compare.report(caught.exception).split("\n")[2])


class CommandLine(unittest.TestCase):
    def run_main(self, *arguments: str) -> tuple[int, str]:
        """The exit status and the output; the file that a difference keeps is removed."""
        output = io.StringIO()
        with contextlib.redirect_stdout(output):
            status = compare.main(list(arguments))
        text = output.getvalue()
        pathlib.Path(text.strip().rpartition("kept in ")[2]).unlink()
        return status, text

    def wrap(self, folder: str, program: str, options: str) -> str:
        """An executable file, since the command line takes programs without arguments."""
        path = pathlib.Path(folder, program)
        path.write_text(f"#!/bin/sh\nexec '{sys.executable}' '{FAKES}' {program} {options}\n")
        path.chmod(0o700)
        return str(path)

    def test_wrong_program(self) -> None:
        with tempfile.TemporaryDirectory() as folder:
            grid = self.wrap(folder, "grid", "")
            replay = self.wrap(folder, "replay", "--fault 'answer plus one'")
            esri = self.wrap(folder, "esri", "")
            status, text = self.run_main(grid, replay, esri, "--seed", "5")
        self.assertEqual(status, 1)
        self.assertIn("expected: ", text)

    def test_missing_program(self) -> None:
        status, text = self.run_main(*["no-such-program"] * 3)
        self.assertEqual(status, 1)
        self.assertIn("No such file", text)

    def test_too_few(self) -> None:
        enough = Counter(compare.MINIMA)
        self.assertEqual(compare.too_few(enough), [])
        enough["lookups"] -= 1
        self.assertEqual(compare.too_few(enough), ["lookups below 20000"])


class Generator(unittest.TestCase):
    """What the tests of the default seed hold."""

    @classmethod
    def setUpClass(cls) -> None:
        tests = part_of_run(FAULTY_PART)
        cls.journals = [test for test in tests if isinstance(test, Journal)]
        cls.inputs = [test.data for test in tests if isinstance(test, GridInput)]

    def esri_texts(self) -> Iterator[tuple[exact_survey.Survey, protocol.Call, list[Expected]]]:
        """The calls for a text in the lists made for them, with the survey and what may come."""
        for journal in self.journals:
            survey = exact_survey.Survey()
            for call in journal.calls if journal.kind in ESRI_KINDS else []:
                cases = permitted.expected(survey, call)
                if call.letter == "p":
                    yield survey, call, cases

    def test_a_seed_gives_the_same_tests(self) -> None:
        again = generator.make(Random(compare.SEED), FAULTY_PART)
        self.assertEqual(again, part_of_run(FAULTY_PART))

    def test_every_refusal_is_met_in_journals(self) -> None:
        met = Counter()
        for journal in self.journals:
            survey = exact_survey.Survey()
            cases = [permitted.expected(survey, call)[0] for call in journal.calls]
            met.update(case.lines[0][0][0] for case in cases)
        for number in range(1, exact.LAST_REFUSAL + 1):
            self.assertGreater(met[f"refused {number}"], 1, number)

    def test_every_refusal_of_the_grid_program_is_met(self) -> None:
        met = Counter(map(stand_ins.grid, self.inputs))
        for number in (6, 7, *range(9, 16)):
            self.assertGreater(met[f"refused {number}\n".encode()], 0, number)

    def test_every_refusal_of_the_esri_program_is_met(self) -> None:
        met = Counter(map(stand_ins.esri, self.inputs))
        for number in (6, 7, *range(9, 17)):
            self.assertGreater(met[f"refused {number}\n".encode()], 0, number)

    def test_margins_of_esri_texts(self) -> None:
        """Lent a text's length, more or less; either of two texts, or a text or 8, may come."""
        met = Counter()
        for _, call, cases in self.esri_texts():
            reply, outcome = permitted.permitted_text(cases[0].lines[0]), cases[0].outcome
            met["text or 8"] += outcome is not None and cases[-1].outcome is None
            met["two texts"] += len(cases) > 1 and cases[1].outcome is not None
            met["none"] += reply == "refused 8" and call.lent == 0
            met["too few"] += reply == "refused 8" and call.lent > 0
            met["too few for the longest"] += reply == "refused 8" and call.lent == LONGEST_TEXT - 1
            if outcome is not None:
                met["most" if call.lent == BYTES.most else call.lent - outcome.numbers[0]] += 1
                met["longest"] += outcome.numbers[0] == LONGEST_TEXT
        for what in (0, 1, 9, "most", "text or 8", "two texts", "none", "too few", "longest"):
            self.assertGreater(met[what], 3, what)
        self.assertGreater(met["too few for the longest"], 0)

    def test_cells_of_esri_texts(self) -> None:
        """0, those about it, and every length; next to one another those of unlike lengths."""
        met = Counter()
        for data in self.inputs:
            for row in stand_ins.esri(data).decode().split("\n")[6:-1]:
                cells = row.split(" ")
                met.update(cells)
                met.update(cell.partition(".")[0] for cell in cells)
                met.update(map(len, cells))
                met["unlike lengths"] += len(set(map(len, cells))) > 1
        about = ("0.00000000", "0.00390625", "-0.00390625", "-0", "0", "-1.00000000")
        for what in (*about, 10, 11, 12, 13, "unlike lengths"):
            self.assertGreater(met[what], 0, what)

    def test_grids_of_esri_texts(self) -> None:
        """One cell, one row and one column with two steps, of a survey and of no points."""
        met = Counter()
        for survey, call, cases in self.esri_texts():
            if permitted.permitted_text(cases[0].lines[0]) == "refused 16":
                met[call.numbers[4] == 1, call.numbers[5] == 1, bool(survey.values)] += 1
        for shape in ((True, True), (True, False), (False, True), (False, False)):
            for present in (True, False):
                self.assertGreater(met[*shape, present], 0, (shape, present))

    def test_damaged_files_that_stay_valid(self) -> None:
        survey, valid = exact_survey.Survey(), 0
        for journal in self.journals:
            for call in journal.calls:
                valid += call.damaged and permitted.expected(survey, call)[0].outcome is not None
        self.assertGreater(valid, 20)

    def test_counts_of_neighbours_and_kinds(self) -> None:
        """Lookups with 4, 5 and 10 neighbours by each rule, and all four kinds."""
        met = Counter()
        for journal in self.journals:
            survey = exact_survey.Survey()
            for call in journal.calls if journal.kind == "lookups" else []:
                permitted.expected(survey, call)
            for lookup in survey.lookups.values():
                initial = exact.initial_radius(survey.points())
                met[len(lookup.neighbours), lookup.radius == initial] += 1
                met.update(neighbour.kind for neighbour in lookup.neighbours)
        for rule in ((4, False), (5, True), (10, True), (10, False), 0, 1, 2, 3):
            self.assertGreater(met[rule], 20, rule)

    def test_ends_are_read_after_every_call(self) -> None:
        """Directly after each call accepted, and after each refused with each of its numbers."""
        met = Counter()
        for journal in self.journals:
            survey, before = exact_survey.Survey(), ""
            for call in journal.calls:
                met[before] += call.letter == "e"
                expected = permitted.expected(survey, call)[0]
                before = call.operation.name
                if expected.outcome is None:
                    before += " " + expected.lines[0][0][0]
        names = [operation.name for operation in operations.TABLE]
        names += [f"{name} refused {each}" for name in REFUSALS for each in REFUSALS[name]]
        for name in names:
            self.assertGreater(met[name], 0, name)

    def test_lists_of_ends_show_nothing_else(self) -> None:
        """What they catch is in the ends: no other call that only asks is accepted."""
        for journal in self.journals:
            survey = exact_survey.Survey()
            for call in journal.calls if journal.kind in ENDS_KINDS else []:
                accepted = permitted.expected(survey, call)[0].outcome is not None
                asks = call.letter != "e" and not call.operation.followed
                self.assertFalse(accepted and asks, protocol.describe(call))

    def test_ends_move_and_stay(self) -> None:
        """Drops at an edge that another point holds or none does, changes inward, few points."""
        met = Counter()
        for journal in self.journals:
            survey = exact_survey.Survey()
            for call in journal.calls if journal.kind == "ends" else []:
                before = survey.exact_ends()
                accepted = permitted.expected(survey, call)[0].outcome is not None
                after, present = survey.exact_ends(), len(survey.values)
                if accepted and call.letter == "d" and present:
                    x, y = call.numbers
                    edge = x in before[:2] or y in before[2:4]
                    met["held" if before[:4] == after[:4] else "given up"] += edge
                if accepted and call.letter == "c":
                    met["least up"] += after.least_z > before.least_z
                    met["greatest down"] += after.greatest_z < before.greatest_z
                if call.letter == "e":
                    met[present, after.initial_radius > 0] += 1
        moved = ("held", "given up", "least up", "greatest down")
        few = ((0, False), (1, False), (2, False), (3, True), (4, True), (5, True))
        for what in moved + few:
            self.assertGreater(met[what], 5, what)

    def test_corners_come_and_go(self) -> None:
        """Adds outside, inside, on an edge and on a prolonged one; drops; odd areas."""
        met = Counter()
        for journal in self.journals:
            survey = exact_survey.Survey()
            for call in journal.calls if journal.kind == "polygon" else []:
                before = tuple(sorted(survey.values))
                accepted = permitted.expected(survey, call)[0].outcome is not None
                after = tuple(sorted(survey.values))
                name = call.operation.name if accepted else "refused"
                met.update(f"{name} {how}" for how in moves_of(before, after))
                met[f"{name} with R0"] += exact_polygon.twice_area(after) > 0
        for what in (
            "add outside",
            "add inside",
            "add on an edge",
            "add on a prolonged edge",
            "add with one corner lost",
            "add with more corners lost",
            "drop of a corner",
            "drop of another",
            "drop with one corner gained",
            "drop with more corners gained",
            "add with an odd area",
            "drop with an odd area",
            "read ends with the least area",
            "add on one line",
            "drop to no area",
            "change with R0",
            "load with R0",
            "refused with R0",
        ):
            self.assertGreater(met[what], 3, what)


if __name__ == "__main__":
    unittest.main()
